/* Counts a word: the value of the key WORD is how often it came.  The input `?WORD` only replies with it. */
#include "../include/text.h"
#include "../include/trapeze.h"

static char input[1025], number[16];

TRAPEZE_HANDLE {
    unsigned size = trapeze_input(input, sizeof input), asked = size && input[0] == '?', count = 0;
    if (size > 1024 + asked) return;
    unsigned got = trapeze_read(input + asked, size - asked, number, sizeof number);
    if (got != TRAPEZE_ABSENT) count = number_in(number, got < sizeof number ? got : sizeof number);
    if (!asked) trapeze_write(input, size, number, put_number(number, 0, count + 1));
    else trapeze_reply(number, put_number(number, 0, count));
}
