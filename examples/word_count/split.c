/* Sends each word of the input into the channel `words`, and replies with how many there were. */
#include "../include/text.h"
#include "../include/trapeze.h"

static char input[1024], answer[32];

TRAPEZE_HANDLE {
    unsigned size = trapeze_input(input, sizeof input), at = 0, words = 0;
    if (size > sizeof input) return trapeze_reply(TEXT("too long"));
    while (at < size) {
        unsigned end = at;
        while (end < size && input[end] != ' ') end++;
        if (end > at) {
            trapeze_send(TEXT("words"), input + at, end - at);
            words++;
        }
        at = end + 1;
    }
    trapeze_reply(answer, put_text(answer, put_number(answer, 0, words), TEXT(" words")));
}
