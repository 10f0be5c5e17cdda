/* Releases a text through the gate `board`, but for one with the word `spam` in it, which it counts. */
#include "../include/text.h"
#include "../include/trapeze.h"

static char text[1024], number[16];

/* Counts one more text that was not released. */
static void refuse(void) {
    unsigned got = trapeze_read(TEXT("refused"), number, sizeof number), count = 0;
    if (got != TRAPEZE_ABSENT) count = number_in(number, got < sizeof number ? got : sizeof number);
    trapeze_write(TEXT("refused"), number, put_number(number, 0, count + 1));
}

TRAPEZE_HANDLE {
    unsigned size = trapeze_input(text, sizeof text);
    if (size > sizeof text) return refuse();
    for (unsigned at = 0; at < size; at++)
        if (begins(text + at, size - at, TEXT("spam"))) return refuse();
    trapeze_release(TEXT("board"), text, size);
}
