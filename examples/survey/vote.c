/* Puts the input into the box, and replies that it was taken in. */
#include "../include/trapeze.h"

static char text[16];

TRAPEZE_HANDLE {
    unsigned size = trapeze_input(text, sizeof text);
    if (size > sizeof text) return trapeze_reply(TEXT("too long"));
    trapeze_send(TEXT("box"), text, size);
    trapeze_reply(TEXT("taken in"));
}
