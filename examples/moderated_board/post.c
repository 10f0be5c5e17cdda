/* Hands the input in for review, and replies that it was handed in. */
#include "../include/trapeze.h"

static char text[1024];

TRAPEZE_HANDLE {
    unsigned size = trapeze_input(text, sizeof text);
    if (size > sizeof text) return trapeze_reply(TEXT("too long"));
    trapeze_send(TEXT("inbox"), text, size);
    trapeze_reply(TEXT("handed in"));
}
