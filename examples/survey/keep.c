/* Keeps the input as the result. */
#include "../include/trapeze.h"

static char text[32];

TRAPEZE_HANDLE {
    unsigned size = trapeze_input(text, sizeof text);
    if (size <= sizeof text) trapeze_write(TEXT("result"), text, size);
}
