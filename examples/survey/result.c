/* Replies with the result that is seen here. */
#include "../include/trapeze.h"

static char text[32];

TRAPEZE_HANDLE {
    unsigned size = trapeze_read(TEXT("result"), text, sizeof text);
    if (size == TRAPEZE_ABSENT) return trapeze_reply(TEXT("nothing yet"));
    trapeze_reply(text, size < sizeof text ? size : sizeof text);
}
