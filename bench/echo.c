/* Replies with its input. */
#include "../examples/include/trapeze.h"

static char text[1024];

TRAPEZE_HANDLE {
    trapeze_reply(text, trapeze_input(text, sizeof text));
}
