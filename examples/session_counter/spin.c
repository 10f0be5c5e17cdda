/* Never ends by itself. */
#include "../include/trapeze.h"

TRAPEZE_HANDLE {
    for (;;) {}
}
