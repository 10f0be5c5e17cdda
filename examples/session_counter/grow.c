/* Asks for sixteen more pages of memory, and replies whether it got them. */
#include "../include/trapeze.h"

TRAPEZE_HANDLE {
    if (__builtin_wasm_memory_grow(0, 16) == TRAPEZE_ABSENT) trapeze_reply(TEXT("no more pages"));
    else trapeze_reply(TEXT("sixteen more"));
}
