/* Five million steps of a linear congruence: arithmetic on locals, and a branch back. */
#include "answer.h"

TRAPEZE_HANDLE {
    unsigned x = 1;
    for (unsigned left = 5000000; left; left--) x = x * 1664525u + 1013904223u;
    answer(x);
}
