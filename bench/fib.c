/* The 27th Fibonacci number by two calls for each: calls and returns. */
#include "answer.h"

static __attribute__((noinline)) unsigned fib(unsigned n) {
    return n < 2 ? n : fib(n - 1) + fib(n - 2);
}

TRAPEZE_HANDLE {
    answer(fib(27));
}
