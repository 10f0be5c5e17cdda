/* The sieve of Eratosthenes below 32,768, twenty times: loads and stores of bytes. */
#include "answer.h"

#define SIZE 32768
static unsigned char struck[SIZE];

TRAPEZE_HANDLE {
    unsigned found = 0;
    for (unsigned left = 20; left; left--) {
        for (unsigned i = 0; i < SIZE; i++) struck[i] = 0;
        for (unsigned i = 2; i < SIZE; i++) {
            if (struck[i]) continue;
            found++;
            for (unsigned j = i + i; j < SIZE; j += i) struck[j] = 1;
        }
    }
    answer(found);
}
