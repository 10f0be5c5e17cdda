/* A shopping cart.  The input `add ITEM COUNT` puts that many of an item into the cart of the current label, at the
   price that is visible there; `total` adds nothing.  The reply is the cart's total. */
#include "../include/text.h"
#include "../include/trapeze.h"

static char input[128], key[128], number[16], cart[2048], answer[32];

/* The number that the key's latest visible value says; *there tells whether there is one. */
static unsigned read_number(const char *name, unsigned size, int *there) {
    unsigned got = trapeze_read(name, size, number, sizeof number);
    *there = got != TRAPEZE_ABSENT;
    return *there ? number_in(number, got < sizeof number ? got : sizeof number) : 0;
}

/* Adds the line `COUNT ITEM` to the cart; answers 0, or 1 where there was no room. */
static unsigned keep(unsigned count, const char *item, unsigned size) {
    unsigned at = trapeze_read(TEXT("cart"), cart, sizeof cart);
    if (at == TRAPEZE_ABSENT) at = 0;
    if (at + size + 12 > sizeof cart) return 1;
    at = put_number(cart, at, count);
    cart[at++] = ' ';
    at = put_text(cart, at, item, size);
    cart[at++] = '\n';
    return trapeze_write(TEXT("cart"), cart, at);
}

TRAPEZE_HANDLE {
    unsigned size = trapeze_input(input, sizeof input), total, end = 4, price, count;
    int there;
    if (size > sizeof input) return trapeze_reply(TEXT("too long"));
    total = read_number(TEXT("total"), &there);
    if (begins(input, size, TEXT("add "))) {
        while (end < size && input[end] != ' ') end++;
        unsigned at = put_text(key, 0, TEXT("price/"));
        price = read_number(key, put_text(key, at, input + 4, end - 4), &there);
        if (!there) return trapeze_reply(TEXT("no such item"));
        count = end < size ? number_in(input + end + 1, size - end - 1) : 1;
        total += count * price;
        if (keep(count, input + 4, end - 4) || trapeze_write(TEXT("total"), number, put_number(number, 0, total)))
            return trapeze_reply(TEXT("no room"));
    }
    trapeze_reply(answer, put_number(answer, put_text(answer, 0, TEXT("total ")), total));
}
