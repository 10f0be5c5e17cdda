/* Counts the visits of a session, whose name is the input, and replies with their number. */
#include "../include/text.h"
#include "../include/trapeze.h"

static char session[64], number[16];

TRAPEZE_HANDLE {
    unsigned size = trapeze_input(session, sizeof session), visits = 0;
    if (size > sizeof session) return trapeze_reply(TEXT("too long"));
    unsigned got = trapeze_read(session, size, number, sizeof number);
    if (got != TRAPEZE_ABSENT) visits = number_in(number, got < sizeof number ? got : sizeof number);
    unsigned end = put_number(number, 0, visits + 1);
    if (trapeze_write(session, size, number, end)) return trapeze_reply(TEXT("no room"));
    trapeze_reply(number, end);
}
