/* Replies with the board as it is seen here. */
#include "../include/trapeze.h"

static char board[8192];

TRAPEZE_HANDLE {
    unsigned size = trapeze_read(TEXT("board"), board, sizeof board);
    if (size == TRAPEZE_ABSENT) size = 0;
    trapeze_reply(board, size < sizeof board ? size : sizeof board);
}
