/* Adds the input as a line to the board. */
#include "../include/text.h"
#include "../include/trapeze.h"

static char board[8192], line[64];

TRAPEZE_HANDLE {
    unsigned size = trapeze_input(line, sizeof line), at = trapeze_read(TEXT("board"), board, sizeof board);
    if (at == TRAPEZE_ABSENT) at = 0;
    if (size > sizeof line || at + size + 1 > sizeof board) return;
    at = put_text(board, at, line, size);
    board[at++] = '\n';
    trapeze_write(TEXT("board"), board, at);
}
