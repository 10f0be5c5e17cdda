/* Counts an answer; after each third one it releases, through the gate `result`, how many of all said yes. */
#include "../include/text.h"
#include "../include/trapeze.h"

static char input[16], text[32];
static unsigned tally[2]; /* how many said yes, and how many answered */

TRAPEZE_HANDLE {
    unsigned size = trapeze_input(input, sizeof input), end;
    trapeze_read(TEXT("tally"), tally, sizeof tally);
    tally[0] += size == 3 && begins(input, size, TEXT("yes"));
    tally[1]++;
    trapeze_write(TEXT("tally"), tally, sizeof tally);
    if (tally[1] % 3) return;
    end = put_number(text, put_text(text, 0, TEXT("yes ")), tally[0]);
    end = put_number(text, put_text(text, end, TEXT(" of ")), tally[1]);
    trapeze_release(TEXT("result"), text, end);
}
