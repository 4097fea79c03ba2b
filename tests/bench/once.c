/* A call so many times and nothing else: what `tests/run.sh instructions` counts the instructions of. Prints the number of calls.
 * With no words it lists what there is to count: a table's title, or a board, a deed, and the two numbers of times to count the
 * difference of. A view, or an evening, is long enough to be counted against none; the view of the full board by calls is left to
 * the clock. */
#include "boards.h"
#include <stdio.h>
#include <stdlib.h>

static const struct calls subject = CALLS_OF(SUBJECT), plain = CALLS(plain);

static void list(void)
{
    for (const struct table *t = tables; t < tables + TABLES; t++) {
        printf("table %s\n", t->title);
        for (int k = 0; k < t->boards * t->deeds; k++) {
            int board = t->board[k / t->deeds], deed = t->deed[k % t->deeds];
            if (deed == VIEW_BY_CALLS && board == FULL) continue;
            printf("%d %d %s\n", board, deed, deed < VIEW_STORED || deed >= CLAIM_DONE ? "2 1" : "1 0");
        }
    }
}

int main(int argc, char **argv)
{
    static struct sample s;
    if (argc == 1) return list(), 0;
    if (argc != 5) return 2;
    choose(&s, atoi(argv[1]));
    long calls = perform(atoi(argv[2]), atoi(argv[3]) ? &plain : &subject, &s, atol(argv[4]));
    fprintf(stderr, "%ld|%s|%s\n", calls, s.name, deed_name[atoi(argv[2])]);
    return 0;
}
