/* How deep each call goes: every function of the library and of the plain C is called through stack/painted.S, which measures it.
 * Bytes from the caller's stack pointer just before the call to the lowest byte that changed. */
#include "boards.h"
#include "stack/painted.h"
#include <stdio.h>
#include <stdlib.h>

static const struct calls subject = CALLS_OF(SUBJECT), plain = CALLS(plain);

/* No time is taken of founding a board, so it is in no table. */
static const struct table founding = {"The founding board", 1, 1, {FOUNDING}, {FOUND}};

enum { MOST_MARKS = 64 };
static size_t deepest[MOST_MARKS]; /* of each function, over all deeds */

static void keep_deepest(const struct mark *m)
{
    size_t *most = &deepest[m - painted_marks];
    if (m->most >= PAINTED || most >= deepest + MOST_MARKS) {
        printf("%s goes deeper than the paint, or there are too many functions\n", m->name);
        exit(1);
    }
    if (m->most > *most) *most = m->most;
}

/* The deed's function is the one called last: what is called before it makes the deed ready. */
static size_t depth(enum deed deed, const struct calls *calls, struct sample *s)
{
    for (struct mark *m = painted_marks; m < painted_end; m++) m->most = 0;
    perform(deed, calls, s, 1);
    for (struct mark *m = painted_marks; m < painted_end; m++) keep_deepest(m);
    return painted_last->most;
}

static void rows(const struct table *t, const char *suffix)
{
    static struct sample samples[4];
    for (int board = 0; board < t->boards; board++) choose(&samples[board], t->board[board]);
    for (int k = 0; k < t->deeds; k++) {
        const struct calls *sides[2] = {&subject, &plain};
        size_t most[2] = {0, 0};
        char name[40];
        for (int side = 0; side < 2; side++)
            for (int board = 0; board < t->boards; board++) {
                size_t d = depth(t->deed[k], sides[side], &samples[board]);
                if (d > most[side]) most[side] = d;
            }
        snprintf(name, sizeof name, "%s%s", deed_name[t->deed[k]], suffix);
        printf("| %-21s | %9zu | %9zu |\n", name, most[0], most[1]);
    }
}

/* The rows of each deed, and behind them a line for each function: run.sh takes these apart. */
int main(void)
{
    printf("| %-21s | %9s | %9s |\n|---|---:|---:|\n", "call", SUBJECT_NAME, "plain C");
    rows(&tables[EACH_CALL], "");
    rows(&founding, "");
    rows(&tables[BARRED], "");
    rows(&tables[WITH_RIGHTS], ", HR");
    rows(&tables[EVENINGS], "");
    rows(&tables[JOBS], "");
    rows(&tables[JOBS_15], "");
    rows(&tables[LISTS], "");
    for (const struct mark *m = painted_marks; m < painted_end; m++)
        if (deepest[m - painted_marks] != 0) printf("mark %s %zu\n", m->name, deepest[m - painted_marks]);
    return 0;
}
