/* What a call costs: the subject against the plain C, in turns within one run.
 *
 * The ratio is worked out for every round on its own; the table has its median, its least and its most. */
#include "boards.h"
#include <stdio.h>
#include <stdlib.h>
#include <string.h>
#include <time.h>

static const struct calls subject = CALLS_OF(SUBJECT), plain = CALLS(plain);

enum { ROUNDS = 21, SLICE = 3000000 /* ns that a side runs in a round */ };

/* The time this process had, so that what else the machine does counts for little. */
static double now(void)
{
    struct timespec t;
    clock_gettime(CLOCK_PROCESS_CPUTIME_ID, &t);
    return t.tv_sec * 1e9 + t.tv_nsec;
}

/* ns a call, over so many turns */
static double time_of(enum deed deed, const struct calls *c, struct sample *s, long turns)
{
    double start = now();
    long calls = perform(deed, c, s, turns);
    return (now() - start) / calls;
}

static int ascending(const void *a, const void *b)
{
    double x = *(const double *)a, y = *(const double *)b;
    return (x > y) - (x < y);
}

static double median(double *v)
{
    qsort(v, ROUNDS, sizeof *v, ascending);
    return v[ROUNDS / 2];
}

/* The subject's ns. */
static double row(enum deed deed, struct sample *s)
{
    double mine[ROUNDS], other[ROUNDS], ratio[ROUNDS];
    long turns = 1;
    /* both sides warm; then as many turns as fill a slice on the slower side */
    for (;; turns *= 2) {
        double a = time_of(deed, &subject, s, turns), b = time_of(deed, &plain, s, turns);
        if ((a > b ? a : b) * turns >= SLICE / 2) break;
    }
    for (int k = 0; k < ROUNDS; k++) {
        if (k % 2 == 0) mine[k] = time_of(deed, &subject, s, turns);
        other[k] = time_of(deed, &plain, s, turns);
        if (k % 2 == 1) mine[k] = time_of(deed, &subject, s, turns);
        ratio[k] = mine[k] / other[k];
    }
    double middle = median(ratio);
    printf("| %-22s | %-16s | %9.0f | %9.0f | %5.2f | %5.2f | %5.2f |\n", s->name, deed_name[deed], median(mine),
           median(other), middle, ratio[0], ratio[ROUNDS - 1]);
    return mine[ROUNDS / 2];
}

static void heading(const char *title)
{
    printf("\n%s\n\n| %-22s | %-16s | %9s | %9s | %5s | %5s | %5s |\n", title, "board", "call", SUBJECT_NAME, "plain C",
           "ratio", "least", "most");
    printf("|---|---|---:|---:|---:|---:|---:|\n");
}

int main(int argc, char **argv)
{
    static struct sample s;
    static double took[TABLES][4][CALLS];
    static char names[TABLES][4][sizeof s.name];
    static const unsigned roles[] = {1, 2, 4, 8, 16, 32, 64}, edges[] = {63, 126, 252, 504, 1008, 2016};

    setvbuf(stdout, NULL, _IOLBF, 0);
    printf("%s against plain C, ns a call, %d rounds in turns; %s\n", SUBJECT_NAME, ROUNDS, argc > 1 ? argv[1] : "");
    if (argc > 1 && strstr(argv[1], "emulated"))
        printf("EMULATED: only the ratios mean something, and they with care.\n");

    for (int t = 0; t < TABLES; t++) {
        heading(tables[t].title);
        for (int board = 0; board < tables[t].boards; board++) {
            choose(&s, tables[t].board[board]);
            for (int deed = 0; deed < tables[t].deeds; deed++) took[t][board][deed] = row(tables[t].deed[deed], &s);
            strcpy(names[t][board], s.name);
        }
    }
    printf("\n");
    for (int board = 0; board < tables[VIEWS].boards; board++)
        printf("the view of %s: %.0f times as fast from the stored values as by calls\n", names[VIEWS][board],
               took[VIEWS][board][1] / took[VIEWS][board][0]);
    for (int board = 0; board < tables[EVENINGS].boards; board++)
        printf("the evening on %s: as a run it takes %.2f of the time of thirty calls\n", names[EVENINGS][board],
               took[EVENINGS][board][0] / took[EVENINGS][board][1]);
    heading("With more roles");
    for (size_t k = 0; k < sizeof roles / sizeof roles[0]; k++) {
        chain(&s, roles[k]);
        row(DONE, &s);
    }
    heading("With more edges");
    for (size_t k = 0; k < sizeof edges / sizeof edges[0]; k++) {
        dense(&s, 64, edges[k]);
        row(DONE, &s);
    }
    return 0;
}
