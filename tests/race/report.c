/* What was counted, and what disagreed. */
#include "race.h"
#include <stdarg.h>
#include <string.h>

struct counts counts;
uint64_t seed = 1;

void count_reply(const struct asked *a)
{
    counts.changes++;
    counts.busy += a->reply.kind == BUSY;
    counts.cut_short += a->reply.kind == CUT_SHORT;
    for (int k = 0; k < a->reply.given; k++) {
        unsigned number = a->reply.of[k] & 255;
        counts.commands++;
        if (number == 0) counts.done++;
        else counts.refused[number]++;
    }
}

void disagree(const char *format, ...)
{
    va_list words;
    va_start(words, format);
    counts.disagreements++;
    printf("DISAGREEMENT (SEED=%lu): ", (unsigned long)seed);
    vprintf(format, words);
    printf("\n");
    fflush(stdout);
    va_end(words);
}

void print_counts(const char *name, int at_once)
{
    printf("%s: %ld rounds, %d at once, %ld changes (each a process), %ld answers: %ld done, refused", name, counts.rounds, at_once,
           counts.changes, counts.commands, counts.done);
    for (int number = 0; number < 16; number++)
        if (counts.refused[number] > 0) printf(" %d: %ld", number, counts.refused[number]);
    if (counts.busy > 0) printf(", busy %ld", counts.busy);
    long *killed = counts.killed, kills = killed[THE_GROUP] + killed[THE_SHELL] + killed[THE_PROGRAM];
    if (kills > 0)
        printf("; %ld killed (%ld whole, %ld the shell, %ld the program), %ld of them without an answer, %ld of these made", kills,
               killed[THE_GROUP], killed[THE_SHELL], killed[THE_PROGRAM], counts.cut_short, counts.made);
    if (counts.looks > 0) printf("; %ld looks kept", counts.looks);
    if (counts.most_nodes > 0) printf("; longest search %ld places", counts.most_nodes);
    printf("; disagreements %ld\n", counts.disagreements);
    fflush(stdout);
}

static void write_answer(FILE *out, const struct answer *a)
{
    if (a->said_len > 0) fprintf(out, "    says: %.*s", (int)a->said_len, a->said);
    if (a->said_len > 0 && a->said[a->said_len - 1] != '\n') fprintf(out, "\n");
    if (a->complained[0]) fprintf(out, "    complains: %s\n", a->complained);
}

/* A change: microseconds from the round's start to its own and to its end, what it was and what it said. */
void write_log(FILE *out, const struct asked *asked, int changes, int64_t from)
{
    char line[TEXT];
    for (int k = 0; k < changes; k++) {
        const struct answer *a = &asked[k].answer;
        fprintf(out, "  %ld to %ld, status %x%s", (long)(a->began - from) / 1000, (long)(a->ended - from) / 1000, a->status,
                a->killed ? ", killed" : "");
        if (asked[k].change.way == FOUNDING) fprintf(out, ": found\n");
        if (asked[k].change.way == ON_STANDARD_INPUT) fprintf(out, ", a run:\n%s", asked[k].change.text);
        if (asked[k].change.way == IN_WORDS) {
            line_of(&asked[k].change.command[0], line);
            fprintf(out, ": %s\n", line);
        }
        write_answer(out, a);
    }
}
