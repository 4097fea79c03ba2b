/* The story: two coordinators ask at the same moment for changes that exclude each other. One is told done and the other refused, each
 * time, and the file is what the one who was told done asked for. */
#include "race.h"
#include <stdlib.h>
#include <string.h>
#include <sys/wait.h>
#include <unistd.h>

struct edge {
    uint8_t senior, junior, kind;
};

static const struct pair {
    const char *name;
    struct edge edge[8];
    struct command one, other;
    uint8_t refused[2]; /* what each is answered after the other */
} pairs[] = {
    {"both add the same role", {{0, 1, 3}, {0, 2, 3}},
     {.code = ADD_ROLE, .actor = 1, .role = 7, .i_seniors = 1 << 1}, {.code = ADD_ROLE, .actor = 2, .role = 7, .i_seniors = 1 << 2}, {4, 4}},
    {"each removes one of the last two edges above a role", {{0, 1, 1}, {1, 2, 1}, {1, 3, 1}, {2, 5, 1}, {3, 5, 1}},
     {.code = REMOVE_EDGE, .actor = 0, .role = 2, .junior = 5, .kind = 1}, {.code = REMOVE_EDGE, .actor = 1, .role = 3, .junior = 5, .kind = 1}, {9, 9}},
    {"two edges that make a loop", {{0, 1, 1}, {1, 2, 1}, {1, 3, 1}},
     {.code = ADD_EDGE, .actor = 0, .role = 2, .junior = 3, .kind = 1}, {.code = ADD_EDGE, .actor = 1, .role = 3, .junior = 2, .kind = 2}, {7, 7}},
    {"one removes the role that the other puts a role under", {{0, 1, 1}, {1, 2, 1}},
     {.code = REMOVE_ROLE, .actor = 0, .role = 2}, {.code = ADD_ROLE, .actor = 1, .role = 6, .i_seniors = 1 << 2}, {9, 3}},
};
enum { PAIRS = sizeof pairs / sizeof pairs[0] };

static struct view first, left[2]; /* left[k]: by k, who came first */
static char file[8192], lock[8200];
static volatile int *gate;

/* ---- the pair by the model */

static void lay(const struct pair *p)
{
    found(&first.board);
    for (const struct edge *e = p->edge; e->kind != 0; e++) {
        first.board.live[e->senior] = first.board.live[e->junior] = true;
        first.board.rights[e->senior] = first.board.rights[e->junior] = ALL_RIGHTS;
        first.board.kind[e->senior][e->junior] = e->kind;
    }
    look(&first);
    keep(&first);
}

static void check_pair(const struct pair *p)
{
    static struct view after;
    lay(p);
    bool fine = sound(&first) && step_on_sound(&first, &p->one, &left[0]) == 0 && step_on_sound(&first, &p->other, &left[1]) == 0 &&
                step_on_sound(&left[1], &p->one, &after) == p->refused[0] && step_on_sound(&left[0], &p->other, &after) == p->refused[1];
    if (!fine) fprintf(stderr, "this pair doesn't exclude each other: %s\n", p->name), exit(2);
}

/* ---- a round */

/* Both stand at the gate. One of them is let go a little later, by turns, so that they meet at every moment of each other. */
static void ask_both(struct asked asked[2])
{
    struct running r[2];
    int64_t hold = chance(30) ? 0 : below(600) * 1000;
    int late = below(2);
    *gate = 0;
    for (int k = 0; k < 2; k++) r[k] = begin(&asked[k].change, file, (struct setting){.gate = gate, .hold = k == late ? hold : 0});
    usleep(300);
    asked[0].answer.began = asked[1].answer.began = now();
    *gate = 1;
    for (int k = 0; k < 2; k++) hear(r[k], &asked[k].answer, (struct death){.victim = NOBODY_DIES});
}

static const char *judge_pair(const struct pair *p, struct asked asked[2])
{
    uint8_t bytes[FILE_MAX];
    const char *fault;
    for (int k = 0; k < 2; k++) {
        if ((fault = read_reply(&asked[k].change, &asked[k].answer, &asked[k].reply))) return fault;
        count_reply(&asked[k]);
        if (asked[k].reply.kind == BUSY) return "one is told busy";
    }
    bool done[2] = {asked[0].reply.of[0] == 0, asked[1].reply.of[0] == 0};
    if (done[0] && done[1]) return "both are told done";
    if (!done[0] && !done[1]) return "neither is told done";
    int loser = done[0];
    if ((asked[loser].reply.of[0] & 255) != p->refused[loser]) return "it is refused by another number";
    if (!holds_bytes(file, bytes, put_file(&left[!loser].board, bytes))) return "the file isn't what was done";
    return exists(lock) ? "the lock is left over" : NULL;
}

static void tell(const struct pair *p, int n)
{
    static struct asked asked[2];
    uint8_t bytes[FILE_MAX];
    long won = 0;
    check_pair(p);
    as_command(&asked[0].change, p->one);
    as_command(&asked[1].change, p->other);
    for (int k = 0; k < n; k++) {
        unlink(lock);
        put_bytes(file, bytes, put_file(&first.board, bytes));
        ask_both(asked);
        const char *fault = judge_pair(p, asked);
        counts.rounds++;
        won += asked[0].reply.of[0] == 0;
        if (!fault) continue;
        disagree("story, %s, round %d: %s", p->name, k, fault);
        write_log(stdout, asked, 2, asked[0].answer.began);
    }
    printf("story: %s: %d rounds, the one came first in %ld\n", p->name, n, won);
}

/* ---- two founders */

static const char *judge_founding(struct asked asked[2])
{
    uint8_t bytes[FILE_MAX];
    int done = 0;
    found(&first.board);
    for (int k = 0; k < 2; k++) {
        const struct answer *a = &asked[k].answer;
        bool said = a->said_len == 5 && memcmp(a->said, "done\n", 5) == 0;
        if (said == (a->complained[0] != 0) || (!said && a->said_len > 0)) return "a founder isn't answered by done or by why not";
        done += said;
    }
    counts.changes += 2, counts.commands += 2, counts.done += done;
    if (done != 1) return done == 0 ? "neither is told done" : "both are told done";
    if (!holds_bytes(file, bytes, put_file(&first.board, bytes))) return "the file isn't the founding board";
    return exists(lock) ? "the lock is left over" : NULL;
}

static void tell_founding(int n)
{
    static struct asked asked[2];
    asked[0].change.way = asked[1].change.way = FOUNDING;
    for (int k = 0; k < n; k++) {
        unlink(lock);
        unlink(file);
        ask_both(asked);
        const char *fault = judge_founding(asked);
        counts.rounds++;
        if (!fault) continue;
        disagree("story, two founders, round %d: %s", k, fault);
        write_log(stdout, asked, 2, asked[0].answer.began);
    }
    printf("story: two found the same board: %d rounds\n", n);
}

void story(int n)
{
    snprintf(file, sizeof file, "%s", in_work("board"));
    snprintf(lock, sizeof lock, "%s.lock", file);
    gate = shared(sizeof *gate);
    for (int k = 0; k < PAIRS; k++) tell(&pairs[k], n);
    tell_founding(n);
    print_counts("story", 2);
}
