/* Where the fields of the three records stand, and that the subject reads each there.
 *
 * The commands that are done hold different numbers and sets, so that one read from another's place gives another
 * answer. Then each number is wrong alone, and the refusal is its own. The board's fields are spoilt one by one, too. A job list
 * is looked at as bytes. */
#include "calls.h"
#include <stdio.h>
#include <string.h>

#define AT(record, field, place) _Static_assert(offsetof(struct record, field) == place, #record "." #field)
_Static_assert(sizeof(struct board) == 2184 && sizeof(struct command) == 56, "sizes");
AT(board, live, 0); AT(board, i, 8); AT(board, a, 520);
AT(board, derives, 1032); AT(board, derivers, 1544); AT(board, manager, 2056); AT(board, rights, 2120);
AT(command, code, 0); AT(command, actor, 4); AT(command, role, 8); AT(command, junior, 12); AT(command, kind, 16); AT(command, rights, 20);
AT(command, a_seniors, 24); AT(command, i_seniors, 32); AT(command, a_juniors, 40); AT(command, i_juniors, 48);
_Static_assert(sizeof(struct command[3]) == 168, "commands in a row");
_Static_assert(sizeof(struct jobs) == 6144 && JOBS_MOST == 1024, "size of a job list");
AT(jobs, role, 0); AT(jobs, mark, 1024); AT(jobs, member, 2048);

enum { ROOM = 52 };
struct state {
    struct board board; /* main() adds who has no manager */
    uint64_t len;
    uint8_t file[ROOM];
};
#define RIGHTS [0] = 30, [1] = 4, [3] = 19, [6] = 16
static struct state before = { /* 0 I 1, 0 I 3, 3 I 4, 3 I 8, 4 I 6 */
    {0x15b, {[0] = 0xa, [3] = 0x110, [4] = 0x40}, {0},
     {[0] = 0x15b, [1] = 0x2, [3] = 0x158, [4] = 0x50, [6] = 0x40, [8] = 0x100},
     {[0] = 0x1, [1] = 0x3, [3] = 0x9, [4] = 0x19, [6] = 0x59, [8] = 0x109},
     {[1] = 0, [3] = 0, [4] = 3, [6] = 4, [8] = 3}, {RIGHTS}}, 35,
    {0, 1, 3, 4, 6, 8, 0, 1, 1, 0, 3, 1, 3, 4, 1, 3, 8, 1, 4, 6, 1, 30, 4, 19, 0, 16, 0, 6, 0, 21, 0, 27, 0, 'H', 'R'}};
static struct state changed = { /* 4 A 6 instead */
    {0x15b, {[0] = 0xa, [3] = 0x110}, {[4] = 0x40},
     {[0] = 0x11b, [1] = 0x2, [3] = 0x118, [4] = 0x50, [6] = 0x40, [8] = 0x100},
     {[0] = 0x1, [1] = 0x3, [3] = 0x9, [4] = 0x19, [6] = 0x50, [8] = 0x109},
     {[1] = 0, [3] = 0, [4] = 3, [6] = 4, [8] = 3}, {RIGHTS}}, 35,
    {0, 1, 3, 4, 6, 8, 0, 1, 1, 0, 3, 1, 3, 4, 1, 3, 8, 1, 4, 6, 2, 30, 4, 19, 0, 16, 0, 6, 0, 21, 0, 27, 0, 'H', 'R'}};
static struct state grown = { /* 4 A 9, 3 I 9, 9 A 6, 9 I 8 besides */
    {0x35b, {[0] = 0xa, [3] = 0x310, [4] = 0x40, [9] = 0x100}, {[4] = 0x200, [9] = 0x40},
     {[0] = 0x35b, [1] = 0x2, [3] = 0x358, [4] = 0x350, [6] = 0x40, [8] = 0x100, [9] = 0x340},
     {[0] = 0x1, [1] = 0x3, [3] = 0x9, [4] = 0x19, [6] = 0x259, [8] = 0x319, [9] = 0x219},
     {[1] = 0, [3] = 0, [4] = 3, [6] = 9, [8] = 9, [9] = 4}, {RIGHTS}}, 49,
    {0, 1, 3, 4, 6, 8, 9, 0, 1, 1, 0, 3, 1, 3, 4, 1, 3, 8, 1, 3, 9, 1, 4, 6, 1, 4, 9, 2, 9, 6, 2, 9, 8, 1,
     30, 4, 19, 0, 16, 0, 0, 7, 0, 34, 0, 41, 0, 'H', 'R'}};
static struct state founding = {{1, {0}, {0}, {[0] = 1}, {[0] = 1}, {0}, {31}}, 7, {0, 0, 0, 1, 0, 'H', 'H'}};

static const struct calls subject = CALLS_OF(SUBJECT);
static int calls, wrong;

static void complain(const char *what)
{
    printf("layout wrong (" SUBJECT_NAME "): %s\n", what);
    wrong++;
}

/* Through both calls. */
static void gives(struct command c, uint64_t answer, const struct state *after)
{
    struct state s = before, want = *after;
    uint64_t applied = subject.apply(&s.board, &c), said = subject.command(before.file, before.len, &c, s.file, ROOM);
    calls += 2;
    if (applied == answer && said == (answer != 0 ? answer : want.len << 16) &&
        memcmp(&s.board, &want.board, sizeof s.board) == 0 && memcmp(s.file, want.file, ROOM) == 0)
        return;
    printf("layout wrong (" SUBJECT_NAME "): %u,%u,%u,%u,%u,%u gives %#llx and %#llx, not %#llx, or another board\n",
           c.code, c.actor, c.role, c.junior, c.kind, c.rights, (unsigned long long)applied, (unsigned long long)said,
           (unsigned long long)answer);
    wrong++;
}

/* A command of 1 to 5, whatever its rights hold. */
static void gives_always(struct command c, uint64_t answer, const struct state *after)
{
    for (int k = 0; k < 4; k++) {
        memset(&c.rights, 85 * k, sizeof c.rights);
        gives(c, answer, after);
    }
}

/* From the file to the board, and from the board to the file, a byte further on. */
static void reads_and_writes(const struct state *s)
{
    struct board b;
    uint8_t out[ROOM + 2] = {0};
    memset(&b, 0xee, sizeof b);
    if (subject.read(s->file, s->len, &b) != 0 || memcmp(&b, &s->board, sizeof b) != 0) complain("a board that was read");
    if (subject.write(&s->board, out, sizeof out, 1) != s->len << 16 || out[0] != 0 || memcmp(out + 1, s->file, ROOM) != 0)
        complain("a board that was written");
    calls += 2;
}

/* ---- the job list, byte by byte */

enum { LIST = 6144 };
union list {
    struct jobs jobs;
    uint8_t byte[LIST];
};

static void same_list(const union list *list, const union list *want, const char *what)
{
    calls++;
    if (memcmp(list->byte, want->byte, LIST) != 0) complain(what);
}

/* Every place is listed, under a role that nobody acts in, and held; the one place differs. */
static void claims_and_releases(unsigned job)
{
    const struct board *b = &before.board;
    const uint32_t member = 0x04030201;
    static union list list, want;
    memset(list.byte, 8, 1024);
    memset(list.byte + 1024, 3, 1024);
    memset(list.byte + 2048, 0xee, 4096);
    list.byte[job] = 6, list.byte[1024 + job] = 0;
    want = list;
    /* 1 doesn't derive 6, as 4 does; other jobs are held, and by another */
    if (subject.jobs_claim(&list.jobs, b, job, member, 1) != 15) complain("a claim in role 1");
    if (subject.jobs_release(&list.jobs, b, job, 0xeeeeeeee, 1) != 14) complain("a release of an open job");
    if (subject.jobs_claim(&list.jobs, b, (job + 1) % 1024, member, 3) != 14) complain("a claim of a held job");
    if (subject.jobs_job(&list.jobs, (job + 1) % 1024) != (1ull << 16 | 0xeeeeeeeeull << 32)) complain("a held job");
    if (subject.jobs_job(&list.jobs, job) != 0) complain("an open job");
    same_list(&list, &want, "the list after refusals");
    if (subject.jobs_claim(&list.jobs, b, job, member, 4) != 0) complain("a claim");
    want.byte[1024 + job] = 1;
    for (int k = 0; k < 4; k++) want.byte[2048 + 4 * job + k] = 1 + k; /* the lowest byte first */
    same_list(&list, &want, "the list after a claim");
    if (subject.jobs_job(&list.jobs, job) != (1ull << 16 | (uint64_t)member << 32)) complain("a claimed job");
    if (subject.jobs_release(&list.jobs, b, job, 0xeeeeeeee, 1) != 15) complain("a release by another");
    same_list(&list, &want, "the list after a refusal");
    if (subject.jobs_release(&list.jobs, b, job, member, 1) != 0) complain("a release");
    want.byte[1024 + job] = 0;
    memset(want.byte + 2048 + 4 * job, 0, 4);
    same_list(&list, &want, "the list after a release");
    list.byte[job] = want.byte[job] = 64;
    if (subject.jobs_claim(&list.jobs, b, job, member, 4) != 2) complain("a claim past the list");
    if (subject.jobs_job(&list.jobs, job) != 2) complain("a job past the list");
    same_list(&list, &want, "the list after a refusal");
    calls += 10;
}

static void starts(size_t n, uint8_t last, uint64_t answer)
{
    static union list list, want;
    static uint8_t roles[1025];
    memset(list.byte, 0xee, LIST);
    memset(want.byte, 0, LIST);
    memset(want.byte, 64, 1024);
    for (size_t j = 0; j < n; j++) roles[j] = j % 64;
    if (n > 0) roles[n - 1] = last;
    if (answer == 0) memcpy(want.byte, roles, n);
    if (subject.jobs_start(&list.jobs, roles, n) != answer) complain("a start");
    same_list(&list, &want, "the list after a start");
}

/* A list with one open job and one held, on a board that isn't sound. */
static void jobs_give_1(const struct board *b, const char *what)
{
    static union list list, want;
    list.byte[0] = list.byte[1] = 6, list.byte[1025] = 1, want = list;
    if (subject.jobs_claim(&list.jobs, b, 0, 0, 4) != 1) complain(what);
    if (subject.jobs_release(&list.jobs, b, 1, 0, 4) != 1) complain(what);
    same_list(&list, &want, what);
    calls++;
}

static void gives_1(struct board b, int field)
{
    static const char *const name[] = {"live", "i", "a", "derives", "derivers", "manager", "rights"};
    const struct command change = {5, 3, 4, 6, 2, 1, 1, 2, 4, 8};
    struct board was = b;
    uint8_t out[ROOM] = {0}, none[ROOM] = {0};
    if (subject.apply(&b, &change) != 1 || memcmp(&b, &was, sizeof b) != 0) complain(name[field]);
    if (subject.write(&b, out, sizeof out, 0) != 1 || memcmp(out, none, sizeof out) != 0) complain(name[field]);
    jobs_give_1(&b, name[field]);
    if (memcmp(&b, &was, sizeof b) != 0) complain(name[field]);
    calls += 2;
}

/* Command k of a run is read at its 56 k-th byte, and answered in the 8 bytes from 8 k on; nothing else is written. */
enum { IN_RUN = 7, PLACES = IN_RUN + 1 };
static void runs(const struct command c[IN_RUN], const uint64_t answer[IN_RUN], const struct state *after)
{
    struct command commands[IN_RUN];
    uint64_t row[PLACES + 2], want[PLACES + 2];
    for (size_t m = 0; m <= PLACES; m++) {
        struct board b = before.board;
        memset(row, 0xee, sizeof row);
        memset(want, 0xee, sizeof want);
        for (int k = 0; k < IN_RUN; k++) {
            memcpy((uint8_t *)commands + 56 * k, &c[k], 56);
            if (m >= IN_RUN) memcpy((uint8_t *)(want + 1) + 8 * k, &answer[k], 8);
        }
        uint64_t said = subject.run(&b, commands, IN_RUN, row + 1, m);
        const struct state *left = m < IN_RUN ? &before : after;
        if (said != (m < IN_RUN ? 12 | 2 << 8 : 0) || memcmp(row, want, sizeof row) != 0) complain("a run's answers");
        if (memcmp(&b, &left->board, sizeof b) != 0) complain("the board after a run");
        calls++;
    }
}

/* More commands than a byte counts: all but the last are refused, by turns with 5 and 2. */
static void runs_long(struct command change, const struct state *after)
{
    enum { LONG = 300 };
    static struct command c[LONG];
    static uint64_t row[LONG + 1];
    struct board b = before.board;
    for (int k = 0; k < LONG; k++) c[k] = change;
    for (int k = 0; k < LONG - 1; k++) *(k % 2 == 0 ? &c[k].role : &c[k].kind) = k % 2 == 0 ? 0 : 4;
    row[LONG] = 0xee;
    uint64_t said = subject.run(&b, c, LONG, row, LONG);
    for (int k = 0; k < LONG; k++)
        if (row[k] != (k == LONG - 1 ? 0 : k % 2 == 0 ? 5 : 2)) said = 1;
    if (said != 0 || row[LONG] != 0xee || memcmp(&b, &after->board, sizeof b) != 0) complain("a run of 300");
    calls++;
}

int main(void)
{
    struct state *const all[] = {&before, &changed, &grown, &founding};
    for (int k = 0; k < 4; k++)
        for (int role = 0; role < 64; role++)
            if (role == 0 || !(all[k]->board.live >> role & 1)) all[k]->board.manager[role] = BOARD_NO_MANAGER;

    const struct command change = {5, 3, 4, 6, 2, 1, 1, 2, 4, 8}, add = {1, 3, 9, 64, 65, 66, 0x10, 0x8, 0x40, 0x100};
    const struct command give = {6, 3, 8, 64, 65, 17, 0x10, 0x8, 0x40, 0x100};
    static const uint32_t bad[5] = {2, 6, 0, 9, 4};
    static const uint64_t answer[5] = {9, 6 | 4ull << 32 | 1ull << 40, 5, 3, 2}; /* 6 doesn't derive the senior, 4 */
    struct command c;
    uint32_t *const field[5] = {&c.code, &c.actor, &c.role, &c.junior, &c.kind};

    gives_always(change, 0, &changed);
    gives_always(add, 0, &grown);
    for (int k = 0; k < 5; k++) {
        c = change, *field[k] = bad[k];
        gives_always(c, answer[k], &before);
        c = change, *field[k] += 256;
        gives_always(c, 2, &before);
    }
    int role = 257; /* an int that is no role, though its low 8 bits are */
    gives_always((struct command){.code = 2, .actor = 0, .role = role}, 2, &before);

    /* 3 gives rights 1 and 5 to 8, and takes 2 from itself: no other byte changes */
    struct state given = before, taken = before;
    given.board.rights[8] = 17, given.file[26] = 17;
    taken.board.rights[3] = 17, taken.file[23] = 17;
    gives(give, 0, &given);
    c = give, c.code = 7, c.role = 3, c.rights = 2;
    gives(c, 0, &taken);
    c = give, c.rights = 32, gives(c, 2, &before);
    c = give, c.rights += 256, gives(c, 2, &before);
    c = give, c.rights = 4, gives(c, 13, &before); /* 1 has it, and 3 doesn't derive 1 */
    c = give, c.role = 1, gives(c, 6 | 1ull << 32 | 1ull << 40, &before);

    /* each of the five refusals, and then both changes */
    struct command in_run[IN_RUN] = {[5] = change, [6] = give};
    uint64_t answers[IN_RUN] = {0};
    for (int k = 0; k < 5; k++) c = change, *field[k] = bad[k], in_run[k] = c, answers[k] = answer[k];
    struct state both = changed;
    both.board.rights[8] = 17;
    runs(in_run, answers, &both);
    runs_long(change, &changed);

    reads_and_writes(&before);
    reads_and_writes(&changed);
    reads_and_writes(&grown);
    reads_and_writes(&founding);
    struct board b = before.board;
    if (subject.found(&b) != 0 || memcmp(&b, &founding.board, sizeof b) != 0) complain("the founding board");
    calls++;

    static const unsigned place[] = {0, 1, 2, 254, 255, 256, 257, 511, 512, 767, 768, 1022, 1023};
    for (size_t k = 0; k < sizeof place / sizeof place[0]; k++) claims_and_releases(place[k]);
    starts(0, 0, 0), starts(1, 63, 0), starts(300, 63, 0), starts(1023, 5, 0), starts(1024, 63, 0);
    starts(1, 64, 2), starts(300, 255, 2), starts(1024, 64, 2), starts(1025, 5, 2);

    /* role 0 not live, an entry, member or right too much in the last row, another manager in the last place */
    for (int field = 0; field < 7; field++) {
        b = before.board;
        uint64_t *const set[] = {&b.live, &b.i[63], &b.a[63], &b.derives[63], &b.derivers[63]};
        if (field < 5) *set[field] ^= 1;
        else *(field == 5 ? &b.manager[63] : &b.rights[63]) ^= 1;
        gives_1(b, field);
    }
    for (int bit = 0; bit < 64; bit++) { /* each bit of a role's row, and of its manager */
        b = before.board, b.derives[4] ^= 1ull << bit, gives_1(b, 3);
        b = before.board, b.derivers[4] ^= 1ull << bit, gives_1(b, 4);
        b = before.board, b.manager[4] ^= 1 << bit % 8, gives_1(b, 5);
        b = before.board, b.rights[bit] |= b.live >> bit & 1 ? 32 << bit % 3 : 1 << bit % 8, gives_1(b, 6);
    }
    printf("layout of the records, " SUBJECT_NAME ": %d calls, %d wrong\n", calls, wrong);
    return wrong == 0 ? 0 : 1;
}
