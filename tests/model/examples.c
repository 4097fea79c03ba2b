/* The scope document's examples, and some of an edge's parts, of roles that offend, of rights, of runs and of the job list,
 * on any implementation of board.h and jobs.h. */
#include "model.h"
#include <stdio.h>
#include <string.h>

static const struct calls *use;
static const char *user;
static int wrong;

static void expect(const char *what, uint64_t got, uint64_t want)
{
    if (got == want) return;
    printf("example wrong (%s): %s: %#llx, not %#llx\n", user, what, (unsigned long long)got,
           (unsigned long long)want);
    wrong++;
}

static uint8_t file[FILE_MAX];
static size_t len;
static struct board asked; /* the board in the file, with its stored values */

static void put(const struct board *b)
{
    static struct view v;
    from_board(b, &v);
    len = put_file(&v.board, file);
    expect("the file is read", use->read(file, len, &asked), 0);
}

/* A board from lines such as "0 I 1, 1 A 3"; every role named is live, and role 0 alone has rights. The reader adds the
 * stored values. */
static struct board board_of(const char *edges)
{
    struct board b = {.live = 1, .rights = {ALL_RIGHTS}};
    int senior, junior, taken;
    char kind[3];
    while (sscanf(edges, " %d %2s %d%n", &senior, kind, &junior, &taken) == 3) {
        b.live |= 1ull << senior | 1ull << junior;
        if (strchr(kind, 'I')) b.i[senior] |= 1ull << junior;
        if (strchr(kind, 'A')) b.a[senior] |= 1ull << junior;
        edges += taken;
        if (*edges == ',') edges++;
    }
    put(&b);
    return asked;
}

static struct board with_rights(struct board b, int role, int rights)
{
    b.rights[role] = rights;
    return b;
}

/* Questions below are asked of this board. */
static void about(const struct board *b)
{
    put(b);
    expect("the board of its own file", memcmp(&asked, b, sizeof asked) != 0, false);
}

static void sound_board(const char *what, const struct board *b)
{
    about(b);
    expect(what, use->check(file, len), 0);
}

/* Each question is asked of the file, and read off the board as board.h says. */

static void derives(int x, int y, bool want)
{
    char what[40];
    sprintf(what, "%d derives %d", x, y);
    expect(what, use->derives(file, len, x, y), (uint32_t)want << 16);
    expect(what, in(asked.derives[x], y), want);
    expect(what, in(asked.derivers[y], x), want);
}

/* The bits of an answer that say what is out of scope and why, as board.h takes them apart. */
static uint64_t reason(int role, int cause, int in_the_way)
{
    uint64_t bits = (uint64_t)role << 32 | (uint64_t)cause << 40 | (uint64_t)in_the_way << 48;
    expect("the offending role", BOARD_OFFENDING(bits), role);
    expect("the cause", BOARD_CAUSE(bits), cause);
    expect("the role in the way", BOARD_IN_THE_WAY(bits), in_the_way);
    return bits;
}

static uint64_t six(int role, int cause, int in_the_way) { return 6 | reason(role, cause, in_the_way); }

/* r is not in the scope of a. */
static void no_scope(int a, int r, int count, int cause, int in_the_way)
{
    char what[40];
    sprintf(what, "why scope of %d hasn't %d", a, r);
    expect(what, use->scope(file, len, a, r), (uint32_t)(count * 2) << 16 | reason(0, cause, in_the_way));
}

/* On boards where nothing is in the way of a. */
static void scope(int a, uint64_t want, int count, int live)
{
    char what[40];
    for (int r = 0; r < live; r++) {
        sprintf(what, "scope of %d has %d", a, r);
        if (!in(want, r)) no_scope(a, r, count, BOARD_CAUSE_NOT_DERIVED, 0);
        else expect(what, use->scope(file, len, a, r), (uint32_t)(count * 2 + 1) << 16);
        uint64_t related = asked.derives[a] | asked.derivers[a];
        expect(what, in(asked.derives[a], r) && (asked.derivers[r] & ~related) == 0, in(want, r));
    }
}

static void manager(int r, int want)
{
    char what[40];
    sprintf(what, "line manager of %d", r);
    expect(what, use->manager(file, len, r), (uint32_t)want << 16);
    expect(what, asked.manager[r], want);
}

static void walk(int r, int want)
{
    char what[40];
    sprintf(what, "steps from %d", r);
    expect(what, use->steps(file, len, r), (uint32_t)want << 16);
    int n = 0;
    for (; r != 0 && n < ROLES; n++) r = asked.manager[r] % ROLES;
    expect(what, n, want);
}

/* Gives the command, through both calls, and hands back the board afterwards, which a refusal leaves as it was. */
static struct board gives(const char *what, struct board b, struct command c, uint64_t want)
{
    struct board after = b;
    uint8_t out[FILE_MAX];
    memset(out, 0xee, sizeof out);
    expect(what, use->apply(&after, &c), want);
    if (want != 0) expect(what, memcmp(&b, &after, sizeof b) != 0, false);

    about(&b);
    uint64_t answer = use->command(file, len, &c, out, sizeof out);
    about(&after);
    expect(what, answer, want != 0 ? want : (uint32_t)len << 16);
    if (want == 0) expect(what, memcmp(out, file, len) != 0, false);
    return after;
}

static struct command add_role(int actor, int role)
{
    return (struct command){.code = 1, .actor = actor, .role = role};
}
static struct command remove_role(int actor, int role)
{
    return (struct command){.code = 2, .actor = actor, .role = role};
}
static struct command edge(int code, int actor, int senior, int junior, int kind)
{
    return (struct command){.code = code, .actor = actor, .role = senior, .junior = junior, .kind = kind};
}

static struct command give_rights(int actor, int role, int rights)
{
    return (struct command){.code = 6, .actor = actor, .role = role, .rights = rights};
}
static struct command take_rights(int actor, int role, int rights)
{
    return (struct command){.code = 7, .actor = actor, .role = role, .rights = rights};
}

static void becomes(const char *what, const struct board *b, const char *edges)
{
    struct board want = board_of(edges);
    expect(what, memcmp(b, &want, sizeof want) != 0, false);
}

/* From 0 I 1: role 0 alone administers role 1, so the last part of that edge has to stay. */
static void part_by_part(void)
{
    struct board i = board_of("0 I 1"), both, a, b;
    both = gives("A added to I", i, edge(3, 0, 0, 1, 2), 0);
    becomes("A added to I", &both, "0 IA 1");
    a = gives("I removed from IA", both, edge(4, 0, 0, 1, 1), 0);
    becomes("I removed from IA", &a, "0 A 1");
    b = gives("A removed from IA", both, edge(4, 0, 0, 1, 2), 0);
    becomes("A removed from IA", &b, "0 I 1");
    b = gives("IA added to A", a, edge(3, 0, 0, 1, 3), 0);
    becomes("IA added to A", &b, "0 IA 1");
    gives("A added to A", a, edge(3, 0, 0, 1, 2), 4);
    gives("A added to IA", both, edge(3, 0, 0, 1, 2), 4);
    gives("IA removed from A", a, edge(4, 0, 0, 1, 3), 5);
    gives("I removed from A", a, edge(4, 0, 0, 1, 1), 5);
    gives("I removed where no edge stands", a, edge(4, 0, 1, 0, 1), 5);
    gives("I removed from I", i, edge(4, 0, 0, 1, 1), 9);
    gives("IA removed from IA", both, edge(4, 0, 0, 1, 3), 9);
    gives("kind 0 removed", both, edge(4, 0, 0, 1, 0), 2);
    gives("kind 4 removed", both, edge(4, 0, 0, 1, 4), 2);
    b = gives("A changed into I", a, edge(5, 0, 0, 1, 1), 0);
    becomes("A changed into I", &b, "0 I 1");

    /* the edge goes with its last part: 1 administers 2 besides */
    b = gives("the last part removed", board_of("0 I 1, 0 I 2, 1 A 2"), edge(4, 0, 0, 2, 1), 0);
    becomes("the last part removed", &b, "0 I 1, 1 A 2");
    /* and a part can be the one that counts: without it 0 doesn't derive 3, and 1 and 2 are unrelated */
    gives("3 left to 1 and 2", board_of("0 IA 1, 0 I 2, 1 A 3, 2 A 3"), edge(4, 0, 0, 1, 2), 9);
}

/* Role 2 adds one; the sets are A-seniors, I-seniors, A-juniors, I-juniors. */
static struct command by_2(int role, uint64_t as, uint64_t is, uint64_t aj, uint64_t ij)
{
    return (struct command){
        .code = 1, .actor = 2, .role = role, .a_seniors = as, .i_seniors = is, .a_juniors = aj, .i_juniors = ij};
}

/* The role that offends first, and why. */
static void offending(struct board p, struct board w)
{
    struct board b = with_rights(board_of("0 I 1, 1 A 3, 3 I 4, 0 I 4"), 3, ALL_RIGHTS);
    p = with_rights(p, 2, ALL_RIGHTS); /* or these actors would have 13 before 6 */
    w = with_rights(w, 4, ALL_RIGHTS);

    gives("W, 4 changes 4 to 5", w, edge(5, 4, 4, 5, 1), six(5, 2, 3));
    about(&w);
    no_scope(4, 5, 1, 2, 3);
    no_scope(3, 5, 1, 2, 4);
    no_scope(4, 0, 1, 1, 0);
    gives("3 removes 4, and 0 is in the way", b, remove_role(3, 4), six(4, 2, 0));
    about(&b);
    no_scope(3, 4, 1, 2, 0);
    no_scope(0, 4, 2, 2, 3);
    b = with_rights(board_of("0 I 1, 1 A 2, 1 A 3, 1 A 4, 2 I 5, 3 I 5, 4 I 5"), 5, ALL_RIGHTS);
    gives("3 removes 5, and 2 and 4 are in the way", b, remove_role(3, 5), six(5, 2, 2));
    gives("2 removes 5, and 3 and 4 are in the way", b, remove_role(2, 5), six(5, 2, 3));
    gives("P, 1 removes 1", p, remove_role(1, 1), six(1, 3, 0));

    /* 2 derives itself alone */
    gives("P, senior 3 and junior 1 offend", p, edge(3, 2, 3, 1, 1), six(3, 1, 0));
    gives("P, junior 1 offends", p, edge(3, 2, 2, 1, 1), six(1, 1, 0));
    gives("P, all offend", p, by_2(4, 1 << 3, 1 << 1, 1 << 0, 1 << 0), six(3, 1, 0));
    gives("P, all but the A-seniors offend", p, by_2(4, 1 << 2, 1 << 3, 1 << 1, 1 << 0), six(3, 1, 0));
    gives("P, A-junior 3 and I-junior 1 offend", p, by_2(4, 1 << 2, 1 << 2, 1 << 3, 1 << 1), six(3, 1, 0));
    gives("P, I-juniors 1 and 3 offend", p, by_2(4, 0, 1 << 2, 0, 1 << 1 | 1 << 3), six(1, 1, 0));
    gives("P, I-juniors 2 and 3 offend", p, by_2(4, 0, 1 << 2, 0, 1 << 2 | 1 << 3), six(2, 3, 0));

    /* another number has nothing beside it, whatever offends */
    gives("P, 4 isn't live", p, edge(3, 2, 0, 4, 1), 3);
    gives("P, the new role is live", p, by_2(3, 0, 1 << 1, 0, 0), 4);
    gives("P, the edge stands", p, edge(3, 2, 0, 1, 1), 4);
    gives("P, there is no edge", p, edge(4, 2, 0, 3, 1), 5);
}

/* On P, 0 derives 0, 1 and 2; 1 derives 1, 2 and 3; its scope is the same. 0 and 1 have all the rights. */
static void rights(struct board p, struct board w)
{
    struct board b;
    struct command add = add_role(2, 4);
    add.i_seniors = 1 << 2;

    /* held by the actor, by a role that it derives, by nobody that it derives */
    gives("P, 2 adds 4 below itself", p, add, 13);
    gives("P, 2 adds 4, having the right", with_rights(p, 2, BOARD_RIGHT(1)), add, 0);
    b = with_rights(with_rights(p, 1, 0), 2, BOARD_RIGHT(5));
    gives("P, 1 changes 1 to 3 by the right of 2", b, edge(5, 1, 1, 3, 1), 0);
    gives("P, 1 removes 1 to 3 by the right of 2", b, edge(4, 1, 1, 3, 2), 13);
    b = with_rights(with_rights(p, 1, 0), 3, BOARD_RIGHT(2));
    gives("P, 1 removes 2 by the right of 3", b, remove_role(1, 2), 0);
    gives("P, 0 has none, 3's is not its own", with_rights(b, 0, 0), remove_role(0, 2), 13);

    /* lost again */
    b = gives("P, 0 takes the right from 1", p, take_rights(0, 1, BOARD_RIGHT(5)), 0);
    expect("what is left to 1", b.rights[1], ALL_RIGHTS - BOARD_RIGHT(5));
    gives("P, 1 changes 1 to 3 no more", b, edge(5, 1, 1, 3, 1), 13);
    b = gives("P, 0 gives it back", b, give_rights(0, 1, BOARD_RIGHT(5)), 0);
    expect("P again", memcmp(&b, &p, sizeof b) != 0, false);

    /* 13 comes after 5 and before 6 and the rest */
    gives("P, 2 removes 0, 13 before 6", p, remove_role(2, 0), 13);
    gives("P, 3 adds an edge 0 to 1 that stands", p, edge(3, 3, 0, 1, 1), 4);
    gives("P, 3 removes 2 to 1, which isn't there", p, edge(4, 3, 2, 1, 1), 5);
    gives("P, 3 gives 0 what it may not use", p, give_rights(3, 0, 1), 13);
    gives("P, 2 adds an edge to itself", p, edge(3, 2, 2, 2, 1), 13);
    gives("P, 2 adds 4 with no seniors", p, add_role(2, 4), 13);

    /* every right named, and no right of their own */
    b = with_rights(with_rights(p, 1, BOARD_RIGHT(1)), 0, 0);
    gives("P, 1 gives 2 its right", b, give_rights(1, 2, BOARD_RIGHT(1)), 0);
    gives("P, 1 gives 2 its right and another", b, give_rights(1, 2, BOARD_RIGHT(1) | BOARD_RIGHT(4)), 13);
    gives("P, 1 takes from 2 one it may not use", b, take_rights(1, 2, BOARD_RIGHT(4)), 13);
    gives("P, 2 gives itself nothing", b, give_rights(2, 2, 0), 0);
    b = gives("P, 1 loses the last right", b, take_rights(1, 1, BOARD_RIGHT(1)), 0);
    gives("P without rights, nothing taken", b, take_rights(0, 0, 0), 0);
    gives("P without rights, none to give", b, give_rights(0, 0, 1), 13);

    /* the target: in scope, not in strict scope */
    b = gives("P, 0 takes its own right", p, take_rights(0, 0, ALL_RIGHTS), 0);
    expect("the founding role's", b.rights[0], 0);
    b = gives("P, 0 takes it back by the right of 1", b, give_rights(0, 0, ALL_RIGHTS), 0);
    expect("P again", memcmp(&b, &p, sizeof b) != 0, false);
    gives("P, 0 gives 3 rights", p, give_rights(0, 3, 1), six(3, 1, 0));
    gives("P, 1 takes rights from 0", p, take_rights(1, 0, 1), six(0, 1, 0));
    gives("W, 3 gives 5 rights", with_rights(w, 3, 1), give_rights(3, 5, 1), six(5, 2, 4));

    /* held already, or not held: done, and nothing changes */
    b = gives("P, 0 gives 1 what it has", p, give_rights(0, 1, ALL_RIGHTS), 0);
    expect("P still", memcmp(&b, &p, sizeof b) != 0, false);
    b = gives("P, 0 takes from 2 what it hasn't", p, take_rights(0, 2, ALL_RIGHTS), 0);
    expect("P still", memcmp(&b, &p, sizeof b) != 0, false);

    /* a removed role's rights go, and a new one has none */
    b = gives("P, 0 gives 2 all", p, give_rights(0, 2, ALL_RIGHTS), 0);
    b = gives("P, 1 removes 2 and its rights", b, remove_role(1, 2), 0);
    add = add_role(1, 2);
    add.i_seniors = 1 << 1;
    b = gives("P, 2 is added without them", b, add, 0);
    expect("P again", memcmp(&b, &p, sizeof b) != 0, false);

    gives("32 is no rights byte", p, give_rights(0, 1, 32), 2);
    gives("256 is none", p, take_rights(0, 1, 256), 2);
    gives("code 8", p, (struct command){.code = 8, .role = 1}, 2);
    gives("a target that isn't live", p, give_rights(0, 4, 1), 3);
    gives("what 6 doesn't use", p, (struct command){6, 0, 1, 64, 4, 1, ~0ull, ~0ull, ~0ull, ~0ull}, 0);
}

/* P's file, by its bytes. */
static void file_with_rights(struct board p)
{
    static const uint8_t listed[] = {0, 1, 2, 3, 0, 1, 1, 1, 2, 1, 1, 3, 2, 31, 31, 0, 0, 4, 0, 13, 0, 17, 0, 'H', 'R'};
    struct board was = p;
    uint8_t out[BOARD_FILE];
    expect("P written", use->write(&p, out, sizeof out, 0), sizeof listed << 16);
    expect("its bytes", memcmp(out, listed, sizeof listed) != 0, false);
    memcpy(file, listed, len = sizeof listed);
    expect("P read", use->read(file, len, &asked), 0);
    expect("its board", memcmp(&asked, &p, sizeof p) != 0, false);
    expect("stretch of 1 in it", use->stretch(file, len, 1), 7ull << 16 | 6ull << 32);
    file[14] = 0;
    expect("HH has just these rights", use->read(file, len, &asked), 11 | 1 << 8);
    file[14] = 32;
    expect("a rights byte of 32", use->read(file, len, &asked), 11 | 1 << 8);
    file[14] = 31, file[19] = 9;
    expect("an edge distance as HH has it", use->read(file, len, &asked), 10 | 1 << 8);
    p.rights[4] = 1;
    expect("a right at 4, which isn't live", use->write(&p, out, sizeof out, 0), 1);
    p = was, p.rights[2] = 32;
    expect("32 at 2", use->write(&p, out, sizeof out, 0), 1);

    /* role 0 alone, without a right: no edge, so no edge distance */
    static const uint8_t bare[] = {0, 0, 1, 0, 0, 0, 2, 0, 'H', 'R'};
    struct board founding;
    use->found(&founding);
    founding.rights[0] = 0;
    expect("role 0 without rights", use->write(&founding, out, sizeof out, 0), sizeof bare << 16);
    expect("its bytes", memcmp(out, bare, sizeof bare) != 0, false);
}

/* Gives the commands as a run with a row of m places, and hands back the board afterwards. The places that no answer goes to
 * stay, those before and behind the row too. */
static struct board runs(const char *what, struct board b, const struct command *c, size_t n, const uint64_t *want, size_t m)
{
    enum { PLACES = 9, EMPTY = 77 };
    struct board was = b;
    uint64_t row[PLACES];
    for (size_t k = 0; k < PLACES; k++) row[k] = EMPTY + k;
    expect(what, use->run(&b, c, n, row + 1, m), m < n ? 12 | 2 << 8 : 0);
    for (size_t k = 0; k < PLACES; k++) expect(what, row[k], m >= n && k > 0 && k <= n ? want[k - 1] : EMPTY + k);
    if (m < n) expect(what, memcmp(&b, &was, sizeof b) != 0, false);
    return b;
}

/* Each command on the board that the one before it left, and on after a refused one. */
static void evenings(struct board founding, struct board w)
{
    struct board b, grown = with_rights(board_of("0 I 1, 1 I 2"), 1, BOARD_RIGHT(1));
    struct command c[5] = {add_role(0, 1), remove_role(0, 0), add_role(1, 2), give_rights(0, 1, BOARD_RIGHT(1)), add_role(1, 2)};
    const uint64_t want[5] = {0, six(0, 3, 0), 13, 0, 0};
    c[0].i_seniors = 1 << 0, c[2].i_seniors = c[4].i_seniors = 1 << 1;
    runs("the first evening, four places", founding, c, 5, NULL, 4);
    runs("the first evening, no place", founding, c, 5, NULL, 0);
    b = runs("the first evening, five places", founding, c, 5, want, 5);
    expect("the first evening, its board", memcmp(&b, &grown, sizeof b) != 0, false);
    b = runs("the first evening, seven places", founding, c, 5, want, 7);
    expect("the first evening, its board", memcmp(&b, &grown, sizeof b) != 0, false);
    b = runs("its first two", founding, c, 2, want, 2);
    becomes("its first two", &b, "0 I 1");
    b = runs("no command", founding, c, 0, NULL, 0);
    becomes("no command", &b, "");

    /* the same evening again: 1 and 2 are there, and 1 has its right */
    static const uint64_t again[5] = {4, 6 | 3ull << 40, 4, 0, 4};
    b = runs("the evening again", grown, c, 5, again, 5);
    expect("nothing is changed", memcmp(&b, &grown, sizeof b) != 0, false);

    /* on W 1 is line manager of 3 until 2 is above 3, and 3 and 4 are in each other's way to 5 */
    struct command d[4] = {edge(3, 0, 2, 3, 2), edge(3, 0, 2, 3, 1), edge(5, 4, 4, 5, 1), edge(3, 0, 2, 3, 3)};
    const uint64_t on_w[4] = {9, 0, six(5, 2, 3), 9};
    b = runs("W", with_rights(w, 4, ALL_RIGHTS), d, 4, on_w, 5);
    about(&b);
    manager(3, 0);

    /* not sound: every command is answered 1, but the row comes first, and no command is no refusal */
    static const uint64_t ones[5] = {1, 1, 1, 1, 1};
    struct board unsound = grown;
    unsound.manager[2] = 0;
    b = runs("a wrong line manager", unsound, c, 5, ones, 6);
    expect("it stays", memcmp(&b, &unsound, sizeof b) != 0, false);
    runs("a wrong line manager, four places", unsound, c, 5, NULL, 4);
    runs("a wrong line manager, no command", unsound, c, 0, NULL, 1);
}

/* ---- the job list */

static struct jobs listed;
static struct job_event asked_for[64];
static size_t events;

enum { NOBODY = -1 };
static void job(uint32_t j, long long holder)
{
    char what[40];
    sprintf(what, "who holds job %u", j);
    expect(what, use->jobs_job(&listed, j), holder == NOBODY ? 0 : 1ull << 16 | (uint64_t)holder << 32);
}

/* A refusal leaves all of the list. */
static void asks(const struct board *b, bool claims, uint32_t j, uint32_t member, uint32_t role, uint8_t want)
{
    struct jobs was = listed;
    char what[80];
    sprintf(what, "%s of job %u by member %u in role %u", claims ? "claim" : "release", j, member, role);
    expect(what, (claims ? use->jobs_claim : use->jobs_release)(&listed, b, j, member, role), want);
    if (want != 0) expect(what, memcmp(&listed, &was, sizeof was) != 0, false);
    asked_for[events++] = (struct job_event){claims, want, j, member};
}

static void claims(const struct board *b, uint32_t j, uint32_t member, uint32_t role, uint8_t want)
{
    asks(b, true, j, member, role, want);
}

static void releases(const struct board *b, uint32_t j, uint32_t member, uint32_t role, uint8_t want)
{
    asks(b, false, j, member, role, want);
}

static void empty_list(const char *what)
{
    bool empty = true;
    for (int j = 0; j < JOBS_MOST; j++) empty &= listed.role[j] == 64 && listed.mark[j] == 0 && listed.member[j] == 0;
    expect(what, empty, true);
}

/* On W 0 derives 1, 2 and 3, and reaches 4 and 5; 1 derives 3, 4 and 5; 3 and 4 derive 5, each in the other's way. */
static void the_jobs(struct board w)
{
    static const uint8_t roles[] = {5, 3, 3, 40, 0};
    static uint8_t many[JOBS_MOST + 1];
    const uint32_t most = UINT32_MAX;
    uint32_t holder;
    struct board b;

    memset(&listed, 0xee, sizeof listed);
    events = 0;
    expect("a list of five", use->jobs_start(&listed, roles, 5), 0);
    for (uint32_t j = 0; j < 5; j++) job(j, NOBODY);
    expect("job 5", use->jobs_job(&listed, 5), 2);
    expect("job 1,024", use->jobs_job(&listed, JOBS_MOST), 2);
    expect("a job above 65,535", use->jobs_job(&listed, 65536), 2);

    claims(&w, 0, 7, 0, 15); /* only reaches it */
    claims(&w, 0, 7, 2, 15); /* neither */
    claims(&w, 1, 7, 5, 15); /* derived by it */
    claims(&w, 0, 7, 3, 0);
    job(0, 7);
    claims(&w, 0, 7, 3, 14);
    claims(&w, 0, 8, 5, 14);
    claims(&w, 0, 8, 2, 14);
    releases(&w, 1, 7, 1, 14);
    releases(&w, 1, 7, 5, 14);
    releases(&w, 0, 8, 3, 15); /* 4 is in the way */
    releases(&w, 0, 8, 0, 15);
    releases(&w, 0, 7, 40, 3); /* the holder too acts in a live role */
    releases(&w, 0, 7, 64, 2);
    job(0, 7);
    releases(&w, 0, 7, 2, 0);
    job(0, NOBODY);
    releases(&w, 0, 7, 2, 14);
    claims(&w, 0, 8, 5, 0);
    releases(&w, 0, 7, 1, 0); /* by another, who has 5 in scope */
    claims(&w, 0, most, 5, 0);
    job(0, most);
    releases(&w, 0, 0, 5, 0); /* 5 is in its own scope */
    claims(&w, 1, 0, 3, 0);
    job(1, 0);
    releases(&w, 1, 1, 2, 15);
    releases(&w, 2, 0, 2, 14); /* nobody's, though 0 stands there */

    claims(&w, 3, 7, 1, 3);
    claims(&w, 3, 7, 40, 3);
    claims(&w, 1, 7, 40, 3);
    claims(&w, 5, 7, 1, 2);
    claims(&w, JOBS_MOST, 7, 1, 2);
    claims(&w, 65536, 7, 1, 2);
    claims(&w, most, 7, 64, 2);
    claims(&w, 3, 7, 64, 2);
    claims(&w, 2, 7, 256 + 3, 2);
    b = w, b.manager[5] = 3;
    claims(&b, most, 7, 64, 1);
    claims(&b, 2, 7, 3, 1);
    releases(&b, 1, 0, 3, 1);

    /* 3 goes and comes back below 2 */
    b = gives("W, 1 removes 3", w, remove_role(1, 3), 0);
    releases(&b, 1, 0, 1, 3);
    claims(&b, 2, 7, 1, 3);
    struct command again = add_role(0, 3);
    again.i_seniors = 1 << 2;
    b = gives("W, 3 below 2", b, again, 0);
    claims(&b, 2, 9, 1, 15); /* no longer derived by 1 */
    claims(&b, 2, 9, 2, 0);
    releases(&b, 2, 8, 2, 0);
    claims(&b, 2, 8, 0, 0);

    /* by what was answered: 1 and 2 are held, 0 was and isn't, 3 and 4 never were */
    expect("nobody holds 0", holder_by_log(asked_for, events, 0, &holder), false);
    expect("0 holds 1", holder_by_log(asked_for, events, 1, &holder) && holder == 0, true);
    expect("8 holds 2", holder_by_log(asked_for, events, 2, &holder) && holder == 8, true);
    expect("nobody holds 3", holder_by_log(asked_for, events, 3, &holder), false);
    struct job_counts c = counts_by_log(asked_for, events, 5);
    expect("two held, three open", c.held == 2 && c.open == 3 && c.fits, true);
    asked_for[events++] = (struct job_event){true, 0, 2, 9}; /* as if 9 had been given it, too */
    expect("that would not fit", counts_by_log(asked_for, events, 5).fits, false);
    asked_for[events - 1] = (struct job_event){false, 0, 0, 9};
    expect("nor a release too much", counts_by_log(asked_for, events, 5).fits, false);

    /* lists that nobody began */
    listed.mark[4] = 200, listed.member[4] = 12, listed.member[2] = 13, listed.mark[2] = 0, listed.role[1] = 64;
    job(4, 12);
    job(2, NOBODY);
    expect("a job without a role", use->jobs_job(&listed, 1), 2);
    claims(&w, 4, 12, 0, 14);
    releases(&w, 4, 12, 5, 0);
    expect("cleared", listed.mark[4] == 0 && listed.member[4] == 0, true);
    releases(&w, 2, 13, 3, 14);
    claims(&w, 2, 14, 3, 0);
    job(2, 14);
    releases(&w, 1, 0, 3, 2);

    /* starts that are refused leave nothing */
    many[700] = 64;
    expect("role 64", use->jobs_start(&listed, many, 701), 2);
    empty_list("role 64");
    listed.mark[0] = 1;
    expect("before it", use->jobs_start(&listed, many, 700), 0);
    job(699, NOBODY);
    expect("job 700", use->jobs_job(&listed, 700), 2);
    many[700] = 63;
    expect("1,025 jobs", use->jobs_start(&listed, many, JOBS_MOST + 1), 2);
    empty_list("1,025 jobs");
    expect("1,024 jobs", use->jobs_start(&listed, many, JOBS_MOST), 0);
    claims(&w, JOBS_MOST - 1, most, 0, 0);
    job(JOBS_MOST - 1, most);
    claims(&w, 700, 1, 0, 3);
    expect("no job", use->jobs_start(&listed, many, 0), 0);
    empty_list("no job");
}

int wrong_examples(const char *whose, const struct calls *of)
{
    struct board p, w, l, founding, b;
    struct command c;

    use = of;
    user = whose;
    wrong = 0;
    p = with_rights(board_of("0 I 1, 1 I 2, 1 A 3"), 1, ALL_RIGHTS);
    w = with_rights(board_of("0 I 1, 0 I 2, 0 I 3, 1 A 3, 1 A 4, 3 A 5, 4 A 5"), 1, ALL_RIGHTS);
    l = with_rights(board_of("0 I 1, 1 I 2, 2 A 3, 0 A 3"), 1, ALL_RIGHTS);
    expect("the founding board", use->found(&founding), 0);
    sound_board("P is sound", &p);
    sound_board("W is sound", &w);
    sound_board("L is sound", &l);
    sound_board("the founding board is sound", &founding);
    scope(0, 1, 1, 1);
    manager(0, NONE);
    walk(0, 0);

    about(&p);
    derives(0, 2, true);
    derives(0, 3, false);
    scope(0, 7, 3, 4);
    scope(1, 14, 3, 4);
    manager(1, 0);
    manager(2, 1);
    manager(3, 1);
    walk(3, 2);

    gives("P, 0 changes 1 to 3 into I", p, edge(5, 0, 1, 3, 1), six(3, 1, 0));
    b = gives("P, 1 changes 1 to 3 into I", p, edge(5, 1, 1, 3, 1), 0);
    about(&b);
    derives(0, 3, true);

    c = add_role(0, 4);
    gives("P, 0 adds 4 with no seniors", p, c, 8);
    c.a_seniors = 1 << 1;
    gives("P, 0 adds 4 with A-senior 1", p, c, 8);
    c.a_seniors = 0, c.i_seniors = 1 << 1;
    gives("P, 0 adds 4 with I-senior 1", p, c, 0);

    gives("P, 0 removes 1", p, remove_role(0, 1), 9);
    gives("P, 0 removes 0", p, remove_role(0, 0), six(0, 3, 0));
    b = gives("P, 1 removes 2", p, remove_role(1, 2), 0);
    c = add_role(1, 2);
    c.i_seniors = 1 << 1;
    b = gives("P, 2 is added again", b, c, 0);
    expect("P again", memcmp(&b, &p, sizeof b) != 0, false);

    gives("P, 0 adds edge 3 to 0", p, edge(3, 0, 3, 0, 1), six(3, 1, 0));
    gives("P, 0 adds edge 2 to 1", p, edge(3, 0, 2, 1, 1), 7);
    gives("P, 0 adds edge 1 to 1", p, edge(3, 0, 1, 1, 1), 7);

    gives("L, 0 adds edge 3 to 1", l, edge(3, 0, 3, 1, 1), 7);
    about(&l);
    derives(1, 3, false);

    gives("W, 0 adds edge 2 to 3, A", w, edge(3, 0, 2, 3, 2), 9);
    about(&w);
    manager(3, 1);
    b = gives("W, 0 adds edge 2 to 3, I", w, edge(3, 0, 2, 3, 1), 0);
    about(&b);
    manager(3, 0);
    gives("W with 2 I 3, 0 changes it into A", b, edge(5, 0, 2, 3, 2), 9);
    gives("W with 2 I 3, 0 adds A to it", b, edge(3, 0, 2, 3, 2), 9);

    part_by_part();
    offending(p, w);
    rights(p, w);
    file_with_rights(p);
    evenings(founding, w);
    the_jobs(w);

    c = add_role(0, 63);
    c.i_seniors = 1;
    b = gives("role 63", founding, c, 0);
    c.role = 64;
    gives("role 64", founding, c, 2);
    gives("kind 0", b, edge(5, 0, 0, 63, 0), 2);
    gives("kind 4", b, edge(5, 0, 0, 63, 4), 2);
    gives("edge to 64", b, edge(3, 0, 0, 64, 1), 2);
    gives("edge to 63", b, edge(5, 0, 0, 63, 3), 0);

    /* a slip the document warns of: the middle step hides that I comes before A */
    b = board_of("0 I 1, 1 IA 2, 2 A 3");
    sound_board("I, IA, A is sound", &b);
    derives(0, 3, false);
    derives(1, 3, true);

    static const uint8_t listed[] = {0, 1, 2, 0, 1, 1, 1, 2, 2, 6, 0, 9, 0, 0x48, 0x48};
    memcpy(file, listed, len = sizeof listed);
    expect("the listed file", use->check(file, len), 0);
    expect("the listed file", use->read(file, len, &asked), 0);
    manager(0, NONE), manager(1, 0), manager(2, 1);
    walk(0, 0), walk(1, 1), walk(2, 2);
    expect("stretch of 1 in it", use->stretch(file, len, 1), 6ull << 16 | 3ull << 32);
    expect("stretch of 2 in it", use->stretch(file, len, 2), 0);
    uint8_t out[sizeof listed + 2] = {7, [sizeof out - 1] = 7};
    expect("written from place 1", use->write(&asked, out, sizeof out, 1), (uint32_t)len << 16);
    expect("its bytes", memcmp(out + 1, listed, len) != 0 || out[0] != 7 || out[sizeof out - 1] != 7, false);
    asked.manager[2] = 0;
    expect("a wrong line manager", use->write(&asked, out, sizeof out, 1), 1);
    return wrong;
}
