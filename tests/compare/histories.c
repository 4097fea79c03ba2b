/* Histories of a job list: it is begun, and then claims and releases are tried on boards that change in between. What the log
 * of answers says by itself must be what the list says at the end. */
#include "compare.h"
#include <stdio.h>
#include <string.h>

enum { EVENTS_MOST = 500, FAVOURED = 4, MEMBERS = 5 };

/* The board in hand. */
static struct view here, after;
static struct board board;

/* The list in hand, and what was answered since its start. */
static struct jobs list;
static uint8_t roles[LONGEST_START];
static size_t listed;
static struct job_event answered[EVENTS_MOST];
static size_t count;

/* Few jobs, members and roles, so that they meet often. */
static uint32_t favoured[FAVOURED], members[MEMBERS];
static struct past past;

static struct {
    bool any;
    uint64_t seed;
    long number, event;
} now;

void print_history(void)
{
    if (now.any)
        printf("history: seed %llu, history %ld, event %ld\n", (unsigned long long)now.seed, now.number, now.event);
}

/* ---- boards */

static void draw_board(void)
{
    int way = below(100);
    if (way < 25) draw_chained(&here);
    else if (way < 45) draw_crossed(&here);
    else if (way < 60) draw_tied(&here);
    else if (way < 65) draw_forked(&here);
    else if (way < 97) draw_sound(&here, chance(80) ? 9 : 20);
    else if (way < 99) draw_tree(&here, ROLES - below(2));
    else draw_full(&here, chance(50));
    if (chance(80)) all_rights(&here.board);
    look(&here);
    keep(&here);
    to_board(&here, &board);
    memset(&past, 0, sizeof past);
}

/* A command on both sides, and which roles it removed or brought back. */
static void give(const struct command *c)
{
    if (apply_uncounted(&here, &board, c, &after) != 0) return;
    for (int r = 0; r < ROLES; r++) {
        past.gone[r] |= here.board.live[r] && !after.board.live[r];
        past.back[r] |= past.gone[r] && after.board.live[r];
    }
    here = after;
    to_board(&here, &board);
}

static int some_live(void)
{
    int r = below(ROLES);
    while (!here.board.live[r]) r = (r + 1) % ROLES;
    return r;
}

static int some_dead(void)
{
    int r = below(ROLES);
    for (int k = 0; k < ROLES && here.board.live[r]; k++) r = (r + 1) % ROLES;
    return r;
}

/* A job's role goes, at times, or comes back below some other; or any command. */
static void change_board(void)
{
    struct command c;
    draw_command(&here, &c);
    if (listed > 0 && chance(70)) {
        int r = roles[favoured[below(FAVOURED)]], senior = some_live();
        if (!here.board.live[r]) {
            c.code = ADD_ROLE, c.actor = senior, c.role = r;
            c.a_seniors = chance(30) ? 1ull << senior : 0, c.i_seniors = 1ull << senior;
            c.a_juniors = c.i_juniors = 0;
        } else if (chance(25)) c.code = REMOVE_ROLE, c.actor = line_manager(&here, r), c.role = r;
    }
    give(&c);
}

/* Mostly the board in hand but for one bit, or another that isn't sound. With another right it may be sound after all. */
static void spoil_board(struct view *v, struct board *b)
{
    *b = board;
    int x = below(ROLES), live = some_live();
    switch (below(10)) {
    case 0: b->live ^= chance(50) ? 1 : 1ull << x; break;
    case 1: b->i[live] ^= 1ull << x; break;
    case 2: b->a[live] ^= 1ull << x; break;
    case 3: b->derives[live] ^= 1ull << x; break;
    case 4: b->derivers[live] ^= 1ull << x; break;
    case 5: b->manager[chance(50) ? live : x] ^= 1 << below(8); break;
    case 6: b->rights[chance(50) ? live : x] ^= 1 << below(8); break;
    case 7:
        if (draw_unsound(below(UNSOUND_WAYS), v, b)) return;
        break;
    case 8:
        if (draw_wrong(below(WRONG_WAYS), v, b)) return;
        break;
    default:
        if (draw_bad_rights(below(RIGHTS_WAYS), v, b)) return;
    }
    from_board(b, v);
}

/* ---- what is asked */

static uint32_t some_member(void) { return members[below(MEMBERS)]; }

/* Mostly a number past the list, and often one that would be listed if it were cut. */
static uint32_t odd_job(void)
{
    uint32_t some = listed > 0 ? favoured[below(FAVOURED)] : (uint32_t)below(4);
    switch (below(8)) {
    case 0: return listed;
    case 1: return below(JOBS_MOST);
    case 2: return JOBS_MOST;
    case 3: return JOBS_MOST + 1 + (chance(50) ? some : (uint32_t)below(60000));
    case 4: return 65536 | some;
    case 5: return 1u << 31 | some;
    case 6: return (uint32_t)draw64() << 16 | some;
    default: return UINT32_MAX;
    }
}

static uint32_t some_job(void)
{
    if (listed == 0 || chance(8)) return odd_job();
    return chance(85) ? favoured[below(FAVOURED)] : (uint32_t)below(listed);
}

/* A role that stands so to r, or any that is live. */
enum { DERIVING, TURNED_ROLE, REACHING, BARRED, SCOPING, STANDS };
static int standing(int r, int how)
{
    int x = below(ROLES);
    for (int k = 0; k < ROLES; k++, x = (x + 1) % ROLES) {
        bool derives = here.derives[x][r];
        if (how == DERIVING && derives) return x;
        if (how == TURNED_ROLE && x != r && here.derives[r][x]) return x;
        if (how == REACHING && here.reaches[x][r] && !derives) return x;
        if (how == BARRED && derives && !in_scope(&here, x, r)) return x;
        if (how == SCOPING && in_scope(&here, x, r)) return x;
    }
    return some_live();
}

static uint32_t no_role(void)
{
    if (chance(40)) return ROLES;
    return chance(50) ? (uint32_t)(ROLES + below(256 - ROLES)) : wide(some_live());
}

static uint32_t some_role(uint32_t job)
{
    uint32_t place = place_of(&list, job);
    int r = place == JOBS_MOST ? some_live() : list.role[place], way = below(100);
    if (way < 5 || (place == JOBS_MOST && chance(10))) return no_role();
    if (way < 11) return some_dead();
    if (way < 24) return some_live();
    if (way < 38) return r;
    return standing(r, below(STANDS));
}

/* A claim or a release, mostly of a job that is open or held for it, and mostly by one who may. */
static uint64_t some_event(const struct view *v, const struct board *b, struct job_event *e)
{
    uint32_t job = some_job(), place = place_of(&list, job), role = some_role(job);
    bool is_past = place == JOBS_MOST, held = !is_past && is_held(&list, place);
    e->claims = chance(is_past ? 50 : 65) != held;
    e->job = job;
    e->member = held && chance(40) ? list.member[place] : some_member();
    uint64_t answer = try_event(e->claims ? CLAIM : RELEASE, v, b, &list, job, e->member, role, &past);
    e->number = BOARD_NUMBER(answer);
    try_job(&list, job);
    if (listed > 0) try_job(&list, favoured[below(FAVOURED)]);
    try_job(&list, odd_job());
    return answer;
}

/* ---- starts */

static void dirty_list(void)
{
    uint8_t *at = (uint8_t *)&list;
    for (size_t k = 0; k < sizeof list; k++) at[k] = draw64();
}

/* So many roles, of few of the board's and some that aren't live. */
static void draw_roles(size_t n)
{
    uint8_t few[5];
    for (size_t k = 0; k < sizeof few; k++) few[k] = chance(88) ? some_live() : some_dead();
    for (size_t j = 0; j < n; j++) roles[j] = few[below(sizeof few)];
    if (n > 5 && chance(20)) roles[below(n)] = ROLES - 1;
}

static size_t some_length(int kind)
{
    switch (kind) {
    case START_0: return 0;
    case START_1: return 1;
    case START_FEW: return 2 + below(6);
    case START_MANY: return 100 + below(JOBS_MOST - 100);
    case START_1024: return JOBS_MOST;
    case START_1025: return JOBS_MOST + 1;
    case START_MORE: return JOBS_MOST + 2 + below(3000);
    case START_CUT: return 65536 + below(JOBS_MOST);
    case BAD_AND_MORE: return JOBS_MOST + 1 + below(20);
    default: return chance(70) ? 3 + below(20) : chance(50) ? 3 + below(JOBS_MOST - 3) : JOBS_MOST;
    }
}

static uint64_t start(int kind)
{
    size_t n = some_length(kind);
    uint8_t bad = chance(50) ? ROLES : chance(30) ? 255 : ROLES + below(256 - ROLES);
    draw_roles(n);
    if (kind == BAD_FIRST) roles[0] = bad;
    if (kind == BAD_MIDDLE) roles[1 + below(n - 2)] = bad;
    if (kind == BAD_LAST) roles[n - 1] = bad;
    if (kind == BAD_AND_MORE) roles[below(n)] = bad;
    listed = n;
    return try_start(&list, roles, n);
}

/* Every way to begin, into a list that held something; a refused one leaves nothing to claim. */
static void all_starts(void)
{
    for (int kind = 0; kind < STARTS; kind++) {
        if (chance(50)) dirty_list();
        bool refused = start(kind) != 0;
        if (refused != (kind > START_1024)) disagree("a start of kind %d, and both %s it", kind, refused ? "refuse" : "take");
        if (!refused) continue;
        try_job(&list, 0);
        try_job(&list, below(JOBS_MOST));
        try_event(chance(50) ? CLAIM : RELEASE, &here, &board, &list, below(JOBS_MOST), 0, some_live(), &past);
    }
}

/* ---- the end of a history, by the log alone */

static void same_as_log(void)
{
    struct job_counts by_log = counts_by_log(answered, count, listed), by_list = {0, 0, true};
    if (!by_log.fits) disagree("by the log a job was claimed twice and not released between");
    for (uint32_t job = 0; job <= JOBS_MOST; job++) {
        uint32_t member = 0;
        bool held = holder_by_log(answered, count, job, &member);
        uint64_t said = try_job(&list, job), want = held ? 1ull << 16 | (uint64_t)member << 32 : 0;
        if (job >= listed) want = 2;
        if (said != want)
            disagree("job %u answers %#llx, by the log %#llx", job, (unsigned long long)said, (unsigned long long)want);
        if (BOARD_NUMBER(said) != 0) continue;
        if (BOARD_VALUE(said) == 1) by_list.held++;
        else by_list.open++;
    }
    if (by_list.open + by_list.held != listed) disagree("open and held jobs are not those listed");
    if (by_list.held != by_log.held || by_list.open != by_log.open)
        disagree("%zu jobs held and %zu open, by the log %zu and %zu", by_list.held, by_list.open, by_log.held, by_log.open);
}

static void tally_ends(void)
{
    for (uint32_t job = 0; job < listed; job++) {
        uint32_t first = 0, member;
        int claims = 0;
        bool another = false;
        for (size_t k = 0; k < count; k++) {
            const struct job_event *e = &answered[k];
            if (e->number != 0 || !e->claims || e->job != job) continue;
            if (claims++ == 0) first = e->member;
            another |= e->member != first;
        }
        tally.end[claims == 0 ? NEVER_CLAIMED : holder_by_log(answered, count, job, &member) ? HELD_AT_LAST : OPEN_AT_LAST]++;
        tally.end[CLAIMED_AGAIN] += claims > 1;
        tally.end[BY_ANOTHER] += another;
    }
}

/* ---- lists that nobody began */

/* Anything; or mostly jobs, some of them held, and any numbers in the other places. */
static void noisy_list(void)
{
    bool noise = chance(30);
    dirty_list();
    listed = JOBS_MOST;
    for (int k = 0; k < FAVOURED; k++) favoured[k] = chance(10) ? JOBS_MOST - 1 : below(JOBS_MOST);
    for (int j = 0; j < JOBS_MOST && !noise; j++) {
        if (chance(85)) list.role[j] = chance(90) ? some_live() : some_dead();
        if (chance(50)) list.mark[j] = chance(70) ? 0 : 1;
        if (chance(60)) list.member[j] = some_member();
    }
    for (int k = 0; k < FAVOURED && chance(80); k++) list.role[favoured[k]] = some_live();
}

static void on_noise(int lists, int events)
{
    static struct view v;
    static struct board b;
    struct job_event e;
    for (int k = 0; k < lists; k++) {
        noisy_list();
        for (int n = 0; n < events; n++) {
            now.event++;
            if (!chance(5)) some_event(&here, &board, &e);
            else spoil_board(&v, &b), some_event(&v, &b, &e);
        }
    }
}

/* ---- a history */

static void begin(uint64_t seed, long number)
{
    now.any = true, now.seed = seed, now.number = number, now.event = 0;
    fresh_drawing((seed + 1) * 0xd1342543de82ef95u ^ (number + 1) * 0x2545f4914f6cdd1du);
    tally.histories++;
    members[0] = 0, members[1] = UINT32_MAX, members[2] = draw64();
    if (chance(70)) members[2] = 1 + below(60);
    members[3] = members[2] ^ 1u << (chance(30) ? 31 : 16 + below(16)); /* the same, if cut */
    members[4] = members[2] ^ 1u << below(16);
    dirty_list();
    draw_board();
}

void history(uint64_t seed, long number)
{
    static const int kinds[] = {START_FEW, START_1, START_FEW, START_MANY, START_FEW, START_1024, START_FEW, START_0};
    static struct view v;
    static struct board b;
    begin(seed, number);
    all_starts();
    start(kinds[number % (sizeof kinds / sizeof kinds[0])]);
    for (int k = 0; k < FAVOURED && listed > 0; k++) favoured[k] = below(listed);
    if (chance(30)) favoured[0] = listed > 0 ? listed - 1 : 0;
    count = 0;
    size_t events = listed == 0 ? 40 : 250 + below(EVENTS_MOST - 250 + 1);
    while (count < events) {
        now.event++;
        int way = below(100);
        if (way < 12) change_board();
        else if (way < 13) draw_board();
        else if (way < 17) spoil_board(&v, &b), some_event(&v, &b, &answered[count++]);
        else some_event(&here, &board, &answered[count++]);
    }
    same_as_log();
    tally_ends();
    on_noise(4, 20);
    now.any = false;
}
