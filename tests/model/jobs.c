/* The job list by its definitions: who may claim and release, and what a log of answers says by itself. */
#include "model.h"

/* ---- the list, whatever its rows hold */

enum { NO_JOB = 64 }; /* in the row of roles, past the list */

uint32_t place_of(const struct jobs *list, uint32_t job)
{
    if (job >= JOBS_MOST) return JOBS_MOST;
    return list->role[job] < ROLES ? job : JOBS_MOST;
}

bool is_held(const struct jobs *list, uint32_t place) { return list->mark[place] != 0; }

/* ---- claims and releases */

struct asked {
    const struct view *v;
    const struct jobs *list;
    uint32_t place, member, role; /* the role acted in */
};

static int role_of(const struct asked *q) { return q->list->role[q->place]; }
static bool is_holder(const struct asked *q) { return q->list->member[q->place] == q->member; }

static bool unsound(const struct asked *q) { return !sound(q->v); }

static bool misnamed(const struct asked *q)
{
    if (q->role >= ROLES) return true;
    return q->place == JOBS_MOST;
}

static bool not_live(const struct asked *q)
{
    if (!q->v->board.live[q->role]) return true;
    return !q->v->board.live[role_of(q)];
}

static bool not_open(const struct asked *q) { return is_held(q->list, q->place); }
static bool not_held(const struct asked *q) { return !is_held(q->list, q->place); }
static bool may_not_claim(const struct asked *q) { return !q->v->derives[q->role][role_of(q)]; }

static bool may_not_release(const struct asked *q)
{
    if (is_holder(q)) return false;
    return !in_scope(q->v, q->role, role_of(q));
}

struct refusal {
    uint8_t number;
    bool (*holds)(const struct asked *);
};

static const struct refusal of_claim[] = {
    {1, unsound},
    {2, misnamed},
    {3, not_live},
    {14, not_open},
    {15, may_not_claim},
    {0, NULL},
};

static const struct refusal of_release[] = {
    {1, unsound},
    {2, misnamed},
    {3, not_live},
    {14, not_held},
    {15, may_not_release},
    {0, NULL},
};

/* The first that holds. */
static uint8_t refused(const struct refusal *from, const struct asked *q)
{
    while (from->number != 0 && !from->holds(q)) from++;
    return from->number;
}

uint64_t answer_claim(const struct view *v, struct jobs *list, uint32_t job, uint32_t member, uint32_t role)
{
    const struct asked q = {v, list, place_of(list, job), member, role};
    uint8_t number = refused(of_claim, &q);
    if (number != 0) return number;
    list->mark[q.place] = 1;
    list->member[q.place] = member;
    return 0;
}

uint64_t answer_release(const struct view *v, struct jobs *list, uint32_t job, uint32_t member, uint32_t role)
{
    const struct asked q = {v, list, place_of(list, job), member, role};
    uint8_t number = refused(of_release, &q);
    if (number != 0) return number;
    list->mark[q.place] = 0;
    list->member[q.place] = 0; /* nobody's */
    return 0;
}

/* ---- the start, and looking */

static bool all_roles(const uint8_t *roles, size_t n)
{
    for (size_t j = 0; j < n; j++)
        if (roles[j] >= ROLES) return false;
    return true;
}

uint64_t answer_start(struct jobs *list, const uint8_t *roles, size_t n)
{
    bool fine = n <= JOBS_MOST && all_roles(roles, n);
    for (size_t j = 0; j < JOBS_MOST; j++) {
        list->role[j] = fine && j < n ? roles[j] : NO_JOB;
        list->mark[j] = 0;
        list->member[j] = 0;
    }
    return fine ? 0 : 2;
}

uint64_t answer_job(const struct jobs *list, uint32_t job)
{
    uint32_t place = place_of(list, job);
    if (place == JOBS_MOST) return 2;
    if (!is_held(list, place)) return 0;
    return 1ull << 16 | (uint64_t)list->member[place] << 32;
}

/* ---- by the log alone */

static bool done(const struct job_event *e, uint32_t job, bool claims)
{
    return e->number == 0 && e->job == job && e->claims == claims;
}

static bool any_done(const struct job_event *from, const struct job_event *to, uint32_t job, bool claims)
{
    for (; from < to; from++)
        if (done(from, job, claims)) return true;
    return false;
}

/* The latest claim that was done, unless a release was done after it. */
bool holder_by_log(const struct job_event *log, size_t n, uint32_t job, uint32_t *member)
{
    const struct job_event *end = log + n;
    for (const struct job_event *e = log; e < end; e++) {
        if (!done(e, job, true)) continue;
        if (any_done(e + 1, end, job, true)) continue;
        if (any_done(e + 1, end, job, false)) return false;
        *member = e->member;
        return true;
    }
    return false;
}

static size_t times_done(const struct job_event *log, size_t n, uint32_t job, bool claims)
{
    size_t times = 0;
    for (size_t k = 0; k < n; k++) times += done(&log[k], job, claims);
    return times;
}

/* Between a claim that was done and the next one of the same job there is a release. */
static bool by_turns(const struct job_event *log, size_t n)
{
    for (const struct job_event *e = log; e < log + n; e++) {
        const struct job_event *next = e + 1;
        if (!done(e, e->job, true)) continue;
        while (next < log + n && !done(next, e->job, true)) next++;
        if (next < log + n && !any_done(e + 1, next, e->job, false)) return false;
    }
    return true;
}

struct job_counts counts_by_log(const struct job_event *log, size_t n, size_t listed)
{
    struct job_counts c = {0, 0, by_turns(log, n)};
    for (size_t job = 0; job < listed; job++) {
        size_t claims = times_done(log, n, job, true), releases = times_done(log, n, job, false);
        if (claims > releases) c.held++;
        else c.open++;
        if (claims != releases && claims != releases + 1) c.fits = false;
    }
    for (size_t k = 0; k < n; k++)
        if (log[k].number == 0 && log[k].job >= listed) c.fits = false;
    return c;
}

/* ---- the same with jobs.h's signatures */

uint64_t model_jobs_start(struct jobs *list, const uint8_t *roles, size_t n) { return answer_start(list, roles, n); }

uint64_t model_jobs_claim(struct jobs *list, const struct board *b, uint32_t job, uint32_t member, uint32_t role)
{
    static struct view v;
    from_board(b, &v);
    return answer_claim(&v, list, job, member, role);
}

uint64_t model_jobs_release(struct jobs *list, const struct board *b, uint32_t job, uint32_t member, uint32_t role)
{
    static struct view v;
    from_board(b, &v);
    return answer_release(&v, list, job, member, role);
}

uint64_t model_jobs_job(const struct jobs *list, uint32_t job) { return answer_job(list, job); }
