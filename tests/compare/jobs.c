/* The job list's calls on both sides: guarded memory for the subject, the model's answer, what it was met with, and a line that
 * replays the case. */
#include "compare.h"
#include <stdio.h>
#include <stdlib.h>
#include <string.h>

static const struct calls subject = CALLS_OF(SUBJECT);

/* The case in hand, for messages. */
static struct {
    enum call call;
    const struct jobs *list;
    const struct board *board; /* of a claim and a release */
    const uint8_t *roles;      /* of a start */
    size_t n;
    uint32_t job, member, role;
} now;

/* ---- the list that is lent: behind it is the wall */

struct lent_list {
    uint8_t before[GUARD];
    struct jobs list;
};

static struct lent_list *lend_list(struct lent_list *want, const struct jobs *list)
{
    paint(want->before, sizeof want->before);
    want->list = *list;
    return lend(THE_LIST, want, sizeof *want);
}

static void same_list(const struct lent_list *lent, const struct lent_list *want, uint64_t answer)
{
    const struct jobs *l = &lent->list, *w = &want->list;
    if (memcmp(lent->before, want->before, GUARD) != 0) disagree("bytes before the list were touched");
    if (memcmp(l, w, sizeof *w) == 0) return;
    for (int j = 0; j < JOBS_MOST; j++)
        if (l->role[j] != w->role[j] || l->mark[j] != w->mark[j] || l->member[j] != w->member[j])
            disagree("answer %#llx, job %d has role %u, mark %u, member %u, in the model %u, %u, %u",
                     (unsigned long long)answer, j, l->role[j], l->mark[j], l->member[j], w->role[j], w->mark[j], w->member[j]);
}

static void same_answer(uint64_t said, uint64_t answer)
{
    if (said != answer)
        disagree("answer %#llx, the model %#llx", (unsigned long long)said, (unsigned long long)answer);
}

/* ---- starts */

static int start_class(const uint8_t *roles, size_t n)
{
    size_t bad = 0;
    while (bad < n && roles[bad] < ROLES) bad++;
    if (bad < n) return n > JOBS_MOST ? BAD_AND_MORE : bad == 0 ? BAD_FIRST : bad == n - 1 ? BAD_LAST : BAD_MIDDLE;
    if (n < 2) return START_0 + n;
    if (n < 30) return START_FEW;
    if (n <= JOBS_MOST) return n == JOBS_MOST ? START_1024 : START_MANY;
    return n == JOBS_MOST + 1 ? START_1025 : n < 65536 ? START_MORE : START_CUT;
}

uint64_t try_start(struct jobs *list, const uint8_t *roles, size_t n)
{
    static struct lent_list want;
    struct lent_list *lent = lend_list(&want, list);
    const uint8_t *row = lend(THE_ROLES, roles, n);

    in_hand(now.call = START), now.list = list, now.roles = roles, now.n = n;
    tally.calls++;
    uint64_t answer = answer_start(&want.list, roles, n);
    uint64_t said = subject.jobs_start(&lent->list, row, n);
    same_answer(said, answer);
    same_list(lent, &want, answer);
    if (memcmp(row, roles, n) != 0) disagree("the roles were touched");
    tally.start[start_class(roles, n)]++;
    *list = want.list;
    return answer;
}

/* ---- claims and releases */

/* What holds of the role acted in and of the job, whichever number came of it. */
static void tally_event(enum call call, const struct view *v, const struct jobs *list, uint8_t number,
                        const struct past *past)
{
    bool met[JOB_TRAITS] = {false}, claims = call == CLAIM;
    uint32_t job = now.job, role = now.role, member = now.member, place = place_of(list, job);
    bool no_role = role >= ROLES, is_past = place == JOBS_MOST;
    int r = is_past ? NONE : list->role[place];
    bool held = !is_past && is_held(list, place), is_holder = held && list->member[place] == member;
    bool dead = !no_role && !v->board.live[role], job_dead = !is_past && !v->board.live[r];
    bool wrong_state = !is_past && held == claims;

    tally.events++;
    tally.event[!claims][number]++;
    met[FIRST_1] = number == 1 && (no_role || is_past || dead || job_dead || wrong_state);
    if (number == 2) {
        met[ROLE_64] = !is_past && role == ROLES;
        met[ROLE_TO_255] = !is_past && role > ROLES && role <= 255;
        met[ROLE_WIDE] = !is_past && role > 255 && role % 256 < ROLES && v->board.live[role % 256];
        met[JOB_BEHIND] = !no_role && job < JOBS_MOST;
        met[JOB_1024] = !no_role && job == JOBS_MOST;
        met[JOB_ABOVE] = !no_role && job > JOBS_MOST && job < 65536;
        met[JOB_WIDE] = !no_role && job >= 65536 && place_of(list, job & 0xffff) != JOBS_MOST;
        met[JOB_FAR] = !no_role && job >> 31 != 0;
        met[BOTH_OUT] = no_role && is_past;
        met[FIRST_2] = no_role && !is_past && (job_dead || wrong_state);
        met[HOLDER_NO_ROLE] = !claims && no_role && is_holder;
        for (uint32_t j = job; j < JOBS_MOST && !no_role; j++) met[HOLE_PAST] |= list->role[j] < ROLES;
    }
    if (number == 3) {
        met[ROLE_DEAD] = dead && !job_dead;
        met[JOB_DEAD] = job_dead && !dead;
        met[BOTH_DEAD] = dead && job_dead;
        met[FIRST_3] = wrong_state;
        met[ROLE_GONE] = job_dead && past->gone[r];
        met[HOLDER_DEAD] = !claims && dead && !job_dead && is_holder;
    }
    if (number == 0 || number > 3) {
        bool derives = v->derives[role][r], within = in_scope(v, role, r);
        bool may = claims ? derives : within || is_holder;
        met[ROLE_BACK] = number == 0 && past->back[r];
        met[ONLY_14] = number == 14 && may;
        met[FIRST_14] = number == 14 && !may;
        met[BY_0] = number == 0 && member == 0;
        met[BY_MOST] = number == 0 && member == UINT32_MAX;
        met[MARK_ABOVE_1] = number == (claims ? 14 : 0) && list->mark[place] > 1;
        if (claims) {
            met[OWN_ROLE] = number == 0 && (int)role == r;
            met[OUT_OF_SCOPE] = number == 0 && !within;
            met[OLD_MEMBER] = number == 0 && list->member[place] != 0;
            met[BY_ITS_HOLDER] = number == 14 && is_holder && may;
            met[TURNED] = number == 15 && v->derives[r][role];
            met[ONLY_REACHED] = number == 15 && v->reaches[role][r];
            met[ASIDE] = number == 15 && !v->derives[r][role] && !v->reaches[role][r];
        } else {
            met[HOLDER_WITHIN] = number == 0 && is_holder && within;
            met[HOLDER_OUTSIDE] = number == 0 && is_holder && !within;
            met[OTHER_WITHIN] = number == 0 && !is_holder;
            met[OTHER_ITSELF] = number == 0 && !is_holder && (int)role == r;
            met[OTHER_BARRED] = number == 15 && derives;
            met[OTHER_TURNED] = number == 15 && in_scope(v, r, role);
            met[OTHER_ASIDE] = number == 15 && !derives && !v->derives[r][role];
            met[OTHER_IF_CUT] = number == 15 && (uint16_t)list->member[place] == (uint16_t)member;
            met[OPEN_BY_ITS_ROW] = number == 14 && list->member[place] == member;
        }
    }
    for (int k = 0; k < JOB_TRAITS; k++) tally.job_trait[!claims][k] += met[k];
}

uint64_t try_event(enum call call, const struct view *v, const struct board *b, struct jobs *list, uint32_t job,
                   uint32_t member, uint32_t role, const struct past *past)
{
    static struct lent_list want;
    struct lent_list *lent = lend_list(&want, list);
    const struct board *board = lend(THE_BOARD, b, sizeof *b);

    in_hand(now.call = call), now.list = list, now.board = b, now.job = job, now.member = member, now.role = role;
    tally.calls++;
    uint64_t answer = (call == CLAIM ? answer_claim : answer_release)(v, &want.list, job, member, role);
    uint64_t said = (call == CLAIM ? subject.jobs_claim : subject.jobs_release)(&lent->list, board, job, member, role);
    same_answer(said, answer);
    same_list(lent, &want, answer);
    if (memcmp(board, b, sizeof *b) != 0) disagree("the board was touched");
    tally_event(call, v, list, answer, past);
    *list = want.list;
    return answer;
}

/* ---- looking */

static void tally_look(const struct jobs *list, uint32_t job)
{
    uint32_t place = place_of(list, job);
    if (place == JOBS_MOST) {
        tally.look[job < JOBS_MOST ? LOOK_BEHIND : LOOK_ABOVE]++;
        tally.look[LOOK_WIDE] += job >= 65536 && place_of(list, job & 0xffff) != JOBS_MOST;
        return;
    }
    bool held = is_held(list, place);
    uint32_t member = list->member[place];
    tally.look[held ? LOOK_HELD : LOOK_OPEN]++;
    tally.look[LOOK_0] += held && member == 0;
    tally.look[LOOK_MOST] += held && member == UINT32_MAX;
    tally.look[LOOK_MARK] += list->mark[place] > 1;
    tally.look[LOOK_OLD_MEMBER] += !held && member != 0;
}

uint64_t try_job(const struct jobs *list, uint32_t job)
{
    static struct lent_list want;
    struct lent_list *lent = lend_list(&want, list);

    in_hand(now.call = JOB), now.list = list, now.job = job;
    tally.calls++;
    uint64_t answer = answer_job(list, job);
    same_answer(subject.jobs_job(&lent->list, job), answer);
    same_list(lent, &want, answer);
    tally_look(list, job);
    return answer;
}

/* ---- replay */

/* Places of the list that are as an empty one's are left out. */
void print_job_case(void)
{
    const struct jobs *l = now.list;
    if (now.call == CLAIM || now.call == RELEASE) print_board(now.board);
    for (int j = 0; j < JOBS_MOST; j++)
        if (l->role[j] != ROLES || l->mark[j] != 0 || l->member[j] != 0)
            printf(" j%d=%u,%u,%u", j, l->role[j], l->mark[j], l->member[j]);
    if (now.call == START) {
        printf(" roles=");
        for (size_t k = 0; k < now.n; k++) printf("%02x", now.roles[k]);
    } else printf(" job=%u member=%u role=%u", now.job, now.member, now.role);
}

void replay_job(enum call call, char *words)
{
    static struct board b;
    static struct view v;
    static struct jobs list;
    static uint8_t roles[LONGEST_START];
    static const struct past none;
    unsigned j, r, mark, holder, job = 0, member = 0, role = 0;
    size_t n = 0;
    memset(&b, 0, sizeof b);
    memset(b.manager, NONE, sizeof b.manager);
    memset(&list, 0, sizeof list);
    memset(list.role, ROLES, sizeof list.role);
    for (char *w = strtok(words, " \n"); w != NULL; w = strtok(NULL, " \n")) {
        if (sscanf(w, "j%u=%u,%u,%u", &j, &r, &mark, &holder) == 4 && j < JOBS_MOST)
            list.role[j] = r, list.mark[j] = mark, list.member[j] = holder;
        else if (strncmp(w, "roles=", 6) == 0)
            for (w += 6; n < sizeof roles && w[0] != 0 && w[1] != 0; w += 2)
                roles[n++] = strtoul((char[]){w[0], w[1], 0}, NULL, 16);
        else if (sscanf(w, "job=%u", &job) == 1 || sscanf(w, "member=%u", &member) == 1) continue;
        else if (sscanf(w, "role=%u", &role) != 1) read_board_word(w, &b);
    }
    uint64_t answer;
    if (call == START) answer = try_start(&list, roles, n);
    else if (call == JOB) answer = try_job(&list, job);
    else from_board(&b, &v), answer = try_event(call, &v, &b, &list, job, member, role, &none);
    printf("agreed: %s answers %#llx\n", call_name[call], (unsigned long long)answer);
}
