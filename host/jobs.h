/* The job list above the role board, for programs in C. It uses board.h's boards and answers, and is linked as they are.
 *
 * A claim or a release decides by itself and changes the list in the same step; refused, it leaves the list as it was. So
 * of two members who may claim one open job the second is told 14, whatever either of them looked up before. The list and
 * the board are the caller's: whoever has several threads or processes lets one call at a time have the list. Who the
 * member is, and whether they may act in that role, the caller is believed: take both from the login, and never from a form.
 *
 * What a command does on the board touches no job. Where the role of a job is removed, every claim and every release of it is
 * 3, its holder's too, until a role of that number lives again; then it is that role's job, whoever that role is meant for.
 * So before removing a role, look for jobs under it: have the held ones released, and write another role into role[j]. For a
 * job that is under a removed role already, write a live one there; its holder, or a coordinator with that role in its scope,
 * can then release it.
 *
 * Of pointers it asks what board.h asks: no null pointer, not even with n 0, and the list may overlap neither the board nor
 * `roles`, so a list can't be begun again from its own row of roles; nor may one row overlap another.
 *
 *     struct jobs list;
 *     const uint8_t roles[] = { 5, 5, 7 };                         // jobs 0 and 1 under role 5, job 2 under role 7
 *     jobs_start(&list, roles, 3);
 *     uint64_t r = jobs_claim(&list, &b, 1, member, role);         // the member takes job 1, acting in the role
 *     if (BOARD_NUMBER(r) == 14)
 *         printf("taken, by member %u\n", JOBS_MEMBER(jobs_job(&list, 1)));
 */
#ifndef JOBS_H
#define JOBS_H

#include "board.h"

#ifdef __cplusplus
extern "C" {
#endif

#define JOBS_MOST 1024 /* the most jobs of a list */

/* role[j]: the role that job j is listed under; a number above 63 where there is no job j. mark[j]: 0 where it is open, and
 * any other number where it is held; member[j]: by whom. jobs_start fills all of it in. A list that a caller filled in
 * otherwise is taken as it stands. A struct of zeros is no empty list, but 1,024 open jobs under role 0: for an empty list
 * call jobs_start with n 0. */
struct jobs {
    uint8_t role[JOBS_MOST], mark[JOBS_MOST];
    uint32_t member[JOBS_MOST];
};

/* Answers are those of board.h. Their numbers: 0 done; then, the first that holds, 1 the board is not sound; 2 the role
 * acted in is no role, or the job is past the list; 3 the role acted in, or the job's role, isn't live; 14 the job isn't in
 * the state asked for; 15 role or member may not. jobs_start and jobs_job, which read no board, have 0 and 2 alone. Place and
 * value are 0, and all above them, but for jobs_job. */

/* A new list of `n` jobs, all open; roles[j] is the role of job j. More than JOBS_MOST, or a role above 63, is 2, and leaves
 * an empty list. Either way nothing is left of what was there. */
static inline uint64_t jobs_start(struct jobs *list, const uint8_t *roles, size_t n);

/* The member, any number, takes an open job (else 14) in a role that derives the job's role (else 15). */
static inline uint64_t jobs_claim(struct jobs *list, const struct board *b, uint32_t job, uint32_t member, uint32_t role);

/* A held job (else 14) is open again: for its holder, and for whoever acts in a role that has the job's role in its scope
 * (else 15). The holder too acts in a live role. */
static inline uint64_t jobs_release(struct jobs *list, const struct board *b, uint32_t job, uint32_t member, uint32_t role);

/* Whether a job is held: the value is 1 where it is, and 0 where it is open; and by whom. 2 where it is past the list. */
static inline uint64_t jobs_job(const struct jobs *list, uint32_t job);
#define JOBS_MEMBER(answer) ((uint32_t)((answer) >> 32)) /* 0 where nobody holds it; but member 0 may: the value tells */

/* ---- the same on the rows themselves, which is what the library has: a board by its fields, a list by its rows; `by` is
 * the member, and `acting` the role acted in */

uint64_t jobs_start_rows(const uint8_t *roles, size_t n, uint8_t role[JOBS_MOST], uint8_t mark[JOBS_MOST],
                         uint32_t member[JOBS_MOST]);

uint64_t jobs_claim_rows(uint64_t live, const uint64_t i[BOARD_ROLES], const uint64_t a[BOARD_ROLES],
                         const uint64_t derives[BOARD_ROLES], const uint64_t derivers[BOARD_ROLES],
                         const uint8_t manager[BOARD_ROLES], const uint8_t rights[BOARD_ROLES],
                         const uint8_t role[JOBS_MOST], uint8_t mark[JOBS_MOST], uint32_t member[JOBS_MOST],
                         uint32_t job, uint32_t by, uint32_t acting);

uint64_t jobs_release_rows(uint64_t live, const uint64_t i[BOARD_ROLES], const uint64_t a[BOARD_ROLES],
                           const uint64_t derives[BOARD_ROLES], const uint64_t derivers[BOARD_ROLES],
                           const uint8_t manager[BOARD_ROLES], const uint8_t rights[BOARD_ROLES],
                           const uint8_t role[JOBS_MOST], uint8_t mark[JOBS_MOST], uint32_t member[JOBS_MOST],
                           uint32_t job, uint32_t by, uint32_t acting);

uint64_t jobs_job_rows(const uint8_t role[JOBS_MOST], const uint8_t mark[JOBS_MOST], const uint32_t member[JOBS_MOST],
                       uint32_t job);

static inline uint64_t jobs_start(struct jobs *list, const uint8_t *roles, size_t n) {
    return jobs_start_rows(roles, n, list->role, list->mark, list->member);
}

static inline uint64_t jobs_claim(struct jobs *list, const struct board *b, uint32_t job, uint32_t member, uint32_t role) {
    return jobs_claim_rows(b->live, b->i, b->a, b->derives, b->derivers, b->manager, b->rights, list->role, list->mark,
                           list->member, job, member, role);
}

static inline uint64_t jobs_release(struct jobs *list, const struct board *b, uint32_t job, uint32_t member, uint32_t role) {
    return jobs_release_rows(b->live, b->i, b->a, b->derives, b->derivers, b->manager, b->rights, list->role, list->mark,
                             list->member, job, member, role);
}

static inline uint64_t jobs_job(const struct jobs *list, uint32_t job) {
    return jobs_job_rows(list->role, list->mark, list->member, job);
}

#ifdef __cplusplus
}
#endif

#endif
