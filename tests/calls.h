/* board.h's twelve functions and jobs.h's four as a record, so that one test serves the library, the plain C and the model. */
#ifndef CALLS_H
#define CALLS_H

#include <board.h> /* the library's own, by the path that run.sh gives */
#include <jobs.h>

struct calls {
    uint64_t (*apply)(struct board *b, const struct command *c);
    uint64_t (*command)(const uint8_t *file, size_t len, const struct command *c, uint8_t *out, size_t room);
    uint64_t (*check)(const uint8_t *file, size_t len);
    uint64_t (*derives)(const uint8_t *file, size_t len, uint32_t x, uint32_t y);
    uint64_t (*scope)(const uint8_t *file, size_t len, uint32_t a, uint32_t r);
    uint64_t (*manager)(const uint8_t *file, size_t len, uint32_t r);
    uint64_t (*steps)(const uint8_t *file, size_t len, uint32_t r);
    uint64_t (*stretch)(const uint8_t *file, size_t len, uint32_t role);
    uint64_t (*found)(struct board *b);
    uint64_t (*read)(const uint8_t *file, size_t len, struct board *b);
    uint64_t (*write)(const struct board *b, uint8_t *out, size_t room, size_t at);
    uint64_t (*run)(struct board *b, const struct command *commands, size_t n, uint64_t *answers, size_t m);
    uint64_t (*jobs_start)(struct jobs *list, const uint8_t *roles, size_t n);
    uint64_t (*jobs_claim)(struct jobs *list, const struct board *b, uint32_t job, uint32_t member, uint32_t role);
    uint64_t (*jobs_release)(struct jobs *list, const struct board *b, uint32_t job, uint32_t member, uint32_t role);
    uint64_t (*jobs_job)(const struct jobs *list, uint32_t job);
};

/* The library's names have no `board` before them. */
#define board_jobs_start jobs_start
#define board_jobs_claim jobs_claim
#define board_jobs_release jobs_release
#define board_jobs_job jobs_job

#define CALLS(p)                                                                                           \
    {                                                                                                      \
        p##_apply, p##_command, p##_check, p##_derives, p##_scope, p##_manager, p##_steps, p##_stretch,    \
            p##_found, p##_read, p##_write, p##_run, p##_jobs_start, p##_jobs_claim, p##_jobs_release,     \
            p##_jobs_job                                                                                   \
    }

#define DECLARE_CALLS(p)                                                                                   \
    uint64_t p##_apply(struct board *b, const struct command *c);                                          \
    uint64_t p##_command(const uint8_t *file, size_t len, const struct command *c, uint8_t *out,           \
                         size_t room);                                                                     \
    uint64_t p##_check(const uint8_t *file, size_t len);                                                   \
    uint64_t p##_derives(const uint8_t *file, size_t len, uint32_t x, uint32_t y);                         \
    uint64_t p##_scope(const uint8_t *file, size_t len, uint32_t a, uint32_t r);                           \
    uint64_t p##_manager(const uint8_t *file, size_t len, uint32_t r);                                     \
    uint64_t p##_steps(const uint8_t *file, size_t len, uint32_t r);                                       \
    uint64_t p##_stretch(const uint8_t *file, size_t len, uint32_t role);                                  \
    uint64_t p##_found(struct board *b);                                                                   \
    uint64_t p##_read(const uint8_t *file, size_t len, struct board *b);                                   \
    uint64_t p##_write(const struct board *b, uint8_t *out, size_t room, size_t at);                       \
    uint64_t p##_run(struct board *b, const struct command *commands, size_t n, uint64_t *answers, size_t m); \
    uint64_t p##_jobs_start(struct jobs *list, const uint8_t *roles, size_t n);                            \
    uint64_t p##_jobs_claim(struct jobs *list, const struct board *b, uint32_t job, uint32_t member,       \
                            uint32_t role);                                                                \
    uint64_t p##_jobs_release(struct jobs *list, const struct board *b, uint32_t job, uint32_t member,     \
                              uint32_t role);                                                              \
    uint64_t p##_jobs_job(const struct jobs *list, uint32_t job);

/* The subject of a test: the library, or with -DSUBJECT_PLAIN the plain C in its place. */
#ifdef SUBJECT_PLAIN
#define SUBJECT plain
#define SUBJECT_NAME "plain C"
#else
#define SUBJECT board
#define SUBJECT_NAME "library"
#endif
#define CALLS_OF(p) CALLS(p)

DECLARE_CALLS(plain)
DECLARE_CALLS(model)

#endif
