/* Killed at each system call in turn, at its entry and at its exit: FILE is the old one or the new one, whole, and `done` was never said
 * without the new one. */
#define _GNU_SOURCE
#include "race.h"
#include <dirent.h>
#include <signal.h>
#include <stdlib.h>
#include <string.h>
#include <sys/ptrace.h>
#include <sys/wait.h>
#include <unistd.h>

enum { SYSCALL_STOP = SIGTRAP | 0x80 };

struct bytes {
    bool there;
    size_t len;
    uint8_t byte[FILE_MAX];
};

static char file[8192], lock[8200];
static struct view first;
static long points, locks_left;

/* ---- one death */

/* True where it was killed at stop number `at`; false where it ended by itself before that. */
static bool run_until(pid_t pid, long at, int *status)
{
    long stops = 0;
    waitpid(pid, status, 0);
    if (!WIFSTOPPED(*status)) return false;
    ptrace(PTRACE_SETOPTIONS, pid, 0, PTRACE_O_TRACESYSGOOD | PTRACE_O_EXITKILL);
    for (int sent = 0;; sent = WSTOPSIG(*status) == SYSCALL_STOP || WSTOPSIG(*status) == SIGTRAP ? 0 : WSTOPSIG(*status)) {
        if (ptrace(PTRACE_SYSCALL, pid, 0, sent) != 0) perror("ptrace"), exit(2);
        waitpid(pid, status, 0);
        if (!WIFSTOPPED(*status)) return false;
        if (WSTOPSIG(*status) != SYSCALL_STOP || ++stops < at) continue;
        kill(pid, SIGKILL);
        waitpid(pid, status, 0);
        return true;
    }
}

static bool die_at(struct asked *a, long at)
{
    struct running r = begin(&a->change, file, (struct setting){.traced = true});
    int status = 0;
    a->answer.began = now();
    bool dead = run_until(r.pid, at, &status);
    listen_to(r, &a->answer, (struct death){.victim = NOBODY_DIES});
    a->answer.ended = now();
    a->answer.killed = dead;
    a->answer.status = status;
    return dead;
}

/* ---- what it left */

static void get(struct bytes *b) { b->there = get_bytes(file, b->byte, sizeof b->byte, &b->len); }

static void put(const struct bytes *b)
{
    unlink(lock);
    if (b->there) put_bytes(file, b->byte, b->len);
    else unlink(file);
}

static bool same(const struct bytes *x, const struct bytes *y)
{
    if (!x->there || !y->there) return x->there == y->there;
    return x->len == y->len && memcmp(x->byte, y->byte, x->len) == 0;
}

static bool says(const struct answer *a, const char *word)
{
    return memmem(a->said, a->said_len, word, strlen(word)) != NULL;
}

/* Beside the board and its lock. */
static bool litter(void)
{
    bool met = false;
    DIR *d = opendir(work);
    for (struct dirent *e; d && (e = readdir(d));)
        if (e->d_name[0] != '.' && strcmp(e->d_name, "board") != 0 && strcmp(e->d_name, "board.lock") != 0) met = true;
    if (d) closedir(d);
    return met;
}

static const char *judge_death(const struct answer *a, const struct bytes *old, const struct bytes *new)
{
    static struct bytes is;
    get(&is);
    locks_left += exists(lock);
    if (!same(&is, old) && !same(&is, new)) return "the file is neither the old one nor the new one";
    if (says(a, "done") && !same(&is, new)) return "done is said, and the file is the old one";
    if (a->said_len > 0 && exists(lock)) return "an answer is said, and the lock still stands";
    if (litter()) return "it leaves a file behind that is neither the board nor its lock";
    return NULL;
}

/* ---- every death of one change */

static void kill_each(const char *name, const struct change *c, bool there, const char *answer)
{
    static struct asked a;
    static struct bytes old, new;
    long at = 1, locks = locks_left;
    old.there = there;
    old.len = put_file(&first.board, old.byte);
    a.change = *c;
    put(&old);
    give(c, file, (struct setting){0}, &a.answer);
    get(&new);
    a.answer.said[a.answer.said_len] = 0;
    if (strcmp(a.answer.said, answer) != 0 || exists(lock)) disagree("killed, %s: left alone it says '%s'", name, a.answer.said);
    for (;; at++) {
        put(&old);
        bool dead = die_at(&a, at);
        const char *fault = judge_death(&a.answer, &old, &new);
        if (fault) disagree("killed, %s, at stop %ld: %s", name, at, fault);
        if (fault) write_log(stdout, &a, 1, a.answer.began);
        if (!dead) break;
        points++;
    }
    printf("killed: %s: at each of %ld stops; the lock was left %ld times\n", name, at - 1, locks_left - locks);
    counts.changes += at - 1;
}

/* ---- what a dead change left is busy for the program, and cleared by ./change */

static bool leave_lock(const struct change *c)
{
    static struct asked a;
    static struct bytes old = {.there = true};
    old.len = put_file(&first.board, old.byte);
    a.change = *c;
    for (long at = 1;; at++) {
        put(&old);
        if (!die_at(&a, at)) return false;
        if (exists(lock)) return true;
    }
}

static void meet_left_lock(const struct change *c)
{
    static struct asked a;
    uint8_t bytes[FILE_MAX];
    size_t len = put_file(&first.board, bytes);
    if (!leave_lock(c)) return disagree("killed: no death leaves a lock");
    give(c, file, (struct setting){0}, &a.answer);
    bool busy = a.answer.said_len == 0 && strncmp(a.answer.complained, "busy", 4) == 0;
    if (!busy || !exists(lock) || !holds_bytes(file, bytes, len)) disagree("killed: a lock that a dead change left isn't busy: '%s'", a.answer.complained);
    printf("killed: a lock that was left is busy after %.1f s\n", (a.answer.ended - a.answer.began) / 1e9);
    if (!*change_script) return;
    give(c, file, (struct setting){.by_script = true}, &a.answer);
    bool done = a.answer.said_len == 5 && memcmp(a.answer.said, "done\n", 5) == 0;
    if (!done || exists(lock)) disagree("killed: ./change doesn't clear the lock that a dead change left: '%s'", a.answer.complained);
    else printf("killed: ./change clears it and makes its change\n");
}

void killed(void)
{
    static struct change c, run;
    struct command add = {.code = ADD_ROLE, .actor = 0, .role = 2, .i_seniors = 1 << 1};
    struct command no = {.code = REMOVE_ROLE, .actor = 0, .role = 0};
    struct command evening[] = {add, no, {.code = GIVE_RIGHTS, .actor = 0, .role = 2, .rights = ALL_RIGHTS}};
    snprintf(file, sizeof file, "%s", in_work("board"));
    snprintf(lock, sizeof lock, "%s.lock", file);
    found(&first.board);
    first.board.live[1] = true, first.board.kind[0][1] = 1;
    look(&first);
    as_command(&c, add);
    kill_each("a command that is done", &c, true, "done\n");
    as_command(&run, no);
    kill_each("a command that is refused", &run, true,
              "refused 6: role 0 is not in the strict scope of role 0, which leaves out role 0 itself\n");
    as_run(&run, evening, 0);
    sprintf(run.text, "0 add-role 2 i-seniors 1\n\n0 remove-role 0\n# rights\n0 give-rights 2 all\n");
    kill_each("a run of three", &run, true,
              "1: done\n3: refused 6: role 0 is not in the strict scope of role 0, which leaves out role 0 itself\n5: done\n");
    run.way = FOUNDING;
    kill_each("a founding", &run, false, "done\n");
    meet_left_lock(&c);
    printf("killed: %ld kills, the lock was left %ld times; disagreements %ld\n", points, locks_left, counts.disagreements);
}
