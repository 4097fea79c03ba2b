/* The program started with a change, and what it says until it has ended. */
#define _GNU_SOURCE
#include "race.h"
#include <dirent.h>
#include <errno.h>
#include <fcntl.h>
#include <poll.h>
#include <signal.h>
#include <stdlib.h>
#include <string.h>
#include <sys/mman.h>
#include <sys/ptrace.h>
#include <sys/wait.h>
#include <time.h>
#include <unistd.h>

char **launch, change_script[4096];

int64_t now(void)
{
    struct timespec t;
    clock_gettime(CLOCK_MONOTONIC, &t);
    return t.tv_sec * 1000000000ll + t.tv_nsec;
}

void *shared(size_t bytes)
{
    void *at = mmap(NULL, bytes, PROT_READ | PROT_WRITE, MAP_SHARED | MAP_ANONYMOUS, -1, 0);
    if (at == MAP_FAILED) perror("mmap"), exit(2);
    return at;
}

/* ---- starting */

static void wait_at(const struct setting *s)
{
    if (!s->gate) return;
    while (!*s->gate)
        ;
    for (int64_t until = now() + s->hold; now() < until;)
        ;
}

/* The words that start it, those of FILE, and those of the command. */
static void become(const struct change *c, const char *file, bool by_script)
{
    static char word[WORDS_MOST][WORD_MOST];
    char *argv[64];
    int n = 0;
    if (by_script) argv[n++] = change_script;
    else
        for (char **w = launch; *w; w++) argv[n++] = *w;
    argv[n++] = (char *)file;
    if (c->way == FOUNDING) argv[n++] = "found";
    if (c->way == IN_WORDS) {
        int words = words_of(&c->command[0], word);
        for (int k = 0; k < words; k++) argv[n++] = word[k];
    }
    argv[n] = NULL;
    execv(argv[0], argv);
    perror(argv[0]);
    _exit(126);
}

static void make_pipe(int end[2])
{
    if (pipe2(end, O_CLOEXEC) != 0) perror("pipe"), exit(2);
}

/* All of it fits into the pipe, so it is there before the program asks. */
static int input_of(const struct change *c)
{
    int end[2];
    size_t len = strlen(c->text);
    if (c->way != ON_STANDARD_INPUT) return open("/dev/null", O_RDONLY | O_CLOEXEC);
    make_pipe(end);
    if (write(end[1], c->text, len) != (ssize_t)len) perror("write"), exit(2);
    close(end[1]);
    return end[0];
}

struct running begin(const struct change *c, const char *file, struct setting s)
{
    int in = input_of(c), out[2], err[2];
    make_pipe(out);
    make_pipe(err);
    pid_t pid = fork();
    if (pid < 0) perror("fork"), exit(2);
    if (pid == 0) {
        dup2(in, 0), dup2(out[1], 1), dup2(err[1], 2);
        if (s.own_group) setpgid(0, 0);
        wait_at(&s);
        if (s.traced) ptrace(PTRACE_TRACEME, 0, 0, 0);
        become(c, file, s.by_script);
    }
    if (s.own_group) setpgid(pid, pid);
    close(in), close(out[1]), close(err[1]);
    return (struct running){pid, out[0], err[0]};
}

/* ---- killing a part of ./change */

/* The program among the descendants of a process, by the words that started it; 0 where it isn't there. */
static pid_t program_below(pid_t pid, int depth)
{
    char name[64], words[4096], *end = words;
    snprintf(name, sizeof name, "/proc/%d/cmdline", pid);
    int fd = open(name, O_RDONLY | O_CLOEXEC);
    ssize_t n = fd < 0 ? 0 : read(fd, words, sizeof words - 1);
    if (fd >= 0) close(fd);
    const char *program = launch[0];
    for (char **w = launch; *w; w++) program = *w;
    for (char *w = words; n > 0 && w < words + n; w = end + 1) {
        end = memchr(w, 0, words + n - w);
        if (!end) break;
        if (depth > 0 && strcmp(w, program) == 0) return pid;
    }
    snprintf(name, sizeof name, "/proc/%d/task/%d/children", pid, pid);
    FILE *f = fopen(name, "re");
    pid_t child, met = 0;
    while (f && met == 0 && fscanf(f, "%d", &child) == 1) met = program_below(child, depth + 1);
    if (f) fclose(f);
    return met;
}

static bool strike(struct running r, enum victim victim)
{
    if (victim == THE_GROUP) return kill(-r.pid, SIGKILL) == 0;
    if (victim == THE_SHELL) return kill(r.pid, SIGKILL) == 0;
    pid_t program = program_below(r.pid, 0);
    return program != 0 && kill(program, SIGKILL) == 0;
}

/* When to look again whether somebody is to die: at the moment drawn, and where the program isn't there yet, soon again. */
static int64_t next_look(struct running r, struct answer *a, struct death *d)
{
    int64_t left = a->began + d->after - now();
    if (left > 0) return left;
    if (d->at_program) {
        if (program_below(r.pid, 0) == 0) return 1000000;
        d->at_program = false;
        d->after = now() - a->began + d->linger;
        return d->linger;
    }
    a->killed = strike(r, d->victim);
    return 1000000;
}

/* ---- hearing */

/* False at the end of it. */
static bool hear_some(int fd, char *text, size_t room, size_t *len)
{
    char rest[256];
    bool full = *len == room;
    ssize_t n = read(fd, full ? rest : text + *len, full ? sizeof rest : room - *len);
    if (n < 0 && errno == EINTR) return true;
    if (n > 0 && !full) *len += n;
    return n > 0;
}

void listen_to(struct running r, struct answer *a, struct death d)
{
    struct pollfd from[2] = {{r.out, POLLIN, 0}, {r.err, POLLIN, 0}};
    size_t complained = 0;
    a->said_len = 0, a->killed = false;
    while (from[0].fd >= 0 || from[1].fd >= 0) {
        int64_t wait = d.victim == NOBODY_DIES || a->killed ? 10000000000 : next_look(r, a, &d);
        struct timespec until = {wait / 1000000000, wait % 1000000000};
        if (ppoll(from, 2, &until, NULL) < 0 && errno != EINTR) break;
        if (from[0].revents && !hear_some(r.out, a->said, SAID - 1, &a->said_len)) from[0].fd = -1;
        if (from[1].revents && !hear_some(r.err, a->complained, COMPLAINED - 1, &complained)) from[1].fd = -1;
    }
    a->complained[complained] = 0;
    close(r.out), close(r.err);
}

/* Where it has a group of its own, until all of that have ended: a program may outlive its shell. */
void hear(struct running r, struct answer *a, struct death d)
{
    listen_to(r, a, d);
    waitpid(r.pid, &a->status, 0);
    while (waitpid(-r.pid, NULL, 0) > 0)
        ;
    a->ended = now();
}

void give(const struct change *c, const char *file, struct setting s, struct answer *a)
{
    a->began = now();
    hear(begin(c, file, s), a, (struct death){.victim = NOBODY_DIES});
}
