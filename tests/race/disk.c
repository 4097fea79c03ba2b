/* A full disk: no room for the lock's data, or none for the lock at all. Nothing is said on standard output, standard error names a file,
 * FILE is as it was and no lock is left. It is a small tmpfs in a mount namespace of our own, which goes with us. */
#define _GNU_SOURCE
#include "race.h"
#include <errno.h>
#include <fcntl.h>
#include <sched.h>
#include <stdlib.h>
#include <string.h>
#include <sys/mount.h>
#include <sys/stat.h>
#include <unistd.h>

enum { PAGE = 4096 }; /* at least: tmpfs counts in pages */
enum room { FULL, ONE_PAGE, NO_INODE };
static char folder[8192], file[8200], lock[8210];
static struct view first;
static long cases;

/* ---- the disk */

static bool own_mounts(void)
{
    if (unshare(CLONE_NEWNS) != 0) return false;
    if (mount("none", "/", NULL, MS_REC | MS_PRIVATE, NULL) != 0) return false;
    mkdir(folder, 0755);
    if (mount("tmpfs", folder, "tmpfs", 0, "size=4m") != 0) return false;
    return umount(folder) == 0;
}

static void fill(void)
{
    static const char page[PAGE];
    char name[8300];
    snprintf(name, sizeof name, "%s/filler", folder);
    int fd = open(name, O_WRONLY | O_CREAT | O_CLOEXEC, 0644);
    while (write(fd, page, PAGE) > 0)
        ;
    close(fd);
}

/* Takes the place that is left, but for a page where that is asked, or else the inodes. */
static void crowd(enum room room)
{
    char name[8300];
    if (room == ONE_PAGE) {
        snprintf(name, sizeof name, "%s/page", folder);
        put_bytes(name, (const uint8_t *)"x", 1);
    }
    fill();
    if (room == ONE_PAGE) unlink(name);
    for (int k = 0, fd; room == NO_INODE; k++) {
        snprintf(name, sizeof name, "%s/%d", folder, k);
        if ((fd = open(name, O_WRONLY | O_CREAT | O_CLOEXEC, 0644)) < 0) break;
        close(fd);
    }
}

/* ---- the cases */

static const char *judge_full(const struct answer *a, bool there, const uint8_t *bytes, size_t len)
{
    if (a->said_len > 0) return "something is said on standard output";
    if (!strstr(a->complained, "board")) return "standard error names no file";
    if (there && !holds_bytes(file, bytes, len)) return "the file isn't as it was";
    if (!there && exists(file)) return "there is a file now";
    return exists(lock) ? "a lock is left" : NULL;
}

static void with_disk(const char *name, enum room room, bool there, const struct change *c, const char *said)
{
    static struct asked a;
    uint8_t bytes[FILE_MAX];
    size_t len = put_file(&first.board, bytes);
    if (mount("tmpfs", folder, "tmpfs", 0, "size=256k,nr_inodes=12") != 0) perror("mount"), exit(2);
    if (there) put_bytes(file, bytes, len);
    crowd(room);
    a.change = *c;
    give(c, file, (struct setting){0}, &a.answer);
    const char *fault = NULL;
    a.answer.said[a.answer.said_len] = 0;
    if (!said) fault = judge_full(&a.answer, there, bytes, len);
    else if (strcmp(a.answer.said, said) != 0 || !holds_bytes(file, bytes, len) || exists(lock)) fault = "it isn't refused as it should be";
    if (fault) disagree("disk, %s: %s", name, fault), write_log(stdout, &a, 1, a.answer.began);
    umount2(folder, MNT_DETACH);
    cases++;
}

/* 64 roles and 2,016 edges: its file has two pages. */
static void lay_longest(void)
{
    found(&first.board);
    for (int x = 0; x < ROLES; x++) {
        first.board.live[x] = true;
        first.board.rights[x] = ALL_RIGHTS;
        for (int y = x + 1; y < ROLES; y++) first.board.kind[x][y] = 3;
    }
}

static void all_cases(void)
{
    static struct change c, no, run, founding = {.way = FOUNDING};
    struct command add = {.code = ADD_ROLE, .actor = 0, .role = 2, .i_seniors = 1};
    found(&first.board);
    as_command(&c, add);
    as_command(&no, (struct command){.code = REMOVE_ROLE, .actor = 0, .role = 0});
    as_run(&run, &add, 1);
    with_disk("a command, no room", FULL, true, &c, NULL);
    with_disk("a run, no room", FULL, true, &run, NULL);
    with_disk("a founding, no room", FULL, false, &founding, NULL);
    with_disk("a refusal, no room", FULL, true, &no,
              "refused 6: role 0 is not in the strict scope of role 0, which leaves out role 0 itself\n");
    with_disk("a command, no inode", NO_INODE, true, &c, NULL);
    with_disk("a refusal, no inode", NO_INODE, true, &no, NULL);
    with_disk("a run, no inode", NO_INODE, true, &run, NULL);
    with_disk("a founding, no inode", NO_INODE, false, &founding, NULL);
    lay_longest();
    as_command(&c, (struct command){.code = TAKE_RIGHTS, .actor = 0, .role = 5, .rights = 1});
    with_disk("a command, room for half of the file", ONE_PAGE, true, &c, NULL);
}

void disk(void)
{
    snprintf(folder, sizeof folder, "%s", in_work("disk"));
    snprintf(file, sizeof file, "%s/board", folder);
    snprintf(lock, sizeof lock, "%s.lock", file);
    if (!own_mounts()) {
        printf("disk: skipped, since no tmpfs can be mounted here (%s)\n", strerror(errno));
        return;
    }
    all_cases();
    printf("disk: %ld cases; disagreements %ld\n", cases, counts.disagreements);
}
