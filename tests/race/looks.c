/* A reader that reads FILE all the time: each time it must find a whole, sound file. What it saw when it changed is kept, and the
 * order must explain that too. */
#include "race.h"
#include <poll.h>
#include <string.h>
#include <sys/inotify.h>
#include <sys/resource.h>
#include <unistd.h>

static void forget_news(int news)
{
    char text[4096];
    while (read(news, text, sizeof text) > 0)
        ;
}

static struct look *last_of(struct looks *l, struct look *look) { return l->count > 0 ? &look[l->count - 1] : NULL; }

static void keep_look(struct looks *l, struct look *look, const struct look *seen)
{
    if (l->count < LOOKS) look[l->count++] = *seen;
}

static void check_look(struct looks *l, const uint8_t *bytes, size_t len)
{
    static struct view v;
    uint8_t number = read_file(bytes, len, &v);
    if (number == 0) return;
    if (l->unsound++ == 0) l->number = number, l->bad_len = len;
}

/* The first time that it is seen so, and the last. */
static void look_once(const char *file, struct looks *l, struct look *look, struct look *same)
{
    static struct look seen;
    static uint8_t bytes[FILE_MAX];
    seen.began = now();
    if (!get_bytes(file, bytes, sizeof bytes, &seen.len)) seen.len = 0;
    seen.ended = now();
    l->reads++;
    if (seen.len > LOOK_BYTES) { /* too long to be kept */
        check_look(l, bytes, seen.len);
        return;
    }
    memcpy(seen.bytes, bytes, seen.len);
    struct look *last = last_of(l, look);
    if (last && last->len == seen.len && memcmp(last->bytes, seen.bytes, seen.len) == 0) {
        *same = seen;
        return;
    }
    if (last && same->ended > last->ended) keep_look(l, look, same);
    check_look(l, bytes, seen.len);
    keep_look(l, look, &seen);
}

void keep_looking(const char *file, struct looks *l, struct look *look)
{
    struct look same = {.ended = 0};
    char folder[4096];
    snprintf(folder, sizeof folder, "%s", file);
    *strrchr(folder, '/') = 0;
    int news = inotify_init1(IN_NONBLOCK | IN_CLOEXEC);
    if (news >= 0) inotify_add_watch(news, folder, IN_MOVED_TO | IN_MODIFY | IN_CLOSE_WRITE);
    setpriority(PRIO_PROCESS, 0, -10); /* where that is allowed: it should miss little */
    while (!l->over) {
        struct pollfd from = {news, POLLIN, 0};
        poll(&from, 1, 1);
        if (from.revents) forget_news(news);
        look_once(file, l, look, &same);
    }
    look_once(file, l, look, &same);
}
