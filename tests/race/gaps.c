/* Between which looks of the reader a change lies: by the clock, by the changes before and after it, and by what the looks show.
 *
 * Gap g lies behind look g - 1 and before look g. Where something differs between the two looks, a change in that gap made it so; and
 * where only one change can have, it lies there. That may leave only one for something else, and so on. */
#include "race.h"
#include <stdlib.h>
#include <string.h>

enum { MANY = WORKERS * OF_ONE, SHOWN = 1 << 15 };
static struct event *all[MANY];
static struct means means[MANY];
static int count;
static struct shown {
    int gap;
    struct flip flip;
} shown[SHOWN];
static int showns;

static void find_all(struct race *race)
{
    count = 0;
    for (int lane = 0; lane < LANES - 1; lane++)
        for (int k = 0; k < race->lane[lane].count; k++) all[count++] = &race->lane[lane].event[k];
    for (int k = 0; k < race->perhaps; k++) all[count++] = &race->killed[k];
    memset(means, 0, sizeof means);
    for (int k = 0; k < count; k++) add_event(&means[k], all[k]);
}

static void by_clock(const struct lane *looks)
{
    for (int k = 0; k < count; k++) {
        struct event *e = all[k];
        e->lo = 0, e->hi = looks->count - 1, e->shows = -1, e->needed = false;
        for (int g = 0; g < looks->count; g++) {
            if (looks->event[g].ended < e->began) e->lo = g + 1;
            if (looks->event[g].began > e->ended && g < e->hi) e->hi = g;
        }
    }
}

static void find_shown(const struct lane *looks)
{
    static struct view before, after;
    static struct flip flip[FLIPS];
    showns = 0;
    for (int g = 1; g < looks->count; g++) {
        const struct look *was = looks->event[g - 1].look, *is = looks->event[g].look;
        if (was->len == is->len && memcmp(was->bytes, is->bytes, is->len) == 0) continue;
        read_file(was->bytes, was->len, &before);
        read_file(is->bytes, is->len, &after);
        int flips = flips_between(&before.board, &after.board, flip);
        for (int k = 0; k < flips && showns < SHOWN; k++) shown[showns++] = (struct shown){g, flip[k]};
    }
}

/* What ended before another began comes before it. The killed ones bind nobody: they may not have been made. */
static bool by_neighbours(int mandatory)
{
    bool news = false;
    for (int k = 0; k < mandatory; k++)
        for (int j = 0; j < mandatory; j++) {
            if (all[k]->ended >= all[j]->began) continue;
            if (all[j]->lo < all[k]->lo) all[j]->lo = all[k]->lo, news = true;
            if (all[k]->hi > all[j]->hi) all[k]->hi = all[j]->hi, news = true;
        }
    return news;
}

static bool by_looks(void)
{
    bool news = false;
    for (int s = 0; s < showns; s++) {
        int gap = shown[s].gap, who = -1, others = 0;
        for (int k = 0; k < count && others < 2; k++)
            if (all[k]->lo <= gap && gap <= all[k]->hi && may_flip(&means[k], &shown[s].flip)) who = k, others++;
        if (others != 1 || (all[who]->needed && all[who]->lo == all[who]->hi)) continue;
        all[who]->lo = all[who]->hi = gap;
        all[who]->needed = news = true;
    }
    return news;
}

static void find_last_shown(void)
{
    for (int s = 0; s < showns; s++)
        for (int k = 0; k < count; k++)
            if (all[k]->shows < shown[s].gap && all[k]->lo <= shown[s].gap && shown[s].gap <= all[k]->hi && may_flip(&means[k], &shown[s].flip))
                all[k]->shows = shown[s].gap;
}

void find_gaps(struct race *race)
{
    struct lane *looks = &race->lane[LANES - 1];
    for (int g = 0; g < looks->count; g++) looks->event[g].lo = looks->event[g].hi = g;
    find_all(race);
    by_clock(looks);
    find_shown(looks);
    for (bool news = true; news;) {
        news = by_neighbours(count - race->perhaps);
        news |= by_looks();
    }
    find_last_shown();
}
