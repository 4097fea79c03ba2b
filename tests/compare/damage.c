/* Board files: a sound board's own, and one for every fault that the reader must find.
 *
 * A fault of a record is made in the parts, which are then packed with a right trailer, so that it is the file's
 * only fault; a fault of the frame is made in the packed bytes. Counted from the end, the role distance and the edge
 * distance stand at the same places in HH and HR. */
#include "compare.h"
#include <string.h>

enum { ROLE_AT = 4, EDGE_AT = 6, RIGHTS_AT = 8 }; /* distances, counted from the end */

struct made {
    bool hr;
    size_t roles, edges;
    uint8_t role[128], right[128];
    uint8_t edge[4200][3];
};

static void take_apart(const struct model *m, struct made *p)
{
    p->roles = p->edges = 0;
    p->hr = !founders_alone(m);
    for (int x = 0; x < ROLES; x++) {
        if (m->live[x]) p->right[p->roles] = m->rights[x], p->role[p->roles++] = x;
        for (int y = 0; y < ROLES; y++) {
            if (m->kind[x][y] == 0) continue;
            uint8_t *e = p->edge[p->edges++];
            e[0] = x, e[1] = y, e[2] = m->kind[x][y];
        }
    }
}

static void put16(uint8_t *at, size_t n) { at[0] = n & 255, at[1] = n >> 8; }

/* The trailer behind so many bytes, with distances that fit them. The file's length. */
static size_t close_hh(uint8_t *file, size_t roles, size_t edges)
{
    size_t len = roles + 3 * edges + HH_TRAILER;
    put16(file + len - EDGE_AT, 3 * edges);
    put16(file + len - ROLE_AT, len - HH_TRAILER);
    memcpy(file + len - 2, "HH", 2);
    return len;
}

static size_t close_hr(uint8_t *file, size_t roles, size_t edges)
{
    size_t len = 2 * roles + 3 * edges + HR_TRAILER;
    put16(file + len - RIGHTS_AT, roles);
    put16(file + len - EDGE_AT, edges == 0 ? 0 : roles + 3 * edges);
    put16(file + len - ROLE_AT, len - HR_TRAILER);
    memcpy(file + len - 2, "HR", 2);
    return len;
}

static size_t pack(const struct made *p, uint8_t *file)
{
    memcpy(file, p->role, p->roles);
    memcpy(file + p->roles, p->edge, 3 * p->edges);
    if (!p->hr) return close_hh(file, p->roles, p->edges);
    memcpy(file + p->roles + 3 * p->edges, p->right, p->roles);
    return close_hr(file, p->roles, p->edges);
}

static void insert_role(struct made *p, size_t at, uint8_t role)
{
    memmove(p->right + at + 1, p->right + at, p->roles - at);
    memmove(p->role + at + 1, p->role + at, p->roles++ - at);
    p->role[at] = role;
    p->right[at] = below(ALL_RIGHTS + 1);
}

/* An edge record at its place in the order, after an equal pair. */
static void insert_edge(struct made *p, uint8_t senior, uint8_t junior, uint8_t kind)
{
    size_t at = 0;
    while (at < p->edges && p->edge[at][0] * 256 + p->edge[at][1] <= senior * 256 + junior) at++;
    memmove(p->edge + at + 1, p->edge + at, 3 * (p->edges++ - at));
    p->edge[at][0] = senior, p->edge[at][1] = junior, p->edge[at][2] = kind;
}

static void swap_edges(struct made *p, size_t at)
{
    uint8_t e[3];
    memcpy(e, p->edge[at], 3);
    memcpy(p->edge[at], p->edge[at + 1], 3);
    memcpy(p->edge[at + 1], e, 3);
}

static uint8_t any_listed(const struct made *p) { return p->role[below(p->roles)]; }
static uint8_t any_kind(void) { return 1 + below(3); }

/* A number that is no role of the board. */
static uint8_t unlisted(const struct view *v)
{
    for (int k = 0; k < 20; k++) {
        int r = chance(70) ? below(ROLES) : ROLES + below(256 - ROLES);
        if (r >= ROLES || !v->board.live[r]) return r;
    }
    return ROLES;
}

/* ---- faults of records: false where the board has no place for this one */

static bool first_not_0(struct made *p, struct view *v)
{
    (void)v;
    if (p->roles > 1 && chance(70)) memmove(p->right, p->right + 1, p->roles), memmove(p->role, p->role + 1, --p->roles);
    else p->role[0] = 1 + below(p->roles > 1 && p->role[1] > 1 ? p->role[1] - 1 : 255);
    return true;
}

static bool role_above_63(struct made *p, struct view *v)
{
    uint8_t above = chance(50) ? ROLES : ROLES + below(256 - ROLES);
    (void)v;
    if (p->roles > 1 && chance(50)) p->role[p->roles - 1] = above;
    else if (p->roles < ROLES) insert_role(p, p->roles, above);
    else return false;
    return true;
}

static bool roles_out_of_order(struct made *p, struct view *v)
{
    (void)v;
    if (p->roles < 3) return false;
    size_t at = 1 + below(p->roles - 2);
    uint8_t role = p->role[at];
    p->role[at] = p->role[at + 1], p->role[at + 1] = role;
    return true;
}

static bool equal_role(struct made *p, struct view *v)
{
    (void)v;
    if (p->roles == ROLES) return false;
    size_t at = below(p->roles);
    insert_role(p, at, p->role[at]);
    return true;
}

static bool senior_not_listed(struct made *p, struct view *v)
{
    uint8_t senior = unlisted(v), junior = any_listed(p);
    insert_edge(p, senior, junior, any_kind());
    return true;
}

static bool junior_not_listed(struct made *p, struct view *v)
{
    uint8_t senior = any_listed(p), junior = unlisted(v);
    insert_edge(p, senior, junior, any_kind());
    return true;
}

static bool edge_to_itself(struct made *p, struct view *v)
{
    uint8_t r = any_listed(p);
    (void)v;
    insert_edge(p, r, r, any_kind());
    return true;
}

static bool kind_0(struct made *p, struct view *v)
{
    (void)v;
    if (p->edges == 0) return false;
    p->edge[below(p->edges)][2] = 0;
    return true;
}

static bool kind_above_3(struct made *p, struct view *v)
{
    (void)v;
    if (p->edges == 0) return false;
    size_t at = below(p->edges);
    p->edge[at][2] = chance(50) ? 4 : 4 + below(252);
    return true;
}

static bool swap_where(struct made *p, bool same_senior)
{
    if (p->edges < 2) return false;
    size_t at = below(p->edges - 1);
    for (size_t k = 0; k < p->edges - 1; k++, at = (at + 1) % (p->edges - 1)) {
        if ((p->edge[at][0] == p->edge[at + 1][0]) != same_senior) continue;
        swap_edges(p, at);
        return true;
    }
    return false;
}

static bool seniors_out_of_order(struct made *p, struct view *v) { return (void)v, swap_where(p, false); }
static bool juniors_out_of_order(struct made *p, struct view *v) { return (void)v, swap_where(p, true); }

static bool equal_pair(struct made *p, bool same_kind)
{
    if (p->edges == 0) return false;
    const uint8_t *e = p->edge[below(p->edges)];
    insert_edge(p, e[0], e[1], same_kind ? e[2] : e[2] % 3 + 1);
    return true;
}

static bool equal_edge(struct made *p, struct view *v) { return (void)v, equal_pair(p, true); }
static bool pair_of_other_kind(struct made *p, struct view *v) { return (void)v, equal_pair(p, false); }

static bool with_loop(struct made *p, struct view *v)
{
    for (int k = 0; k < 30; k++) {
        uint8_t x = any_listed(p), y = any_listed(p);
        if (x >= ROLES || y >= ROLES || !v->reaches[x][y]) continue; /* an earlier fault may list such a number */
        insert_edge(p, y, x, any_kind());
        return true;
    }
    return false;
}

static bool lone_role(struct made *p, struct view *v)
{
    uint8_t r = below(ROLES);
    size_t at = 0;
    if (v->board.live[r]) return false;
    while (at < p->roles && p->role[at] < r) at++;
    insert_role(p, at, r);
    return true;
}

static bool drawn_unmanaged(struct made *p, struct view *v)
{
    if (!draw_unmanaged(v, 12)) return false;
    if (p->hr) hr_rights(&v->board);
    else hh_rights(&v->board);
    take_apart(&v->board, p);
    return true;
}

static bool loop_and_unmanaged(struct made *p, struct view *v) { return drawn_unmanaged(p, v) && with_loop(p, v); }

static bool more_edges_than_can_be(struct made *p, struct view *v)
{
    (void)v; /* 61 roles leave room for 2,017 edges: fine records, and so a loop */
    p->roles = p->edges = 0;
    for (int r = 0; r < 61; r++) insert_role(p, r, r);
    p->right[60] = 1;
    for (int x = 0; x < 61; x++)
        for (int y = 0; y < 61; y++) {
            if (x == y || p->edges == EDGES + 1) continue;
            uint8_t *e = p->edge[p->edges++];
            e[0] = x, e[1] = y, e[2] = any_kind();
        }
    return true;
}

/* ---- of rights, in an HR file */

static bool right_above_31(struct made *p, struct view *v)
{
    uint8_t *right = &p->right[below(p->roles)];
    (void)v;
    if (!p->hr) return false;
    *right = chance(40) ? *right | 32 << below(3) : chance(50) ? ALL_RIGHTS + 1 : ALL_RIGHTS + 1 + below(255 - ALL_RIGHTS);
    return true;
}

static bool rights_of_hh(struct made *p, struct view *v)
{
    (void)v;
    if (!p->hr) return false;
    memset(p->right, 0, p->roles);
    p->right[0] = ALL_RIGHTS;
    return true;
}

/* What comes after the rights is wrong, too. */
static bool bad_rights_and_board(struct made *p, struct view *v)
{
    if (!(chance(50) ? with_loop(p, v) : lone_role(p, v))) return false;
    return chance(50) ? right_above_31(p, v) : rights_of_hh(p, v);
}

static bool the_fullest(struct made *p, struct view *v)
{
    bool hr = p->hr;
    draw_full(v, chance(50));
    if (hr) hr_rights(&v->board);
    else hh_rights(&v->board);
    take_apart(&v->board, p);
    return true;
}

static bool as_it_is(struct made *p, struct view *v) { return (void)p, (void)v, true; }

static bool two_faults(struct made *p, struct view *v);

/* ---- faults of the frame, in a file of len bytes: the new length, 0 where there is no place */

static bool is_hr(const uint8_t *file, size_t len) { return file[len - 1] == 'R'; }
static size_t edge_bytes(const uint8_t *file, size_t len) { return distance(file + len - EDGE_AT); } /* of HH */

static size_t cut(uint8_t *file, size_t len)
{
    size_t keep = 1 + below(HH_TRAILER - 1);
    if (chance(50)) memmove(file, file + len - keep, keep);
    return keep;
}

/* Long enough for HH, but not for HR. */
static size_t cut_hr(uint8_t *file, size_t len)
{
    size_t keep = HH_TRAILER + below(HR_TRAILER - HH_TRAILER);
    memmove(file, file + len - keep, keep);
    if (chance(50)) put16(file + keep - ROLE_AT, chance(50) ? keep - HH_TRAILER : keep - HR_TRAILER);
    if (chance(50)) put16(file + keep - EDGE_AT, 0);
    return keep;
}

/* Role bytes, edge records of different pairs and perhaps rights, so that of a file too long all else is right. */
static void fill(uint8_t *file, size_t roles, size_t edges, bool hr)
{
    uint8_t *e = file + roles, *end = e + 3 * edges;
    for (size_t r = 0; r < roles; r++) file[r] = r;
    for (size_t x = 0; x < roles; x++)
        for (size_t y = 0; y < roles; y++) {
            if (x == y || e == end) continue;
            e[0] = x, e[1] = y, e[2] = any_kind();
            e += 3;
        }
    for (size_t r = 0; r < roles && hr; r++) end[r] = r == 0 ? 1 : below(ALL_RIGHTS + 1);
}

static size_t too_long(uint8_t *file, size_t len)
{
    static const size_t lengths[] = {HH_MOST + 1, HR_MOST, HR_MOST + 1};
    static unsigned turn; /* so that none of them is rare */
    size_t roles;
    (void)len;
    len = chance(90) ? lengths[turn++ % 3] : HH_MOST + (size_t)1 + below(150);
    for (roles = ROLES; (len - HH_TRAILER - roles) % 3 != 0; roles--) {}
    fill(file, roles, (len - HH_TRAILER - roles) / 3, false);
    return close_hh(file, roles, (len - HH_TRAILER - roles) / 3);
}

static size_t too_long_hr(uint8_t *file, size_t len)
{
    size_t more = chance(60) ? 1 : 1 + below(150), roles;
    (void)len;
    len = HR_MOST + more;
    for (roles = ROLES; (len - HR_TRAILER - 2 * roles) % 3 != 0; roles--) {}
    fill(file, roles, (len - HR_TRAILER - 2 * roles) / 3, true);
    return close_hr(file, roles, (len - HR_TRAILER - 2 * roles) / 3);
}

static size_t far_too_long(uint8_t *file, size_t len)
{
    memmove(file + 65536, file, len); /* its distances are right for 16 bits of its length */
    memset(file, 0, 65536);
    return 65536 + len;
}

static size_t bad_ending(uint8_t *file, size_t len)
{
    size_t at = len - 1 - below(2);
    file[at] ^= 1 + below(255);
    return len;
}

static size_t bad_role_distance(uint8_t *file, size_t len)
{
    size_t right = distance(file + len - ROLE_AT), wrong = chance(60) ? right + (chance(50) ? 1 : -1) : (size_t)below(65536);
    if (chance(20)) wrong = right + 256;
    if (chance(20)) wrong = is_hr(file, len) ? len - HH_TRAILER : len - HR_TRAILER;
    if ((wrong & 65535) == right) return 0;
    put16(file + len - ROLE_AT, wrong);
    return len;
}

static size_t bytes_before(uint8_t *file, size_t len)
{
    size_t more = 1 + below(3); /* the trailer no longer reaches the start */
    memmove(file + more, file, len);
    memset(file, 0, more);
    return len + more <= HH_MOST ? len + more : 0;
}

static size_t far_edge_distance(uint8_t *file, size_t len)
{
    size_t least = (len - HH_TRAILER) / 3 * 3 + 3;
    put16(file + len - EDGE_AT, least + 3 * (chance(50) ? 0 : below((65535 - least) / 3)));
    return len;
}

static size_t no_multiple_of_3(uint8_t *file, size_t len)
{
    int off = 1 + below(2);
    size_t wrong = edge_bytes(file, len) + (chance(50) ? -off : off);
    if (wrong > len - HH_TRAILER) return 0;
    put16(file + len - EDGE_AT, wrong);
    return len;
}

static size_t no_role(uint8_t *file, size_t len)
{
    size_t edges = edge_bytes(file, len), roles = len - HH_TRAILER - edges;
    memmove(file, file + roles, edges);
    return close_hh(file, 0, edges / 3);
}

static size_t too_many_roles(uint8_t *file, size_t len)
{
    size_t body = len - HH_TRAILER, edges = edge_bytes(file, len);
    if (body > ROLES && chance(70)) { /* edge records taken for role bytes */
        while (body - edges <= ROLES) edges -= 3;
        if (chance(50)) edges -= 3 * below(edges / 3 + 1);
        put16(file + len - EDGE_AT, edges);
        return len;
    }
    body = ROLES + 1 + below(4);
    for (size_t r = 0; r < body; r++) file[r] = r;
    return close_hh(file, body, 0);
}

/* ---- and of HR's own, where the parts of a right one are */

struct hr {
    size_t all, roles, edges; /* the role distance; the edges in bytes */
};

static struct hr hr_of(const uint8_t *file, size_t len)
{
    size_t all = len - HR_TRAILER, roles = distance(file + len - RIGHTS_AT);
    return (struct hr){all, roles, all - 2 * roles};
}

/* Another number of roles, with the edge distance that it would have. */
static size_t say_roles(uint8_t *file, size_t len, size_t roles)
{
    struct hr h = hr_of(file, len);
    put16(file + len - RIGHTS_AT, roles);
    put16(file + len - EDGE_AT, h.all == 2 * roles ? 0 : h.all - roles);
    return len;
}

static size_t hr_no_role(uint8_t *file, size_t len)
{
    struct hr h = hr_of(file, len);
    if (chance(30)) return say_roles(file, len, 0) * (h.all % 3 == 0);
    memmove(file, file + h.roles, h.edges);
    return close_hr(file, 0, h.edges / 3);
}

static size_t hr_too_many_roles(uint8_t *file, size_t len)
{
    size_t roles = ROLES + 1 + (chance(50) ? 0 : below(4)), edges = chance(30) ? 0 : below(200);
    (void)len;
    fill(file, roles, edges, true);
    return close_hr(file, roles, edges);
}

static size_t hr_more_than_half(uint8_t *file, size_t len)
{
    struct hr h = hr_of(file, len);
    size_t roles = h.all / 2 + 1 + below(3);
    if (roles > ROLES) return 0;
    say_roles(file, len, roles);
    if (chance(30)) put16(file + len - EDGE_AT, 0);
    return len;
}

static size_t hr_no_whole_records(uint8_t *file, size_t len)
{
    struct hr h = hr_of(file, len);
    size_t roles = h.roles + 1 + below(2) - (chance(50) ? 3 : 0);
    if (roles < 1 || roles > ROLES || 2 * roles > h.all) return 0;
    say_roles(file, len, roles);
    if (chance(50)) put16(file + len - EDGE_AT, roles + (h.all - 2 * roles) / 3 * 3); /* of those that are whole */
    return len;
}

/* Whole records again: three roles more or less, and two records. */
static size_t hr_other_roles(uint8_t *file, size_t len)
{
    struct hr h = hr_of(file, len);
    size_t roles = h.roles + 3 - (chance(50) ? 6 : 0);
    if (roles < 1 || roles > ROLES || 2 * roles > h.all) return 0;
    return say_roles(file, len, roles);
}

static size_t hr_edge_distance(uint8_t *file, size_t len)
{
    struct hr h = hr_of(file, len);
    size_t right = h.edges + h.roles, wrong;
    if (h.edges == 0) return 0;
    switch (below(6)) {
    case 0: wrong = right + (chance(50) ? 1 : -1); break;
    case 1: wrong = right + (chance(50) ? 3 : -3); break;
    case 2: wrong = h.edges; break; /* as HH has it */
    case 3: wrong = h.all; break;
    case 4: wrong = right + 256; break;
    default: wrong = 1 + below(65535);
    }
    if (wrong == right) return 0;
    put16(file + len - EDGE_AT, wrong);
    return len;
}

static size_t hr_edges_at_0(uint8_t *file, size_t len)
{
    if (hr_of(file, len).edges == 0) return 0;
    put16(file + len - EDGE_AT, 0);
    return len;
}

/* No edge, and yet a distance to it. */
static size_t hr_no_edges(uint8_t *file, size_t len)
{
    size_t roles = chance(50) ? 1 : 1 + below(ROLES);
    fill(file, roles, 0, true);
    len = close_hr(file, roles, 0);
    put16(file + len - EDGE_AT, chance(60) ? roles : chance(50) ? 2 * roles : (size_t)1 + below(65535));
    return len;
}

/* The other file's last two bytes, and at times a role distance to go with them. */
static size_t other_ending(uint8_t *file, size_t len)
{
    bool hr = is_hr(file, len);
    file[len - 1] = hr ? 'H' : 'R';
    if (!hr && len >= HR_TRAILER && chance(50)) put16(file + len - ROLE_AT, len - HR_TRAILER);
    return len;
}

/* The rights and their distance are taken for edge records. */
static size_t hr_closed_as_hh(uint8_t *file, size_t len)
{
    size_t roles = hr_of(file, len).roles, body = len - HH_TRAILER;
    file[len - 1] = 'H';
    put16(file + len - ROLE_AT, body);
    put16(file + len - EDGE_AT, chance(50) ? body - roles : (body - roles) / 3 * 3);
    return len;
}

/* HR files about as long as the longest HH: of 64 roles, and of 63, where so many edges make a loop. */
static size_t hr_of_6118(uint8_t *file, size_t len)
{
    uint8_t *e = file + ROLES;
    size_t edges = (HH_MOST - HR_TRAILER - 2 * ROLES) / 3;
    (void)len;
    fill(file, ROLES, edges, true);
    for (int x = 0; x < ROLES; x++)
        for (int y = x + 1; y < ROLES; y++) {
            if (e == file + ROLES + 3 * edges) continue;
            e[0] = x, e[1] = y, e[2] = any_kind();
            e += 3;
        }
    return close_hr(file, ROLES, edges);
}

static size_t hr_of_6119(uint8_t *file, size_t len)
{
    size_t roles = ROLES - 1, edges = (HH_MOST + 1 - HR_TRAILER - 2 * roles) / 3;
    (void)len;
    fill(file, roles, edges, true);
    return close_hr(file, roles, edges);
}

static size_t noisy(uint8_t *file, size_t len)
{
    for (int k = 1 + below(3); k > 0; k--) {
        size_t at = chance(40) && len > 8 ? len - 1 - below(8) : (size_t)below(len);
        file[at] = chance(50) ? file[at] ^ 1 << below(8) : chance(50) ? below(8) : below(256);
    }
    if (chance(10)) len -= below(len < 8 ? len : 8);
    return len;
}

static size_t pure_noise(uint8_t *file, size_t len)
{
    len = 1 + below(40);
    for (size_t k = 0; k < len; k++) file[k] = chance(50) ? below(4) : below(256);
    if (len >= HR_TRAILER && chance(40)) {
        size_t all = len - HR_TRAILER;
        memcpy(file + len - 2, "HR", 2);
        put16(file + len - ROLE_AT, all);
        if (chance(80)) say_roles(file, len, below(all / 2 + 1));
    } else if (len >= HH_TRAILER && chance(80)) {
        memcpy(file + len - 2, "HH", 2);
        put16(file + len - ROLE_AT, len - HH_TRAILER);
        if (chance(80)) put16(file + len - EDGE_AT, 3 * below((len - HH_TRAILER) / 3 + 1));
    }
    return len;
}

/* ---- the list */

const struct damage damages[] = {
    {"empty", 10, ONLY_HH, as_it_is, NULL, false},
    {"as written", 0, EITHER, as_it_is, NULL, false},
    {"the fullest board", 0, EITHER, the_fullest, NULL, true},
    {"HR of 6,118 bytes", 0, ONLY_HR, as_it_is, hr_of_6118, true},
    {"length below 6", 10, EITHER, as_it_is, cut, false},
    {"length above 6,118", 10, ONLY_HH, as_it_is, too_long, false},
    {"a whole file after 65,536 bytes", 10, EITHER, as_it_is, far_too_long, true},
    {"last bytes neither HH nor HR", 10, EITHER, as_it_is, bad_ending, false},
    {"the other file's last bytes", 10, EITHER, as_it_is, other_ending, false},
    {"role distance not to the first", 10, EITHER, as_it_is, bad_role_distance, false},
    {"bytes before the first role", 10, EITHER, as_it_is, bytes_before, false},
    {"edge distance above role distance", 10, ONLY_HH, as_it_is, far_edge_distance, false},
    {"edge distance no multiple of 3", 10, ONLY_HH, as_it_is, no_multiple_of_3, false},
    {"no role", 10, ONLY_HH, as_it_is, no_role, false},
    {"more than 64 roles", 10, ONLY_HH, as_it_is, too_many_roles, false},
    {"length below 8", 10, ONLY_HR, as_it_is, cut_hr, false},
    {"length above 6,184", 10, ONLY_HR, as_it_is, too_long_hr, false},
    {"rights distance 0", 10, ONLY_HR, as_it_is, hr_no_role, false},
    {"rights distance above 64", 10, ONLY_HR, as_it_is, hr_too_many_roles, false},
    {"rights distance more than half", 10, ONLY_HR, as_it_is, hr_more_than_half, false},
    {"rights distance, no whole records", 10, ONLY_HR, as_it_is, hr_no_whole_records, false},
    {"edge distance not to the first", 10, ONLY_HR, as_it_is, hr_edge_distance, false},
    {"edge distance 0, edges stand", 10, ONLY_HR, as_it_is, hr_edges_at_0, false},
    {"edge distance, no edge stands", 10, ONLY_HR, as_it_is, hr_no_edges, false},
    {"first role isn't 0", 11, EITHER, first_not_0, NULL, false},
    {"role above 63", 11, EITHER, role_above_63, NULL, false},
    {"roles not ascending", 11, EITHER, roles_out_of_order, NULL, false},
    {"equal role", 11, EITHER, equal_role, NULL, false},
    {"senior not listed", 11, EITHER, senior_not_listed, NULL, false},
    {"junior not listed", 11, EITHER, junior_not_listed, NULL, false},
    {"edge to itself", 11, EITHER, edge_to_itself, NULL, false},
    {"kind 0", 11, EITHER, kind_0, NULL, false},
    {"kind above 3", 11, EITHER, kind_above_3, NULL, false},
    {"seniors out of order", 11, EITHER, seniors_out_of_order, NULL, false},
    {"juniors out of order", 11, EITHER, juniors_out_of_order, NULL, false},
    {"equal pair, same kind", 11, EITHER, equal_edge, NULL, false},
    {"equal pair, other kind", 11, EITHER, pair_of_other_kind, NULL, false},
    {"rights byte above 31", 11, ONLY_HR, right_above_31, NULL, false},
    {"the rights that HH means", 11, ONLY_HR, rights_of_hh, NULL, false},
    {"bad rights, and 7 or 9", 11, ONLY_HR, bad_rights_and_board, NULL, false},
    {"loop", 7, EITHER, with_loop, NULL, false},
    {"2,017 edges", 7, EITHER, more_edges_than_can_be, NULL, true},
    {"HR of 6,119 bytes", 7, ONLY_HR, as_it_is, hr_of_6119, true},
    {"loop, and no administrator", 7, EITHER, loop_and_unmanaged, NULL, false},
    {"role without edges", 9, EITHER, lone_role, NULL, false},
    {"no administrator", 9, EITHER, drawn_unmanaged, NULL, false},
    {"two faults of records", ANY_NUMBER, EITHER, two_faults, NULL, false},
    {"two faults, one of the frame", 10, EITHER, two_faults, bad_ending, false},
    {"three roles more or less", ANY_NUMBER, ONLY_HR, as_it_is, hr_other_roles, false},
    {"HR with HH's distances", ANY_NUMBER, ONLY_HR, as_it_is, hr_closed_as_hh, false},
    {"some bytes changed", ANY_NUMBER, EITHER, as_it_is, noisy, false},
    {"noise", ANY_NUMBER, ONLY_HH, as_it_is, pure_noise, false},
};
const int damage_count = sizeof damages / sizeof damages[0];

/* The order of refusals shows only where two hold at once. */
static bool two_faults(struct made *p, struct view *v)
{
    static bool (*const faults[])(struct made *, struct view *) = {
        first_not_0, role_above_63, roles_out_of_order,   equal_role,           senior_not_listed, junior_not_listed,
        kind_0,      kind_above_3,  seniors_out_of_order, juniors_out_of_order, equal_edge,        pair_of_other_kind,
        with_loop,   lone_role,     edge_to_itself,       right_above_31,       rights_of_hh,
    };
    for (int k = 0; k < 2; k++) {
        int fault = below(sizeof faults / sizeof faults[0] - (p->hr ? 0 : 2)); /* HH has no rights to spoil */
        if (!faults[fault](p, v)) return false;
    }
    return true;
}

size_t make_file(int damage, struct view *v, uint8_t *file)
{
    static struct made p;
    static bool hr[MOST_DAMAGES]; /* HR and HH by turns, so that neither is rare where the damage is */
    enum mark mark = damages[damage].mark;
    if (damage == EMPTY) return 0;
    if (mark == EITHER) hr[damage] = !hr[damage];
    if (mark == ONLY_HR || (damage != AS_WRITTEN && hr[damage])) hr_rights(&v->board);
    else if (damage != AS_WRITTEN) hh_rights(&v->board);
    take_apart(&v->board, &p);
    if (!damages[damage].record(&p, v)) return 0;
    size_t len = pack(&p, file);
    if (damages[damage].frame != NULL) return damages[damage].frame(file, len);
    return len <= (p.hr ? HR_MOST : HH_MOST) && p.roles <= ROLES ? len : 0;
}
