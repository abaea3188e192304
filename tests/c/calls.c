/* Includes the header and calls the static library as a control box does. Prints each call that answers otherwise. */
#include "lictor.h"

#include <inttypes.h>
#include <math.h>
#include <stdio.h>
#include <string.h>

static int failed;

#define EXPECT(what)                                      \
    do {                                                  \
        if (!(what)) {                                    \
            printf("calls.c:%d: %s\n", __LINE__, #what);  \
            failed = 1;                                   \
        }                                                 \
    } while (0)

/* lictor_clamp_side: the side, and bit for bit the value of lictor_clamp */
static void sides(void) {
    const struct {
        double x, lo, hi;
        int64_t side;
    } cases[] = {
        /* one step below each limit, on it, and one above */
        {nextafter(1.0, 0.0), 1.0, 2.0, -1}, {1.0, 1.0, 2.0, 0}, {nextafter(1.0, 2.0), 1.0, 2.0, 0},
        {nextafter(2.0, 1.0), 1.0, 2.0, 0}, {2.0, 1.0, 2.0, 0}, {nextafter(2.0, 3.0), 1.0, 2.0, 1},
        /* a zero of either sign on a zero limit */
        {-0.0, 0.0, 1.0, 0}, {0.0, -0.0, 1.0, 0}, {0.0, -1.0, -0.0, 0}, {-0.0, -1.0, 0.0, 0},
        {-0x1p-1074, 0.0, 1.0, -1}, {0x1p-1074, -1.0, -0.0, 1},
        {INFINITY, 1.0, 2.0, 1}, {-INFINITY, 1.0, 2.0, -1}, {INFINITY, 1.0, INFINITY, 0}, {NAN, 1.0, 2.0, 0}, {1.0, NAN, NAN, 0},
        /* crossed limits: the low one is tried first */
        {2.0, 3.0, 1.0, -1}, {3.0, 3.0, 1.0, 1}, {5.0, 3.0, 1.0, 1},
    };
    for (size_t i = 0; i < sizeof cases / sizeof *cases; i++) {
        int64_t side = 7;
        double given = lictor_clamp_side(cases[i].x, cases[i].lo, cases[i].hi, &side), due = lictor_clamp(cases[i].x, cases[i].lo, cases[i].hi);
        EXPECT(side == cases[i].side && memcmp(&given, &due, sizeof given) == 0);
        EXPECT(side != 0 || memcmp(&given, &cases[i].x, sizeof given) == 0);
    }
}

static void numbers(void) {
    double r = 7.0;
    const double v[3] = {3.0, 4.0, INFINITY};
    EXPECT(lictor_min(1.0, 2.0) == 1.0);
    EXPECT(lictor_max(1.0, 2.0) == 2.0);
    EXPECT(lictor_clamp(3.0, 0.0, 2.0) == 2.0);
    sides();
    EXPECT(lictor_sqrt(25.0, &r) == LICTOR_ACCEPTED && r == 5.0);
    EXPECT(lictor_sqrt(-1.0, &r) == LICTOR_COMPUTED && r == 5.0);
    EXPECT(lictor_norm(v, 2, 2, &r) == LICTOR_ACCEPTED && r == 5.0);
    EXPECT(lictor_norm(v, 2, 3, &r) == LICTOR_SHORT);
    EXPECT(lictor_norm(v, 3, 2, &r) == LICTOR_NOT_FINITE);
    EXPECT(lictor_dist(v, 2, v + 1, 1, 1, &r) == LICTOR_ACCEPTED && r == 1.0);
}

static void chunks(void) {
    static double numbers[512];
    struct lictor_chunk_header header = {0, 0, 0, 0, 0, 0};
    const double rows[4] = {1.0, 2.0, 3.0, 4.0};
    double row[2] = {0.0, 0.0};
    EXPECT(lictor_fill(numbers, &header, 7, 9, 2, 2, 1, rows, 3) == LICTOR_LEN_MISMATCH && header.filled == 0);
    EXPECT(lictor_fill(numbers, &header, 7, 9, 2, 2, 1, rows, 4) == LICTOR_ACCEPTED && header.filled == 1);
    EXPECT(header.seq == 7 && header.horizon == 2 && numbers[3] == 4.0);
    EXPECT(lictor_held_rows(numbers, 2, 2, header.filled) == 4);
    EXPECT(lictor_action(numbers, 4, 2, 2, 5, row, 2) == 2 && row[0] == 3.0 && row[1] == 4.0);
    lictor_set_row(numbers, 4, 2, 2, 0, row, 2);
    EXPECT(numbers[0] == 3.0 && numbers[1] == 4.0);
}

/* the scope document: n 3, pushes true, false, true, true: bits 3, hits 2 */
static void windows(void) {
    uint64_t mask = 0, bits = 0;
    EXPECT(lictor_mask(64, &mask) == LICTOR_SIZE && mask == 0);
    EXPECT(lictor_mask(3, &mask) == LICTOR_ACCEPTED && mask == 7);
    bits = lictor_push(bits, 1, mask);
    bits = lictor_push(bits, 0, mask);
    bits = lictor_push(bits, 1, mask);
    bits = lictor_push(bits, 1, mask);
    EXPECT(bits == 3 && lictor_hits(bits) == 2);
}

static void trails(void) {
    static double numbers[256];
    struct lictor_trail_marks marks = {0, 0};
    const double p[2] = {3.0, 4.0}, q[2] = {0.0, 0.0};
    double x = 7.0;
    uint64_t held = 7;
    EXPECT(lictor_trail_is_empty(numbers, &marks, &held) == LICTOR_ACCEPTED && held == 1);
    EXPECT(lictor_trail_push(numbers, &marks, q, 2, 2) == LICTOR_ACCEPTED && marks.head == 1 && marks.len == 1);
    EXPECT(lictor_trail_push(numbers, &marks, p, 2, 2) == LICTOR_ACCEPTED && numbers[8] == 3.0);
    EXPECT(lictor_trail_net(numbers, &marks, 2, 2, &x) == LICTOR_ACCEPTED && x == 5.0);
    EXPECT(lictor_trail_path(numbers, &marks, 2, 2, &x) == LICTOR_ACCEPTED && x == 5.0);
    EXPECT(lictor_trail_len(numbers, &marks, &held) == LICTOR_ACCEPTED && held == 2);
    for (int k = 0; k < 5; k++) {
        const uint64_t past[5] = {32, 255, 256, 257, UINT64_MAX};
        marks.head = past[k];
        EXPECT(lictor_trail_len(numbers, &marks, &held) == LICTOR_SIZE && held == 2);
        EXPECT(lictor_trail_net(numbers, &marks, 2, 2, &x) == LICTOR_SIZE && x == 5.0);
        EXPECT(lictor_trail_is_empty(numbers, &marks, &held) == LICTOR_SIZE && held == 2);
        EXPECT(lictor_trail_push(numbers, &marks, p, 2, 2) == LICTOR_SIZE && lictor_trail_clear(numbers, &marks) == LICTOR_SIZE);
        EXPECT(marks.head == past[k] && marks.len == 2);
        marks.head = 31, marks.len = past[k] + 1;
        EXPECT(lictor_trail_path(numbers, &marks, 2, 2, &x) == (past[k] + 1 > 32 ? LICTOR_SIZE : LICTOR_ACCEPTED));
        marks.len = 2;
    }
    marks.len = 32;
    EXPECT(lictor_trail_len(numbers, &marks, &held) == LICTOR_ACCEPTED && held == 32);
    marks.head = 2;
    EXPECT(lictor_trail_clear(numbers, &marks) == LICTOR_ACCEPTED && marks.head == 0 && marks.len == 0);
}

static double center[192], scale[192];

static void configuration(void) {
    struct lictor_numbers n = {0};
    struct lictor_counts c = {0};
    struct lictor_derived d = {0};
    n.dt = 0.5, n.v_max = n.a_max = n.j_max = n.reach_max = 1.0;
    n.brake_k_v = n.brake_dt = n.norm_scale[0] = 1.0;
    n.box_lo[0] = -1.0, n.box_hi[0] = 2.0, n.margin = 0.25;
    c.dim = c.pos_dim = c.substeps = 1;
    EXPECT(lictor_derive(&n, &c, center, scale, &d) == LICTOR_ACCEPTED);
    EXPECT(d.inv_dt3 == 8.0 && d.step_max == 0.5 && d.box_lo[0] == -0.75 && d.box_hi[0] == 1.75 && d.norm_scale_iso == 1.0);
    c.mask = 4096, c.n_terms = 9, c.terms[0] = UINT64_MAX, n.tau = NAN;
    EXPECT(lictor_derive(&n, &c, center, scale, &d) == LICTOR_ACCEPTED);
    c.calibrated = 1;
    EXPECT(lictor_derive(&n, &c, center, scale, &d) == LICTOR_SIZE);
    c.calibrated = 0, c.kind = 5;
    EXPECT(lictor_derive(&n, &c, center, scale, &d) == LICTOR_MISFIT);
    c.kind = LICTOR_OTHER, n.dt = 0.0;
    EXPECT(lictor_derive(&n, &c, center, scale, &d) == LICTOR_NUMBER && d.inv_dt == 2.0);
}

/* Names the case that fails. */
static int shown(uint64_t at, uint64_t value) {
    printf("%" PRIu64 ": %" PRIu64 "\n", at, value);
    return 0;
}

/* the place of a count among the configuration's 35 */
#define AT(count) (offsetof(struct lictor_counts, count) / sizeof(uint64_t))

/* Both sides of the edge of each count that the table or its field bounds. */
static void widths(void) {
    struct lictor_numbers n = {0};
    struct lictor_derived d;
    const struct lictor_counts good = {
        .dim = 1, .pos_dim = 1, .kind = 4, .contact = 1, .contact_a1 = 1, .substeps = 1, .terms = {1}, .aux_count = 2,
        .calibrated = 1, .mask = 1, .n_terms = 1, .horizon_ticks = 1,
    };
    const uint64_t most = UINT64_MAX, bits = UINT64_C(1) << 32;
    const struct {
        uint64_t at, value, due;
    } cases[] = {
        {AT(dim), 8, 0}, {AT(dim), 9, 1}, {AT(dim), bits + 1, 1}, {AT(dim), most, 1},
        {AT(pos_dim), 8, 0}, {AT(pos_dim), 9, 1}, {AT(pos_dim), bits + 1, 1}, {AT(pos_dim), most, 1},
        {AT(kind), 4, 0}, {AT(kind), 5, 255}, {AT(kind), bits, 255},
        {AT(clamp), 1, 0}, {AT(clamp), 2, 255}, {AT(clamp), bits, 255},
        {AT(brake), 4, 0}, {AT(brake), 5, 255}, {AT(brake), bits, 255},
        {AT(contact), 0, 0}, {AT(contact), 1, 0}, {AT(contact), 5, 1}, {AT(contact), 255, 1}, {AT(contact), 256, 1},
        {AT(contact), 257, 1}, {AT(contact), bits, 1}, {AT(contact), bits + 1, 1}, {AT(contact), most, 1},
        {AT(contact_a0), 1, 4}, {AT(contact_a0), 2, 4}, {AT(contact_a0), 255, 4}, {AT(contact_a0), 256, 4},
        {AT(contact_a0), most, 4},
        {AT(contact_a1), 0, 4}, {AT(contact_a1), 2, 4}, {AT(contact_a1), 255, 4}, {AT(contact_a1), 256, 4},
        {AT(contact_a1), most, 4},
        {AT(substeps), 0, 3}, {AT(substeps), 64, 0}, {AT(substeps), 65, 3}, {AT(substeps), 65535, 3},
        {AT(substeps), 65536, 3}, {AT(substeps), 65537, 3}, {AT(substeps), bits + 1, 3}, {AT(substeps), most, 3},
        {AT(commit), 64, 0}, {AT(commit), 65, 3}, {AT(commit), 65535, 3}, {AT(commit), 65536, 3}, {AT(commit), bits, 3},
        {AT(commit), most, 3},
        {AT(brake_steps), 4096, 0}, {AT(brake_steps), 4097, 3}, {AT(brake_steps), 65535, 3},
        {AT(brake_steps), 65536, 3}, {AT(brake_steps), bits, 3}, {AT(brake_steps), most, 3},
        {AT(react_ticks), 65535, 0}, {AT(react_ticks), 65536, 255}, {AT(react_ticks), most, 255},
        {AT(terms[0]), 64, 0}, {AT(terms[0]), 127, 0}, {AT(terms[0]), 128, 17}, {AT(terms[0]), 256, 0}, {AT(terms[0]), 0xf7f, 0},
        {AT(terms[0]), 4095, 17}, {AT(terms[1]), 128, 0}, {AT(terms[7]), 128, 0}, {AT(terms[0]), 4096, 1}, {AT(terms[0]), 4224, 1},
        {AT(terms[0]), bits - 1, 1}, {AT(terms[0]), bits, 1},
        {AT(terms[0]), bits + 1, 1}, {AT(terms[0]), most, 1}, {AT(terms[1]), 4096, 0}, {AT(terms[1]), bits, 0},
        {AT(terms[1]), most, 0}, {AT(terms[7]), 4096, 0}, {AT(terms[7]), bits, 0}, {AT(terms[7]), most, 0},
        {AT(armed), bits - 1, 0}, {AT(armed), bits, 255}, {AT(armed), most, 255},
        {AT(aux_count), 1, 4}, {AT(aux_count), bits, 0}, {AT(aux_count), most, 0},
        {AT(calibrated), 2, 255}, {AT(calibrated), bits, 255},
        {AT(mask), 64, 0}, {AT(mask), 127, 0}, {AT(mask), 128, 17}, {AT(mask), 256, 0}, {AT(mask), 0xf7f, 0}, {AT(mask), 4095, 17},
        {AT(mask), 4096, 1}, {AT(mask), 4224, 1}, {AT(mask), bits + 128, 1}, {AT(mask), bits - 1, 1}, {AT(mask), bits, 1},
        {AT(mask), most, 1},
        {AT(n_terms), 8, 0}, {AT(n_terms), 9, 1}, {AT(n_terms), 255, 1}, {AT(n_terms), 256, 1}, {AT(n_terms), 257, 1},
        {AT(n_terms), bits + 1, 1}, {AT(n_terms), most, 1},
        {AT(horizon_ticks), 0, 3}, {AT(horizon_ticks), bits - 1, 0}, {AT(horizon_ticks), bits, 255},
        {AT(horizon_ticks), most, 255},
        {AT(absent_camera), 0, 0}, {AT(absent_camera), 1, 0}, {AT(absent_camera), 2, 255}, {AT(absent_camera), bits, 255},
        {AT(absent_camera), most, 255},
        /* of one axis a disc is too much, and of two it is not (round_tables) */
        {AT(shape), 0, 0}, {AT(shape), 1, 15}, {AT(shape), 2, 255}, {AT(shape), 255, 255}, {AT(shape), 256, 255}, {AT(shape), bits, 255},
        {AT(shape), bits + 1, 255}, {AT(shape), most, 255},
        {AT(gripper), 0, 0}, {AT(gripper), 1, 0}, {AT(gripper), 2, 255}, {AT(gripper), 255, 255}, {AT(gripper), 256, 255},
        {AT(gripper), 257, 255}, {AT(gripper), bits, 255}, {AT(gripper), bits + 1, 255}, {AT(gripper), most, 255},
    };
    const struct {
        uint64_t a0, a1, aux, due;
    } pairs[] = {
        {254, 255, 256, 0}, {255, 254, 255, 4}, {255, 255, 256, 4}, {256, 0, 257, 255}, {0, 256, 257, 255}, {256, 0, 256, 4},
        {0, 256, 256, 4}, {256, 256, 300, 4}, {256, 257, 300, 255}, {299, 0, 300, 255}, {300, 0, 300, 4}, {0, 300, 300, 4},
        {256, 300, 300, 4}, {most, most, most, 4}, {most, 0, most, 4}, {most - 1, 0, most, 255}, {bits, 0, bits + 1, 255},
    };
    struct lictor_counts c;
    n.dt = n.v_max = n.a_max = n.j_max = n.reach_max = 1.0;
    n.brake_k_v = n.brake_dt = n.contact_v_max = n.disc_radius = 1.0;
    for (int i = 0; i < 8; i++) n.norm_scale[i] = 1.0;
    for (int i = 0; i < 192; i++) scale[i] = 1.0;
#define DUE(due) EXPECT(lictor_derive(&n, &c, center, scale, &d) == (due))
    for (size_t i = 0; i < sizeof cases / sizeof *cases; i++) {
        c = good, ((uint64_t *)&c)[cases[i].at] = cases[i].value;
        EXPECT(lictor_derive(&n, &c, center, scale, &d) == cases[i].due || shown(cases[i].at, cases[i].value));
        /* without a calibration nothing of it is judged, and without a zone no channel */
        if ((cases[i].at >= AT(terms) && cases[i].at < AT(armed)) || (cases[i].at > AT(calibrated) && cases[i].at < AT(absent_camera))) {
            c.calibrated = 0;
            DUE(0);
        }
        /* a code is judged with a zone and without one, armed or not */
        if (cases[i].at == AT(absent_camera)) {
            c.armed = LICTOR_TRIP_CONTACT;
            DUE(cases[i].due);
            c.contact = c.calibrated = 0;
            DUE(cases[i].due);
            c.armed = 0;
            DUE(cases[i].due);
        }
        if (cases[i].at == AT(contact_a0) || cases[i].at == AT(contact_a1)) {
            c.contact = 0;
            DUE(0);
        }
        /* 255 comes before all other numbers, and of those the first in the order of judging */
        c = good, ((uint64_t *)&c)[cases[i].at] = cases[i].value, n.dt = 0.0;
        DUE(cases[i].due == 255 || cases[i].due == 1 ? cases[i].due : 2);
        n.dt = 1.0;
    }
    for (size_t i = 0; i < sizeof pairs / sizeof *pairs; i++) {
        c = good, c.contact_a0 = pairs[i].a0, c.contact_a1 = pairs[i].a1, c.aux_count = pairs[i].aux;
        EXPECT(lictor_derive(&n, &c, center, scale, &d) == pairs[i].due || shown(pairs[i].a0, pairs[i].a1));
    }
    c = good, c.n_terms = 2, c.terms[1] = bits;
    DUE(1);
    /* the bit of LICTOR_STALL in a counted term and past the count; the steps and the channels come before it */
    c = good, c.n_terms = 8, c.terms[7] = 128;
    DUE(17);
    c.n_terms = 7;
    DUE(0);
    c = good, c.mask = 128, c.contact_a1 = 0;
    DUE(4);
    c.substeps = 0;
    DUE(3);
    /* a disc of one axis comes after the channels, and before that bit */
    c = good, c.shape = LICTOR_DISC, c.mask = 128;
    DUE(15);
    c.contact_a1 = 0;
    DUE(4);
    c = good, c.shape = LICTOR_DISC, c.mask = 128, c.dim = c.pos_dim = 2;
    DUE(17);
    c = good, c.substeps = 0, c.brake_steps = 65536;
    DUE(3);
    c = good, c.kind = 5, c.dim = 0;
    DUE(255);
#undef DUE
}

/* the place of a number among the configuration's 53 */
#define NUMBER(number) (offsetof(struct lictor_numbers, number) / sizeof(double))

/* where each zone's radius and first channel stand; its speed and its second channel are next to them */
static const size_t radius_at[LICTOR_MAX_ZONES] = {NUMBER(contact_radius), NUMBER(contact1_radius), NUMBER(contact2_radius), NUMBER(contact3_radius)};
static const size_t channel_at[LICTOR_MAX_ZONES] = {AT(contact_a0), AT(contact1_a0), AT(contact2_a0), AT(contact3_a0)};

/* Sets a zone's numbers and channels. */
static void zone(struct lictor_numbers *n, struct lictor_counts *c, size_t i, double radius, double v_max, uint64_t a0, uint64_t a1) {
    ((double *)n)[radius_at[i]] = radius, ((double *)n)[radius_at[i] + 1] = v_max;
    ((uint64_t *)c)[channel_at[i]] = a0, ((uint64_t *)c)[channel_at[i] + 1] = a1;
}

/* One axis, and four zones of radius and speed 1, each on two channels of its own, of eight; so many of them are counted. */
static void four_zones(struct lictor_numbers *n, struct lictor_counts *c, uint64_t count) {
    const struct lictor_numbers no_numbers = {0};
    const struct lictor_counts no_counts = {0};
    *n = no_numbers, *c = no_counts;
    n->dt = n->v_max = n->a_max = n->j_max = n->reach_max = n->brake_k_v = n->brake_dt = n->norm_scale[0] = n->norm_scale[1] = 1.0;
    c->dim = c->pos_dim = c->substeps = 1, c->aux_count = 8, c->contact = count;
    for (size_t i = 0; i < LICTOR_MAX_ZONES; i++) zone(n, c, i, 1.0, 1.0, 2 * i, 2 * i + 1);
}

/* The count of zones, each number and each channel of each, and each pair twice, on both sides of their edges, counted and not, armed or not. */
static void zones(void) {
    const double never = NAN, always = INFINITY;
    const uint64_t most = UINT64_MAX, bits = UINT64_C(1) << 32, counts[] = {0, 1, 2, 3, 4, 5, 255, 256, 257, bits, bits + 1, most};
    const struct {
        double radius, v_max;
        uint64_t due;
    } numbers[] = {
        {1.0, 1.0, 0}, {0.0, 1.0, 0}, {-0.0, 1.0, 0}, {-1.0, 1.0, 2}, {never, 1.0, 2}, {always, 1.0, 2},
        {1.0, 0x1p-1074, 0}, {1.0, 0.0, 2}, {1.0, -1.0, 2}, {1.0, never, 2}, {1.0, always, 2},
    };
    /* a pair that a zone is given, and the declared channels */
    const struct {
        uint64_t a0, a1, aux, due;
    } pairs[] = {
        {8, 9, 10, 0}, {9, 8, 10, 0}, {8, 8, 10, 4}, {8, 9, 9, 4}, {9, 8, 9, 4}, {8, 10, 10, 4}, {10, 8, 10, 4}, {254, 255, 256, 0},
        {255, 256, 257, 255}, {256, 255, 257, 255}, {8, 300, 301, 255}, {300, 8, 301, 255}, {300, 300, 301, 4}, {8, 300, 300, 4},
        {300, 8, 300, 4}, {bits, 8, most, 255}, {8, bits + 1, most, 255}, {most, 8, most, 4}, {most, most, most, 4},
    };
    struct lictor_numbers n;
    struct lictor_counts c;
    struct lictor_derived d;
#define DUE(due) EXPECT(lictor_derive(&n, &c, center, scale, &d) == (due) || shown(c.contact, zones_of))
    for (size_t k = 0; k < 2 * sizeof counts / sizeof *counts; k++) {
        const uint64_t count = counts[k / 2], held = count < 4 ? count : 4, past = count > 4 ? LICTOR_SIZE : 0;
        const uint64_t armed = k % 2 ? LICTOR_TRIP_CONTACT : 0;
        uint64_t zones_of = 0;
        four_zones(&n, &c, count), c.armed = armed;
        DUE(past);
        for (size_t i = 0; i < 4; i++) {
            const int counted = i < held;
            zones_of = i;
            for (size_t j = 0; j < sizeof numbers / sizeof *numbers; j++) {
                four_zones(&n, &c, count), c.armed = armed;
                zone(&n, &c, i, numbers[j].radius, numbers[j].v_max, 2 * i, 2 * i + 1);
                DUE(counted && !past ? numbers[j].due : past);
            }
            /* 255 comes before 1, also of a zone that is held where too many are counted */
            for (size_t j = 0; j < sizeof pairs / sizeof *pairs; j++) {
                four_zones(&n, &c, count), c.armed = armed, c.aux_count = pairs[j].aux;
                zone(&n, &c, i, 1.0, 1.0, pairs[j].a0, pairs[j].a1);
                DUE(counted && (pairs[j].due == LICTOR_MISFIT || !past) ? pairs[j].due : past);
            }
            /* the same pair as another's, swapped, and where no field holds it */
            for (size_t j = 0; j < i; j++) {
                four_zones(&n, &c, count), c.armed = armed;
                zone(&n, &c, i, 2.0, 3.0, 2 * j, 2 * j + 1);
                DUE(counted && !past ? LICTOR_CHANNELS : past);
                zone(&n, &c, i, 2.0, 3.0, 2 * j + 1, 2 * j);
                DUE(past);
                c.aux_count = 301;
                zone(&n, &c, i, 1.0, 1.0, 256, 300), zone(&n, &c, j, 1.0, 1.0, 256, 300);
                DUE(j < held ? LICTOR_MISFIT : past);
            }
        }
        /* past the count nothing is judged */
        four_zones(&n, &c, count), c.armed = armed;
        for (size_t i = held; i < 4; i++) zone(&n, &c, i, never, -1.0, 300, 300);
        DUE(past);
        for (size_t i = held; i < 4; i++) zone(&n, &c, i, -1.0, always, most, most - 1);
        DUE(past);
        for (size_t i = held; i < 4; i++) zone(&n, &c, i, 1.0, 1.0, 0, 1);
        DUE(past);
    }
#undef DUE
}

/* Two axes and four zones: by every set of them that the arm is inside a step of 9 is held to the least of what they allow, in three orders of
   their steps and with every count; what stands past the count would stop the arm. */
static void several_zones(void) {
    const double orders[3][4] = {{1.0, 2.0, 3.0, 4.0}, {4.0, 3.0, 2.0, 1.0}, {2.0, 4.0, 1.0, 3.0}}, origin[2] = {0.0, 0.0}, row[2] = {9.0, 0.0};
    struct lictor_numbers n;
    struct lictor_counts c;
    struct lictor_check_marks m;
    double out[2], aux[8], speed;
#define CHUNK(count) lictor_check_chunk(&n, &c, center, scale, origin, 2, aux, count, row, 2, 1, 2, 1, out, 2, &m, &speed)
#define ACTION(count) lictor_check_action(&n, &c, center, scale, origin, 2, aux, count, origin, 2, row, 2, out, 2, &m, &speed)
#define HELD(call, step)                                                                                                  \
    EXPECT((call) == LICTOR_ACCEPTED && m.trips == ((step) < 9.0 ? LICTOR_TRIP_CONTACT : 0) && out[0] <= (step) && \
           (step) - out[0] < 1e-9)
    for (unsigned setting = 0; setting < 3 * 5 * 16; setting++) {
        const double *steps = orders[setting % 3];
        const unsigned count = setting / 3 % 5, inside = setting / 15;
        double least = 9.0, unseen = 9.0;
        four_zones(&n, &c, count);
        c.dim = c.pos_dim = 2, c.clamp = LICTOR_CLAMP_PROJECT, c.armed = LICTOR_TRIP_CONTACT;
        for (unsigned i = 0; i < 4; i++) {
            zone(&n, &c, i, i < count ? 1.0 : 99.0, i < count ? steps[i] : 0.5, 2 * i, 2 * i + 1);
            aux[2 * i] = aux[2 * i + 1] = inside >> i & 1 ? 0.5 : 5.0;
            if (i < count && inside >> i & 1 && steps[i] < least) least = steps[i];
            if (i < count && (i >= 2 || inside >> i & 1) && steps[i] < unseen) unseen = steps[i];
        }
        HELD(CHUNK(8), least);
        HELD(ACTION(8), least);
        /* a message that ends before the third zone's second channel: the third and the fourth are not seen */
        HELD(CHUNK(5), unseen);
        HELD(ACTION(5), unseen);
        c.armed = 0;
        HELD(CHUNK(8), 9.0);
        HELD(ACTION(5), 9.0);
    }
    /* what is not finite of any counted zone, a distance that is seen or a step inside it, whatever the others decide */
    for (unsigned i = 0; i < 4; i++) {
        for (uint64_t count = 0; count <= 4; count++) {
            const uint64_t due = i < count ? LICTOR_COMPUTED : LICTOR_ACCEPTED;
            four_zones(&n, &c, count);
            c.dim = c.pos_dim = 2, c.armed = LICTOR_TRIP_CONTACT;
            for (int j = 0; j < 8; j++) aux[j] = 0.5;
            aux[2 * i] = 0x1p600;
            EXPECT(CHUNK(8) == due && ACTION(8) == due);
            aux[2 * i] = 0.5, n.dt = 2.0;
            zone(&n, &c, i, 1.0, 0x1.fffffffffffffp1023, 2 * i, 2 * i + 1);
            EXPECT(CHUNK(8) == due && ACTION(8) == due && CHUNK(2 * i) == due);
            aux[2 * i] = 5.0;
            EXPECT(CHUNK(8) == LICTOR_ACCEPTED && ACTION(8) == LICTOR_ACCEPTED);
            c.absent_camera = LICTOR_ABSENT_CAMERA_NO_ZONE;
            EXPECT(CHUNK(2 * i) == LICTOR_ACCEPTED && ACTION(2 * i) == LICTOR_ACCEPTED);
        }
    }
    /* a swapped pair is another zone, with another centre */
    four_zones(&n, &c, 2);
    c.dim = c.pos_dim = 2, c.clamp = LICTOR_CLAMP_PROJECT, c.armed = LICTOR_TRIP_CONTACT, aux[0] = 0.0, aux[1] = 3.0;
    zone(&n, &c, 0, 1.0, 2.0, 0, 1), zone(&n, &c, 1, 1.0, 1.0, 1, 0);
    HELD(CHUNK(2), 9.0);
    aux[1] = 0.0;
    HELD(CHUNK(2), 1.0);
#undef CHUNK
#undef ACTION
#undef HELD
}

/* A round table of radius 5 about the origin, a height between -1 and 1, and a NaN in every wall that is not read. */
static void table(struct lictor_numbers *n, struct lictor_counts *c) {
    const struct lictor_numbers no_numbers = {0};
    const struct lictor_counts no_counts = {0};
    *n = no_numbers, *c = no_counts;
    n->dt = n->a_max = n->j_max = n->brake_k_p = n->brake_k_v = n->brake_dt = 1.0, n->v_max = n->reach_max = 1e300;
    for (int i = 0; i < 8; i++) n->norm_scale[i] = 1.0, n->box_lo[i] = -1.0, n->box_hi[i] = 1.0;
    n->box_lo[0] = n->box_lo[1] = n->box_hi[0] = n->box_hi[1] = NAN, n->disc_radius = 5.0;
    c->dim = c->pos_dim = 3, c->substeps = 1, c->clamp = LICTOR_CLAMP_PROJECT, c->armed = LICTOR_TRIP_WORKSPACE, c->shape = LICTOR_DISC;
}

/* Centre, radius and walls under either shape, on both sides of their edges; both counts of axes; what is derived. */
static void round_tables(void) {
    const double never = NAN, always = INFINITY;
    const struct {
        double value;
        uint64_t centre, radius;
    } numbers[] = {
        {never, 2, 2}, {always, 2, 2}, {-always, 2, 2}, {-1.0, 0, 2}, {-0x1p-1074, 0, 2}, {-0.0, 0, 2}, {0.0, 0, 2}, {0x1p-1074, 0, 0},
        {1.0, 0, 0}, {0x1.fffffffffffffp1023, 0, 0},
    };
    struct lictor_numbers n;
    struct lictor_counts c;
    struct lictor_derived d = {0};
#define DUE(due) EXPECT(lictor_derive(&n, &c, center, scale, &d) == (due) || shown(i, c.shape))
    for (uint64_t i = 0; i < sizeof numbers / sizeof *numbers; i++) {
        double *const places[7] = {&n.disc_x, &n.disc_y, &n.disc_radius, &n.box_lo[0], &n.box_lo[1], &n.box_hi[0], &n.box_hi[1]};
        for (int k = 0; k < 7; k++) {
            table(&n, &c), *places[k] = numbers[i].value;
            DUE(k < 2 ? numbers[i].centre : k < 3 ? numbers[i].radius : 0);
            /* with the box the walls are read, which are at -1 and 1, and the others are not */
            table(&n, &c), c.shape = LICTOR_BOX;
            n.box_lo[0] = n.box_lo[1] = -1.0, n.box_hi[0] = n.box_hi[1] = 1.0, *places[k] = numbers[i].value;
            if (k < 3) DUE(0);
            if (k > 2 && numbers[i].centre) DUE(2);
        }
        /* the margin is judged, and moves the third axis alone */
        table(&n, &c), n.margin = numbers[i].value;
        DUE(numbers[i].value >= 0.0 && numbers[i].value <= 1.0 ? 0 : 2);
        c.dim = c.pos_dim = 2;
        DUE(numbers[i].value >= 0.0 && numbers[i].value < always ? 0 : 2);
    }
    for (uint64_t i = 0; i < 100; i++) {
        const uint64_t dim = i / 10, pos_dim = i % 10, size = dim < 1 || dim > 8 || pos_dim < 1 || pos_dim > 8;
        table(&n, &c), c.dim = dim, c.pos_dim = pos_dim;
        DUE(size ? 1 : dim < 2 || pos_dim < 2 ? 15 : 0);
        c.shape = LICTOR_BOX, n.box_lo[0] = n.box_lo[1] = n.box_hi[0] = n.box_hi[1] = 0.0;
        DUE(size);
        /* a code that is none comes before all */
        c.shape = 2;
        DUE(255);
    }
#undef DUE
    table(&n, &c), n.margin = 0.25, n.disc_x = n.disc_y = 7.0;
    EXPECT(lictor_derive(&n, &c, center, scale, &d) == LICTOR_ACCEPTED && d.box_lo[2] == -0.75 && d.box_hi[2] == 0.75);
    EXPECT(d.box_lo[0] == 0.0 && d.box_lo[1] == 0.0 && d.box_hi[0] == 0.0 && d.box_hi[1] == 0.0);
}

/* Each entry that moves, measures or brakes on a round table. */
static void turntable(void) {
    const double origin[3] = {0.0, 0.0, 0.0}, edge[3] = {3.0, 4.0, 1.0}, far[3] = {6.0, 8.0, 9.0}, lost[3] = {1e200, 0.0, 0.0}, fast[3] = {0.0, 4.0, 0.0};
    const double high[3] = {1e200, 0.0, 9.0};
    const double pulled = 5.0 * (1.0 - 1.0 / 68719476736.0) / 10.0, two53 = 9007199254740992.0;
    double out[3] = {7.0, 7.0, 7.0}, slacks[2] = {7.0, 7.0}, speed = 7.0;
    struct lictor_numbers n;
    struct lictor_counts c;
    struct lictor_check_marks m = {7, 7, 7, 7};
    struct lictor_forecast_marks f = {7, 7};
    struct lictor_forecast_distances r = {7.0, 7.0};
    struct lictor_wall_marks w = {7, 7};
    uint64_t place = 7;
#define CHUNK(from, row) lictor_check_chunk(&n, &c, center, scale, from, 3, LICTOR_NONE, 0, row, 3, 1, 3, 1, out, 3, &m, &speed)
#define ACTION(from, row) lictor_check_action(&n, &c, center, scale, from, 3, LICTOR_NONE, 0, from, 3, row, 3, out, 3, &m, &speed)
#define MOVING(from, vel, first) \
    lictor_brake_feasible(&n, &c, center, scale, from, 3, vel, 3, origin, 3, 1, 3, 1, first, slacks, 2, &f, &r, &place)
#define FORECAST(from, first) MOVING(from, origin, first)
#define BRAKE(pos, count) lictor_brake_action(&n, &c, center, scale, pos, count, origin, 3, LICTOR_NONE, 0, out, 3, &w)
#define HOLD(pos, count) lictor_hold_action(&n, &c, center, scale, pos, count, LICTOR_NONE, 0, out, 3, &w)
#define OUT(x, y, z) (out[0] == (x) && out[1] == (y) && out[2] == (z))
#define MARKS(raised, moved, low, high) (m.trips == (raised) && m.clamped_dims == (moved) && m.low_dims == (low) && m.high_dims == (high))
    table(&n, &c);
    EXPECT(CHUNK(origin, edge) == LICTOR_ACCEPTED && MARKS(0, 0, 0, 0) && OUT(3.0, 4.0, 1.0));
    EXPECT(ACTION(origin, edge) == LICTOR_ACCEPTED && MARKS(0, 0, 0, 0) && OUT(3.0, 4.0, 1.0));
    EXPECT(CHUNK(origin, far) == LICTOR_ACCEPTED && MARKS(LICTOR_TRIP_WORKSPACE, 7, 0, 4) && OUT(6.0 * pulled, 8.0 * pulled, 1.0));
    EXPECT(ACTION(origin, far) == LICTOR_ACCEPTED && MARKS(LICTOR_TRIP_WORKSPACE, 7, 0, 4) && OUT(6.0 * pulled, 8.0 * pulled, 1.0));
    /* a distance that is not finite, from where the step is; it is computed where the check is armed, under either clamp code, and whatever the
       third axis says */
    for (c.clamp = LICTOR_CLAMP_OFF; c.clamp <= LICTOR_CLAMP_PROJECT; c.clamp++) {
        out[0] = 7.0, c.armed = LICTOR_TRIP_WORKSPACE;
        EXPECT(CHUNK(lost, lost) == LICTOR_COMPUTED && ACTION(lost, lost) == LICTOR_COMPUTED && out[0] == 7.0);
        EXPECT(CHUNK(high, high) == LICTOR_COMPUTED && ACTION(high, high) == LICTOR_COMPUTED && out[0] == 7.0);
        c.armed = LICTOR_TRIP_SPEED | LICTOR_TRIP_REACH;
        EXPECT(CHUNK(lost, lost) == LICTOR_ACCEPTED && ACTION(lost, lost) == LICTOR_ACCEPTED && MARKS(0, 0, 0, 0) && out[0] == 1e200);
    }
    /* a closed kind at rest: the radius less the distance, and the least of it with the third axis */
    table(&n, &c), c.brake = LICTOR_BOUNDED_ACCEL;
    EXPECT(FORECAST(edge, 0) == LICTOR_ACCEPTED && f.count == 1 && f.feasible == 1 && r.margin == 0.0 && slacks[0] == 0.0 && slacks[1] == 7.0);
    n.disc_radius = 5.5, n.box_hi[2] = 9.0;
    EXPECT(FORECAST(edge, 0) == LICTOR_ACCEPTED && r.margin == 0.5 && r.stop_dist == 0.0);
    n.box_hi[2] = 1.25;
    EXPECT(FORECAST(edge, 0) == LICTOR_ACCEPTED && r.margin == 0.25);
    EXPECT(FORECAST(far, 0) == LICTOR_ACCEPTED && f.feasible == 0 && r.margin == -7.75);
    /* a velocity of (0, 4, 0), which an a_max of 1 takes 8 to stop */
    n.box_hi[2] = 99.0, n.box_lo[2] = -99.0;
    EXPECT(MOVING(edge, fast, 0) == LICTOR_ACCEPTED && f.feasible == 0 && r.margin == 0.5 - 8.0);
    n.box_hi[2] = 1.25, n.box_lo[2] = -1.0;
    EXPECT(FORECAST(far, 0) == LICTOR_ACCEPTED && r.margin == -7.75);
    EXPECT(FORECAST(lost, 0) == LICTOR_COMPUTED && place == 1 && slacks[0] == -7.75);
    /* the second-order kind: its setpoint is made without a braking step, too */
    table(&n, &c);
    for (uint64_t steps = 0; steps < 2; steps++) {
        c.brake_steps = steps, place = 7, slacks[0] = 7.0;
        EXPECT(FORECAST(lost, 0) == LICTOR_COMPUTED && place == 1 && slacks[0] == 7.0);
        EXPECT(FORECAST(lost, SIZE_MAX) == LICTOR_COMPUTED && place == 1 && slacks[0] == 7.0);
        EXPECT(FORECAST(edge, 0) == LICTOR_ACCEPTED && f.count == steps && f.feasible == 1 && r.margin == (steps ? 0.0 : INFINITY));
    }
    c.brake_steps = 0, c.shape = LICTOR_BOX, n.box_lo[0] = n.box_lo[1] = n.box_hi[0] = n.box_hi[1] = 0.0;
    EXPECT(FORECAST(lost, 0) == LICTOR_ACCEPTED && f.count == 0 && r.margin == INFINITY);
    /* brake and hold, whatever is armed; what a position lacks is 0 */
    for (uint64_t armed = 0; armed < 2; armed++) {
        table(&n, &c), c.armed = armed, c.clamp = armed;
        EXPECT(HOLD(edge, 3) == LICTOR_ACCEPTED && OUT(3.0, 4.0, 1.0) && w.low_dims == 0 && w.high_dims == 0);
        EXPECT(BRAKE(far, 3) == LICTOR_ACCEPTED && OUT(6.0 * pulled, 8.0 * pulled, 1.0) && w.low_dims == 0 && w.high_dims == 4);
        EXPECT(HOLD(far, 2) == LICTOR_ACCEPTED && OUT(6.0 * pulled, 8.0 * pulled, 0.0) && w.low_dims == 0 && w.high_dims == 0);
        out[0] = w.low_dims = 7;
        EXPECT(HOLD(lost, 1) == LICTOR_COMPUTED && BRAKE(lost, 3) == LICTOR_COMPUTED && out[0] == 7.0 && w.low_dims == 7);
        n.disc_x = 10.0;
        EXPECT(HOLD(origin, 0) == LICTOR_ACCEPTED && OUT(10.0 + -10.0 * pulled, 0.0, 0.0));
        n.disc_x = 1e200;
        EXPECT(HOLD(origin, 0) == LICTOR_COMPUTED && HOLD(lost, 3) == LICTOR_ACCEPTED && out[0] == 1e200);
        c.kind = LICTOR_JOINT_VELOCITY;
        EXPECT(HOLD(origin, 0) == LICTOR_ACCEPTED && OUT(0.0, 0.0, 0.0) && w.low_dims == 0);
    }
    /* about 2^53 a point that is pulled lies past the edge */
    table(&n, &c), n.disc_x = two53, n.disc_radius = 1.5;
    const double there[3] = {two53, 0.0, 0.0}, beyond[3] = {two53 + 4.0, 0.0, 0.0}, past[3] = {two53 + 2.0, 0.0, 0.0};
    EXPECT(ACTION(there, beyond) == LICTOR_ACCEPTED && m.trips == LICTOR_TRIP_WORKSPACE && out[0] == two53 + 2.0);
    EXPECT(ACTION(there, past) == LICTOR_ACCEPTED && m.trips == LICTOR_TRIP_WORKSPACE);
#undef CHUNK
#undef ACTION
#undef MOVING
#undef FORECAST
#undef BRAKE
#undef HOLD
#undef OUT
#undef MARKS
}

/* the place of a count in a header */
#define IN(count) (offsetof(struct lictor_chunk_header, count) / sizeof(uint64_t))

/* The same for what is held: a header, the counts of tier 1's state, and the bits of scores. */
static void held_widths(void) {
    static struct lictor_tier1 t;
    const uint64_t most = UINT64_MAX, bits = UINT64_C(1) << 32;
    const struct lictor_chunk_header good = {.seq = 7, .t_emit = 9, .horizon = 2, .dim = 2, .exec_steps = 1, .filled = 1};
    const struct {
        uint64_t at, value, due;
    } cases[] = {
        {IN(seq), bits - 1, 0}, {IN(seq), bits, 255}, {IN(seq), most, 255},
        {IN(t_emit), bits - 1, 0}, {IN(t_emit), bits, 255}, {IN(t_emit), most, 255},
        {IN(horizon), 0, 5}, {IN(horizon), 64, 0}, {IN(horizon), 65, 6}, {IN(horizon), 65535, 6},
        {IN(horizon), 65536, 6}, {IN(horizon), 65537, 6}, {IN(horizon), bits + 2, 6}, {IN(horizon), most, 6},
        {IN(dim), 0, 5}, {IN(dim), 8, 0}, {IN(dim), 9, 7}, {IN(dim), 65535, 7}, {IN(dim), 65536, 7},
        {IN(dim), 65537, 7}, {IN(dim), bits + 2, 7}, {IN(dim), most, 7},
        {IN(exec_steps), 2, 0}, {IN(exec_steps), 3, 8}, {IN(exec_steps), 65535, 8}, {IN(exec_steps), 65536, 8},
        {IN(exec_steps), 65537, 8}, {IN(exec_steps), bits, 8}, {IN(exec_steps), most, 8},
        {IN(filled), 2, 255}, {IN(filled), bits, 255}, {IN(filled), bits + 1, 255},
    };
    for (size_t i = 0; i < sizeof cases / sizeof *cases; i++) {
        uint64_t *h = (uint64_t *)&t.header;
        lictor_tier1_new(LICTOR_TIER1_PARTS(&t));
        t.header = good, h[cases[i].at] = cases[i].value;
        EXPECT(lictor_tier1_reset(LICTOR_TIER1_PARTS(&t)) == cases[i].due || shown(cases[i].at, cases[i].value));
        /* a header that holds no chunk is not judged, and stays */
        if (cases[i].at == IN(filled)) continue;
        t.header.filled = 0;
        EXPECT(lictor_tier1_reset(LICTOR_TIER1_PARTS(&t)) == LICTOR_ACCEPTED && h[cases[i].at] == cases[i].value && t.header.filled == 0);
    }
    for (int k = 0; k < 2; k++) {
        lictor_tier1_new(LICTOR_TIER1_PARTS(&t));
        t.kept.have_prev = 1 + k;
        EXPECT(lictor_tier1_reset(LICTOR_TIER1_PARTS(&t)) == (k ? LICTOR_MISFIT : LICTOR_ACCEPTED));
        t.kept.have_prev = 0, t.kept.held_valid = bits - 1 + k;
        EXPECT(lictor_tier1_reset(LICTOR_TIER1_PARTS(&t)) == (k ? LICTOR_MISFIT : LICTOR_ACCEPTED));
        t.kept.held_valid = 0, t.samples.head = 31 + 225 * k;
        EXPECT(lictor_tier1_reset(LICTOR_TIER1_PARTS(&t)) == (k ? LICTOR_SIZE : LICTOR_ACCEPTED));
        t.samples.head = 0, t.samples.len = 32 + 224 * k;
        EXPECT(lictor_tier1_reset(LICTOR_TIER1_PARTS(&t)) == (k ? LICTOR_SIZE : LICTOR_ACCEPTED));
    }
}

/* the scope document: from (0,0), row (6,8), step 5, SPEED alone armed: SPEED, projected to (3 - 3 x 2^-36, 4 - 4 x 2^-36); row
   (3,4): no trip, same row */
static void checks(void) {
    struct lictor_numbers n = {0};
    struct lictor_counts c = {0};
    struct lictor_check_marks m = {7, 7, 7, 7};
    const double origin[2] = {0.0, 0.0}, far[2] = {6.0, 8.0}, near[2] = {3.0, 4.0};
    const double short_of = 1.0 - 1.0 / 68719476736.0;
    double out[3] = {7.0, 7.0, 7.0}, speed = 7.0;
    n.dt = n.a_max = n.j_max = n.reach_max = 1.0, n.v_max = 5.0;
    n.brake_k_v = n.brake_dt = n.norm_scale[0] = n.norm_scale[1] = 1.0;
    c.dim = c.pos_dim = 2, c.substeps = 1, c.clamp = LICTOR_CLAMP_PROJECT, c.armed = LICTOR_TRIP_SPEED;
#define CHUNK(row) lictor_check_chunk(&n, &c, center, scale, origin, 2, origin, 0, row, 2, 1, 2, 1, out, 3, &m, &speed)
#define ACTION(row) lictor_check_action(&n, &c, center, scale, origin, 2, origin, 0, origin, 2, row, 2, out, 3, &m, &speed)
    EXPECT(CHUNK(far) == LICTOR_ACCEPTED && m.trips == LICTOR_TRIP_SPEED && m.clamped_dims == 3 && speed == 10.0);
    EXPECT(out[0] == 3.0 * short_of && out[1] == 4.0 * short_of && out[2] == 7.0);
    /* the leash sets neither mask */
    EXPECT(m.low_dims == 0 && m.high_dims == 0);
    EXPECT(CHUNK(near) == LICTOR_ACCEPTED && m.trips == 0 && m.clamped_dims == 0 && speed == 5.0);
    EXPECT(out[0] == 3.0 && out[1] == 4.0 && out[2] == 7.0);
    EXPECT(ACTION(far) == LICTOR_ACCEPTED && m.trips == LICTOR_TRIP_SPEED && m.clamped_dims == 3 && speed == 10.0);
    EXPECT(out[0] == 3.0 * short_of && out[1] == 4.0 * short_of && out[2] == 7.0);
    EXPECT(ACTION(near) == LICTOR_ACCEPTED && m.trips == 0 && out[0] == 3.0 && out[1] == 4.0);
    c.clamp = 2;
    EXPECT(CHUNK(far) == LICTOR_MISFIT && ACTION(far) == LICTOR_MISFIT && out[0] == 3.0 && m.trips == 0);
    c.clamp = LICTOR_CLAMP_OFF, c.dim = 3;
    EXPECT(CHUNK(far) == LICTOR_NUMBER && speed == 5.0);
    n.norm_scale[2] = 1.0;
    EXPECT(CHUNK(far) == LICTOR_WIDTH && ACTION(far) == LICTOR_SHORT && out[0] == 3.0 && m.trips == 0 && speed == 5.0);
#undef CHUNK
#undef ACTION
}

/* three axes, of which the position has two; walls at -1 and 1, the margin being taken off: the sides of the box move, row by row as it came */
static void walls(void) {
    struct lictor_numbers n = {0};
    struct lictor_counts c = {0};
    struct lictor_check_marks m = {7, 7, 7, 7};
    /* the first axis beyond its high wall, then its low one; the second on each; the third has no box */
    const double origin[3] = {0.0, 0.0, 0.0}, rows[6] = {1.25, 1.0, 9.0, -1.25, -1.0, -9.0}, low[3] = {-2.0, 0.0, 0.0};
    double out[6], speed;
    n.dt = n.v_max = n.a_max = n.j_max = n.reach_max = n.brake_k_v = n.brake_dt = 1.0;
    for (int i = 0; i < 3; i++) n.norm_scale[i] = 1.0, n.box_lo[i] = -1.5, n.box_hi[i] = 1.5;
    n.margin = 0.5;
    c.dim = 3, c.pos_dim = 2, c.substeps = 1, c.clamp = LICTOR_CLAMP_PROJECT, c.armed = LICTOR_TRIP_WORKSPACE;
#define CHUNK(room) lictor_check_chunk(&n, &c, center, scale, origin, 2, origin, 0, rows, 6, 2, 3, 1, out, room, &m, &speed)
#define ALONE(row, from) lictor_check_chunk(&n, &c, center, scale, from, 2, origin, 0, row, 3, 1, 3, 1, out, 3, &m, &speed)
#define ACTION(row, from) lictor_check_action(&n, &c, center, scale, from, 2, origin, 0, from, 3, row, 3, out, 3, &m, &speed)
    EXPECT(CHUNK(6) == LICTOR_ACCEPTED && m.trips == LICTOR_TRIP_WORKSPACE && m.clamped_dims == 1 && m.low_dims == 1 && m.high_dims == 1);
    EXPECT(out[0] == 1.0 && out[3] == -1.0 && out[2] == 9.0);
    EXPECT(ACTION(rows, origin) == LICTOR_ACCEPTED && m.low_dims == 0 && m.high_dims == 1);
    EXPECT(ACTION(rows + 3, origin) == LICTOR_ACCEPTED && m.low_dims == 1 && m.high_dims == 0);
    /* a refusal leaves the marks */
    EXPECT(CHUNK(5) == LICTOR_SHORT && m.trips == LICTOR_TRIP_WORKSPACE && m.clamped_dims == 1 && m.low_dims == 1 && m.high_dims == 0);
    /* a leash so short that it brings the coordinate back to where it was */
    c.armed = LICTOR_TRIP_WORKSPACE | LICTOR_TRIP_SPEED, n.v_max = 0x1p-60;
    EXPECT(ACTION(low, low) == LICTOR_ACCEPTED && out[0] == -2.0 && m.clamped_dims == 0 && m.low_dims == 1 && m.high_dims == 0);
    EXPECT(ALONE(low, low) == LICTOR_ACCEPTED && out[0] == -2.0 && m.clamped_dims == 0 && m.low_dims == 1 && m.high_dims == 0);
    /* neither where the box is not armed, nor where nothing is moved */
    c.armed = LICTOR_TRIP_ALL - LICTOR_TRIP_WORKSPACE;
    EXPECT(CHUNK(6) == LICTOR_ACCEPTED && m.clamped_dims != 0 && m.low_dims == 0 && m.high_dims == 0);
    c.armed = LICTOR_TRIP_ALL, c.clamp = LICTOR_CLAMP_OFF, m.low_dims = m.high_dims = 7;
    EXPECT(CHUNK(6) == LICTOR_ACCEPTED && m.trips & LICTOR_TRIP_WORKSPACE && m.low_dims == 0 && m.high_dims == 0);
    EXPECT(ACTION(rows, origin) == LICTOR_ACCEPTED && m.trips & LICTOR_TRIP_WORKSPACE && m.low_dims == 0 && m.high_dims == 0);
#undef CHUNK
#undef ALONE
#undef ACTION
}

/* Calm rows come out bit for bit as they went in, with what is lent past them kept: two axes, everything armed, and a chunk that touches a step, a
   zone's step and a reach of 1, walls at 0 and 1 or a round table of radius 1; and one axis that swings, which raises ACCEL and JERK. */
static void calm(void) {
    struct lictor_numbers n = {0};
    struct lictor_counts c = {0};
    struct lictor_check_marks m;
    /* the first touches all, the second the low walls as zeros of either sign, the third stays there with both signs turned */
    const double origin[2] = {0.0, 0.0}, rows[6] = {1.0, -0.0, -0.0, 0.0, 0.0, -0.0}, swings[3] = {1.0, 0.0, 1.0}, mark = NAN;
    double out[8], speed;
    n.dt = n.v_max = n.reach_max = n.brake_k_v = n.brake_dt = n.contact_radius = n.contact_v_max = n.disc_radius = 1.0;
    for (int i = 0; i < 2; i++) n.norm_scale[i] = n.box_hi[i] = 1.0;
    c.substeps = 1, c.clamp = LICTOR_CLAMP_PROJECT, c.contact = 1, c.contact_a1 = 1, c.aux_count = 2;
#define CHUNK(given, count, high, wide) \
    lictor_check_chunk(&n, &c, center, scale, origin, 2, origin, 2, given, count, high, wide, 1, out, 8, &m, &speed)
#define ACTION(given, count) lictor_check_action(&n, &c, center, scale, origin, 2, origin, 2, origin, 2, given, count, out, 8, &m, &speed)
/* a call, the numbers that it must write, how many they are, and what it must raise */
#define CALM(call, given, count, raised)                                                                                                 \
    do {                                                                                                                                 \
        const struct lictor_check_marks due = {raised, 0, 0, 0};                                                                         \
        for (int i = 0; i < 8; i++) out[i] = mark;                                                                                       \
        memset(&m, 7, sizeof m);                                                                                                         \
        EXPECT((call) == LICTOR_ACCEPTED && memcmp(&m, &due, sizeof m) == 0);                                                            \
        EXPECT(memcmp(out, given, (count) * sizeof *out) == 0);                                                                          \
        for (int i = (count); i < 8; i++) EXPECT(memcmp(&out[i], &mark, sizeof mark) == 0);                                              \
    } while (0)
    for (c.shape = LICTOR_BOX; c.shape <= LICTOR_DISC; c.shape++) {
        c.dim = c.pos_dim = 2, c.armed = LICTOR_TRIP_ALL, n.a_max = n.j_max = 9.0;
        CALM(CHUNK(rows, 6, 3, 2), rows, 6, 0);
        CALM(ACTION(rows, 2), rows, 2, 0);
        /* a step of the format less of any limit, and the first row is moved */
        double *const limits[4] = {&n.v_max, &n.contact_v_max, &n.reach_max, c.shape == LICTOR_DISC ? &n.disc_radius : &n.box_hi[0]};
        const uint64_t trips[4] = {LICTOR_TRIP_SPEED, LICTOR_TRIP_CONTACT, LICTOR_TRIP_REACH, LICTOR_TRIP_WORKSPACE};
        for (int k = 0; k < 4; k++) {
            *limits[k] = nextafter(1.0, 0.0);
            EXPECT(CHUNK(rows, 6, 3, 2) == LICTOR_ACCEPTED && m.trips == trips[k] && m.clamped_dims == 1 && memcmp(out, rows, sizeof rows) != 0);
            EXPECT(ACTION(rows, 2) == LICTOR_ACCEPTED && m.trips == trips[k] && m.clamped_dims == 1 && out[0] < 1.0);
            *limits[k] = 1.0;
        }
    }
    /* whatever of the two is armed, neither moves a row */
    c.shape = LICTOR_BOX, c.dim = c.pos_dim = 1, n.a_max = n.j_max = 1.0;
    for (uint64_t k = 0; k < 4; k++) {
        const uint64_t told = (k & 1 ? LICTOR_TRIP_ACCEL : 0) | (k & 2 ? LICTOR_TRIP_JERK : 0);
        c.armed = (LICTOR_TRIP_ALL - LICTOR_TRIP_ACCEL - LICTOR_TRIP_JERK) | told;
        CALM(CHUNK(swings, 3, 3, 1), swings, 3, told);
        CALM(ACTION(swings, 1), swings, 1, 0);
    }
#undef CHUNK
#undef ACTION
#undef CALM
}

/* a zone of radius 1 in which a step of 1 is allowed, and a step of 3: all zeros means slow where the camera does not show the zone */
static void cameras(void) {
    struct lictor_numbers n = {0};
    struct lictor_counts c = {0};
    struct lictor_check_marks m = {7, 7, 7, 7};
    const double origin[2] = {0.0, 0.0}, row[2] = {3.0, 0.0}, far[3] = {9.0, 9.0, 9.0};
    double out[2] = {7.0, 7.0}, speed = 7.0;
    n.dt = n.v_max = n.a_max = n.j_max = n.reach_max = n.brake_k_v = n.brake_dt = n.contact_radius = n.contact_v_max = 1.0;
    n.norm_scale[0] = n.norm_scale[1] = 1.0;
    c.dim = c.pos_dim = 2, c.substeps = 1, c.clamp = LICTOR_CLAMP_PROJECT, c.armed = LICTOR_TRIP_CONTACT;
    c.contact = 1, c.aux_count = 3;
#define CHUNK(pos, aux, count) lictor_check_chunk(&n, &c, center, scale, origin, pos, aux, count, row, 2, 1, 2, 1, out, 2, &m, &speed)
#define ACTION(pos, aux, count) lictor_check_action(&n, &c, center, scale, origin, pos, aux, count, origin, 2, row, 2, out, 2, &m, &speed)
#define SLOWED(call) EXPECT(call == LICTOR_ACCEPTED && m.trips == LICTOR_TRIP_CONTACT && m.clamped_dims == 1 && out[0] < 1.0)
#define PASSED(call) EXPECT(call == LICTOR_ACCEPTED && m.trips == 0 && m.clamped_dims == 0 && out[0] == 3.0)
    /* channels 0 and 2 in either order, and messages of no number, of the lower channel alone, and of one number less than the other needs */
    for (size_t i = 0; i < 6; i++) {
        const size_t length = i / 2;
        c.contact_a0 = i % 2 ? 2 : 0, c.contact_a1 = i % 2 ? 0 : 2, c.absent_camera = 0;
        SLOWED(CHUNK(2, far, length));
        SLOWED(ACTION(2, far, length));
        c.absent_camera = LICTOR_ABSENT_CAMERA_NO_ZONE;
        PASSED(CHUNK(2, far, length));
        PASSED(ACTION(2, far, length));
    }
    /* long enough: the centre is far away, or where the arm is */
    for (c.absent_camera = 0; c.absent_camera < 2; c.absent_camera++) {
        const double near[3] = {1.0, 9.0, 0.0};
        PASSED(CHUNK(2, far, 3));
        PASSED(ACTION(2, far, 3));
        SLOWED(CHUNK(2, near, 3));
        SLOWED(ACTION(2, near, 3));
    }
    /* one coordinate is too few, whatever the camera says, and for two axes refused */
    c.absent_camera = LICTOR_ABSENT_CAMERA_SLOW;
    EXPECT(CHUNK(1, far, 3) == LICTOR_SHORT && ACTION(1, far, 3) == LICTOR_SHORT);
    c.pos_dim = 1;
    SLOWED(CHUNK(1, far, 3));
    SLOWED(ACTION(1, far, 3));
    PASSED(CHUNK(2, far, 3));
    c.absent_camera = LICTOR_ABSENT_CAMERA_NO_ZONE;
    PASSED(CHUNK(1, far, 3));
    PASSED(ACTION(1, far, 3));
    /* slow nowhere: without a zone, and where its check is not armed */
    c.absent_camera = LICTOR_ABSENT_CAMERA_SLOW, c.contact = 0;
    PASSED(CHUNK(2, LICTOR_NONE, 0));
    PASSED(ACTION(2, LICTOR_NONE, 0));
    c.contact = 1, c.armed = 0;
    PASSED(CHUNK(2, LICTOR_NONE, 0));
    PASSED(ACTION(2, LICTOR_NONE, 0));
    /* the zone's step is computed, where the arm counts as inside */
    c.armed = LICTOR_TRIP_CONTACT, n.contact_v_max = 0x1.fffffffffffffp1023, n.dt = 2.0, out[0] = 7.0;
    EXPECT(CHUNK(2, LICTOR_NONE, 0) == LICTOR_COMPUTED && ACTION(2, LICTOR_NONE, 0) == LICTOR_COMPUTED && out[0] == 7.0);
    c.absent_camera = LICTOR_ABSENT_CAMERA_NO_ZONE;
    PASSED(CHUNK(2, LICTOR_NONE, 0));
#undef CHUNK
#undef ACTION
#undef SLOWED
#undef PASSED
}

/* The edges of the choice's code, of the shape's code, of the gripper's code and of the count of zones, and a fourth zone that is refused, at
   every entry that takes a configuration: a refused call writes nothing. */
static void codes(void) {
    static struct lictor_tier1 t;
    const uint64_t most = UINT64_MAX, bits = UINT64_C(1) << 32;
    const double origin[1] = {0.0};
    const struct {
        uint64_t at, value, due;
    } cases[] = {
        {AT(absent_camera), 0, 0}, {AT(absent_camera), 1, 0}, {AT(absent_camera), 2, 255}, {AT(absent_camera), 3, 255},
        {AT(absent_camera), bits, 255}, {AT(absent_camera), bits + 1, 255}, {AT(absent_camera), most, 255},
        {AT(contact), 0, 0}, {AT(contact), 1, 0}, {AT(contact), 2, 0}, {AT(contact), 3, 0}, {AT(contact), 4, 0}, {AT(contact), 5, 1},
        {AT(contact), 256, 1}, {AT(contact), bits + 1, 1}, {AT(contact), most, 1},
        {AT(contact3_a0), 7, 4}, {AT(contact3_a1), 8, 4}, {AT(contact3_a1), 300, 4},
        {AT(shape), 0, 0}, {AT(shape), 1, 15}, {AT(shape), 2, 255}, {AT(shape), 3, 255}, {AT(shape), 256, 255}, {AT(shape), bits, 255},
        {AT(shape), bits + 1, 255}, {AT(shape), most, 255},
        {AT(gripper), 0, 0}, {AT(gripper), 1, 0}, {AT(gripper), 2, 255}, {AT(gripper), 3, 255}, {AT(gripper), 256, 255},
        {AT(gripper), 257, 255}, {AT(gripper), bits, 255}, {AT(gripper), bits + 1, 255}, {AT(gripper), most, 255},
    };
    struct lictor_numbers n;
    struct lictor_counts c;
    for (size_t i = 0; i < sizeof cases / sizeof *cases; i++) {
        const uint64_t due = cases[i].due;
        struct lictor_derived d = {.inv_dt = 7.0};
        struct lictor_check_marks m = {7, 7, 7, 7};
        struct lictor_scores s = {{7.0}, {0.0}, 0.0};
        struct lictor_marks marks = {0, 0};
        struct lictor_forecast_marks f = {7, 7};
        struct lictor_forecast_distances r = {7.0, 7.0};
        struct lictor_wall_marks w = {7, 7};
        double out[1] = {7.0}, slacks[1] = {7.0}, speed = 7.0, position[1] = {0.0}, velocity[1] = {1.0}, margin = 7.0;
        uint64_t place = 7, count = 7;
        four_zones(&n, &c, 4);
        c.commit = 1, n.disc_radius = 1.0, ((uint64_t *)&c)[cases[i].at] = cases[i].value;
        lictor_tier1_new(LICTOR_TIER1_PARTS(&t));
#define CODE(call) EXPECT((call) == due || shown(cases[i].at, cases[i].value))
        CODE(lictor_derive(&n, &c, center, scale, &d));
        EXPECT((d.inv_dt == 7.0) == (due != 0));
        CODE(lictor_check_chunk(&n, &c, center, scale, origin, 1, LICTOR_NONE, 0, origin, 1, 1, 1, 1, out, 1, &m, &speed));
        EXPECT((m.trips == 7) == (due != 0) && (out[0] == 7.0) == (due != 0));
        m.trips = 7, out[0] = 7.0;
        CODE(lictor_check_action(&n, &c, center, scale, origin, 1, LICTOR_NONE, 0, origin, 1, origin, 1, out, 1, &m, &speed));
        EXPECT((m.trips == 7) == (due != 0) && (out[0] == 7.0) == (due != 0));
        CODE(lictor_features(&n, &c, center, scale, LICTOR_TIER1_PARTS(&t), origin, 1, origin, 0, 1, 3, 0, 1, 1, 1, origin, 1, &s, &marks));
        EXPECT((s.f[0] == 7.0) == (due != 0) && t.header.filled == (due == 0));
        CODE(lictor_brake_feasible(&n, &c, center, scale, origin, 1, origin, 1, origin, 1, 1, 1, 1, 0, slacks, 1, &f, &r, &place));
        EXPECT((f.count == 7) == (due != 0) && (slacks[0] == 7.0) == (due != 0) && place == (due == 0 || due == LICTOR_MISFIT ? 7 : 0));
        slacks[0] = 7.0, place = 7;
        CODE(lictor_run_towards(&n, &c, center, scale, origin, 1, position, 1, velocity, 1, 1, slacks, 1, &count, &margin, &place));
        EXPECT((count == 7) == (due != 0) && (slacks[0] == 7.0) == (due != 0) && place == (due == 0 || due == LICTOR_MISFIT ? 7 : 0));
        EXPECT((margin == 7.0) == (due != 0) && (velocity[0] == 1.0) == (due != 0));
        out[0] = 7.0;
        CODE(lictor_brake_action(&n, &c, center, scale, origin, 1, origin, 1, origin, 1, out, 1, &w));
        EXPECT((w.low_dims == 7) == (due != 0) && (out[0] == 7.0) == (due != 0));
        w.low_dims = 7, out[0] = 7.0;
        CODE(lictor_hold_action(&n, &c, center, scale, origin, 1, origin, 1, out, 1, &w));
        EXPECT((w.low_dims == 7) == (due != 0) && (out[0] == 7.0) == (due != 0));
#undef CODE
    }
}

/* one axis: chunks that overlap not at all, in three rows, and in four; a trail that stands still; refusals; a reset */
static void features(void) {
    static struct lictor_tier1 t;
    struct lictor_numbers n = {0};
    struct lictor_counts c = {0};
    struct lictor_scores s = {{0.0}, {0.0}, 7.0};
    struct lictor_marks m = {0, 5};
    const double rows[6] = {0.0, 1.0, 2.0, 3.0, 4.0, 5.0}, still[1] = {0.0}, ext[1] = {9.0};
    n.dt = n.v_max = n.a_max = n.j_max = n.reach_max = 1.0;
    n.brake_k_v = n.brake_dt = n.norm_scale[0] = 1.0;
    c.dim = c.pos_dim = c.substeps = 1;
    t.before[0] = t.trail[0] = NAN, t.kept.held_valid = 7;
    lictor_tier1_new(LICTOR_TIER1_PARTS(&t));
    EXPECT(t.before[0] == 0.0 && t.trail[0] == 0.0 && t.header.filled == 0 && t.kept.held_valid == 0);
#define TICK(there, emit, width, from) \
    lictor_features(&n, &c, center, scale, LICTOR_TIER1_PARTS(&t), still, 1, ext, 1, there, 3, emit, 4, width, 1, rows + from, 4, &s, &m)
    EXPECT(TICK(1, 0, 1, 0) == LICTOR_ACCEPTED && m.valid == 60 + 256 && m.fired == 5 && s.s == 7.0);
    EXPECT(s.f[LICTOR_TCE] == 0.0 && s.f[LICTOR_ACM_NEG] == -1.0 && s.f[LICTOR_SPEED_PEAK] == 1.0 && s.f[LICTOR_EXT0] == 9.0);
    EXPECT(t.kept.have_prev == 1 && t.header.seq == 3 && t.header.horizon == 4 && t.before[3] == 3.0);
    EXPECT(TICK(1, 1, 1, 1) == LICTOR_ACCEPTED && m.valid == 63 + 256 && s.f[LICTOR_TCE] == 0.0 && s.f[LICTOR_REACH] == 1.0);
    EXPECT(TICK(1, 1, 1, 2) == LICTOR_ACCEPTED && s.f[LICTOR_TCE] == 1.0 && t.held[LICTOR_REACH] == 2.0 && t.before[3] == 5.0);
    EXPECT(TICK(1, 1, 2, 0) == LICTOR_LEN_MISMATCH && s.f[LICTOR_TCE] == 1.0 && t.before[3] == 5.0);
    t.header.filled = 0, t.header.horizon = 65536, t.header.seq = UINT64_MAX;
    EXPECT(TICK(0, 9, 2, 0) == LICTOR_ACCEPTED && t.header.horizon == 65536 && t.header.seq == UINT64_MAX);
    t.header.filled = 1, t.header.seq = 3;
    EXPECT(TICK(0, 9, 2, 0) == LICTOR_TOO_LONG && t.header.horizon == 65536);
    t.header.horizon = 4;
    for (int i = 0; i < 20; i++) EXPECT(lictor_trail_push(t.trail, &t.samples, still, 1, 1) == LICTOR_ACCEPTED);
    EXPECT(TICK(0, 9, 2, 0) == LICTOR_ACCEPTED && m.valid == 63 + 64 + 256 && s.f[LICTOR_TCE] == 1.0);
    EXPECT(s.f[LICTOR_PATH_INEFF] == 1.0 && s.f[LICTOR_STALL] == 0.0 && t.header.t_emit == 1);
    /* scores that hold Stall: what came in is replaced */
    m.valid |= 128, s.f[LICTOR_STALL] = 1.0;
    EXPECT(TICK(0, 9, 2, 0) == LICTOR_ACCEPTED && m.valid == 63 + 64 + 256 && s.f[LICTOR_STALL] == 0.0);
    t.kept.have_prev = 2;
    EXPECT(TICK(0, 0, 1, 0) == LICTOR_MISFIT && lictor_tier1_reset(LICTOR_TIER1_PARTS(&t)) == LICTOR_MISFIT);
    t.kept.have_prev = 1, t.samples.head = 32;
    EXPECT(TICK(0, 0, 1, 0) == LICTOR_SIZE && lictor_tier1_reset(LICTOR_TIER1_PARTS(&t)) == LICTOR_SIZE && t.held[0] == 1.0);
    t.samples.head = 20, c.dim = 2, n.norm_scale[1] = 1.0;
    EXPECT(TICK(1, 2, 1, 0) == LICTOR_WIDTH && m.valid == 63 + 64 + 256 && t.header.t_emit == 1);
    EXPECT(lictor_tier1_reset(LICTOR_TIER1_PARTS(&t)) == LICTOR_ACCEPTED && t.header.filled == 0 && t.samples.len == 0);
    EXPECT(t.kept.have_prev == 0 && t.kept.held_valid == 0 && t.held[LICTOR_REACH] == 0.0 && t.before[3] == 5.0);
#undef TICK
}

/* the scope document's cards F1, F2, F1 with hi 1.25, and F3; a place; and the rows that brake and hold */
static void brakes(void) {
    struct lictor_numbers n = {0};
    struct lictor_counts c = {0};
    struct lictor_forecast_marks m = {7, 7};
    struct lictor_forecast_distances r = {7.0, 7.0};
    struct lictor_wall_marks w = {7, 7};
    const double still[1] = {0.0}, rows[4] = {1.0, 1.0, 1.0, 1.0}, far[1] = {5.0}, beyond[2] = {5.0, 5.0};
    double slacks[5] = {7.0, 7.0, 7.0, 7.0, 7.0}, out[2] = {7.0, 7.0};
    uint64_t place = 7;
    n.dt = n.v_max = n.a_max = n.j_max = n.reach_max = n.norm_scale[0] = 1.0;
    n.brake_k_p = 2.0, n.brake_k_v = 1.0, n.brake_dt = 0.5, n.box_lo[0] = -1.0, n.box_hi[0] = 2.0;
    c.dim = c.pos_dim = 1, c.substeps = 2, c.commit = 1, c.brake_steps = 1, c.react_ticks = 1;
#define FORECAST(from, room) \
    lictor_brake_feasible(&n, &c, center, scale, still, 1, still, 1, rows, 4, 4, 1, 1, from, slacks, room, &m, &r, &place)
    EXPECT(FORECAST(0, 5) == LICTOR_ACCEPTED && m.count == 4 && m.feasible == 1 && r.margin == 0.75 && r.stop_dist == 1.25);
    EXPECT(slacks[0] == 1.5 && slacks[1] == 1.0 && slacks[2] == 0.75 && slacks[3] == 0.75 && slacks[4] == 7.0 && place == 7);
    n.box_hi[0] = 1.0;
    EXPECT(FORECAST(0, 5) == LICTOR_ACCEPTED && m.feasible == 0 && r.margin == -0.25 && slacks[1] == 0.0);
    n.box_hi[0] = 1.25;
    EXPECT(FORECAST(0, 5) == LICTOR_ACCEPTED && m.feasible == 1 && r.margin == 0.0);
    c.brake_steps = 0;
    EXPECT(FORECAST(1, 0) == LICTOR_ACCEPTED && m.count == 0 && m.feasible == 1 && r.margin == INFINITY && r.stop_dist == 0.0);
    EXPECT(FORECAST(0, 1) == LICTOR_SHORT && place == 0 && m.count == 0 && slacks[0] == 0.75);
    n.brake_k_p = 1e308;
    EXPECT(FORECAST(0, 5) == LICTOR_COMPUTED && place == 2 && m.count == 0 && slacks[0] < -1e307 && slacks[1] == 0.25);
#undef FORECAST
#define BRAKE(pos, count, room) lictor_brake_action(&n, &c, center, scale, pos, count, still, 1, LICTOR_NONE, 0, out, room, &w)
#define HOLD(pos, count, room) lictor_hold_action(&n, &c, center, scale, pos, count, LICTOR_NONE, 0, out, room, &w)
    EXPECT(BRAKE(far, 1, 2) == LICTOR_ACCEPTED && out[0] == 1.25 && out[1] == 7.0 && w.low_dims == 0 && w.high_dims == 1);
    EXPECT(HOLD(still, 0, 2) == LICTOR_ACCEPTED && out[0] == 0.0 && out[1] == 7.0 && w.low_dims == 0 && w.high_dims == 0);
    /* a position that is missing counts as 0, below a low wall above 0 */
    n.box_lo[0] = 0.5;
    EXPECT(HOLD(still, 0, 2) == LICTOR_ACCEPTED && out[0] == 0.5 && w.low_dims == 1 && w.high_dims == 0);
    EXPECT(BRAKE(far, 0, 2) == LICTOR_ACCEPTED && out[0] == 0.5 && w.low_dims == 1 && w.high_dims == 0);
    /* a touched wall sets no bit */
    EXPECT(HOLD(&n.box_hi[0], 1, 2) == LICTOR_ACCEPTED && out[0] == 1.25 && w.low_dims == 0 && w.high_dims == 0);
    /* an axis past pos_dim is moved to 0 and sets none */
    c.dim = 2, n.norm_scale[1] = 1.0;
    EXPECT(HOLD(beyond, 2, 2) == LICTOR_ACCEPTED && out[0] == 1.25 && out[1] == 0.0 && w.low_dims == 0 && w.high_dims == 1);
    EXPECT(BRAKE(beyond, 2, 2) == LICTOR_ACCEPTED && out[0] == 1.25 && out[1] == 0.0 && w.low_dims == 0 && w.high_dims == 1);
    /* a refusal leaves them, and a velocity kind clears them */
    w.low_dims = w.high_dims = UINT64_MAX, c.dim = 1, c.kind = LICTOR_JOINT_VELOCITY;
    EXPECT(BRAKE(far, 1, 0) == LICTOR_SHORT && out[0] == 1.25 && w.low_dims == UINT64_MAX && w.high_dims == UINT64_MAX);
    c.kind = 5;
    EXPECT(HOLD(far, 1, 2) == LICTOR_MISFIT && out[0] == 1.25 && w.low_dims == UINT64_MAX && w.high_dims == UINT64_MAX);
    c.kind = LICTOR_EE_DELTA;
    EXPECT(BRAKE(far, 1, 2) == LICTOR_ACCEPTED && out[0] == 0.0 && w.low_dims == 0 && w.high_dims == 0);
    w.low_dims = w.high_dims = UINT64_MAX, c.kind = LICTOR_JOINT_VELOCITY;
    EXPECT(HOLD(far, 1, 2) == LICTOR_ACCEPTED && out[0] == 0.0 && w.low_dims == 0 && w.high_dims == 0);
#undef BRAKE
#undef HOLD
}

/* What a run towards a setpoint answers, and all that it may write, the slacks over sevens. */
struct ran {
    uint64_t number, count, place;
    double margin, position[9], velocity[9], slacks[70];
};

/* An arm before it runs. */
static struct ran ready(void) {
    const double position[9] = {0.1, 0.2, -0.3, 0.4, -0.5, 0.6, 0.7, -0.8, 7.0}, velocity[9] = {1.0, -0.9, 0.8, 0.7, 0.6, -0.5, 0.4, 0.3, 7.0};
    struct ran r = {0, 7, 7, 7.0, {0.0}, {0.0}, {0.0}};
    memcpy(r.position, position, sizeof position), memcpy(r.velocity, velocity, sizeof velocity);
    for (int i = 0; i < 70; i++) r.slacks[i] = 7.0;
    return r;
}

/* What is there where a run is refused with this number. */
static struct ran stays(uint64_t number, uint64_t place) {
    struct ran r = ready();
    r.number = number, r.place = place;
    return r;
}

/* Where it runs to. */
static const double aim[9] = {0.5, -0.25, 0.75, 1.5, -1.25, 0.0, -0.0, 0.3, 9.0};

/* So many substeps from what r has, with so much lent of the setpoint, the position and the velocity, and so much room for the slacks. */
static struct ran run(const struct lictor_numbers *n, const struct lictor_counts *c, const double *to, const size_t lent[3], struct ran r,
                      size_t steps, size_t room) {
    r.number = lictor_run_towards(n, c, center, scale, to, lent[0], r.position, lent[1], r.velocity, lent[2], steps, r.slacks, room, &r.count,
                                  &r.margin, &r.place);
    return r;
}

/* Whether two runs answer and write the same, bit for bit. */
static int same(struct ran a, struct ran b) { return memcmp(&a, &b, sizeof a) == 0; }

/* The same run by the rule as the header has it, substep by substep. */
static struct ran stepped(const struct lictor_numbers *n, const struct lictor_counts *c, struct ran r, size_t steps) {
    const size_t live = c->dim < c->pos_dim ? c->dim : c->pos_dim;
    r.count = steps, r.margin = INFINITY;
    for (size_t i = 0; i < steps; i++) {
        const double centre[2] = {n->disc_x, n->disc_y};
        double least = INFINITY, distance;
        for (size_t j = 0; j < live; j++) {
            const double pull = n->brake_k_p * (aim[j] - r.position[j]), drag = n->brake_k_v * r.velocity[j];
            r.velocity[j] += (pull - drag) * n->brake_dt;
            r.position[j] += r.velocity[j] * n->brake_dt;
            if (c->shape == LICTOR_DISC && j < 2) continue;
            least = lictor_min(least, r.position[j] - (n->box_lo[j] + n->margin));
            least = lictor_min(least, n->box_hi[j] - n->margin - r.position[j]);
        }
        if (c->shape == LICTOR_DISC) {
            EXPECT(lictor_dist(r.position, 2, centre, 2, 2, &distance) == LICTOR_ACCEPTED);
            least = lictor_min(n->disc_radius - distance, least);
        }
        r.slacks[i] = least, r.margin = lictor_min(r.margin, least);
    }
    return r;
}

/* An arm at a box or on a round table that is not the origin's, with gains that no number of it is a power of two of. */
static void runner(struct lictor_numbers *n, struct lictor_counts *c, uint64_t shape, uint64_t dim, uint64_t pos_dim) {
    table(n, c);
    n->box_lo[0] = n->box_lo[1] = -1.0, n->box_hi[0] = n->box_hi[1] = 1.0, n->margin = 0.125;
    n->disc_x = 0.25, n->disc_y = 0.5, n->disc_radius = 0.75;
    n->brake_k_p = 2.3, n->brake_k_v = 1.7, n->brake_dt = 0.1;
    c->shape = shape, c->dim = dim, c->pos_dim = pos_dim;
}

/* Runs as the rule has them, from none to 64 substeps with just room for them and with more, for every brake, with dim above, at and below
   pos_dim, at both shapes, with what is lent just long enough and longer: what is past the live axes and past the substeps stays. */
static void runs(void) {
    const uint64_t sizes[9][2] = {{1, 1}, {2, 1}, {4, 2}, {8, 1}, {8, 3}, {3, 3}, {8, 8}, {2, 4}, {1, 8}};
    struct lictor_numbers n;
    struct lictor_counts c;
    for (unsigned setting = 0; setting < 9 * 2 * 5; setting++) {
        const uint64_t dim = sizes[setting / 10][0], pos_dim = sizes[setting / 10][1], shape = setting % 2;
        const size_t least[3] = {dim, pos_dim, pos_dim}, more[3] = {9, 9, 9};
        if (shape == LICTOR_DISC && (dim < 2 || pos_dim < 2)) continue;
        runner(&n, &c, shape, dim, pos_dim), c.brake = setting / 2 % 5;
        for (size_t steps = 0; steps <= 64; steps += steps < 5 ? 1 : 59) {
            const struct ran due = stepped(&n, &c, ready(), steps);
            EXPECT(same(run(&n, &c, aim, least, ready(), steps, steps), due) || shown(setting, steps));
            EXPECT(same(run(&n, &c, aim, more, ready(), steps, 70), due) || shown(setting, steps));
        }
    }
    /* by hand: from rest to 1, walls at -1 and 2 */
    const double to[1] = {1.0}, slacks[3] = {1.5, 1.0, 0.75};
    const size_t one[3] = {1, 1, 1};
    struct ran due = ready(), still;
    runner(&n, &c, LICTOR_BOX, 1, 1);
    n.brake_k_p = 2.0, n.brake_k_v = 1.0, n.brake_dt = 0.5, n.margin = 0.0, n.box_hi[0] = 2.0;
    due.position[0] = due.velocity[0] = 0.0, still = due;
    due.count = 3, due.margin = 0.75, due.position[0] = 1.25, due.velocity[0] = 0.5, memcpy(due.slacks, slacks, sizeof slacks);
    EXPECT(same(run(&n, &c, to, one, still, 3, 3), due));
    due = still, due.count = 0, due.margin = INFINITY;
    EXPECT(same(run(&n, &c, to, one, still, 0, 0), due));
    /* more substeps than any count of the configuration holds */
    static double many[70000];
    EXPECT(lictor_run_towards(&n, &c, center, scale, to, 1, still.position, 1, still.velocity, 1, 70000, many, 70000, &due.count, &due.margin,
                              &due.place) == LICTOR_ACCEPTED);
    EXPECT(due.count == 70000 && due.margin == 0.75 && many[2] == 0.75 && many[69999] == 1.0 && still.position[0] == 1.0);
}

/* The refusals of a run on both sides of each edge, in their order: what is written is the place and, with LICTOR_COMPUTED, the slacks before it. */
static void runs_refused(void) {
    const size_t fit[3] = {4, 3, 3}, more[3] = {9, 9, 9};
    struct lictor_numbers n;
    struct lictor_counts c;
    struct ran due;
    for (unsigned setting = 0; setting < 2 * 5; setting++) {
        runner(&n, &c, setting % 2, 4, 3), c.brake = setting / 2;
#define REFUSED(call, number, place) EXPECT(same(call, stays(number, place)) || shown(setting, 0))
        EXPECT(run(&n, &c, aim, fit, ready(), 5, 5).number == LICTOR_ACCEPTED);
        REFUSED(run(&n, &c, aim, fit, ready(), 5, 4), LICTOR_SHORT, 0);
        REFUSED(run(&n, &c, aim, fit, ready(), 1, 0), LICTOR_SHORT, 0);
        REFUSED(run(&n, &c, aim, fit, ready(), SIZE_MAX, 70), LICTOR_SHORT, 0);
        /* each slice ends before a number that isn't finite, or just after it: it counts where it is lent, read or not, and the lengths come first */
        for (size_t i = 0; i < 3 * 9; i++) {
            const size_t slice = i / 9, at = i % 9;
            struct ran spoiled = ready();
            double to[9], *const slices[3] = {to, spoiled.position, spoiled.velocity};
            memcpy(to, aim, sizeof to), slices[slice][at] = i % 2 ? -INFINITY : NAN;
            for (size_t count = at; count <= at + 1; count++) {
                size_t lent[3] = {9, 9, 9};
                lent[slice] = count, due = spoiled, due.place = 0;
                due.number = count < fit[slice] ? LICTOR_SHORT : LICTOR_NOT_FINITE;
                if (count < fit[slice] || count > at) EXPECT(same(run(&n, &c, to, lent, spoiled, 5, 5), due) || shown(i, count));
                else EXPECT(run(&n, &c, to, lent, spoiled, 5, 5).number == LICTOR_ACCEPTED || shown(i, count));
                /* without a substep just as with some, and with too little room 11 whatever the numbers are */
                if (count > at) EXPECT(same(run(&n, &c, to, lent, spoiled, 0, 0), due) || shown(i, count));
                due.number = LICTOR_SHORT;
                EXPECT(same(run(&n, &c, to, lent, spoiled, 5, 4), due) || shown(i, count));
            }
        }
        /* the configuration comes before all that is lent, and a code that is none before the configuration */
        c.substeps = 0;
        REFUSED(run(&n, &c, aim, fit, ready(), 5, 4), LICTOR_STEPS, 0);
        c.kind = 5;
        REFUSED(run(&n, &c, aim, fit, ready(), 5, 4), LICTOR_MISFIT, 7);
        c.substeps = 1, c.kind = 0;
        /* a gain that throws the arm out: the place, and the slacks before it; one substep less is accepted, and none whatever the gain */
        n.brake_k_p = 1e60;
        const uint64_t place = c.shape == LICTOR_DISC ? 3 : 6;
        const struct ran before = run(&n, &c, aim, fit, ready(), place - 1, 70);
        EXPECT(before.number == LICTOR_ACCEPTED && before.count == place - 1 && before.place == 7);
        due = stays(LICTOR_COMPUTED, place), memcpy(due.slacks, before.slacks, (place - 1) * sizeof *due.slacks);
        EXPECT(same(run(&n, &c, aim, fit, ready(), place, 70), due) && same(run(&n, &c, aim, more, ready(), 70, 70), due));
        n.brake_k_p = 0x1.fffffffffffffp1023, n.brake_dt = 4.0;
        REFUSED(run(&n, &c, aim, fit, ready(), 1, 1), LICTOR_COMPUTED, 1);
        due = ready(), due.count = 0, due.margin = INFINITY;
        EXPECT(same(run(&n, &c, aim, fit, ready(), 0, 0), due));
#undef REFUSED
    }
    /* a slack that isn't finite, of a position that is: 2^1023 is too far from a wall at -2^1023, and half as much is not */
    const double far[2] = {0x1p1023, 0x1p1022};
    const size_t one[3] = {1, 1, 1};
    runner(&n, &c, LICTOR_BOX, 1, 1);
    n.brake_k_p = n.brake_k_v = n.brake_dt = 1.0, n.box_lo[0] = -0x1p1023, n.box_hi[0] = 0x1p1023;
    EXPECT(same(run(&n, &c, far, one, ready(), 2, 2), stays(LICTOR_COMPUTED, 1)));
    due = run(&n, &c, far + 1, one, ready(), 2, 2);
    EXPECT(due.number == LICTOR_ACCEPTED && due.position[0] == 0x1p1022 && due.margin == 0x1p1022);
}

/* m substeps and then n from where they end are m + n at once, accepted or refused, at both shapes and at every split; and a forecast of one row
   that is held for n substeps, with no braking step, writes the slacks of such a run. */
static void halves(void) {
    const double gains[4] = {2.3, 40.0, 1e20, 1e60};
    unsigned too_far = 0;
    const size_t fit[3] = {4, 3, 3};
    struct lictor_numbers n;
    struct lictor_counts c;
    for (unsigned setting = 0; setting < 2 * 4; setting++) {
        unsigned accepted = 0, first_refused = 0, second_refused = 0;
        runner(&n, &c, setting % 2, 4, 3), n.brake_k_p = gains[setting / 2];
        for (size_t whole = 0; whole <= 20; whole++) {
            const struct ran all = run(&n, &c, aim, fit, ready(), whole, whole);
            for (size_t m = 0; m <= whole; m++) {
                const struct ran first = run(&n, &c, aim, fit, ready(), m, m);
                struct ran due = all;
                if (first.number) {
                    EXPECT(same(first, all) || shown(setting, m));
                    first_refused++;
                    continue;
                }
                /* the second, its slacks after those of the first */
                struct ran second = first;
                second.number = lictor_run_towards(&n, &c, center, scale, aim, 4, second.position, 3, second.velocity, 3, whole - m, second.slacks + m,
                                                   whole - m, &second.count, &second.margin, &second.place);
                if (second.number) {
                    due.place = all.place - m, due.count = first.count, due.margin = first.margin;
                    memcpy(due.position, first.position, sizeof due.position), memcpy(due.velocity, first.velocity, sizeof due.velocity);
                    second_refused++;
                } else {
                    second.margin = lictor_min(first.margin, second.margin), second.count += first.count;
                    accepted++;
                }
                EXPECT(same(second, due) || shown(setting, m));
            }
            struct lictor_forecast_marks f = {7, 7};
            struct lictor_forecast_distances r = {7.0, 7.0};
            struct ran row = ready();
            c.substeps = whole ? whole : 1, c.commit = whole ? 1 : 0, c.brake_steps = 0;
            row.number = lictor_brake_feasible(&n, &c, center, scale, row.position, 3, row.velocity, 3, aim, 4, 1, 4, 1, 0, row.slacks, whole, &f, &r,
                                               &row.place);
            EXPECT(memcmp(row.slacks, all.slacks, sizeof row.slacks) == 0 || shown(setting, whole));
            /* its stop distance, which a run does not have, is what it may be refused for besides, at the place after the last slack */
            if (setting > 3 && !all.number && row.number) {
                EXPECT(row.number == LICTOR_COMPUTED && row.place == whole + 1 && f.count == 7);
                too_far++;
            } else {
                EXPECT((row.number == all.number && row.place == all.place) || shown(setting, whole));
                EXPECT((f.count == all.count && memcmp(&r.margin, &all.margin, sizeof r.margin) == 0) || shown(setting, whole));
            }
        }
        EXPECT(accepted > 0 && (setting < 4 || (first_refused > 0 && second_refused > 0)) && (setting > 3 || first_refused + second_refused == 0));
    }
    EXPECT(too_far > 0);
    /* a least slack that is a zero: the first axis stands at 0.0 on a wall at -0.0, and in the second substep the other touches its own */
    const double to[2] = {0.0, 1.0}, plus = 0.0, minus = -0.0;
    struct ran still = ready();
    runner(&n, &c, LICTOR_BOX, 2, 2), n.brake_k_p = 2.0, n.brake_k_v = 1.0, n.brake_dt = 0.5, n.margin = 0.0, n.box_hi[0] = -0.0;
    for (int j = 0; j < 2; j++) still.position[j] = still.velocity[j] = 0.0;
    const size_t two[3] = {2, 2, 2};
    const struct ran first = run(&n, &c, to, two, still, 1, 1), second = run(&n, &c, to, two, first, 1, 1), all = run(&n, &c, to, two, still, 2, 2);
    const double least = lictor_min(first.margin, second.margin), swapped = lictor_min(second.margin, first.margin);
    EXPECT(memcmp(&first.margin, &minus, sizeof minus) == 0 && memcmp(&second.margin, &plus, sizeof plus) == 0);
    EXPECT(memcmp(&least, &all.margin, sizeof least) == 0 && memcmp(&swapped, &minus, sizeof swapped) == 0 && all.margin == swapped);
}

/* A row that brakes or holds, written over sevens, and its marks. */
struct sent {
    uint64_t number;
    double row[9];
    struct lictor_wall_marks walls;
};

/* What is there where a call is refused with this number. */
static struct sent left(uint64_t number) {
    struct sent s = {number, {0.0}, {7, 7}};
    for (int i = 0; i < 9; i++) s.row[i] = 7.0;
    return s;
}

/* Whether two calls answer and write the same, bit for bit. */
static int alike(struct sent a, struct sent b) { return memcmp(&a, &b, sizeof a) == 0; }

/* An arm that moves, beyond a wall on four of its axes, brakes or holds. */
static struct sent braked(const struct lictor_numbers *n, const struct lictor_counts *c, int holds, const double *last, size_t last_count) {
    const double position[8] = {5.0, -5.0, 0.25, 2.0, -3.0, 0.5, -0.5, 0.125}, velocity[8] = {0.5, -0.5, 0.25, 2.0, 1.0, -1.0, 0.5, 0.25};
    struct sent s = left(0);
    s.number = holds ? lictor_hold_action(n, c, center, scale, position, 8, last, last_count, s.row, 9, &s.walls)
                     : lictor_brake_action(n, c, center, scale, position, 8, velocity, 8, last, last_count, s.row, 9, &s.walls);
    return s;
}

/* Brake and hold in both modes of the gripper, for every kind, with dim above, at and below pos_dim, at a box and on a round table, with last
   commands from no number to one more than dim, of which none or any one is not finite. */
static void grippers(void) {
    /* a zero that has a sign, the least number and the greatest: they are kept bit for bit */
    const double command[9] = {0.75, -0.0, 0x1p-1074, -0.875, 9.0, -0.0, 0x1.fffffffffffffp1023, -7.0, 3.0};
    const uint64_t sizes[9][2] = {{1, 1}, {2, 1}, {4, 2}, {8, 1}, {8, 3}, {3, 3}, {8, 8}, {2, 4}, {1, 8}};
    struct lictor_numbers n;
    struct lictor_counts c;
    for (unsigned setting = 0; setting < 9 * 5 * 2 * 2; setting++) {
        const uint64_t dim = sizes[setting / 20][0], pos_dim = sizes[setting / 20][1];
        const int holds = setting % 2;
        struct sent zeroed, kept;
        table(&n, &c);
        c.dim = dim, c.pos_dim = pos_dim, c.kind = setting / 4 % 5, c.shape = setting / 2 % 2, n.a_max = 0.5;
        n.box_lo[0] = n.box_lo[1] = -1.0, n.box_hi[0] = n.box_hi[1] = n.disc_radius = 1.0;
        if (c.shape == LICTOR_DISC && (dim < 2 || pos_dim < 2)) continue;
        zeroed = kept = braked(&n, &c, holds, LICTOR_NONE, 0);
        EXPECT(zeroed.number == LICTOR_ACCEPTED);
        for (uint64_t j = pos_dim; j < dim && c.kind != LICTOR_EE_DELTA && c.kind != LICTOR_JOINT_VELOCITY; j++) {
            EXPECT(zeroed.row[j] == 0.0);
            kept.row[j] = command[j];
        }
        for (size_t count = 0; count <= dim + 1; count++) {
            /* the place of a number that is not finite; none where it is the count */
            for (size_t unfit = 0; unfit <= count; unfit++) {
                double last[10];
                memcpy(last, command, sizeof command);
                last[unfit] = unfit % 2 ? -INFINITY : NAN;
                c.gripper = LICTOR_GRIPPER_TO_ZERO;
                EXPECT(alike(braked(&n, &c, holds, last, count), zeroed) || shown(setting, count));
                c.gripper = LICTOR_GRIPPER_LAST_COMMAND;
                EXPECT(alike(braked(&n, &c, holds, last, count),
                             count < dim ? left(LICTOR_SHORT) : unfit < count ? left(LICTOR_NOT_FINITE) : kept) ||
                       shown(setting, count));
            }
        }
    }
    /* the whole row of an arm of two axes with two grippers, by both entries; what is beyond a wall is marked as ever */
    table(&n, &c);
    c.shape = LICTOR_BOX, c.dim = 4, c.pos_dim = 2, n.box_lo[0] = n.box_lo[1] = -1.0, n.box_hi[0] = n.box_hi[1] = 1.0;
    for (int holds = 0; holds < 2; holds++) {
        const struct sent zeroed = {0, {1.0, -1.0, 0.0, 0.0, 7.0, 7.0, 7.0, 7.0, 7.0}, {2, 1}};
        const struct sent kept = {0, {1.0, -1.0, 0x1p-1074, -0.875, 7.0, 7.0, 7.0, 7.0, 7.0}, {2, 1}};
        c.gripper = LICTOR_GRIPPER_TO_ZERO;
        EXPECT(alike(braked(&n, &c, holds, command, 4), zeroed));
        c.gripper = LICTOR_GRIPPER_LAST_COMMAND;
        EXPECT(alike(braked(&n, &c, holds, command, 4), kept));
        /* the configuration is judged before the last command is */
        c.substeps = 0;
        EXPECT(alike(braked(&n, &c, holds, LICTOR_NONE, 0), left(LICTOR_STEPS)));
        c.substeps = 1, c.gripper = 2;
        EXPECT(alike(braked(&n, &c, holds, command, 4), left(LICTOR_MISFIT)));
    }
    /* 11 comes before 12, and 12 before 13, which a round table gives; one array may be lent twice where both are read alone */
    const double lost[3] = {1e200, 0.0, 0.5}, unfit[3] = {0.0, 0.0, NAN};
    struct sent s = left(0);
#define HOLD(pos, last, last_count, room) lictor_hold_action(&n, &c, center, scale, pos, 3, last, last_count, s.row, room, &s.walls)
    table(&n, &c);
    c.pos_dim = 2, c.gripper = LICTOR_GRIPPER_LAST_COMMAND;
    EXPECT(HOLD(unfit, unfit + 1, 2, 3) == LICTOR_SHORT && HOLD(lost, unfit, 3, 2) == LICTOR_SHORT);
    EXPECT(HOLD(lost, unfit, 3, 3) == LICTOR_NOT_FINITE && HOLD(unfit, lost, 3, 3) == LICTOR_NOT_FINITE);
    EXPECT(HOLD(lost, lost, 3, 3) == LICTOR_COMPUTED && alike(s, left(0)));
    n.disc_x = 1e200;
    EXPECT(HOLD(lost, lost, 3, 3) == LICTOR_ACCEPTED && s.row[0] == 1e200 && s.row[1] == 0.0 && s.row[2] == 0.5 && s.row[3] == 7.0);
#undef HOLD
}

/* the scope document: z (2,1), terms {0,1} and {0}: s = 2; tau 2 doesn't trip */
static void gate(void) {
    const uint32_t terms[8] = {3, 1, 0, 0, 0, 0, 0, 0};
    struct lictor_scores s = {{2.0, 1.0}, {0.0}, 0.0};
    struct lictor_marks m = {3, 0};
    uint64_t trips = 7, bin = 7;
    for (int i = 0; i < 192; i++) scale[i] = 1.0;
    EXPECT(lictor_standardise(center, scale, 2.0, 3, 2, terms, 0, &s, &m) == LICTOR_ACCEPTED && s.z[0] == 2.0);
    EXPECT(lictor_aggregate(center, scale, 2.0, 3, 2, terms, &s, &m) == LICTOR_ACCEPTED && s.s == 2.0);
    EXPECT(lictor_trip(center, scale, 2.0, 3, 2, terms, &s, &m, &trips) == LICTOR_ACCEPTED && trips == 0);
    EXPECT(lictor_trip(center, scale, 1.0, 3, 2, terms, &s, &m, &trips) == LICTOR_ACCEPTED && trips == 1);
    EXPECT(lictor_aggregate(center, scale, 2.0, 3, 0, terms, &s, &m) == LICTOR_ACCEPTED && s.s == -INFINITY);
    /* Stall in the mask or in a counted term, after the numbers and before the scores; scores that hold it have a z of 0.0 and no mark */
    const uint32_t stalled[8] = {1, 1 << LICTOR_STALL, 0, 0, 0, 0, 0, 0};
    EXPECT(lictor_trip(center, scale, 1.0, 128, 0, terms, &s, &m, &trips) == LICTOR_WITHDRAWN && trips == 1);
    EXPECT(lictor_trip(center, scale, 1.0, 1, 2, stalled, &s, &m, &trips) == LICTOR_WITHDRAWN && trips == 1);
    EXPECT(lictor_trip(center, scale, INFINITY, 128, 0, terms, &s, &m, &trips) == LICTOR_NUMBER && trips == 1);
    EXPECT(lictor_trip(center, scale, 1.0, 4224, 0, terms, &s, &m, &trips) == LICTOR_SIZE && trips == 1);
    s.f[LICTOR_STALL] = NAN;
    EXPECT(lictor_standardise(center, scale, 1.0, 3, 2, stalled, 0, &s, &m) == LICTOR_WITHDRAWN && s.z[0] == 2.0);
    EXPECT(lictor_standardise(center, scale, 1.0, 3, 1, stalled, 0, &s, &m) == LICTOR_NOT_FINITE && s.z[0] == 2.0);
    s.f[LICTOR_STALL] = s.z[LICTOR_STALL] = 9.0, m.valid = 4095;
    EXPECT(lictor_aggregate(center, scale, 1.5, 0xf7f, 1, stalled, &s, &m) == LICTOR_ACCEPTED && s.s == 2.0 && m.fired == 1);
    EXPECT(lictor_standardise(center, scale, 1.5, 0xf7f, 1, stalled, 0, &s, &m) == LICTOR_ACCEPTED && s.z[LICTOR_STALL] == 0.0);
    s.s = -INFINITY, m.valid = 3, m.fired = UINT32_MAX;
    EXPECT(lictor_trip(center, scale, INFINITY, 3, 2, terms, &s, &m, &trips) == LICTOR_NUMBER && trips == 1);
    m.fired = UINT64_C(1) << 32;
    EXPECT(lictor_trip(center, scale, INFINITY, 3, 2, terms, &s, &m, &trips) == LICTOR_MISFIT && trips == 1);
    m.fired = 0, m.valid = UINT64_C(1) << 32;
    EXPECT(lictor_aggregate(center, scale, 2.0, 3, 2, terms, &s, &m) == LICTOR_MISFIT && s.s == -INFINITY);
    EXPECT(lictor_time_bin(14, 200, &bin) == LICTOR_ACCEPTED && bin == 1);
    EXPECT(lictor_time_bin(14, 0, &bin) == LICTOR_STEPS && bin == 1);
    EXPECT(lictor_time_bin(13, 200, &bin) == LICTOR_ACCEPTED && bin == 0);
    EXPECT(lictor_time_bin(200, 200, &bin) == LICTOR_ACCEPTED && bin == 15);
    EXPECT(lictor_time_bin(0, 200, &bin) == LICTOR_ACCEPTED && bin == 0);
    EXPECT(lictor_time_bin(UINT32_MAX, UINT32_MAX, &bin) == LICTOR_ACCEPTED && bin == 15);
}

int main(void) {
    numbers();
    chunks();
    windows();
    trails();
    configuration();
    widths();
    zones();
    round_tables();
    held_widths();
    checks();
    walls();
    calm();
    cameras();
    several_zones();
    turntable();
    codes();
    features();
    brakes();
    runs();
    runs_refused();
    halves();
    grippers();
    gate();
    puts(failed ? "C calls: failed" : "C calls: as expected");
    return failed;
}
