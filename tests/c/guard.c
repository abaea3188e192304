/* Holds what the header itself computes: each guard form to its entry, on drawn arguments; null pointers; counts that the gate's types
   cannot hold; the texts and the version. Prints each that is otherwise. */
#include "lictor.h"

#include <math.h>
#include <stdio.h>
#include <string.h>

static int failed;

#define EXPECT(what)                                      \
    do {                                                  \
        if (!(what)) {                                    \
            printf("guard.c:%d: %s\n", __LINE__, #what);  \
            failed = 1;                                   \
        }                                                 \
    } while (0)

/* Drawn numbers, the same in every run. */
static uint64_t drawn = 1;
static uint64_t below(uint64_t n) {
    drawn = drawn * UINT64_C(6364136223846793005) + UINT64_C(1442695040888963407);
    return (drawn >> 33) % n;
}
static double number(void) { return (double)below(2001) / 1000.0 - 1.0; }
static void draw(double *numbers, size_t count) {
    for (size_t i = 0; i < count; i++) numbers[i] = number();
}

#define AXES 3
#define ROWS 5
#define CHANNELS 4

/* An arm of three axes that is accepted, with four zones of which none is counted, and a round table that is not its shape. */
static struct lictor_config arm(void) {
    struct lictor_config c;
    memset(&c, 0, sizeof c);
    c.numbers.dt = 0.5, c.numbers.v_max = c.numbers.a_max = c.numbers.j_max = c.numbers.reach_max = 1.0;
    c.numbers.brake_k_p = 2.0, c.numbers.brake_k_v = 1.0, c.numbers.brake_dt = 0.25, c.numbers.tau = 0.5;
    c.numbers.contact_radius = c.numbers.contact1_radius = c.numbers.contact2_radius = c.numbers.contact3_radius = 1.0;
    c.numbers.contact_v_max = 0.5, c.numbers.contact1_v_max = 0.75, c.numbers.contact2_v_max = 1.0, c.numbers.contact3_v_max = 0.125;
    for (int i = 0; i < 8; i++) c.numbers.norm_scale[i] = 1.0, c.numbers.box_lo[i] = -2.0, c.numbers.box_hi[i] = 2.0;
    for (int i = 0; i < 192; i++) c.center[i] = 0.01 * i, c.scale[i] = 1.0 + i;
    c.counts.dim = c.counts.pos_dim = AXES, c.counts.armed = LICTOR_TRIP_ALL, c.counts.clamp = LICTOR_CLAMP_PROJECT;
    c.counts.substeps = 2, c.counts.commit = 3, c.counts.brake_steps = 2, c.counts.react_ticks = 1;
    c.counts.aux_count = CHANNELS, c.counts.contact_a1 = 1, c.counts.contact1_a0 = 2, c.counts.contact1_a1 = 3;
    c.counts.contact2_a0 = 1, c.counts.contact2_a1 = 0, c.counts.contact3_a0 = 3, c.counts.contact3_a1 = 1;
    c.counts.calibrated = 1, c.counts.mask = 0xf7f, c.counts.n_terms = 2, c.counts.terms[0] = 3, c.counts.terms[1] = 60;
    c.counts.horizon_ticks = 200;
    c.numbers.disc_x = 0.25, c.numbers.disc_y = -0.25, c.numbers.disc_radius = 0.75;
    return c;
}

/* What the calls below read and write. */
struct tick {
    double pos[AXES], vel[AXES], aux[CHANNELS], ext[4], rows[ROWS * AXES], previous[AXES], last[AXES + 1];
    double out[ROWS * AXES], row[AXES], slacks[64], speed;
    double aim[AXES + 1], at[AXES + 1], moving[AXES + 1], margin;
    struct lictor_tier1 state;
    struct lictor_scores scores;
    struct lictor_marks marks;
    struct lictor_check_marks found;
    struct lictor_wall_marks walls;
    struct lictor_forecast_marks forecast;
    struct lictor_forecast_distances distances;
    struct lictor_derived derived;
    uint64_t place, trips, bin, length, count;
};

static const uint32_t terms[8] = {3, 60};

/* What all guard forms that take a configuration answer, or no refusal's number where they differ. */
static uint64_t every_form(const struct lictor_config *c, struct tick *a) {
    const uint16_t dim = c->counts.dim == 1 ? 1 : AXES;
    const struct lictor_chunk chunk = {a->rows, (size_t)(ROWS * dim), 0, 0, ROWS, dim, 2};
    const uint64_t due = lictor_guard_derive(c, &a->derived), answers[] = {
        lictor_guard_check_chunk(c, a->pos, AXES, a->aux, CHANNELS, &chunk, a->out, ROWS * AXES, &a->found, &a->speed),
        lictor_guard_check_action(c, a->pos, AXES, NULL, 0, a->previous, AXES, a->rows, AXES, a->row, AXES, &a->found, &a->speed),
        lictor_guard_features(c, &a->state, a->pos, AXES, NULL, 0, &chunk, &a->scores, &a->marks),
        lictor_guard_brake_feasible(c, a->pos, AXES, a->vel, AXES, &chunk, 0, a->slacks, 64, &a->forecast, &a->distances, &a->place),
        lictor_guard_run_towards(c, a->rows, AXES, a->at, AXES, a->moving, AXES, 4, a->slacks, 64, &a->count, &a->margin, &a->place),
        lictor_guard_brake_action(c, a->pos, AXES, a->vel, AXES, a->last, AXES, a->row, AXES, &a->walls),
        lictor_guard_hold_action(c, a->pos, AXES, a->last, AXES, a->row, AXES, &a->walls),
    };
    for (size_t i = 0; i < sizeof answers / sizeof *answers; i++)
        if (answers[i] != due) return UINT64_MAX;
    return due;
}

#define DUE(due) EXPECT(every_form(&c, &a) == (due))

/* Both calls answer and write the same; the number is kept in answer. */
#define SAME(number_a, number_b)                                              \
    do {                                                                      \
        answer = (number_a);                                                  \
        const uint64_t number_of_b = (number_b);                              \
        EXPECT(answer == number_of_b && memcmp(&a, &b, sizeof a) == 0);       \
        refusals += answer != LICTOR_ACCEPTED;                                \
    } while (0)

/* Each guard form answers and writes as its entry does. */
static void forms(void) {
    static struct tick a, b;
    int refusals = 0;
    const struct lictor_wall_marks none = {0, 0};
    uint64_t answer, stopped = 0, turned = 0, kept = 0, ran = 0, lost = 0, slowed[LICTOR_MAX_ZONES + 1] = {0};
    lictor_tier1_new(LICTOR_TIER1_PARTS(&a.state));
    for (uint32_t t = 0; t < 2000; t++) {
        struct lictor_config c = arm();
        struct lictor_chunk chunk = {a.rows, ROWS * AXES, t + 7, t, ROWS, AXES, 2};
        const size_t from = below(4), i = below(7), pos = AXES - (below(30) == 0), aux = below(CHANNELS + 1), ext = below(5);
        const size_t last = below(30) == 0 ? below(AXES) : AXES + below(2);
        const size_t aim = AXES + 1 - below(3), steps = below(20), room = below(30) == 0 ? steps / 2 : steps + below(2);
        draw(a.pos, AXES), draw(a.vel, AXES), draw(a.aux, CHANNELS), draw(a.ext, 4), draw(a.rows, ROWS * AXES), draw(a.previous, AXES);
        draw(a.last, AXES + 1), draw(a.aim, AXES + 1), draw(a.at, AXES + 1), draw(a.moving, AXES + 1);
        c.counts.brake = below(5), c.counts.kind = below(5), c.counts.contact = below(5), c.counts.clamp = below(2);
        c.counts.absent_camera = below(2), c.counts.shape = below(3) == 0 ? LICTOR_DISC : LICTOR_BOX;
        c.counts.gripper = below(2), c.counts.pos_dim = below(3) == 0 ? AXES - 1 : AXES;
        c.numbers.margin = below(2) ? 1.5 : 0.0;
        if (below(30) == 0) chunk.exec_steps = 9;
        if (below(30) == 0) a.rows[4] = NAN;
        if (below(30) == 0) c.numbers.margin = -1.0;
        if (below(30) == 0) c.counts.kind = 5;
        if (below(30) == 0) c.counts.absent_camera = 2;
        if (below(30) == 0) c.counts.shape = 2 + below(300);
        if (below(30) == 0) c.counts.gripper = 2 + below(300);
        if (below(30) == 0) a.last[below(AXES + 1)] = NAN;
        if (below(30) == 0) c.numbers.disc_radius = 0.0;
        if (below(30) == 0) c.numbers.disc_y = NAN;
        if (below(30) == 0) c.counts.pos_dim = 1;
        if (below(30) == 0) c.counts.contact = 5 + below(300);
        if (below(30) == 0) c.numbers.contact3_v_max = NAN;
        if (below(30) == 0) c.counts.contact2_a0 = 0, c.counts.contact2_a1 = 1;
        if (below(30) == 0) c.numbers.brake_k_p = 1e100;
        if (below(30) == 0) a.aim[below(AXES + 1)] = NAN;
        if (below(30) == 0) c.scale[100] = 0.0;
        if (below(30) == 0) c.counts.mask |= 1 << LICTOR_STALL;
        b = a;
#define PARTS LICTOR_CONFIG_PARTS(&c)
#define GATE c.center, c.scale, c.numbers.tau, (uint32_t)c.counts.mask, 2, terms
        SAME(lictor_derive(PARTS, &a.derived), lictor_guard_derive(&c, &b.derived));
        SAME(lictor_features(PARTS, LICTOR_TIER1_PARTS(&a.state), a.pos, pos, a.ext, ext, 1, t + 7, t, ROWS, AXES, chunk.exec_steps,
                             a.rows, ROWS * AXES, &a.scores, &a.marks),
             lictor_guard_features(&c, &b.state, a.pos, pos, a.ext, ext, &chunk, &b.scores, &b.marks));
        SAME(lictor_features(PARTS, LICTOR_TIER1_PARTS(&a.state), a.pos, pos, a.ext, ext, 0, 0, 0, 0, 0, 0, a.rows, 0, &a.scores,
                             &a.marks),
             lictor_guard_features(&c, &b.state, a.pos, pos, a.ext, ext, NULL, &b.scores, &b.marks));
        SAME(lictor_time_bin(t, 200, &a.bin), lictor_guard_time_bin(&c, t, &b.bin));
        SAME(lictor_standardise(GATE, a.bin, &a.scores, &a.marks), lictor_guard_standardise(&c, a.bin, &b.scores, &b.marks));
        SAME(lictor_aggregate(GATE, &a.scores, &a.marks), lictor_guard_aggregate(&c, &b.scores, &b.marks));
        SAME(lictor_trip(GATE, &a.scores, &a.marks, &a.trips), lictor_guard_trip(&c, &b.scores, &b.marks, &b.trips));
        SAME(lictor_check_chunk(PARTS, a.pos, pos, a.aux, aux, a.rows, ROWS * AXES, ROWS, AXES, chunk.exec_steps, a.out, ROWS * AXES,
                                &a.found, &a.speed),
             lictor_guard_check_chunk(&c, a.pos, pos, a.aux, aux, &chunk, b.out, ROWS * AXES, &b.found, &b.speed));
        /* a refused call leaves the marks of the one before */
        if (answer == LICTOR_ACCEPTED && c.counts.contact <= LICTOR_MAX_ZONES)
            slowed[c.counts.contact] += (a.found.trips & LICTOR_TRIP_CONTACT) != 0;
        SAME(lictor_check_action(PARTS, a.pos, pos, a.aux, aux, a.previous, AXES, a.rows, AXES, a.row, AXES, &a.found, &a.speed),
             lictor_guard_check_action(&c, a.pos, pos, a.aux, aux, a.previous, AXES, a.rows, AXES, b.row, AXES, &b.found, &b.speed));
        SAME(lictor_brake_feasible(PARTS, a.pos, pos, a.vel, AXES, a.rows, ROWS * AXES, ROWS, AXES, chunk.exec_steps, from, a.slacks,
                                   64, &a.forecast, &a.distances, &a.place),
             lictor_guard_brake_feasible(&c, a.pos, pos, a.vel, AXES, &chunk, from, b.slacks, 64, &b.forecast, &b.distances, &b.place));
        SAME(lictor_run_towards(PARTS, a.aim, aim, a.at, pos, a.moving, AXES, steps, a.slacks, room, &a.count, &a.margin, &a.place),
             lictor_guard_run_towards(&c, a.aim, aim, b.at, pos, b.moving, AXES, steps, b.slacks, room, &b.count, &b.margin, &b.place));
        ran += answer == LICTOR_ACCEPTED, lost += answer == LICTOR_COMPUTED;
        a.row[0] = b.row[0] = a.pos[0];
        a.walls = b.walls = none;
        SAME(lictor_brake_action(PARTS, a.pos, pos, a.vel, AXES, a.last, last, a.row, AXES, &a.walls),
             lictor_guard_brake_action(&c, a.pos, pos, a.vel, AXES, a.last, last, b.row, AXES, &b.walls));
        stopped |= a.walls.low_dims | a.walls.high_dims << AXES;
        if (answer == LICTOR_ACCEPTED && c.counts.shape == LICTOR_DISC && c.counts.kind == LICTOR_EE_POSITION) turned += a.row[0] != a.pos[0];
        a.walls = b.walls = none;
        SAME(lictor_hold_action(PARTS, a.pos, pos, a.last, last, a.row, AXES, &a.walls),
             lictor_guard_hold_action(&c, a.pos, pos, a.last, last, b.row, AXES, &b.walls));
        if (answer == LICTOR_ACCEPTED) kept += a.row[AXES - 1] == a.last[AXES - 1];
        a.length = lictor_action(a.rows, ROWS * AXES, ROWS, AXES, i, a.row, AXES);
        b.length = lictor_guard_action(&chunk, i, b.row, AXES);
        SAME(0, 0);
#undef PARTS
#undef GATE
    }
    /* the draws reach refused calls too, and not those alone; a brake is stopped at each wall; each count of zones slows a chunk,
       and without a zone none is slowed */
    EXPECT(refusals > 500 && refusals < 12000 && stopped == (1 << 2 * AXES) - 1);
    /* a brake is moved onto a round table, and left where it is */
    EXPECT(turned > 20 && turned < 200);
    /* a run comes to its end, and is lost on its way */
    EXPECT(ran > 500 && ran < 1500 && lost > 10);
    /* a gripper is kept, and is not */
    EXPECT(kept > 50 && kept < 500);
    EXPECT(slowed[0] == 0);
    for (int i = 1; i <= LICTOR_MAX_ZONES; i++) EXPECT(slowed[i] > 50);
}

/* No numbers are a null pointer with a count of 0; with any other count nothing is written, and LICTOR_MISFIT given, unless it is a last command
   that is no argument. */
static void nulls(void) {
    struct lictor_config c = arm();
    static struct tick a, b;
    const struct lictor_chunk chunk = {a.rows, ROWS * AXES, 0, 0, ROWS, AXES, 2};
    const struct lictor_chunk without = {NULL, 0, 0, 0, ROWS, AXES, 2}, lost = {NULL, ROWS * AXES, 0, 0, ROWS, AXES, 2};
    lictor_tier1_new(LICTOR_TIER1_PARTS(&a.state));
#define CHECK(pos, pos_count, aux, aux_count, ch, out, out_count) \
    lictor_guard_check_chunk(&c, pos, pos_count, aux, aux_count, ch, out, out_count, &a.found, &a.speed)
#define ACTION(pos, pos_count, aux, aux_count, prev, prev_count, act, act_count, out, out_count) \
    lictor_guard_check_action(&c, pos, pos_count, aux, aux_count, prev, prev_count, act, act_count, out, out_count, &a.found, &a.speed)
#define FEATURES(pos, pos_count, ext, ext_count, ch) \
    lictor_guard_features(&c, &a.state, pos, pos_count, ext, ext_count, ch, &a.scores, &a.marks)
#define FORECAST(pos, pos_count, vel, vel_count, ch, slacks, slacks_count) \
    lictor_guard_brake_feasible(&c, pos, pos_count, vel, vel_count, ch, 0, slacks, slacks_count, &a.forecast, &a.distances, &a.place)
#define RUN(to, to_count, pos, pos_count, vel, vel_count, n, slacks, slacks_count) \
    lictor_guard_run_towards(&c, to, to_count, pos, pos_count, vel, vel_count, n, slacks, slacks_count, &a.count, &a.margin, &a.place)
#define BRAKE(pos, pos_count, vel, vel_count, last, last_count, out, out_count) \
    lictor_guard_brake_action(&c, pos, pos_count, vel, vel_count, last, last_count, out, out_count, &a.walls)
#define HOLD(pos, pos_count, last, last_count, out, out_count) \
    lictor_guard_hold_action(&c, pos, pos_count, last, last_count, out, out_count, &a.walls)
    b = a;
    EXPECT(CHECK(NULL, 1, a.aux, 2, &chunk, a.out, ROWS * AXES) == LICTOR_MISFIT);
    EXPECT(CHECK(a.pos, AXES, NULL, 1, &chunk, a.out, ROWS * AXES) == LICTOR_MISFIT);
    EXPECT(CHECK(a.pos, AXES, a.aux, 2, &lost, a.out, ROWS * AXES) == LICTOR_MISFIT);
    EXPECT(CHECK(a.pos, AXES, a.aux, 2, &chunk, NULL, ROWS * AXES) == LICTOR_MISFIT);
    EXPECT(CHECK(NULL, 0, NULL, 0, &chunk, a.out, ROWS * AXES) == LICTOR_SHORT);
    EXPECT(CHECK(a.pos, AXES, NULL, 0, &chunk, NULL, 0) == LICTOR_SHORT);
    EXPECT(CHECK(a.pos, AXES, NULL, 0, &without, a.out, ROWS * AXES) == LICTOR_LEN_MISMATCH);
    EXPECT(ACTION(NULL, 1, NULL, 0, a.previous, AXES, a.rows, AXES, a.row, AXES) == LICTOR_MISFIT);
    EXPECT(ACTION(a.pos, AXES, NULL, 1, a.previous, AXES, a.rows, AXES, a.row, AXES) == LICTOR_MISFIT);
    EXPECT(ACTION(a.pos, AXES, NULL, 0, NULL, AXES, a.rows, AXES, a.row, AXES) == LICTOR_MISFIT);
    EXPECT(ACTION(a.pos, AXES, NULL, 0, a.previous, AXES, NULL, AXES, a.row, AXES) == LICTOR_MISFIT);
    EXPECT(ACTION(a.pos, AXES, NULL, 0, a.previous, AXES, a.rows, AXES, NULL, AXES) == LICTOR_MISFIT);
    EXPECT(ACTION(a.pos, AXES, NULL, 0, NULL, 0, a.rows, AXES, a.row, AXES) == LICTOR_SHORT);
    EXPECT(FEATURES(NULL, 1, NULL, 0, &chunk) == LICTOR_MISFIT && FEATURES(a.pos, AXES, NULL, 1, &chunk) == LICTOR_MISFIT);
    EXPECT(FEATURES(a.pos, AXES, NULL, 0, &lost) == LICTOR_MISFIT && FEATURES(a.pos, AXES, NULL, 0, &without) == LICTOR_LEN_MISMATCH);
    EXPECT(FORECAST(NULL, 1, a.vel, AXES, &chunk, a.slacks, 64) == LICTOR_MISFIT);
    EXPECT(FORECAST(a.pos, AXES, NULL, 1, &chunk, a.slacks, 64) == LICTOR_MISFIT);
    EXPECT(FORECAST(a.pos, AXES, a.vel, AXES, &lost, a.slacks, 64) == LICTOR_MISFIT);
    EXPECT(FORECAST(a.pos, AXES, a.vel, AXES, &chunk, NULL, 64) == LICTOR_MISFIT);
    EXPECT(FORECAST(NULL, 0, NULL, 0, &chunk, NULL, 0) == LICTOR_SHORT);
    EXPECT(FORECAST(a.pos, AXES, a.vel, AXES, &chunk, NULL, 0) == LICTOR_SHORT);
    EXPECT(RUN(NULL, 1, a.at, AXES, a.moving, AXES, 4, a.slacks, 64) == LICTOR_MISFIT);
    EXPECT(RUN(a.aim, AXES, NULL, 1, a.moving, AXES, 4, a.slacks, 64) == LICTOR_MISFIT);
    EXPECT(RUN(a.aim, AXES, a.at, AXES, NULL, 1, 4, a.slacks, 64) == LICTOR_MISFIT);
    EXPECT(RUN(a.aim, AXES, a.at, AXES, a.moving, AXES, 4, NULL, 64) == LICTOR_MISFIT);
    EXPECT(RUN(a.aim, AXES, a.at, AXES, a.moving, AXES, 0, NULL, 1) == LICTOR_MISFIT);
    EXPECT(RUN(NULL, 0, NULL, 0, NULL, 0, 0, NULL, 0) == LICTOR_SHORT);
    EXPECT(RUN(NULL, 0, a.at, AXES, a.moving, AXES, 4, a.slacks, 64) == LICTOR_SHORT);
    EXPECT(RUN(a.aim, AXES, NULL, 0, a.moving, AXES, 4, a.slacks, 64) == LICTOR_SHORT);
    EXPECT(RUN(a.aim, AXES, a.at, AXES, NULL, 0, 4, a.slacks, 64) == LICTOR_SHORT);
    EXPECT(RUN(a.aim, AXES, a.at, AXES, a.moving, AXES, 1, NULL, 0) == LICTOR_SHORT);
    EXPECT(lictor_lent(NULL) == LICTOR_NONE && lictor_lent(a.pos) == a.pos);
    for (c.counts.gripper = 0; c.counts.gripper < 3; c.counts.gripper++) {
        const enum lictor_refusal due = c.counts.gripper > LICTOR_GRIPPER_LAST_COMMAND ? LICTOR_MISFIT : LICTOR_SHORT;
        EXPECT(BRAKE(NULL, 1, a.vel, AXES, a.last, AXES, a.row, AXES) == LICTOR_MISFIT && HOLD(NULL, 1, a.last, AXES, a.row, AXES) == LICTOR_MISFIT);
        EXPECT(BRAKE(a.pos, AXES, NULL, 1, a.last, AXES, a.row, AXES) == LICTOR_MISFIT);
        EXPECT(BRAKE(a.pos, AXES, a.vel, AXES, a.last, AXES, NULL, 1) == LICTOR_MISFIT && HOLD(a.pos, AXES, a.last, AXES, NULL, 1) == LICTOR_MISFIT);
        EXPECT(BRAKE(NULL, 0, NULL, 0, NULL, 0, NULL, 0) == due && HOLD(NULL, 0, NULL, 0, NULL, 0) == due);
        EXPECT(BRAKE(a.pos, AXES, a.vel, AXES, a.last, AXES, NULL, 0) == due && HOLD(a.pos, AXES, a.last, AXES, NULL, 0) == due);
        /* a last command that is null and yet has numbers; where it is no argument the output is too short */
        EXPECT(BRAKE(a.pos, AXES, a.vel, AXES, NULL, 1, NULL, 0) == (c.counts.gripper ? LICTOR_MISFIT : LICTOR_SHORT));
        EXPECT(HOLD(a.pos, AXES, NULL, SIZE_MAX, NULL, 0) == (c.counts.gripper ? LICTOR_MISFIT : LICTOR_SHORT));
    }
    c.counts.gripper = LICTOR_GRIPPER_LAST_COMMAND;
    EXPECT(BRAKE(a.pos, AXES, a.vel, AXES, NULL, 0, a.row, AXES) == LICTOR_SHORT && HOLD(a.pos, AXES, NULL, 0, a.row, AXES) == LICTOR_SHORT);
    EXPECT(BRAKE(a.pos, AXES, a.vel, AXES, NULL, AXES, a.row, AXES) == LICTOR_MISFIT && HOLD(a.pos, AXES, NULL, AXES, a.row, AXES) == LICTOR_MISFIT);
    c.counts.gripper = LICTOR_GRIPPER_TO_ZERO;
    EXPECT(lictor_guard_action(&lost, 0, a.row, AXES) == 0 && lictor_guard_action(&without, 0, a.row, AXES) == 0);
    EXPECT(lictor_guard_action(&chunk, 0, NULL, AXES) == 0 && lictor_guard_action(&chunk, 0, NULL, 0) == AXES);
    EXPECT(memcmp(&a, &b, sizeof a) == 0);
    /* an arm without a zone and without a camera, features without a position, a hold without one */
    EXPECT(CHECK(a.pos, AXES, NULL, 0, &chunk, a.out, ROWS * AXES) == LICTOR_ACCEPTED && a.found.trips == 0);
    EXPECT(ACTION(a.pos, AXES, NULL, 0, a.previous, AXES, a.rows, AXES, a.row, AXES) == LICTOR_ACCEPTED);
    EXPECT(FEATURES(NULL, 0, NULL, 0, &chunk) == LICTOR_ACCEPTED && FEATURES(NULL, 0, NULL, 0, NULL) == LICTOR_ACCEPTED);
    for (int i = 0; i < 3; i++) {
        /* a last command that is null is no argument, whatever its count */
        const size_t counts[3] = {0, AXES, SIZE_MAX};
        a.row[0] = 7.0;
        EXPECT(BRAKE(NULL, 0, NULL, 0, NULL, counts[i], a.row, AXES) == LICTOR_ACCEPTED && a.row[0] == 0.0);
        a.row[0] = 7.0;
        EXPECT(HOLD(NULL, 0, NULL, counts[i], a.row, AXES) == LICTOR_ACCEPTED && a.row[0] == 0.0);
    }
    /* under the other code it is one, also where nothing was measured */
    c.counts.gripper = LICTOR_GRIPPER_LAST_COMMAND, c.counts.pos_dim = 1, a.last[1] = -0.0, a.last[2] = 5.0;
    EXPECT(BRAKE(NULL, 0, NULL, 0, a.last, AXES, a.row, AXES) == LICTOR_ACCEPTED && memcmp(a.row, a.last, sizeof a.row) == 0);
    a.row[2] = 7.0;
    EXPECT(HOLD(NULL, 0, a.last, AXES, a.row, AXES) == LICTOR_ACCEPTED && memcmp(a.row, a.last, sizeof a.row) == 0);
    c = arm();
    c.counts.commit = c.counts.brake_steps = 0;
    EXPECT(FORECAST(a.pos, AXES, a.vel, AXES, &chunk, NULL, 0) == LICTOR_ACCEPTED && a.forecast.count == 0);
    a.count = 7;
    EXPECT(RUN(a.aim, AXES, a.at, AXES, a.moving, AXES, 0, NULL, 0) == LICTOR_ACCEPTED && a.count == 0 && a.margin == INFINITY);
    /* the entries' own constant for it */
    EXPECT(lictor_norm(LICTOR_NONE, 0, 0, &a.speed) == LICTOR_ACCEPTED && a.speed == 0.0);
#undef CHECK
#undef ACTION
#undef FEATURES
#undef FORECAST
#undef RUN
#undef BRAKE
#undef HOLD
}

/* A calibration's counts that the gate's types cannot hold are refused as lictor_derive refuses them, and not cut. */
static void widths(void) {
    const uint64_t wide = UINT64_C(1) << 32;
    static struct tick a;
    struct lictor_config c = arm();
    uint64_t bin = 7, trips = 7;
#define GATE(due)                                                                                                       \
    EXPECT(lictor_guard_standardise(&c, 0, &a.scores, &a.marks) == (due) && lictor_guard_trip(&c, &a.scores, &a.marks, &trips) == (due) && \
           lictor_guard_aggregate(&c, &a.scores, &a.marks) == (due))
    GATE(LICTOR_ACCEPTED);
    c = arm(), c.counts.mask = wide;
    GATE(LICTOR_SIZE);
    c = arm(), c.counts.n_terms = 257;
    GATE(LICTOR_SIZE);
    c = arm(), c.counts.terms[1] = wide + 1;
    GATE(LICTOR_SIZE);
    c = arm(), c.counts.terms[2] = wide + 1;
    GATE(LICTOR_ACCEPTED);
    /* the bit of LICTOR_STALL: in the mask, in a counted term whatever the flag, and in one past the count */
    c = arm(), c.counts.mask |= 1 << LICTOR_STALL;
    GATE(LICTOR_WITHDRAWN);
    c = arm(), c.counts.terms[1] |= 1 << LICTOR_STALL, c.counts.calibrated = 0;
    GATE(LICTOR_WITHDRAWN);
    c = arm(), c.counts.terms[2] |= 1 << LICTOR_STALL;
    GATE(LICTOR_ACCEPTED);
    c = arm(), c.counts.n_terms = 8, c.counts.terms[7] = wide + 1;
    GATE(LICTOR_SIZE);
    memset(&c, 0, sizeof c);
    GATE(LICTOR_NUMBER);
#undef GATE
    c = arm(), c.counts.horizon_ticks = wide + 1;
    EXPECT(lictor_guard_time_bin(&c, 0, &bin) == LICTOR_MISFIT && bin == 7);
    c.counts.horizon_ticks = 0;
    EXPECT(lictor_guard_time_bin(&c, 0, &bin) == LICTOR_STEPS && bin == 7);
}

/* A bit of armed that is no check arms nothing, and is not refused. */
static void arming(void) {
    struct lictor_config c = arm();
    static struct tick a;
    const struct lictor_chunk chunk = {a.rows, ROWS * AXES, 0, 0, ROWS, AXES, 2};
    for (int i = 0; i < ROWS * AXES; i++) a.rows[i] = i % 2 ? 9.0 : -9.0;
    EXPECT(lictor_guard_check_chunk(&c, a.pos, AXES, NULL, 0, &chunk, a.out, ROWS * AXES, &a.found, &a.speed) == LICTOR_ACCEPTED);
    EXPECT(a.found.trips == (LICTOR_TRIP_ALL & ~LICTOR_TRIP_CONTACT) && a.found.clamped_dims == 7);
    /* 9 and -9 in turn, with three axes and five rows: each axis meets both walls */
    EXPECT(a.found.low_dims == 7 && a.found.high_dims == 7);
    c.counts.armed = UINT32_MAX - LICTOR_TRIP_ALL;
    EXPECT(lictor_guard_check_chunk(&c, a.pos, AXES, NULL, 0, &chunk, a.out, ROWS * AXES, &a.found, &a.speed) == LICTOR_ACCEPTED);
    EXPECT(a.found.trips == 0 && a.found.clamped_dims == 0 && a.found.low_dims == 0 && a.found.high_dims == 0);
    EXPECT(memcmp(a.out, a.rows, sizeof a.out) == 0);
}

/* A zone in which a step of 0.25 is allowed, and a camera that says nothing, as a null pointer, or too little: an arm is slow unless its
   configuration says that there is no zone then. All zeros does not say it. */
static void cameras(void) {
    struct lictor_config c = arm();
    static struct tick a;
    const struct lictor_chunk chunk = {a.rows, ROWS * AXES, 0, 0, ROWS, AXES, 2};
    /* far from the origin, so that a number which is missing is not one that happens to show the arm */
    for (int i = 0; i < ROWS * AXES; i++) a.rows[i] = 3.5;
    for (int i = 0; i < AXES; i++) a.pos[i] = a.previous[i] = 3.0;
    c.counts.armed = LICTOR_TRIP_CONTACT, c.counts.contact = 1, a.aux[0] = a.aux[1] = 3.0;
    EXPECT(c.counts.absent_camera == LICTOR_ABSENT_CAMERA_SLOW);
    for (c.counts.absent_camera = 0; c.counts.absent_camera < 2; c.counts.absent_camera++) {
        const uint64_t due = c.counts.absent_camera == LICTOR_ABSENT_CAMERA_SLOW ? LICTOR_TRIP_CONTACT : 0;
        for (size_t count = 0; count < 2; count++) {
            const double *aux = count ? a.aux : NULL;
            EXPECT(lictor_guard_check_chunk(&c, a.pos, AXES, aux, count, &chunk, a.out, ROWS * AXES, &a.found, &a.speed) == LICTOR_ACCEPTED);
            EXPECT(a.found.trips == due && (a.found.clamped_dims == 7) == (due != 0) && (a.out[0] < 3.5) == (due != 0));
            EXPECT(lictor_guard_check_action(&c, a.pos, AXES, aux, count, a.previous, AXES, a.rows, AXES, a.row, AXES, &a.found, &a.speed) ==
                   LICTOR_ACCEPTED);
            EXPECT(a.found.trips == due && (a.row[0] < 3.5) == (due != 0));
        }
        /* both channels: the camera decides, and the centre is where the arm is, or is not */
        a.aux[0] = 3.0;
        EXPECT(lictor_guard_check_chunk(&c, a.pos, AXES, a.aux, 2, &chunk, a.out, ROWS * AXES, &a.found, &a.speed) == LICTOR_ACCEPTED);
        EXPECT(a.found.trips == LICTOR_TRIP_CONTACT);
        a.aux[0] = 9.0;
        EXPECT(lictor_guard_check_chunk(&c, a.pos, AXES, a.aux, 2, &chunk, a.out, ROWS * AXES, &a.found, &a.speed) == LICTOR_ACCEPTED);
        EXPECT(a.found.trips == 0);
    }
}

/* By every guard form that takes a configuration: a count on both sides of its edge and wider than its field, a fourth zone's numbers and
   channels, a pair twice and swapped, and what stands past the count. */
static void zones(void) {
    static struct tick a;
    const uint64_t wide = (UINT64_C(1) << 32) + 1;
    struct lictor_config c;
    lictor_tier1_new(LICTOR_TIER1_PARTS(&a.state));
    for (uint64_t count = 0; count < 7; count++) {
        c = arm(), c.counts.contact = count;
        DUE(count > LICTOR_MAX_ZONES ? LICTOR_SIZE : LICTOR_ACCEPTED);
        c.numbers.contact3_v_max = -1.0;
        DUE(count > LICTOR_MAX_ZONES ? LICTOR_SIZE : count == 4 ? LICTOR_NUMBER : LICTOR_ACCEPTED);
        c = arm(), c.counts.contact = count, c.numbers.contact3_radius = NAN, c.counts.contact3_a0 = 300;
        DUE(count > LICTOR_MAX_ZONES ? LICTOR_SIZE : count == 4 ? LICTOR_NUMBER : LICTOR_ACCEPTED);
        c = arm(), c.counts.contact = count, c.counts.contact3_a0 = CHANNELS;
        DUE(count > LICTOR_MAX_ZONES ? LICTOR_SIZE : count == 4 ? LICTOR_CHANNELS : LICTOR_ACCEPTED);
        c.counts.aux_count = 301, c.counts.contact3_a0 = 300;
        DUE(count >= 4 ? LICTOR_MISFIT : LICTOR_ACCEPTED);
        /* the third has the first's channels the other way round, and then as they are */
        c = arm(), c.counts.contact = count, c.counts.contact2_a0 = 0, c.counts.contact2_a1 = 1;
        DUE(count > LICTOR_MAX_ZONES ? LICTOR_SIZE : count > 2 ? LICTOR_CHANNELS : LICTOR_ACCEPTED);
    }
    c = arm(), c.counts.contact = 256;
    DUE(LICTOR_SIZE);
    c.counts.contact = wide;
    DUE(LICTOR_SIZE);
    c.counts.contact = UINT64_MAX;
    DUE(LICTOR_SIZE);
    /* a step of 0.1875 along one axis, from inside the second zone, which allows it, and the fourth, which does not */
    c = arm(), c.counts.armed = LICTOR_TRIP_CONTACT;
    for (int i = 0; i < AXES; i++) a.pos[i] = a.previous[i] = 0.0;
    for (int i = 0; i < AXES; i++) a.rows[i] = i ? 0.0 : 0.1875;
    for (uint64_t count = 0; count <= LICTOR_MAX_ZONES; count++) {
        /* channel 0 is far away: it is the first zone's and the third's */
        a.aux[0] = 9.0, a.aux[1] = 0.0, a.aux[2] = a.aux[3] = 0.0, c.counts.contact = count;
        EXPECT(lictor_guard_check_action(&c, a.pos, AXES, a.aux, CHANNELS, a.previous, AXES, a.rows, AXES, a.row, AXES, &a.found, &a.speed) ==
               LICTOR_ACCEPTED);
        EXPECT(a.found.trips == (count == 4 ? LICTOR_TRIP_CONTACT : 0) && (a.row[0] < 0.0625) == (count == 4));
    }
}

/* By every guard form that takes a configuration: the shape's code on both sides of its edge and wider than its field, the centre and the radius
   under either shape, and the least axes of a disc. */
static void tables(void) {
    static struct tick a;
    const uint64_t wide = UINT64_C(1) << 32;
    struct lictor_config c;
    lictor_tier1_new(LICTOR_TIER1_PARTS(&a.state));
    for (uint64_t shape = 0; shape < 4; shape++) {
        const enum lictor_refusal misfit = shape > LICTOR_DISC ? LICTOR_MISFIT : LICTOR_ACCEPTED;
        c = arm(), c.counts.shape = shape;
        DUE(misfit);
        /* what a box does not read, and a disc does */
        c.numbers.disc_radius = 0.0;
        DUE(shape == LICTOR_DISC ? LICTOR_NUMBER : misfit);
        c = arm(), c.counts.shape = shape, c.numbers.disc_x = NAN;
        DUE(shape == LICTOR_DISC ? LICTOR_NUMBER : misfit);
        c = arm(), c.counts.shape = shape, c.numbers.disc_y = INFINITY, c.numbers.disc_radius = NAN;
        DUE(shape == LICTOR_DISC ? LICTOR_NUMBER : misfit);
        /* what a disc does not read, and a box does */
        c = arm(), c.counts.shape = shape, c.numbers.box_lo[0] = NAN, c.numbers.box_hi[1] = -9.0;
        DUE(shape == LICTOR_BOX ? LICTOR_NUMBER : misfit);
        c = arm(), c.counts.shape = shape, c.numbers.box_lo[2] = 9.0;
        DUE(misfit ? misfit : LICTOR_NUMBER);
        /* one axis of a row, or of a position */
        c = arm(), c.counts.shape = shape, c.counts.dim = 1;
        DUE(shape == LICTOR_DISC ? LICTOR_SHAPE : misfit);
        c = arm(), c.counts.shape = shape, c.counts.pos_dim = 1;
        DUE(shape == LICTOR_DISC ? LICTOR_SHAPE : misfit);
        c.counts.pos_dim = 2;
        DUE(misfit);
        /* after the channels, and before the bit of LICTOR_STALL */
        c = arm(), c.counts.shape = shape, c.counts.pos_dim = 1, c.counts.contact = 1, c.counts.contact_a1 = 0;
        DUE(misfit ? misfit : LICTOR_CHANNELS);
        c = arm(), c.counts.shape = shape, c.counts.pos_dim = 1, c.counts.mask |= 1 << LICTOR_STALL;
        DUE(shape == LICTOR_DISC ? LICTOR_SHAPE : misfit ? misfit : LICTOR_WITHDRAWN);
    }
    c = arm(), c.counts.shape = wide;
    DUE(LICTOR_MISFIT);
    c.counts.shape = wide + LICTOR_DISC;
    DUE(LICTOR_MISFIT);
    c.counts.shape = UINT64_MAX;
    DUE(LICTOR_MISFIT);
    /* all zeros is the box; a hold that cannot be measured is refused at a disc alone */
    memset(&c, 0, sizeof c);
    EXPECT(c.counts.shape == LICTOR_BOX);
    c = arm(), a.pos[0] = 1e200, a.row[0] = 7.0;
    EXPECT(lictor_guard_hold_action(&c, a.pos, AXES, NULL, 0, a.row, AXES, &a.walls) == LICTOR_ACCEPTED && a.row[0] == 2.0);
    c.counts.shape = LICTOR_DISC, a.row[0] = 7.0;
    EXPECT(lictor_guard_hold_action(&c, a.pos, AXES, NULL, 0, a.row, AXES, &a.walls) == LICTOR_COMPUTED && a.row[0] == 7.0);
}

/* By every guard form that takes a configuration: the gripper's code on both sides of its edge and wider than its field. */
static void grippers(void) {
    static struct tick a;
    const uint64_t wide = UINT64_C(1) << 32, codes[] = {2, 3, 256, 257, wide, wide + LICTOR_GRIPPER_LAST_COMMAND, UINT64_MAX};
    struct lictor_config c;
    lictor_tier1_new(LICTOR_TIER1_PARTS(&a.state));
    memset(&c, 0, sizeof c);
    EXPECT(c.counts.gripper == LICTOR_GRIPPER_TO_ZERO);
    c = arm();
    DUE(LICTOR_ACCEPTED);
    c.counts.gripper = LICTOR_GRIPPER_LAST_COMMAND;
    DUE(LICTOR_ACCEPTED);
    c.numbers.dt = 0.0;
    DUE(LICTOR_NUMBER);
    for (size_t i = 0; i < sizeof codes / sizeof *codes; i++) {
        c.counts.gripper = codes[i];
        DUE(LICTOR_MISFIT);
    }
}

/* Each number has a text of its own, and the version's parts agree. */
static void words(void) {
    const char *unknown = lictor_refusal_text(14);
    char version[32];
    for (uint64_t i = 0; i < 300; i++) {
        const int known = i <= LICTOR_COMPUTED || i == LICTOR_SHAPE || i == LICTOR_WITHDRAWN || i == LICTOR_MISFIT;
        EXPECT((strcmp(lictor_refusal_text(i), unknown) != 0) == known);
        for (uint64_t j = 0; known && j < i; j++) EXPECT(strcmp(lictor_refusal_text(i), lictor_refusal_text(j)) != 0);
    }
    snprintf(version, sizeof version, "%d.%d.%d", LICTOR_VERSION_MAJOR, LICTOR_VERSION_MINOR, LICTOR_VERSION_PATCH);
    EXPECT(strcmp(version, LICTOR_VERSION) == 0 && LICTOR_VERSION_NUMBER >= 900);
}

int main(void) {
    forms();
    nulls();
    widths();
    arming();
    cameras();
    zones();
    tables();
    grippers();
    words();
    puts(failed ? "guard forms: failed" : "guard forms: as expected");
    return failed;
}
