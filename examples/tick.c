/* One control tick of a packing arm over a table: from the position that was measured and the chunk that was planned to the
   row that goes to the motors, whose gripper stays closed also where the arm brakes or holds; and a row of the same arm over a turntable.
   bindings/rust/examples/tick.rs is the same in Rust. */
#include "lictor.h"

#include <math.h>
#include <stdio.h>

/* two axes along the table, and its height; a row has the gripper after them, past pos_dim; a chunk has four rows */
#define AXES 3
#define WIDTH (AXES + 1)
#define ROWS 4

/* where the gripper holds its screw */
#define CLOSED 0.75

/* the camera tells where two trays stand on the table, two numbers each */
#define CHANNELS 4

/* the window holds 3 ticks, and 2 hits stop the arm */
#define PUSHES 3
#define STOPS 2

struct guard {
    struct lictor_config config;
    struct lictor_tier1 state;
    struct lictor_scores scores;
    struct lictor_marks marks;
    uint64_t window;
    double slacks[64];
};

/* what was measured, what the camera sent and what was planned at tick t, numbered from 1 */
struct measured {
    uint32_t t;
    double pos[AXES], vel[AXES], aux[CHANNELS];
    struct lictor_chunk planned;
};

/* Sets the arm's limits, brake, calibration and a slow zone round each tray, and judges them. Gives the number of a refusal. */
static uint64_t configure(struct guard *g) {
    struct lictor_numbers *n = &g->config.numbers;
    struct lictor_counts *c = &g->config.counts;
    struct lictor_derived derived;
    n->dt = 0.5, n->v_max = 1.0, n->a_max = 4.0, n->j_max = 32.0, n->reach_max = 1.0;
    n->brake_k_p = 2.0, n->brake_k_v = 1.0, n->brake_dt = 0.5, n->tau = 0.25;
    for (int i = 0; i < 8; i++) n->norm_scale[i] = n->box_hi[i] = 1.0, n->box_lo[i] = -1.0;
    for (int i = 0; i < 192; i++) g->config.scale[i] = 1.0;
    c->dim = WIDTH, c->pos_dim = AXES, c->clamp = LICTOR_CLAMP_PROJECT, c->armed = LICTOR_TRIP_ALL;
    c->gripper = LICTOR_GRIPPER_LAST_COMMAND;
    c->substeps = 2, c->commit = 1, c->brake_steps = 4, c->react_ticks = 1;
    c->calibrated = 1, c->mask = c->terms[0] = 1u << LICTOR_REACH, c->n_terms = 1, c->horizon_ticks = 200;
    /* the second tray's zone is the slower one: steps of 0.25 and of 0.125 */
    c->contact = 2, c->aux_count = CHANNELS, c->contact_a0 = 0, c->contact_a1 = 1, c->contact1_a0 = 2, c->contact1_a1 = 3;
    n->contact_radius = n->contact1_radius = 0.25, n->contact_v_max = 0.5, n->contact1_v_max = 0.25;
    lictor_tier1_new(LICTOR_TIER1_PARTS(&g->state));
    return lictor_guard_derive(&g->config, &derived);
}

/* Scores the tick and pushes whether it was a hit. Gives the number of a refusal. */
static uint64_t score(struct guard *g, const struct measured *m) {
    uint64_t bin, trips, mask, number;
    struct lictor_tier1 *s = &g->state;
    if ((number = lictor_trail_push(s->trail, &s->samples, m->pos, AXES, AXES))) return number;
    if ((number = lictor_guard_features(&g->config, s, m->pos, AXES, NULL, 0, &m->planned, &g->scores, &g->marks))) return number;
    if ((number = lictor_guard_time_bin(&g->config, m->t, &bin))) return number;
    if ((number = lictor_guard_standardise(&g->config, bin, &g->scores, &g->marks))) return number;
    if ((number = lictor_guard_aggregate(&g->config, &g->scores, &g->marks))) return number;
    if ((number = lictor_guard_trip(&g->config, &g->scores, &g->marks, &trips))) return number;
    if ((number = lictor_mask(PUSHES, &mask))) return number;
    g->window = lictor_push(g->window, trips, mask);
    return LICTOR_ACCEPTED;
}

/* Writes to the log which axes the box stopped at which wall, in the chunk or in a row that brakes or holds. Axes are counted from 0, as the
   masks' bits and the box's entries are: axis 2 is bit 2, and its high wall is box_hi[2] less the margin. */
static void log_walls(uint32_t t, const char *what, uint64_t low_dims, uint64_t high_dims) {
    for (unsigned axis = 0; axis < AXES; axis++) {
        if (low_dims >> axis & 1) printf("tick %u: %s, axis %u at its low wall\n", (unsigned)t, what, axis);
        if (high_dims >> axis & 1) printf("tick %u: %s, axis %u at its high wall\n", (unsigned)t, what, axis);
    }
}

/* The row to send: the planned one where no limit trips, few of the last scores were hits, and the arm can still stop; else
   the one that brakes, with the gripper as in the last row. The two rows may not overlap. Gives the number of a refusal. */
static uint64_t tick(struct guard *g, const struct measured *m, const double last[WIDTH], const char **deed, double row[WIDTH]) {
    struct lictor_check_marks found;
    struct lictor_wall_marks walls;
    struct lictor_forecast_marks forecast;
    struct lictor_forecast_distances distances;
    struct lictor_chunk projected = m->planned;
    double inside[ROWS * WIDTH], speed;
    uint64_t place, number;
    if ((number = score(g, m))) return number;
    if ((number = lictor_guard_check_chunk(&g->config, m->pos, AXES, m->aux, CHANNELS, &m->planned, inside, ROWS * WIDTH, &found, &speed)))
        return number;
    log_walls(m->t, "chunk", found.low_dims, found.high_dims);
    if (found.trips & LICTOR_TRIP_CONTACT) printf("tick %u: chunk, too fast beside a tray\n", (unsigned)m->t);
    projected.rows = inside;
    if ((number = lictor_guard_brake_feasible(&g->config, m->pos, AXES, m->vel, AXES, &projected, 0, g->slacks, 64, &forecast,
                                              &distances, &place)))
        return number;
    *deed = "follow";
    if (found.trips == 0 && lictor_hits(g->window) < STOPS && forecast.feasible && lictor_guard_action(&projected, 0, row, WIDTH) == WIDTH)
        return LICTOR_ACCEPTED;
    *deed = "brake";
    if ((number = lictor_guard_brake_action(&g->config, m->pos, AXES, m->vel, AXES, last, WIDTH, row, WIDTH, &walls))) return number;
    log_walls(m->t, *deed, walls.low_dims, walls.high_dims);
    return LICTOR_ACCEPTED;
}

/* Ends a line with the row that goes to the motors. */
static void print_row(const double row[WIDTH]) { printf(" %g %g %g, gripper %g\n", row[0], row[1], row[2], row[AXES]); }

/* The same arm over a turntable, whose edge is 0.75 from its middle, without the trays; its height keeps its walls. Follows a row to (x, y), or
   brakes where it is beyond the edge. Gives the number of a refusal. */
static uint64_t turntable(const struct guard *g, double x, double y) {
    struct lictor_config config = g->config;
    struct lictor_check_marks found;
    struct lictor_wall_marks walls;
    const double pos[AXES] = {0.25, 0.25, 0.0}, vel[AXES] = {0.0, 0.0, 0.0};
    const double last[WIDTH] = {0.25, 0.25, 0.0, CLOSED}, planned[WIDTH] = {x, y, 0.0, CLOSED};
    const char *deed = "follow";
    double row[WIDTH], speed;
    uint64_t number;
    config.counts.shape = LICTOR_DISC, config.numbers.disc_x = config.numbers.disc_y = 0.0, config.numbers.disc_radius = 0.75;
    config.counts.contact = 0;
    if ((number = lictor_guard_check_action(&config, pos, AXES, NULL, 0, last, WIDTH, planned, WIDTH, row, WIDTH, &found, &speed))) return number;
    if (found.trips & LICTOR_TRIP_WORKSPACE) {
        deed = "beyond the edge, brake";
        if ((number = lictor_guard_brake_action(&config, pos, AXES, vel, AXES, last, WIDTH, row, WIDTH, &walls))) return number;
    }
    printf("turntable: %s", deed);
    print_row(row);
    return LICTOR_ACCEPTED;
}

/* Says why a call was refused, and gives its number. */
static uint64_t refused(const char *what, uint64_t number) {
    if (number) fprintf(stderr, "%s: refused with %u, %s\n", what, (unsigned)number, lictor_refusal_text(number));
    return number;
}

int main(void) {
    static struct guard g;
    /* each tick's position and speed along the first axis; the rows of its chunk: where they start there, and their steps there and up; how far to
       the side the trays stand: in tick 8 the arm is inside both zones, and its step of 0.1875 is too long for the second */
    const struct {
        double pos, vel, first, step, up, side;
    } ticks[] = {
        {0.0, 0.0, 0.125, 0.125, 0.0, 0.5}, {0.125, 0.25, 0.25, 0.5, 0.0, 0.5}, {0.125, 8.0, 0.25, 0.125, 0.0, 0.5},
        {0.25, 0.0, 0.75, 0.0, 0.0, 0.5},   {0.25, 0.0, 0.75, 0.0, 0.0, 0.5},   {0.25, 0.0, 0.25, 0.0, 0.5, 0.5},
        {-1.25, 0.0, -1.0, 0.0, 0.0, 0.5},  {0.0, 0.0, 0.1875, 0.0, 0.0, 0.125}, {NAN, 0.0, 0.25, 0.0, 0.0, 0.5},
    };
    /* the row that was sent last. It is a copy of what was written: a brake or a hold reads it while it writes the next row, and the two may
       not overlap */
    double last[WIDTH] = {0.0, 0.0, 0.0, CLOSED};
    if (!lictor_environment_ok()) {
        fputs("the processor does not round to nearest, or takes small numbers for 0\n", stderr);
        return 1;
    }
    if (refused("the configuration", configure(&g))) return 1;
    for (uint32_t t = 1; t <= sizeof ticks / sizeof *ticks; t++) {
        double rows[ROWS * WIDTH] = {0.0}, row[WIDTH];
        const double side = ticks[t - 1].side;
        struct measured m = {t, {ticks[t - 1].pos}, {ticks[t - 1].vel}, {0.125, side, -0.125, side}, {rows, ROWS * WIDTH, t, t, ROWS, WIDTH, 1}};
        const char *deed = "";
        for (int i = 0; i < ROWS; i++) {
            rows[WIDTH * i] = ticks[t - 1].first + ticks[t - 1].step * i, rows[WIDTH * i + 2] = ticks[t - 1].up * i;
            rows[WIDTH * i + AXES] = CLOSED;
        }
        uint64_t number = tick(&g, &m, last, &deed, row);
        if (number == LICTOR_ACCEPTED) {
            printf("tick %u: %s", (unsigned)t, deed);
        } else {
            struct lictor_wall_marks walls;
            if (refused("the row that holds", lictor_guard_hold_action(&g.config, last, AXES, last, WIDTH, row, WIDTH, &walls))) return 1;
            log_walls(t, "hold", walls.low_dims, walls.high_dims);
            printf("tick %u: refused with %u, hold", (unsigned)t, (unsigned)number);
        }
        print_row(row);
        for (int i = 0; i < WIDTH; i++) last[i] = row[i];
    }
    /* both rows are between the walls, and the second is 0.79 from the middle */
    if (refused("the turntable", turntable(&g, 0.5, 0.5)) || refused("the turntable", turntable(&g, 0.75, 0.25))) return 1;
    return 0;
}
