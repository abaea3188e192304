/* Measures the stack that each large entry needs: a thread on a painted stack of its own makes one call, and what is written over below
   the caller is counted (at least what ending the thread takes). Prints each need, and fails above LICTOR_STACK. */
#define _DEFAULT_SOURCE
#include "lictor.h"

#include <pthread.h>
#include <stdio.h>
#include <stdlib.h>
#include <string.h>

#define ROOM (1u << 20)
#define PAINT 0xa5

static double center[192], scale[192];
static struct lictor_numbers n;
static struct lictor_counts c;
static struct lictor_tier1 t;
static struct lictor_scores s;
static struct lictor_marks m;
static double rows[512], slacks[4096], out[512], filled[512], position[8], velocity[8];
static const double still[8];
/* how many numbers the camera sends */
static size_t camera;

static void check_chunk(void) {
    struct lictor_check_marks marks;
    double speed;
    if (lictor_check_chunk(&n, &c, center, scale, still, 8, still, camera, rows, 512, 64, 8, 64, out, 512, &marks, &speed)) abort();
}

static void check_action(void) {
    struct lictor_check_marks marks;
    double speed;
    if (lictor_check_action(&n, &c, center, scale, still, 8, still, camera, still, 8, rows, 8, out, 8, &marks, &speed)) abort();
}

static void features(void) {
    for (unsigned k = 0; k < 2; k++)
        if (lictor_features(&n, &c, center, scale, LICTOR_TIER1_PARTS(&t), still, 8, still, 4, 1, k, k, 64, 8, 64, rows, 512, &s, &m)) abort();
}

static void new_state(void) { lictor_tier1_new(LICTOR_TIER1_PARTS(&t)); }

static void reset(void) {
    if (lictor_tier1_reset(LICTOR_TIER1_PARTS(&t))) abort();
}

static void forecast(void) {
    struct lictor_forecast_marks marks;
    struct lictor_forecast_distances distances;
    uint64_t place;
    if (lictor_brake_feasible(&n, &c, center, scale, still, 8, still, 8, rows, 512, 64, 8, 64, 0, slacks, 4096, &marks, &distances, &place)) abort();
}

static void towards(void) {
    uint64_t count, place;
    double margin;
    if (lictor_run_towards(&n, &c, center, scale, rows, 8, position, 8, velocity, 8, 4096, slacks, 4096, &count, &margin, &place)) abort();
}

static void brake(void) {
    struct lictor_wall_marks walls;
    if (lictor_brake_action(&n, &c, center, scale, still, 8, still, 8, still, 8, out, 8, &walls)) abort();
}

static void hold(void) {
    struct lictor_wall_marks walls;
    if (lictor_hold_action(&n, &c, center, scale, still, 8, still, 8, out, 8, &walls)) abort();
}

static void derive(void) {
    struct lictor_derived d;
    if (lictor_derive(&n, &c, center, scale, &d)) abort();
}

static void fill(void) {
    struct lictor_chunk_header header;
    if (lictor_fill(filled, &header, 0, 0, 64, 8, 64, rows, 512)) abort();
}

static void trail(void) {
    double x;
    for (int i = 0; i < 32; i++)
        if (lictor_trail_push(t.trail, &t.samples, still, 8, 8)) abort();
    if (lictor_trail_path(t.trail, &t.samples, 8, 32, &x)) abort();
}

static void gate(void) {
    const uint32_t terms[8] = {1, 2, 4, 8, 16, 32, 64, 256};
    uint64_t trips;
    if (lictor_standardise(center, scale, 1.0, 0xf7f, 8, terms, 0, &s, &m)) abort();
    if (lictor_aggregate(center, scale, 1.0, 0xf7f, 8, terms, &s, &m)) abort();
    if (lictor_trip(center, scale, 1.0, 0xf7f, 8, terms, &s, &m, &trips)) abort();
}

static unsigned char *top;

static void *run(void *call) {
    unsigned char here;
    top = &here;
    ((void (*)(void))call)();
    return NULL;
}

/* how many bytes of a painted stack are written over below the function that makes one call */
static size_t used(void (*call)(void)) {
    unsigned char *stack;
    pthread_attr_t attr;
    pthread_t thread;
    size_t clean = 0;
    if (posix_memalign((void **)&stack, 4096, ROOM)) abort();
    memset(stack, PAINT, ROOM);
    if (pthread_attr_init(&attr) || pthread_attr_setstack(&attr, stack, ROOM)) abort();
    if (pthread_create(&thread, &attr, run, (void *)call) || pthread_join(thread, NULL)) abort();
    while (clean < ROOM && stack[clean] == PAINT) clean++;
    clean = (size_t)(top - stack) - clean;
    free(stack);
    return clean;
}

int main(void) {
    const struct {
        const char *name;
        void (*call)(void);
    } calls[] = {
        {"lictor_tier1_new", new_state}, {"lictor_features", features}, {"trail", trail}, {"gate", gate},
        {"lictor_tier1_reset", reset}, {"lictor_check_chunk", check_chunk}, {"lictor_check_action", check_action},
        {"lictor_brake_feasible", forecast}, {"lictor_run_towards", towards}, {"lictor_brake_action", brake},
        {"lictor_hold_action", hold}, {"lictor_derive", derive}, {"lictor_fill", fill},
    };
    size_t most = 0, needs[sizeof calls / sizeof *calls] = {0};
    const char *largest = "";
    n.dt = n.v_max = n.a_max = n.j_max = n.reach_max = n.brake_k_v = n.brake_dt = n.brake_k_p = 1.0;
    for (int i = 0; i < 8; i++) n.norm_scale[i] = 1.0, n.box_lo[i] = -1.0, n.box_hi[i] = 1.0;
    for (int i = 0; i < 192; i++) scale[i] = 1.0;
    for (int i = 0; i < 512; i++) rows[i] = 0.001 * (i % 11);
    c.dim = 8, c.clamp = LICTOR_CLAMP_PROJECT, c.substeps = 32, c.commit = 64, c.brake_steps = 64;
    c.armed = 63, c.calibrated = 1, c.mask = 0xf7f, c.n_terms = 8, c.horizon_ticks = 200;
    n.contact_radius = n.contact1_radius = n.contact2_radius = n.contact3_radius = 1.0, c.aux_count = 8;
    n.contact_v_max = n.contact1_v_max = n.contact2_v_max = n.contact3_v_max = 1.0;
    c.contact_a0 = c.contact1_a1 = 0, c.contact_a1 = c.contact1_a0 = 1, c.contact2_a0 = c.contact3_a1 = 2, c.contact2_a1 = c.contact3_a0 = 3;
    n.disc_radius = 1.0;
    /* every brake and every kind of action, without a slow zone and with one to four, with a camera and without one, with grippers and without,
       and either choice, either shape and either mode of the gripper in turn */
    for (unsigned setting = 0; setting < 100; setting++) {
        c.brake = setting / 2 % 5, c.kind = setting / 10 % 5, c.contact = setting % 2 * (1 + setting / 2 % LICTOR_MAX_ZONES);
        camera = setting < 50 ? 8 : 0, c.absent_camera = setting / 8 % 2, c.shape = setting % 3 == 0 ? LICTOR_DISC : LICTOR_BOX;
        c.gripper = setting / 5 % 2, c.pos_dim = setting / 3 % 2 ? 2 : 8;
        for (size_t i = 0; i < sizeof calls / sizeof *calls; i++) {
            /* once before, so that what the loader does at a first call is not counted */
            used(calls[i].call);
            size_t need = used(calls[i].call);
            if (need > needs[i]) needs[i] = need;
        }
    }
    for (size_t i = 0; i < sizeof calls / sizeof *calls; i++) {
        printf("%s: %zu bytes\n", calls[i].name, needs[i]);
        if (needs[i] > most) most = needs[i], largest = calls[i].name;
    }
    printf("stack: %s needs %zu bytes of the %d that the header says\n", largest, most, LICTOR_STACK);
    return most > LICTOR_STACK;
}
