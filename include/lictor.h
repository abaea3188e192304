/* The guard's entries: limits, scores and the stopping forecast, each proved equal to its rule. docs/INTEGRATION.md says in which order a
 * control box calls them, and what it does at each refusal.
 *
 * There are two forms. An entry (lictor_check_chunk) is a function of the archive, on flat arrays. A guard form (lictor_guard_check_chunk, at
 * the end of this file) is the same entry on one struct for the configuration with its calibration and one for a chunk, and takes a
 * null pointer for no numbers. What is said of an entry holds of its guard form.
 *
 * Every pointer is to memory of the caller's that nothing else writes during the call; what is written overlaps nothing
 * else that is passed, and no pointer is kept. A slice is a pointer to its first number and a count of numbers. To an entry the
 * pointer is not null and is aligned for a double also where the count is 0: pass LICTOR_NONE there. An entry that can refuse
 * returns the number of the refusal, 0 where it accepts; a refusal leaves every output as it was, save that a forecast's or a run's sets
 * its place and, with LICTOR_COMPUTED, keeps the entries before it.
 *
 * Threads: the library has no state of its own and calls nothing but memcpy and memset, so that any number of threads may be
 * in it at once, each with memory of its own.
 *
 * The heap: none. The stack: no entry needs more than LICTOR_STACK bytes of it (tests/c/stack.c).
 *
 * The floating-point environment: the processor has to round to nearest and to keep numbers below the least normal one, as
 * it does unless a program changes it (-ffast-math can, by flushing them to zero: the length of 1e-160 is then 0). Under any other
 * setting nothing here is promised. lictor_environment_ok tells, in some tens of nanoseconds; the flags of the environment are
 * not read, and may be set.
 *
 * What is trusted: the prover, and the compiler behind the language's abstract machine, which no proof covers. No entry
 * rests on an assumed contract; those of C's read and write are assumed by the programs beside this library alone. What this file
 * itself computes, in the guard forms, is not proved but tested (tests/c/guard.c).
 *
 * Languages: C99 and later, C++11 and later.
 */
#ifndef LICTOR_H
#define LICTOR_H

#include <stddef.h>
#include <stdint.h>

/* ---- the version of this file, and so of the archive that it was installed with */

#define LICTOR_VERSION_MAJOR 0
#define LICTOR_VERSION_MINOR 9
#define LICTOR_VERSION_PATCH 0
#define LICTOR_VERSION "0.9.0"
/* for comparisons: LICTOR_VERSION_NUMBER >= 900 is 0.9.0 or later */
#define LICTOR_VERSION_NUMBER (LICTOR_VERSION_MAJOR * 10000 + LICTOR_VERSION_MINOR * 100 + LICTOR_VERSION_PATCH)

/* ---- what a compiler is told: a result that is dropped and a null pointer are mistakes */

#if defined(__cplusplus) && __cplusplus >= 201703L
#define LICTOR_MUST_USE [[nodiscard]]
#elif defined(__GNUC__)
#define LICTOR_MUST_USE __attribute__((warn_unused_result))
#else
#define LICTOR_MUST_USE
#endif

#if defined(__GNUC__)
#define LICTOR_NOT_NULL __attribute__((nonnull))
#else
#define LICTOR_NOT_NULL
#endif

#ifdef __cplusplus
#define LICTOR_CAST(type, number) static_cast<type>(number)
extern "C" {
#else
#define LICTOR_CAST(type, number) ((type)(number))
#endif

/* ---- refusals, in the order of judging, not of their numbers: the first that applies is given, LICTOR_MISFIT before all others

   Counts are passed in words of 64 bits, and each is held in a field whose width is given beside it. One that its field cannot hold is
   refused as the table has it (65536 substeps with LICTOR_STEPS, a trail's head of 256 with LICTOR_SIZE), and with LICTOR_MISFIT
   where the table has nothing against it; a zone's two channels are judged by themselves in this, so that a pair that its fields cannot
   hold, with nothing against it alone, is LICTOR_MISFIT also where another zone has the same pair. What is not there is not judged: a term
   past n_terms, the numbers and channels of a zone past the count, the centre and the radius of a round table where the shape is the box,
   the walls of the first two axes where it is a disc, the calibration's counts without a calibration, the last command of a brake or a hold
   under LICTOR_GRIPPER_TO_ZERO, and what the header of a buffer that holds no chunk says of one. (What is there and not read is judged, as
   react_ticks is for the second-order brake, and the last command of a velocity kind under LICTOR_GRIPPER_LAST_COMMAND.) The width of an
   argument that is passed by itself is its C type; C cuts what is wider before the call. */

enum lictor_refusal {
    LICTOR_ACCEPTED = 0,
    /* dim, pos_dim, zone count, term count, feature bit, window length, trail head or trail count is out of size */
    LICTOR_SIZE = 1,
    /* a configuration number, or one derived from it, isn't finite or is out of its range */
    LICTOR_NUMBER = 2,
    /* substeps, commit, braking steps or horizon ticks are out of range */
    LICTOR_STEPS = 3,
    /* a zone's two channels are equal, one is at or above aux_count, or two zones name the same pair in the same order */
    LICTOR_CHANNELS = 4,
    /* a round table, and dim or pos_dim is below 2 */
    LICTOR_SHAPE = 15,
    /* a calibration's mask or one of its counted terms has the bit of LICTOR_STALL, which is not computed */
    LICTOR_WITHDRAWN = 17,
    /* a chunk, in the order of judging: no rows or no width, over 64 rows, over 8 wide, executes more rows than it has, other
       than rows times width numbers */
    LICTOR_EMPTY = 5,
    LICTOR_TOO_LONG = 6,
    LICTOR_TOO_WIDE = 7,
    LICTOR_EXEC_EXCEEDS_HORIZON = 8,
    LICTOR_LEN_MISMATCH = 9,
    /* a chunk's width differs from dim */
    LICTOR_WIDTH = 10,
    /* a slice is too short; a last command under LICTOR_GRIPPER_LAST_COMMAND alone */
    LICTOR_SHORT = 11,
    /* a number of an input slice, of a trail, of held features or of scores isn't finite; of a last command
       under LICTOR_GRIPPER_LAST_COMMAND alone */
    LICTOR_NOT_FINITE = 12,
    /* a computed number isn't finite */
    LICTOR_COMPUTED = 13,
    /* the boundary's own: a code or a flag is none of its kind, or a count doesn't fit its field and no number above is for it; of a
       guard form also: a pointer is null and its count isn't 0, a last command's under LICTOR_GRIPPER_LAST_COMMAND alone */
    LICTOR_MISFIT = 255
};

/* What a number stands for, in a few words of English that end without a point. Never null. */
LICTOR_MUST_USE
static inline const char *lictor_refusal_text(uint64_t number) {
    switch (number) {
    case LICTOR_ACCEPTED: return "accepted";
    case LICTOR_SIZE: return "a dimension, zone count, term count, feature bit, window length or trail index is out of size";
    case LICTOR_NUMBER: return "a configuration number is not finite or out of its range";
    case LICTOR_STEPS: return "a count of steps or ticks is out of range";
    case LICTOR_CHANNELS: return "a zone's channels are equal, past the declared ones or another's pair";
    case LICTOR_SHAPE: return "a round table, and a dimension is below 2";
    case LICTOR_WITHDRAWN: return "the calibration's mask or a counted term names Stall, which is not computed";
    case LICTOR_EMPTY: return "the chunk is empty";
    case LICTOR_TOO_LONG: return "the chunk has too many rows";
    case LICTOR_TOO_WIDE: return "the chunk's rows are too wide";
    case LICTOR_EXEC_EXCEEDS_HORIZON: return "the chunk executes more rows than it has";
    case LICTOR_LEN_MISMATCH: return "the chunk's numbers are not rows times width";
    case LICTOR_WIDTH: return "the chunk's width is not the configured dimension";
    case LICTOR_SHORT: return "a slice is too short";
    case LICTOR_NOT_FINITE: return "an input number is not finite";
    case LICTOR_COMPUTED: return "a computed number is not finite";
    case LICTOR_MISFIT: return "a code or a flag is none of its kind, a count does not fit its field, or a null pointer has numbers";
    default: return "no refusal has this number";
    }
}

/* ---- where it runs */

/* No numbers: what an entry is handed for a slice of count 0 that it reads, as in lictor_norm(LICTOR_NONE, 0, 0, &norm). For one that it
   writes any number of the caller's does. */
static const double lictor_nothing[1] = {0.0};
#define LICTOR_NONE lictor_nothing

/* What an entry needs of the stack, at most. Measured with the kit's clang 22 at -O3: 21,447 bytes on x86-64, by lictor_features
   (docs/INTEGRATION.md). */
#define LICTOR_STACK 32768

/* Use lictor_environment_ok below. Whether the processor rounds to nearest and keeps small numbers, where one is 1 and least is
   2^-1022; they are arguments so that nothing is computed before the call. */
LICTOR_MUST_USE
uint64_t lictor_environment(double one, double least);

/* 1 where the floating-point environment of this thread is the one that the entries are proved for, else 0. */
LICTOR_MUST_USE
static inline uint64_t lictor_environment_ok(void) {
    return lictor_environment(1.0, 2.2250738585072014e-308);
}

/* ---- numbers */

/* a where a < b, else b */
LICTOR_MUST_USE
double lictor_min(double a, double b);

/* a where a > b, else b */
LICTOR_MUST_USE
double lictor_max(double a, double b);

/* lo where x < lo, hi where x > hi, else x */
LICTOR_MUST_USE
double lictor_clamp(double x, double lo, double hi);

/* The same value, and which side it was moved to: side is -1 where it is raised to lo, 1 where it is lowered to hi, and 0 where it is
   untouched, as at a NaN and, where lo is at most hi, on a limit (the two zeros are one). lo is tried first. Refuses nothing. */
LICTOR_MUST_USE LICTOR_NOT_NULL
double lictor_clamp_side(double x, double lo, double hi, int64_t *side);

/* The root of x, to nearest. LICTOR_COMPUTED below zero, at an infinity and at a NaN. */
LICTOR_MUST_USE LICTOR_NOT_NULL
uint64_t lictor_sqrt(double x, double *root);

/* The length of the first n coordinates of v. LICTOR_SHORT, LICTOR_NOT_FINITE, LICTOR_COMPUTED. */
LICTOR_MUST_USE LICTOR_NOT_NULL
uint64_t lictor_norm(const double *v, size_t v_count, size_t n, double *norm);

/* The distance of a and b over their first n coordinates. LICTOR_SHORT, LICTOR_NOT_FINITE, LICTOR_COMPUTED. */
LICTOR_MUST_USE LICTOR_NOT_NULL
uint64_t lictor_dist(const double *a, size_t a_count, const double *b, size_t b_count, size_t n, double *dist);

/* ---- chunks: rows of planned actions, row i from i x dim */

#define LICTOR_MAX_HORIZON 64
#define LICTOR_MAX_DIM 8

/* A chunk that is held. All zeros is a buffer that holds none; setting filled to 0 lets go of the chunk. */
struct lictor_chunk_header {
    uint64_t seq, t_emit;              /* 32 bits */
    uint64_t horizon, dim, exec_steps; /* 16 bits; LICTOR_TOO_LONG, LICTOR_TOO_WIDE and LICTOR_EXEC_EXCEEDS_HORIZON past them */
    uint64_t filled;                   /* a flag: 0 or 1 */
};

/* Copies a chunk into a buffer; the numbers past the chunk's own stay. The old header isn't read.
   LICTOR_EMPTY to LICTOR_LEN_MISMATCH, LICTOR_NOT_FINITE. */
LICTOR_MUST_USE LICTOR_NOT_NULL
uint64_t lictor_fill(double numbers[512], struct lictor_chunk_header *header, uint32_t seq, uint32_t t_emit,
                     uint16_t horizon, uint16_t dim, uint16_t exec_steps, const double *rows, size_t rows_count);

/* The length of row i, the last row at or past the horizon; 0 where there are no rows or the row runs past the numbers.
   The row is copied where there is room for dim numbers. Refuses nothing. */
LICTOR_MUST_USE LICTOR_NOT_NULL
size_t lictor_action(const double *rows, size_t rows_count, uint16_t horizon, uint16_t dim, size_t i, double *row,
                     size_t row_count);

/* Writes the numbers of row over that row, as many as both have. Refuses nothing. */
LICTOR_NOT_NULL
void lictor_set_row(double *rows, size_t rows_count, uint16_t horizon, uint16_t dim, size_t i, const double *row,
                    size_t row_count);

/* How many of a buffer's numbers are rows of a held chunk: horizon x dim where filled isn't 0 and they are there, else 0. */
LICTOR_MUST_USE LICTOR_NOT_NULL
size_t lictor_held_rows(const double numbers[512], uint16_t horizon, uint16_t dim, uint64_t filled);

/* ---- the hit window: the last pushes, a bit each, the newest lowest; 0 is a new window */

/* The mask of a window of n pushes, 2^n - 1. LICTOR_SIZE outside 1..63. */
LICTOR_MUST_USE LICTOR_NOT_NULL
uint64_t lictor_mask(uint8_t n, uint64_t *mask);

/* The bits after one more push, a hit where hit isn't 0. */
LICTOR_MUST_USE
uint64_t lictor_push(uint64_t bits, uint64_t hit, uint64_t mask);

/* How many bits are set. */
LICTOR_MUST_USE
uint64_t lictor_hits(uint64_t bits);

/* ---- the trail: a ring of the last 32 positions, 8 numbers to a slot; all zeros is a new one */

struct lictor_trail_marks {
    uint64_t head, len; /* 8 bits, LICTOR_SIZE past them: the slot that is written next, at most 31; the samples held, at most 32 */
};

/* Records the first d coordinates of p, at most 8 and as many as there are; the slot's other numbers stay. LICTOR_SIZE,
   LICTOR_NOT_FINITE. */
LICTOR_MUST_USE LICTOR_NOT_NULL
uint64_t lictor_trail_push(double numbers[256], struct lictor_trail_marks *marks, const double *p, size_t p_count,
                           size_t d);

/* Lets go of the samples; the numbers stay. LICTOR_SIZE, LICTOR_NOT_FINITE. */
LICTOR_MUST_USE LICTOR_NOT_NULL
uint64_t lictor_trail_clear(double numbers[256], struct lictor_trail_marks *marks);

/* The distance from the oldest to the newest of the last w samples, over the first d coordinates; 0 for too few samples or a w
   out of range. LICTOR_SIZE, LICTOR_NOT_FINITE, LICTOR_COMPUTED. */
LICTOR_MUST_USE LICTOR_NOT_NULL
uint64_t lictor_trail_net(const double numbers[256], const struct lictor_trail_marks *marks, size_t d, size_t w,
                          double *net);

/* The length of the way between them, sample by sample, likewise. */
LICTOR_MUST_USE LICTOR_NOT_NULL
uint64_t lictor_trail_path(const double numbers[256], const struct lictor_trail_marks *marks, size_t d, size_t w,
                           double *path);

/* How many samples are held. LICTOR_SIZE, LICTOR_NOT_FINITE. */
LICTOR_MUST_USE LICTOR_NOT_NULL
uint64_t lictor_trail_len(const double numbers[256], const struct lictor_trail_marks *marks, uint64_t *len);

/* 1 where none is held, else 0, likewise. */
LICTOR_MUST_USE LICTOR_NOT_NULL
uint64_t lictor_trail_is_empty(const double numbers[256], const struct lictor_trail_marks *marks, uint64_t *empty);

/* ---- the configuration: 53 numbers, 35 counts and codes, and the calibration's two tables */

/* How many slow zones one arm may have. The first one is contact_radius, contact_v_max, contact_a0 and contact_a1; the fields of the others,
   contact1, contact2 and contact3, stand at the ends of the two structs. A zone past the count is not read. */
#define LICTOR_MAX_ZONES 4

struct lictor_numbers {
    double dt, v_max, a_max, j_max, reach_max, margin; /*  0.. 5 */
    double brake_k_p, brake_k_v, brake_dt;             /*  6.. 8 */
    double contact_radius, contact_v_max;              /*  9..10: how far the first slow zone reaches, and the speed inside it */
    double norm_center[8], norm_scale[8];              /* 11..26 */
    double box_lo[8], box_hi[8];                       /* 27..42: the walls of each axis; of the first two not read where shape is LICTOR_DISC */
    double tau;                                        /* 43     */
    double contact1_radius, contact1_v_max;            /* 44..45: likewise of the second zone, read where contact is 2 or more */
    double contact2_radius, contact2_v_max;            /* 46..47: of the third */
    double contact3_radius, contact3_v_max;            /* 48..49: of the fourth */
    double disc_x, disc_y, disc_radius;                /* 50..52: the centre and the radius of a round table, above 0; read where shape is
                                                             LICTOR_DISC */
};

struct lictor_counts {
    uint64_t dim, pos_dim;                    /*  0.. 1: 64 bits */
    uint64_t kind;                            /*  2: a code, LICTOR_EE_POSITION .. LICTOR_OTHER */
    uint64_t clamp;                           /*  3: a code, LICTOR_CLAMP_OFF or LICTOR_CLAMP_PROJECT */
    uint64_t brake;                           /*  4: a code, LICTOR_PD_SECOND_ORDER .. LICTOR_ZERO_VELOCITY_HOLD */
    uint64_t contact;                         /*  5: how many slow zones there are, 8 bits; LICTOR_SIZE past LICTOR_MAX_ZONES */
    uint64_t contact_a0, contact_a1;          /*  6.. 7: the first zone's channels, 8 bits; past them LICTOR_CHANNELS where that applies to
                                                    the pair by itself */
    uint64_t substeps, commit, brake_steps;   /*  8..10: 16 bits; LICTOR_STEPS past them */
    uint64_t react_ticks;                     /* 11: 16 bits */
    uint64_t terms[8];                        /* 12..19: feature bits, 32 bits; LICTOR_SIZE past them */
    uint64_t armed;                           /* 20: trip bits, 32 bits; a bit that is none of LICTOR_TRIP_ALL arms nothing, and no number
                                                    refuses it */
    uint64_t aux_count;                       /* 21: how many channels the camera declares, 64 bits */
    uint64_t calibrated;                      /* 22: a flag, 1 where there is a calibration; else nothing of it is judged */
    uint64_t mask, n_terms;                   /* 23..24: feature bits, 32 bits, and a count, 8 bits; LICTOR_SIZE past them */
    uint64_t horizon_ticks;                   /* 25: 32 bits */
    uint64_t absent_camera;                   /* 26: a code, LICTOR_ABSENT_CAMERA_SLOW or LICTOR_ABSENT_CAMERA_NO_ZONE */
    uint64_t contact1_a0, contact1_a1;        /* 27..28: the second zone's channels, likewise; read where contact is 2 or more */
    uint64_t contact2_a0, contact2_a1;        /* 29..30: the third's */
    uint64_t contact3_a0, contact3_a1;        /* 31..32: the fourth's */
    uint64_t shape;                           /* 33: a code, LICTOR_BOX or LICTOR_DISC */
    uint64_t gripper;                         /* 34: a code, LICTOR_GRIPPER_TO_ZERO or LICTOR_GRIPPER_LAST_COMMAND */
};

/* codes of kind */
#define LICTOR_EE_POSITION 0
#define LICTOR_EE_DELTA 1
#define LICTOR_JOINT_POSITION 2
#define LICTOR_JOINT_VELOCITY 3
#define LICTOR_OTHER 4

/* codes of clamp */
#define LICTOR_CLAMP_OFF 0
#define LICTOR_CLAMP_PROJECT 1

/* codes of brake */
#define LICTOR_PD_SECOND_ORDER 0
#define LICTOR_FIRST_ORDER_DECAY 1
#define LICTOR_BOUNDED_ACCEL 2
#define LICTOR_JERK_LIMITED 3
#define LICTOR_ZERO_VELOCITY_HOLD 4

/* codes of absent_camera: what holds of each slow zone where LICTOR_TRIP_CONTACT is armed, and the camera's message is too short for either
   channel of that zone or the position has fewer than two coordinates. All zeros has the first: the arm counts as inside the zone. With the
   second there is no such zone then, as an arm without a camera may ask for. A configuration without a zone has none under either. */
#define LICTOR_ABSENT_CAMERA_SLOW 0
#define LICTOR_ABSENT_CAMERA_NO_ZONE 1

/* codes of shape: what the workspace is. All zeros has the first: each axis of the position has its walls, and disc_x, disc_y and disc_radius
   are not read. With the second the first two axes have a round table in their place: the distance from its centre (disc_x, disc_y) is at
   most disc_radius, which the margin does not move; box_lo and box_hi of these two are not read, and derived as 0.0. Further axes keep their
   walls. A round table with dim or pos_dim below 2 is LICTOR_SHAPE. */
#define LICTOR_BOX 0
#define LICTOR_DISC 1

/* codes of gripper: what a row of positions that brakes or holds has on the axes past pos_dim, where there are no walls. All zeros has the
   first: 0, and a gripper that is open at 0 opens. With the second it is the last command, which the caller lends, bit for bit: the
   gripper stays as it was told. Axes within pos_dim are the same under both, and so are the rows of LICTOR_EE_DELTA and
   LICTOR_JOINT_VELOCITY. */
#define LICTOR_GRIPPER_TO_ZERO 0
#define LICTOR_GRIPPER_LAST_COMMAND 1

/* trip bits */
#define LICTOR_TRIP_WORKSPACE 1
#define LICTOR_TRIP_SPEED 2
#define LICTOR_TRIP_ACCEL 4
#define LICTOR_TRIP_JERK 8
#define LICTOR_TRIP_REACH 16
#define LICTOR_TRIP_CONTACT 32
#define LICTOR_TRIP_ALL 63

/* What is derived from a configuration. */
struct lictor_derived {
    double inv_dt, inv_dt2, inv_dt3, step_max; /* 1 / dt and its powers; v_max x dt */
    double norm_scale_iso;                     /* the least norm scale */
    double box_lo[8], box_hi[8];               /* the box moved inward by the margin; 0 past pos_dim, and on the first two axes of a disc */
    double inv_norm_scale[8];                  /* 1 / scale; 0 past dim */
};

/* Judges a configuration and derives from it. The tables hold feature j of time bin b at b x 12 + j. LICTOR_MISFIT,
   LICTOR_SIZE, LICTOR_NUMBER, LICTOR_STEPS, LICTOR_CHANNELS, LICTOR_SHAPE, LICTOR_WITHDRAWN. */
LICTOR_MUST_USE LICTOR_NOT_NULL
uint64_t lictor_derive(const struct lictor_numbers *numbers, const struct lictor_counts *counts,
                       const double center[192], const double scale[192], struct lictor_derived *derived);

/* ---- the checks: limits held against planned rows, which are projected inside them

   A limit trips where a row as it came strictly exceeds it; LICTOR_TRIP_WORKSPACE where a coordinate of it passes a wall or, on a round table,
   its distance from the centre exceeds the radius; LICTOR_TRIP_CONTACT where a step exceeds that of any slow zone that the arm is inside.
   Under LICTOR_CLAMP_PROJECT the output is the rows moved inside the armed limits, each by the workspace, the leash to the projected row
   before it and, the first row, the reach; under LICTOR_CLAMP_OFF it is the rows as they came. The workspace moves a coordinate onto the
   wall that it passes, and a point beyond a round table towards its centre, to disc_radius x (1 - 2^-36): rounded, it may still lie past the
   edge (from a centre at 2^53 with a radius of 1.5 the point 2^53 + 4 comes to 2^53 + 2). The leash's length is the least of v_max x dt,
   where LICTOR_TRIP_SPEED is armed, and, where LICTOR_TRIP_CONTACT is, of the steps of the zones that the arm is inside; where there is
   neither there is no leash. */

/* Bit j of the last three is coordinate j, counted from 0. low_dims and high_dims tell of the box alone, row by row as it came: an axis may
   have both, neither the leash nor the reach sets one, and one stays where they bring the coordinate back, which clamped_dims then may
   not tell. They are cut at min(dim, pos_dim), and 0 under LICTOR_CLAMP_OFF and where LICTOR_TRIP_WORKSPACE is not armed. A row on its
   wall sets none, and a round table sets none of its two axes. */
struct lictor_check_marks {
    uint64_t trips;        /* trip bits */
    uint64_t clamped_dims; /* a bit for each coordinate that was moved in any row */
    uint64_t low_dims;     /* a bit for each axis that the box raised to its low wall in any row, as the row came */
    uint64_t high_dims;    /* a bit for each axis that the box lowered to its high wall in any row, as the row came */
};

/* Checks a chunk from a position; aux is what the camera saw. Where it lacks a channel of a slow zone, or the position has fewer than two
   coordinates, absent_camera says whether the arm counts as inside that zone or there is no such zone; its distance is not computed then. So
   lend what the camera sent in this tick, and nothing where it sent nothing: an older message, or zeros in its place, is a camera that sees.
   Where LICTOR_TRIP_CONTACT is armed, the distance of every counted zone that is seen is computed, and the step of every one that the arm
   is inside: LICTOR_COMPUTED comes from any of them. Where LICTOR_TRIP_WORKSPACE is armed, so does it from every row's distance to the centre
   of a round table, under either clamp code. Writes the first horizon x dim numbers of out, the marks, and the greatest speed. Where none of
   LICTOR_TRIP_SPEED, LICTOR_TRIP_CONTACT, LICTOR_TRIP_WORKSPACE and LICTOR_TRIP_REACH is raised, these numbers are the rows bit for bit as they
   came, and of the marks only trips may have a bit: LICTOR_TRIP_ACCEL and LICTOR_TRIP_JERK move no row.
   LICTOR_MISFIT, LICTOR_SIZE to LICTOR_COMPUTED. */
LICTOR_MUST_USE LICTOR_NOT_NULL
uint64_t lictor_check_chunk(const struct lictor_numbers *numbers, const struct lictor_counts *counts,
                            const double center[192], const double scale[192], const double *position,
                            size_t position_count, const double *aux, size_t aux_count, const double *rows,
                            size_t rows_count, uint16_t horizon, uint16_t dim, uint16_t exec_steps, double *out,
                            size_t out_count, struct lictor_check_marks *marks, double *peak_speed);

/* Checks one action against the one before it, without LICTOR_TRIP_ACCEL and LICTOR_TRIP_JERK; aux and the position are read as by
   lictor_check_chunk. Writes the first dim numbers of out, the marks, and the speed. Where nothing is raised, these numbers are the action bit
   for bit as it came, and the other marks are 0. LICTOR_MISFIT, LICTOR_SIZE to LICTOR_WITHDRAWN, LICTOR_SHORT to LICTOR_COMPUTED. */
LICTOR_MUST_USE LICTOR_NOT_NULL
uint64_t lictor_check_action(const struct lictor_numbers *numbers, const struct lictor_counts *counts,
                             const double center[192], const double scale[192], const double *position,
                             size_t position_count, const double *aux, size_t aux_count, const double *previous,
                             size_t previous_count, const double *action, size_t action_count, double *out,
                             size_t out_count, struct lictor_check_marks *marks, double *peak_speed);

/* ---- scores: the features of a tick, and what the gate makes of them */

/* feature bits, by position; LICTOR_STALL is not computed: it is 0.0, never valid, and refused in a calibration (LICTOR_WITHDRAWN) */
#define LICTOR_TCE 0
#define LICTOR_ACC 1
#define LICTOR_ACM_NEG 2
#define LICTOR_NJR 3
#define LICTOR_REACH 4
#define LICTOR_SPEED_PEAK 5
#define LICTOR_PATH_INEFF 6
#define LICTOR_STALL 7
#define LICTOR_EXT0 8
#define LICTOR_EXT1 9
#define LICTOR_EXT2 10
#define LICTOR_EXT3 11

struct lictor_scores {
    double f[12], z[12]; /* the features, and in units of the calibration */
    double s;            /* their aggregate */
};

struct lictor_marks {
    uint64_t valid, fired; /* 32 bits: a bit for each feature */
};

/* ---- tier 1: the features of a tick, each larger the less ordinary the motion is, and the state between ticks

   A held feature (LICTOR_TCE to LICTOR_SPEED_PEAK) is of the last chunk: LICTOR_TCE and LICTOR_ACC where two of its rows or
   more overlap with those of the chunk before, which was as wide and not emitted later; LICTOR_ACM_NEG of 2 rows or more,
   LICTOR_NJR of 4; LICTOR_REACH where the position has a coordinate. LICTOR_PATH_INEFF is of the trail, once it holds 20
   samples. LICTOR_EXT0 and those after it are the caller's own. */

struct lictor_held_marks {
    uint64_t have_prev;  /* a flag: 1 where a chunk came before, else 0 */
    uint64_t held_valid; /* 32 bits: a bit for each held feature */
};

/* The state between ticks: 784 words of 8 bytes. Each entry takes its six parts, which LICTOR_TIER1_PARTS(&state) lists. */
struct lictor_tier1 {
    double before[512];                /*   0..511: the numbers of the chunk before, as lictor_fill leaves them */
    struct lictor_chunk_header header; /* 512..517: its header */
    double trail[256];                 /* 518..773: the trail, to which lictor_trail_push adds each tick's position */
    struct lictor_trail_marks samples; /* 774..775: its marks */
    double held[6];                    /* 776..781: the held features, by their bits */
    struct lictor_held_marks kept;     /* 782..783 */
};

#define LICTOR_TIER1_PARTS(s) (s)->before, &(s)->header, (s)->trail, &(s)->samples, (s)->held, &(s)->kept

/* Makes the state new: no chunk, no sample, no feature. Refuses nothing and reads nothing. */
LICTOR_NOT_NULL
void lictor_tier1_new(double before[512], struct lictor_chunk_header *header, double trail[256],
                      struct lictor_trail_marks *samples, double held[6], struct lictor_held_marks *kept);

/* Lets go of the chunk before, the trail and the held features, as between episodes; the chunk's and the trail's numbers stay, and
   so does what the header says of the chunk.
   LICTOR_MISFIT, LICTOR_SIZE, LICTOR_EMPTY to LICTOR_LEN_MISMATCH for the chunk before, LICTOR_NOT_FINITE. */
LICTOR_MUST_USE LICTOR_NOT_NULL
uint64_t lictor_tier1_reset(double before[512], struct lictor_chunk_header *header, double trail[256],
                            struct lictor_trail_marks *samples, double held[6], struct lictor_held_marks *kept);

/* The features of a tick, in the scores' f and valid; f is 0 where not valid, and z, s and fired stay. Where there isn't 0, a
   chunk came (seq to rows_count): it replaces all held features, invalid ones too, and the chunk before; else what is said
   of a chunk isn't read. The trail is only read. A position may be short: what is missing isn't shared with the action. At most four
   external scalars are read. LICTOR_MISFIT, LICTOR_SIZE to LICTOR_WIDTH, LICTOR_NOT_FINITE, LICTOR_COMPUTED. */
LICTOR_MUST_USE LICTOR_NOT_NULL
uint64_t lictor_features(const struct lictor_numbers *numbers, const struct lictor_counts *counts,
                         const double center[192], const double scale[192], double before[512],
                         struct lictor_chunk_header *header, const double trail[256],
                         const struct lictor_trail_marks *samples, double held[6], struct lictor_held_marks *kept,
                         const double *position, size_t position_count, const double *external, size_t external_count,
                         uint64_t there, uint32_t seq, uint32_t t_emit, uint16_t horizon, uint16_t dim,
                         uint16_t exec_steps, const double *rows, size_t rows_count, struct lictor_scores *scores,
                         struct lictor_marks *marks);

/* ---- the gate: scores held against a calibration (its tables, tau, mask of features, and the first n_terms of its terms) */

/* Puts f in units of the calibration, in z; a bin above 15 is 15. LICTOR_MISFIT, LICTOR_SIZE, LICTOR_NUMBER,
   LICTOR_WITHDRAWN, LICTOR_NOT_FINITE, LICTOR_COMPUTED. */
LICTOR_MUST_USE LICTOR_NOT_NULL
uint64_t lictor_standardise(const double center[192], const double scale[192], double tau, uint32_t mask,
                            uint8_t n_terms, const uint32_t terms[8], size_t bin, struct lictor_scores *scores,
                            struct lictor_marks *marks);

/* Sets s and fired from z; s is negative infinity where no term is live. LICTOR_MISFIT, LICTOR_SIZE, LICTOR_NUMBER,
   LICTOR_WITHDRAWN, LICTOR_NOT_FINITE. */
LICTOR_MUST_USE LICTOR_NOT_NULL
uint64_t lictor_aggregate(const double center[192], const double scale[192], double tau, uint32_t mask,
                          uint8_t n_terms, const uint32_t terms[8], struct lictor_scores *scores,
                          struct lictor_marks *marks);

/* Sets trips to 1 where s is above tau, else to 0. Refuses as lictor_aggregate does. */
LICTOR_MUST_USE LICTOR_NOT_NULL
uint64_t lictor_trip(const double center[192], const double scale[192], double tau, uint32_t mask, uint8_t n_terms,
                     const uint32_t terms[8], const struct lictor_scores *scores, const struct lictor_marks *marks,
                     uint64_t *trips);

/* The time bin of tick t, of 16 over the horizon: (t - 1) x 16 / horizon_ticks rounded down, at most 15. Ticks are numbered from 1;
   tick 0, which has no chunk, is in bin 0 too. LICTOR_STEPS for a horizon of 0 ticks. */
LICTOR_MUST_USE LICTOR_NOT_NULL
uint64_t lictor_time_bin(uint32_t t, uint32_t horizon_ticks, uint64_t *bin);

/* ---- the brake: whether the arm can still stop inside its workspace, a run towards one setpoint, and the rows that brake and hold

   A slack is how far a position is from the nearest wall or edge, and negative beyond it: the least, over the axes that have walls, of
   position - low wall and high wall - position, the walls moved inward by the margin, and, on a round table, of disc_radius - distance. In a
   forecast the closed kinds take their stopping radius off each. */

struct lictor_forecast_marks {
    uint64_t count;    /* how many slacks are written */
    uint64_t feasible; /* 1 where none of them is negative, else 0 */
};

struct lictor_forecast_distances {
    double margin;    /* the least slack; infinity where there is none */
    double stop_dist; /* how far the arm comes */
};

/* Forecasts from row `from` of a chunk through the committed rows and the braking after them. Writes the slacks in order, the
   marks and the distances; the rest of the slacks stays. A refusal sets place: for LICTOR_COMPUTED it is the place of the first
   number that isn't finite, counted from 1, and the slacks before it are written; for any other number it is 0. The second-order brake
   holds the position that the rows leave, moved inside its workspace; on a round table that is computed also where brake_steps is 0, at the
   place of the first substep after the rows.
   LICTOR_MISFIT leaves place as it was. LICTOR_MISFIT, LICTOR_SIZE to LICTOR_COMPUTED. */
LICTOR_MUST_USE LICTOR_NOT_NULL
uint64_t lictor_brake_feasible(const struct lictor_numbers *numbers, const struct lictor_counts *counts,
                               const double center[192], const double scale[192], const double *position,
                               size_t position_count, const double *velocity, size_t velocity_count, const double *rows,
                               size_t rows_count, uint16_t horizon, uint16_t dim, uint16_t exec_steps, size_t from,
                               double *slacks, size_t slacks_count, struct lictor_forecast_marks *marks,
                               struct lictor_forecast_distances *distances, uint64_t *place);

/* Runs n substeps towards one setpoint from a position and a velocity: the run that a forecast of the second-order brake makes towards each
   row, and then towards the setpoint that it makes where the rows end. It makes no setpoint itself, and computes no stop distance. On each of
   the first min(dim, pos_dim) axes a substep adds (brake_k_p x (setpoint - position) - brake_k_v x velocity) x brake_dt to the velocity, and
   then the new velocity x brake_dt to the position; these gains are in force whatever the code of brake is, and no stopping radius is taken
   off.
   Writes the slack after each substep in order, the first min(dim, pos_dim) numbers of position and velocity, which are then those after the
   last one, the count, which is n, and the margin: the least slack by lictor_min, infinity where n is 0. The rest of each slice stays. n is
   bounded by slacks_count alone. No two of setpoint, position, velocity and slacks may overlap: to run towards where the arm stands, copy the
   position.
   LICTOR_SHORT is for a setpoint below dim, a position or a velocity below pos_dim, and slacks below n; LICTOR_NOT_FINITE for any number of the
   first three, read or not. LICTOR_COMPUTED is for a substep that computes a number that isn't finite, its slack's numbers too: place is the
   first such substep, counted from 1, and the slacks before it are written, and nothing else. For any other number place is 0, and
   LICTOR_MISFIT leaves it as it was.
   Two runs make one, by a theorem: m substeps, and then n from where they end towards the same setpoint, are m + n at once, bit for bit. The
   position and the velocity are the same, the slacks are those of the first and then those of the second, and the margin is lictor_min(first,
   second); with the two swapped a zero's sign may differ. Where the first is refused with LICTOR_COMPUTED the whole is at the same place, and
   where the second is at place k the whole is at m + k. A forecast may not be split so across the point where its rows end: from further on
   lictor_brake_feasible makes another setpoint, of where the arm is then, and its slacks are others.
   LICTOR_MISFIT, LICTOR_SIZE to LICTOR_WITHDRAWN, LICTOR_SHORT to LICTOR_COMPUTED. */
LICTOR_MUST_USE LICTOR_NOT_NULL
uint64_t lictor_run_towards(const struct lictor_numbers *numbers, const struct lictor_counts *counts,
                            const double center[192], const double scale[192], const double *setpoint,
                            size_t setpoint_count, double *position, size_t position_count, double *velocity,
                            size_t velocity_count, size_t n, double *slacks, size_t slacks_count, uint64_t *count,
                            double *margin, uint64_t *place);

/* At which wall the position of a row that brakes or holds was stopped: bit j is coordinate j, counted from 0, of the first min(dim,
   pos_dim). A position on its wall sets none, a round table sets none of its two axes, and what a short position lacks counts as 0. Both are
   0 for LICTOR_EE_DELTA and LICTOR_JOINT_VELOCITY; what is armed, the clamp code, the gripper code and the last command don't matter. */
struct lictor_wall_marks {
    uint64_t low_dims;  /* a bit for each axis that was raised to its low wall */
    uint64_t high_dims; /* a bit for each axis that was lowered to its high wall */
};

/* The row that brakes, over the first dim numbers of out: the position moved inside its workspace, or the velocity ramped down; and the marks
   of the walls that moved it. A position or velocity may be short: what is missing counts as 0.
   last is the last command, the row that was sent before. Under LICTOR_GRIPPER_LAST_COMMAND a row of positions has its numbers past pos_dim;
   for every kind, and also where dim is at most pos_dim, fewer than dim numbers are LICTOR_SHORT, and any that isn't finite, read or not,
   is LICTOR_NOT_FINITE. Under LICTOR_GRIPPER_TO_ZERO last is neither judged nor read: LICTOR_NONE with 0 may be passed. Under both, last and
   out may not overlap: a caller who keeps the last row in one buffer has the next one written to another, and copies it after the call.
   LICTOR_MISFIT, LICTOR_SIZE to LICTOR_WITHDRAWN, LICTOR_SHORT to LICTOR_COMPUTED. */
LICTOR_MUST_USE LICTOR_NOT_NULL
uint64_t lictor_brake_action(const struct lictor_numbers *numbers, const struct lictor_counts *counts,
                             const double center[192], const double scale[192], const double *position,
                             size_t position_count, const double *velocity, size_t velocity_count, const double *last,
                             size_t last_count, double *out, size_t out_count, struct lictor_wall_marks *walls);

/* The row that holds, over the first dim numbers of out: the latched position moved inside its workspace, or no velocity; and the marks
   likewise.
   last is the last command, the row that was sent before. Under LICTOR_GRIPPER_LAST_COMMAND a row of positions has its numbers past pos_dim;
   for every kind, and also where dim is at most pos_dim, fewer than dim numbers are LICTOR_SHORT, and any that isn't finite, read or not,
   is LICTOR_NOT_FINITE. Under LICTOR_GRIPPER_TO_ZERO last is neither judged nor read: LICTOR_NONE with 0 may be passed. Under both, last and
   out may not overlap: a caller who keeps the last row in one buffer has the next one written to another, and copies it after the call.
   LICTOR_MISFIT, LICTOR_SIZE to LICTOR_WITHDRAWN, LICTOR_SHORT to LICTOR_COMPUTED. LICTOR_COMPUTED is for a position whose distance from the
   centre of a round table, or what is computed to move it, isn't finite: at a box it is never given. */
LICTOR_MUST_USE LICTOR_NOT_NULL
uint64_t lictor_hold_action(const struct lictor_numbers *numbers, const struct lictor_counts *counts,
                            const double center[192], const double scale[192], const double *position,
                            size_t position_count, const double *last, size_t last_count, double *out, size_t out_count,
                            struct lictor_wall_marks *walls);

/* ---- guard forms: the entries that take a configuration, a calibration or a chunk, on one struct for each

   Where the entry is handed several arrays that belong together, its guard form is handed the struct that has them, so that no array of
   another configuration comes in between. A null pointer with a count of 0 is a slice of no numbers, as of a camera that is silent (an arm
   that has zones and no camera on purpose sets LICTOR_ABSENT_CAMERA_NO_ZONE); with any other count it is refused with LICTOR_MISFIT, save
   that a last command is no argument under LICTOR_GRIPPER_TO_ZERO. A pointer that has no count is not null. */

/* A configuration with its calibration. Start from all zeros, then set what the arm has. lictor_guard_derive judges it; so does every call. */
struct lictor_config {
    struct lictor_numbers numbers;
    struct lictor_counts counts;
    double center[192], scale[192]; /* the calibration's tables, feature j of time bin b at b x 12 + j; not read where calibrated is 0 */
};

/* The parts of a configuration, as the entries take them. */
#define LICTOR_CONFIG_PARTS(c) &(c)->numbers, &(c)->counts, (c)->center, (c)->scale

/* A chunk that is lent: horizon x dim numbers. */
struct lictor_chunk {
    const double *rows;
    size_t rows_count;
    uint32_t seq, t_emit;
    uint16_t horizon, dim, exec_steps;
};

/* The parts of a chunk that a check and a forecast read. */
#define LICTOR_CHUNK_PARTS(c) lictor_lent((c)->rows), (c)->rows_count, (c)->horizon, (c)->dim, (c)->exec_steps

/* The numbers, or where there are none an address that an entry takes. */
LICTOR_MUST_USE
static inline const double *lictor_lent(const double *numbers) { return numbers ? numbers : LICTOR_NONE; }

/* Whether a pointer is null and yet has numbers. */
LICTOR_MUST_USE
static inline int lictor_missing(const double *numbers, size_t count) { return !numbers && count > 0; }

/* The same of a last command, which is an argument under LICTOR_GRIPPER_LAST_COMMAND alone. */
LICTOR_MUST_USE
static inline int lictor_last_missing(const struct lictor_config *config, const double *last, size_t last_count) {
    return config->counts.gripper == LICTOR_GRIPPER_LAST_COMMAND && lictor_missing(last, last_count);
}

/* lictor_derive */
LICTOR_MUST_USE LICTOR_NOT_NULL
static inline uint64_t lictor_guard_derive(const struct lictor_config *config, struct lictor_derived *derived) {
    return lictor_derive(LICTOR_CONFIG_PARTS(config), derived);
}

/* lictor_action: a row of a chunk. Gives 0 where there are no rows. */
LICTOR_MUST_USE
static inline size_t lictor_guard_action(const struct lictor_chunk *chunk, size_t i, double *row, size_t row_count) {
    double none = 0.0;
    if (lictor_missing(chunk->rows, chunk->rows_count) || lictor_missing(row, row_count)) return 0;
    return lictor_action(lictor_lent(chunk->rows), chunk->rows_count, chunk->horizon, chunk->dim, i, row ? row : &none, row_count);
}

/* lictor_check_chunk */
LICTOR_MUST_USE
static inline uint64_t lictor_guard_check_chunk(const struct lictor_config *config, const double *position,
                                                size_t position_count, const double *aux, size_t aux_count,
                                                const struct lictor_chunk *chunk, double *out, size_t out_count,
                                                struct lictor_check_marks *marks, double *peak_speed) {
    double none = 0.0;
    if (lictor_missing(position, position_count) || lictor_missing(aux, aux_count) ||
        lictor_missing(chunk->rows, chunk->rows_count) || lictor_missing(out, out_count))
        return LICTOR_MISFIT;
    return lictor_check_chunk(LICTOR_CONFIG_PARTS(config), lictor_lent(position), position_count, lictor_lent(aux), aux_count,
                              LICTOR_CHUNK_PARTS(chunk), out ? out : &none, out_count, marks, peak_speed);
}

/* lictor_check_action */
LICTOR_MUST_USE
static inline uint64_t lictor_guard_check_action(const struct lictor_config *config, const double *position,
                                                 size_t position_count, const double *aux, size_t aux_count,
                                                 const double *previous, size_t previous_count, const double *action,
                                                 size_t action_count, double *out, size_t out_count,
                                                 struct lictor_check_marks *marks, double *peak_speed) {
    double none = 0.0;
    if (lictor_missing(position, position_count) || lictor_missing(aux, aux_count) || lictor_missing(previous, previous_count) ||
        lictor_missing(action, action_count) || lictor_missing(out, out_count))
        return LICTOR_MISFIT;
    return lictor_check_action(LICTOR_CONFIG_PARTS(config), lictor_lent(position), position_count, lictor_lent(aux), aux_count,
                               lictor_lent(previous), previous_count, lictor_lent(action), action_count, out ? out : &none,
                               out_count, marks, peak_speed);
}

/* lictor_features; a null chunk is none that came. */
LICTOR_MUST_USE
static inline uint64_t lictor_guard_features(const struct lictor_config *config, struct lictor_tier1 *state,
                                             const double *position, size_t position_count, const double *external,
                                             size_t external_count, const struct lictor_chunk *chunk,
                                             struct lictor_scores *scores, struct lictor_marks *marks) {
    const struct lictor_chunk none = {LICTOR_NONE, 0, 0, 0, 0, 0, 0};
    const struct lictor_chunk *lent = chunk ? chunk : &none;
    if (lictor_missing(position, position_count) || lictor_missing(external, external_count) ||
        lictor_missing(lent->rows, lent->rows_count))
        return LICTOR_MISFIT;
    return lictor_features(LICTOR_CONFIG_PARTS(config), LICTOR_TIER1_PARTS(state), lictor_lent(position), position_count,
                           lictor_lent(external), external_count, chunk ? 1 : 0, lent->seq, lent->t_emit, lent->horizon, lent->dim,
                           lent->exec_steps, lictor_lent(lent->rows), lent->rows_count, scores, marks);
}

/* A count as a narrower field holds it: one that is too wide becomes the greatest, which the gate refuses with LICTOR_SIZE. */
LICTOR_MUST_USE
static inline uint32_t lictor_narrow(uint64_t count, uint32_t greatest) {
    return count > greatest ? greatest : LICTOR_CAST(uint32_t, count);
}

/* The terms of a configuration's calibration, as the gate takes them. */
struct lictor_terms {
    uint32_t bits[8];
};

LICTOR_MUST_USE LICTOR_NOT_NULL
static inline struct lictor_terms lictor_terms_of(const struct lictor_config *config) {
    struct lictor_terms terms = {{0}};
    for (int i = 0; i < 8; i++) terms.bits[i] = lictor_narrow(config->counts.terms[i], UINT32_MAX);
    return terms;
}

/* The calibration of a configuration, as the gate takes it; its flag is not read. */
#define LICTOR_CALIBRATION_PARTS(c, terms)                                                                             \
    (c)->center, (c)->scale, (c)->numbers.tau, lictor_narrow((c)->counts.mask, UINT32_MAX),                             \
        LICTOR_CAST(uint8_t, lictor_narrow((c)->counts.n_terms, UINT8_MAX)), (terms)->bits

/* lictor_standardise, with the configuration's calibration. Without one, all zeros, it is refused with LICTOR_NUMBER. */
LICTOR_MUST_USE LICTOR_NOT_NULL
static inline uint64_t lictor_guard_standardise(const struct lictor_config *config, size_t bin, struct lictor_scores *scores,
                                                struct lictor_marks *marks) {
    const struct lictor_terms terms = lictor_terms_of(config);
    return lictor_standardise(LICTOR_CALIBRATION_PARTS(config, &terms), bin, scores, marks);
}

/* lictor_aggregate, likewise */
LICTOR_MUST_USE LICTOR_NOT_NULL
static inline uint64_t lictor_guard_aggregate(const struct lictor_config *config, struct lictor_scores *scores,
                                              struct lictor_marks *marks) {
    const struct lictor_terms terms = lictor_terms_of(config);
    return lictor_aggregate(LICTOR_CALIBRATION_PARTS(config, &terms), scores, marks);
}

/* lictor_trip, likewise */
LICTOR_MUST_USE LICTOR_NOT_NULL
static inline uint64_t lictor_guard_trip(const struct lictor_config *config, const struct lictor_scores *scores,
                                         const struct lictor_marks *marks, uint64_t *trips) {
    const struct lictor_terms terms = lictor_terms_of(config);
    return lictor_trip(LICTOR_CALIBRATION_PARTS(config, &terms), scores, marks, trips);
}

/* lictor_time_bin, with the configuration's horizon_ticks; LICTOR_MISFIT where those take more than 32 bits */
LICTOR_MUST_USE LICTOR_NOT_NULL
static inline uint64_t lictor_guard_time_bin(const struct lictor_config *config, uint32_t t, uint64_t *bin) {
    if (config->counts.horizon_ticks > UINT32_MAX) return LICTOR_MISFIT;
    return lictor_time_bin(t, LICTOR_CAST(uint32_t, config->counts.horizon_ticks), bin);
}

/* lictor_brake_feasible */
LICTOR_MUST_USE
static inline uint64_t lictor_guard_brake_feasible(const struct lictor_config *config, const double *position,
                                                   size_t position_count, const double *velocity, size_t velocity_count,
                                                   const struct lictor_chunk *chunk, size_t from, double *slacks,
                                                   size_t slacks_count, struct lictor_forecast_marks *marks,
                                                   struct lictor_forecast_distances *distances, uint64_t *place) {
    double none = 0.0;
    if (lictor_missing(position, position_count) || lictor_missing(velocity, velocity_count) ||
        lictor_missing(chunk->rows, chunk->rows_count) || lictor_missing(slacks, slacks_count))
        return LICTOR_MISFIT;
    return lictor_brake_feasible(LICTOR_CONFIG_PARTS(config), lictor_lent(position), position_count, lictor_lent(velocity),
                                 velocity_count, LICTOR_CHUNK_PARTS(chunk), from, slacks ? slacks : &none, slacks_count, marks,
                                 distances, place);
}

/* lictor_run_towards; no two of setpoint, position, velocity and slacks may overlap */
LICTOR_MUST_USE
static inline uint64_t lictor_guard_run_towards(const struct lictor_config *config, const double *setpoint, size_t setpoint_count,
                                                double *position, size_t position_count, double *velocity, size_t velocity_count,
                                                size_t n, double *slacks, size_t slacks_count, uint64_t *count, double *margin,
                                                uint64_t *place) {
    double none = 0.0;
    if (lictor_missing(setpoint, setpoint_count) || lictor_missing(position, position_count) ||
        lictor_missing(velocity, velocity_count) || lictor_missing(slacks, slacks_count))
        return LICTOR_MISFIT;
    return lictor_run_towards(LICTOR_CONFIG_PARTS(config), lictor_lent(setpoint), setpoint_count, position ? position : &none,
                              position_count, velocity ? velocity : &none, velocity_count, n, slacks ? slacks : &none, slacks_count,
                              count, margin, place);
}

/* lictor_brake_action; last and out may not overlap. Under LICTOR_GRIPPER_TO_ZERO a null last is no numbers, whatever its count. */
LICTOR_MUST_USE
static inline uint64_t lictor_guard_brake_action(const struct lictor_config *config, const double *position,
                                                 size_t position_count, const double *velocity, size_t velocity_count,
                                                 const double *last, size_t last_count, double *out, size_t out_count,
                                                 struct lictor_wall_marks *walls) {
    double none = 0.0;
    if (lictor_missing(position, position_count) || lictor_missing(velocity, velocity_count) ||
        lictor_last_missing(config, last, last_count) || lictor_missing(out, out_count))
        return LICTOR_MISFIT;
    return lictor_brake_action(LICTOR_CONFIG_PARTS(config), lictor_lent(position), position_count, lictor_lent(velocity),
                               velocity_count, lictor_lent(last), last ? last_count : 0, out ? out : &none, out_count, walls);
}

/* lictor_hold_action; last and out likewise */
LICTOR_MUST_USE
static inline uint64_t lictor_guard_hold_action(const struct lictor_config *config, const double *position,
                                                size_t position_count, const double *last, size_t last_count, double *out,
                                                size_t out_count, struct lictor_wall_marks *walls) {
    double none = 0.0;
    if (lictor_missing(position, position_count) || lictor_last_missing(config, last, last_count) || lictor_missing(out, out_count))
        return LICTOR_MISFIT;
    return lictor_hold_action(LICTOR_CONFIG_PARTS(config), lictor_lent(position), position_count, lictor_lent(last),
                              last ? last_count : 0, out ? out : &none, out_count, walls);
}

/* ---- the structs have nothing between their fields */

#ifdef __cplusplus
#define LICTOR_ASSERT(name, words) static_assert(sizeof(struct name) == (words) * sizeof(uint64_t), #name " has gaps")
#else
#define LICTOR_ASSERT(name, words) typedef char name##_has_no_gaps[sizeof(struct name) == (words) * sizeof(uint64_t) ? 1 : -1]
#endif
LICTOR_ASSERT(lictor_chunk_header, 6);
LICTOR_ASSERT(lictor_trail_marks, 2);
LICTOR_ASSERT(lictor_numbers, 53);
LICTOR_ASSERT(lictor_counts, 35);
LICTOR_ASSERT(lictor_derived, 29);
LICTOR_ASSERT(lictor_check_marks, 4);
LICTOR_ASSERT(lictor_held_marks, 2);
LICTOR_ASSERT(lictor_tier1, 784);
LICTOR_ASSERT(lictor_forecast_marks, 2);
LICTOR_ASSERT(lictor_forecast_distances, 2);
LICTOR_ASSERT(lictor_wall_marks, 2);
LICTOR_ASSERT(lictor_scores, 25);
LICTOR_ASSERT(lictor_marks, 2);
LICTOR_ASSERT(lictor_config, 53 + 35 + 192 + 192);
#undef LICTOR_ASSERT

#ifdef __cplusplus
}
#endif

#endif
