/* The six-seat hair bench: crate bench_c, built by `rt lib` there as out/libbench_c.a.
 *
 * The bench owns no memory. The caller keeps the record and lends areas to each call, as a pointer and a length:
 *
 *     load, unload      rest, drape and pins, of which the seat's parts are written
 *     pin               pins, of which one byte is written
 *     look, companion   rest and drape, which are read
 *     both steps        rest and pins, which are read; drape, of which the seat's part is written; work, which may
 *                       hold anything before and after
 *
 * An area may have any length and hold any bits; a wrong length is refused. No call keeps a pointer, allocates, or
 * calls back. What the library cannot test it asks of its caller, of areas, of the lists of a load and of the record
 * where it is a pointer:
 *
 * - A pointer is not null, is aligned for its type, and is good for its length.
 * - What a call writes overlaps nothing else that it is given: no other area, no list, not the record. What it only
 *   reads may overlap what it only reads.
 * - Floating point is as a program starts with it: numbers are rounded to nearest, subnormal numbers are kept (neither
 *   flush to zero nor denormals-are-zero is set), and no exception traps. Otherwise the bits are others. A program that
 *   is linked with -ffast-math may start otherwise.
 *
 * Structs go by value, in and out, as the System V ABI of x86-64 has it.
 *
 * The code is for processors of x86-64-v2 or later. The library takes memcpy and memset from the C library, and nothing
 * else. */
#ifndef HAIRBENCH_H
#define HAIRBENCH_H

#include <stddef.h>
#include <stdint.h>

#ifdef __cplusplus
extern "C" {
#endif

/* How many seats there are, and how many vertices a strand may have, at least 2. */
#define HAIRBENCH_SEATS 6
#define HAIRBENCH_VERTICES 32

/* The lengths of the areas: numbers in rest, drape and work, bytes in pins. */
#define HAIRBENCH_REST 1152
#define HAIRBENCH_DRAPE 2304
#define HAIRBENCH_PINS 768
#define HAIRBENCH_WORK 3264

/* What a call is refused with; 0 where it is accepted. */
enum {
    HAIRBENCH_ACCEPTED = 0,
    HAIRBENCH_AREA_OR_RECORD = 1,    /* an area of a wrong length, or a record that no call leaves */
    HAIRBENCH_NO_SUCH_SEAT = 2,      /* the seat is 6 or more */
    HAIRBENCH_SEAT_STATE = 3,        /* a load on a taken seat, or another call on an empty one */
    HAIRBENCH_COUNT = 4,             /* fewer than 2 or more than 32 vertices, or lists that do not fit them */
    HAIRBENCH_INDEX = 5,             /* a vertex, component or kind that is not there */
    HAIRBENCH_NUMBER = 6,            /* a given number that is not finite, a setting out of range, dt not above 0 */
    HAIRBENCH_EDGE = 7,              /* an edge that is too short or too long to work with */
    HAIRBENCH_SYSTEM = 8,            /* an assembled number that is not finite */
    HAIRBENCH_SOLUTION = 9,          /* a ratio or a solution that is not finite */
    HAIRBENCH_TURN = 10,             /* an edge that would turn back on itself */
    HAIRBENCH_DRAPE_NOT_FINITE = 11  /* a number that the step would leave is not finite */
};

/* What a look shows. Kinds 0 and 1 lie in the rest area, 2 to 4 in the drape area. */
enum {
    HAIRBENCH_REST_POSITIONS = 0,
    HAIRBENCH_REST_FRAMES = 1,
    HAIRBENCH_DRAPE_POSITIONS = 2,
    HAIRBENCH_DRAPE_FRAMES = 3,
    HAIRBENCH_VELOCITIES = 4
};

/* A strand's settings: the stiffness against stretch, the three against bend and twist, and the ratio below
 * which a solve ends. */
typedef struct {
    double stiff_length;
    double stiff_bendtwist0;
    double stiff_bendtwist1;
    double stiff_bendtwist2;
    double conv_ratio;
} hairbench_settings;

/* Of each seat the number of its strand's vertices, 0 where it is empty, and the settings. All zero on a new
 * bench, as the areas are. */
typedef struct {
    size_t counts[HAIRBENCH_SEATS];
    hairbench_settings settings[HAIRBENCH_SEATS];
} hairbench_record;

/* The record after a load or an unload, and the number that the call is refused with, 0 for none. */
typedef struct {
    hairbench_record seats;
    uint8_t refusal;
} hairbench_changed;

/* A step's answer: the number that it is refused with, 0 for none; the energy, which is never below 0 and never -0,
 * the iterations of the solve and its last ratio, all three 0 where it is refused. */
typedef struct {
    uint8_t number;
    double energy;
    size_t count;
    double ratio;
} hairbench_report;

/* Where the numbers of a look stand in the area that its kind chooses, and how many they are. */
typedef struct {
    size_t at;
    size_t count;
} hairbench_place;

/* Lays a strand of n vertices on an empty seat: three numbers of positions and three of frames for each vertex. A
 * vertex's frame is that of the edge which begins there, told by its x axis, a unit vector across the edge; other
 * finite numbers are laid too, and a step computes with them. The last vertex begins no edge: its three numbers are
 * kept, and turn nothing. */
hairbench_changed hairbench_load_value(hairbench_record record, double *rest, size_t rest_length, double *drape,
                                       size_t drape_length, uint8_t *pins, size_t pins_length, size_t seat,
                                       size_t n, hairbench_settings settings, const double *positions,
                                       size_t positions_length, const double *frames, size_t frames_length);

/* The same, with the record where it stands; what it is refused with. */
static inline uint8_t hairbench_load(hairbench_record *record, double *rest, size_t rest_length, double *drape,
                                     size_t drape_length, uint8_t *pins, size_t pins_length, size_t seat,
                                     size_t n, hairbench_settings settings, const double *positions,
                                     size_t positions_length, const double *frames, size_t frames_length)
{
    hairbench_changed after =
        hairbench_load_value(*record, rest, rest_length, drape, drape_length, pins, pins_length, seat, n,
                             settings, positions, positions_length, frames, frames_length);
    *record = after.seats;
    return after.refusal;
}

/* Empties a seat. */
hairbench_changed hairbench_unload_value(hairbench_record record, double *rest, size_t rest_length, double *drape,
                                         size_t drape_length, uint8_t *pins, size_t pins_length, size_t seat);

/* The same, with the record where it stands; what it is refused with. */
static inline uint8_t hairbench_unload(hairbench_record *record, double *rest, size_t rest_length, double *drape,
                                       size_t drape_length, uint8_t *pins, size_t pins_length, size_t seat)
{
    hairbench_changed after = hairbench_unload_value(*record, rest, rest_length, drape, drape_length, pins,
                                                     pins_length, seat);
    *record = after.seats;
    return after.refusal;
}

/* Pins a component of a vertex with any byte but 0, frees it with 0. Components 0 to 2 are x, y, z; 3 is the
 * twist of the edge that begins at the vertex. */
uint8_t hairbench_pin(hairbench_record record, uint8_t *pins, size_t pins_length, size_t seat, size_t vertex,
                      size_t component, uint8_t byte);

/* The place of what a look shows; {0, 0} where it is refused. */
hairbench_place hairbench_look(hairbench_record record, const double *rest, size_t rest_length,
                               const double *drape, size_t drape_length, size_t seat, size_t kind);

/* What that look is refused with. */
uint8_t hairbench_companion(hairbench_record record, const double *rest, size_t rest_length,
                            const double *drape, size_t drape_length, size_t seat, size_t kind);

/* A step to the drape of least energy. Where flag is not 0, the vertex is pulled to (x, y, z). */
hairbench_report hairbench_step_static(hairbench_record record, const double *rest, size_t rest_length,
                                       double *drape, size_t drape_length, const uint8_t *pins,
                                       size_t pins_length, double *work, size_t work_length, size_t seat,
                                       uint8_t flag, size_t vertex, double x, double y, double z);

/* A step of dt in time, with inertia. */
hairbench_report hairbench_step_dynamic(hairbench_record record, const double *rest, size_t rest_length,
                                        double *drape, size_t drape_length, const uint8_t *pins,
                                        size_t pins_length, double *work, size_t work_length, size_t seat,
                                        uint8_t flag, size_t vertex, double x, double y, double z, double dt);

/* The square root of IEEE 754, rounded to nearest. */
double hairbench_sqrt(double x);

#ifdef __cplusplus
}
#endif

#endif
