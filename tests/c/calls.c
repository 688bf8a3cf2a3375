/* Document 01's examples of the bench, a bent strand, and both forms of load and unload, through
 * host/include/hairbench.h and the library. */
#include "hairbench.h"

#include <math.h>
#include <stdio.h>
#include <string.h>

static struct {
    hairbench_record record;
    double rest[HAIRBENCH_REST];
    double drape[HAIRBENCH_DRAPE];
    uint8_t pins[HAIRBENCH_PINS];
    double work[HAIRBENCH_WORK];
} bench;

static int failures;

static void expect(int holds, const char *what)
{
    if (!holds) {
        printf("c: not so: %s\n", what);
        failures++;
    }
}

/* An edge of length 1. */
static const double positions[6] = {0, 0, 0, 1, 0, 0};
static const double frames[6] = {0, 1, 0, 0, 1, 0};
static const hairbench_settings settings = {0, 0, 0, 0, 1.0 / 1024};

/* It is laid on the seat, the record where it stands and by value. */
static uint8_t laid(size_t seat, size_t n)
{
    return hairbench_load(&bench.record, bench.rest, HAIRBENCH_REST, bench.drape, HAIRBENCH_DRAPE, bench.pins,
                          HAIRBENCH_PINS, seat, n, settings, positions, 6, frames, 6);
}

static hairbench_changed laid_value(hairbench_record record, size_t seat)
{
    return hairbench_load_value(record, bench.rest, HAIRBENCH_REST, bench.drape, HAIRBENCH_DRAPE, bench.pins,
                                HAIRBENCH_PINS, seat, 2, settings, positions, 6, frames, 6);
}

/* The same of unload. */
static uint8_t emptied(size_t seat)
{
    return hairbench_unload(&bench.record, bench.rest, HAIRBENCH_REST, bench.drape, HAIRBENCH_DRAPE, bench.pins,
                            HAIRBENCH_PINS, seat);
}

static hairbench_changed emptied_value(hairbench_record record, size_t seat)
{
    return hairbench_unload_value(record, bench.rest, HAIRBENCH_REST, bench.drape, HAIRBENCH_DRAPE, bench.pins,
                                  HAIRBENCH_PINS, seat);
}

/* A new bench with the edge on the seat; the work area holds NaN. */
static uint8_t seated(size_t seat, size_t n)
{
    memset(&bench, 0, sizeof bench);
    for (size_t i = 0; i < HAIRBENCH_WORK; i++)
        bench.work[i] = NAN;
    return laid(seat, n);
}

static uint8_t pinned(size_t seat, size_t vertex, size_t component, uint8_t byte)
{
    return hairbench_pin(bench.record, bench.pins, HAIRBENCH_PINS, seat, vertex, component, byte);
}

/* A static step that pulls vertex 1 to (x, 0, 0). */
static hairbench_report pulled(size_t seat, double x)
{
    return hairbench_step_static(bench.record, bench.rest, HAIRBENCH_REST, bench.drape, HAIRBENCH_DRAPE, bench.pins,
                                 HAIRBENCH_PINS, bench.work, HAIRBENCH_WORK, seat, 1, 1, x, 0, 0);
}

static hairbench_place shown(size_t seat, size_t kind)
{
    return hairbench_look(bench.record, bench.rest, HAIRBENCH_REST, bench.drape, HAIRBENCH_DRAPE, seat, kind);
}

static void static_steps(void)
{
    expect(seated(5, 2) == HAIRBENCH_ACCEPTED, "seat 5 works");
    hairbench_report r = pulled(5, 0.5);
    expect(r.number == 0 && r.count == 1 && r.ratio == 0 && r.energy == 0, "P7");
    hairbench_place p = shown(5, HAIRBENCH_DRAPE_POSITIONS);
    expect(p.at == 5 * 384 && p.count == 6 && bench.drape[p.at + 3] == 0.5, "P7's vertex 1 is there");
    seated(0, 2);
    expect(pulled(0, 0).number == HAIRBENCH_DRAPE_NOT_FINITE, "P8");
    expect(pulled(0, -1).number == HAIRBENCH_TURN, "P9");
    expect(bench.drape[3] == 1, "a declined step leaves the drape");
    for (size_t k = 0; k < 3; k++)
        expect(pinned(0, 1, k, 200) == HAIRBENCH_ACCEPTED, "a pin");
    r = pulled(0, 0.5);
    expect(r.number == 0 && r.count == 0 && bench.drape[3] == 1, "P10");
}

static void refusals(void)
{
    expect(seated(0, 1) == HAIRBENCH_COUNT && seated(0, 33) == HAIRBENCH_COUNT, "n = 1 and n = 33");
    expect(seated(6, 2) == HAIRBENCH_NO_SUCH_SEAT, "seat 6");
    seated(3, 2);
    expect(pinned(3, 0, 4, 1) == HAIRBENCH_INDEX && pinned(2, 0, 0, 1) == HAIRBENCH_SEAT_STATE, "pins");
    expect(shown(3, 5).count == 0 && shown(2, 0).count == 0, "looks that are refused");
    expect(hairbench_companion(bench.record, bench.rest, HAIRBENCH_REST, bench.drape, HAIRBENCH_DRAPE, 3, 5) ==
               HAIRBENCH_INDEX, "the companion");
    bench.record.counts[0] = 1;
    expect(shown(3, 0).count == 0 && pulled(3, 0.5).number == HAIRBENCH_AREA_OR_RECORD, "a bad record");
}

static void dynamic_step_and_unload(void)
{
    seated(1, 2);
    hairbench_report r = hairbench_step_dynamic(bench.record, bench.rest, HAIRBENCH_REST, bench.drape, HAIRBENCH_DRAPE,
                                                bench.pins, HAIRBENCH_PINS, bench.work, HAIRBENCH_WORK, 1, 0, 99, NAN,
                                                NAN, NAN, 1.0 / 30);
    expect(r.number == 0 && r.count == 0, "a strand at rest stays");
    expect(shown(1, HAIRBENCH_VELOCITIES).at == 384 + 192, "where velocities stand");
    expect(emptied(1) == HAIRBENCH_ACCEPTED && bench.record.counts[1] == 0, "unload");
}

static int told(hairbench_report r, double energy, size_t count, double ratio)
{
    return r.number == HAIRBENCH_ACCEPTED && r.energy == energy && r.count == count && r.ratio == ratio;
}

/* Energy, count and ratio as the unchanged Rust has them (tests/oracle/bench/tests/examples.rs). */
static void bent_strand(void)
{
    static const double bent[9] = {0, 0, 0, 1, 0, 0, 1, 1, 0};
    static const double across[9] = {0, 0, 1, 0, 0, 1, 0, 0, 1};
    static const hairbench_settings stiff = {2, 0.5, 0.75, 1.25, 1.0 / 1024};
    seated(2, 2);
    expect(hairbench_load(&bench.record, bench.rest, HAIRBENCH_REST, bench.drape, HAIRBENCH_DRAPE, bench.pins,
                          HAIRBENCH_PINS, 3, 3, stiff, bent, 9, across, 9) == HAIRBENCH_ACCEPTED, "a bent strand");
    hairbench_report r = hairbench_step_static(bench.record, bench.rest, HAIRBENCH_REST, bench.drape, HAIRBENCH_DRAPE,
                                               bench.pins, HAIRBENCH_PINS, bench.work, HAIRBENCH_WORK, 3, 1, 2, 1.25,
                                               1.5, 0.5);
    expect(told(r, 0, 8, 0x1.da996479375ecp-45), "its static step");
    r = hairbench_step_dynamic(bench.record, bench.rest, HAIRBENCH_REST, bench.drape, HAIRBENCH_DRAPE, bench.pins,
                               HAIRBENCH_PINS, bench.work, HAIRBENCH_WORK, 3, 1, 2, 1.25, 1.5, 0.5, 0.25);
    expect(told(r, 0x1.1ff983eb8befcp-9, 9, 0x1.3871252fc7aa6p-16), "its dynamic step");
}

static int same(const hairbench_record *a, const hairbench_record *b)
{
    return memcmp(a, b, sizeof *a) == 0;
}

/* Of a bench with the edge on seat 2. Seat 4 is empty, so that no call looks at its settings, of which one is a NaN
 * with bits of its own. */
static hairbench_record odd_record(void)
{
    static const uint64_t odd = 0x7ff4000000000123;
    seated(2, 2);
    memcpy(&bench.record.settings[4].conv_ratio, &odd, sizeof odd);
    return bench.record;
}

static void declined_records(void)
{
    const hairbench_record before = odd_record();
    expect(laid(2, 2) == HAIRBENCH_SEAT_STATE && same(&bench.record, &before), "a declined load leaves the record");
    expect(emptied(4) == HAIRBENCH_SEAT_STATE && same(&bench.record, &before), "a declined unload leaves the record");
    hairbench_changed after = laid_value(before, 2);
    expect(after.refusal == HAIRBENCH_SEAT_STATE && same(&after.seats, &before), "a declined load gives it back");
    after = emptied_value(before, 4);
    expect(after.refusal == HAIRBENCH_SEAT_STATE && same(&after.seats, &before), "a declined unload gives it back");
}

static void changed_records(void)
{
    const hairbench_record before = odd_record();
    hairbench_changed after = laid_value(before, 3);
    expect(after.refusal == HAIRBENCH_ACCEPTED && same(&bench.record, &before), "a value leaves the caller's record");
    expect(laid(3, 2) == HAIRBENCH_ACCEPTED && same(&bench.record, &after.seats), "both loads leave one record");
    expect(after.seats.counts[3] == 2 && after.seats.settings[3].conv_ratio == settings.conv_ratio, "what it says");
    after = emptied_value(after.seats, 3);
    expect(after.refusal == HAIRBENCH_ACCEPTED && same(&after.seats, &before), "an unload by value");
    expect(emptied(3) == HAIRBENCH_ACCEPTED && same(&bench.record, &before), "an unload where the record stands");
}

int main(void)
{
    static_steps();
    refusals();
    dynamic_step_and_unload();
    bent_strand();
    declined_records();
    changed_records();
    expect(hairbench_sqrt(2) == 0x1.6a09e667f3bcdp+0 && isnan(hairbench_sqrt(-1)), "roots");
    puts(failures ? "c: FAILED" : "c: the examples come out as told");
    return failures != 0;
}
