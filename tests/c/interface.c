/*
 * The twenty-nine calls from C, through include/maxeltu.h: the samples, every
 * refusal of every call, and the places that a call must leave as they were.
 *
 * Prints a line for each group, whose name starts with the argument if there is
 * one, and at the end 'N passed, M failed'. Exit status 0 if none failed.
 */
#include <stdarg.h>
#include <stdbool.h>
#include <stdio.h>
#include <string.h>

#include "maxeltu.h"

/* ---- groups and checks ---- */

static const char *build = "C", *group;
static unsigned checks, failures, passed_groups, failed_groups;

static void begin(const char *name)
{
    group = name;
    checks = failures = 0;
}

static void end(void)
{
    bool passed = checks > 0 && failures == 0;
    printf("%s %s, %s: %u checks", passed ? "ok    " : "FAILED", build, group, checks);
    if (failures)
        printf(", %u failed", failures);
    printf("\n");
    *(passed ? &passed_groups : &failed_groups) += 1;
}

static void check_at(bool holds, const char *text, int line)
{
    checks++;
    if (!holds) {
        failures++;
        printf("       line %d: %s\n", line, text);
    }
}

#define CHECK(condition) check_at(condition, #condition, __LINE__)

/* ---- inputs ---- */

struct spec_file {
    uint8_t bytes[MAXELTU_MAX_SPEC_FILE];
    size_t length;
};

/* The file with this bit map and these numbers. */
static struct spec_file spec_of(uint8_t map, size_t numbers, ...)
{
    struct spec_file file = { { map }, 1 };
    va_list list;
    va_start(list, numbers);
    for (size_t i = 0; i < numbers; i++) {
        int number = va_arg(list, int);
        file.bytes[file.length++] = (uint8_t)(number >> 8);
        file.bytes[file.length++] = (uint8_t)number;
    }
    va_end(list);
    return file;
}

#define SPEC(s) (s).bytes, (s).length

static struct spec_file sample_a(int b) { return spec_of(15, 8, 3, 10, 45, 55, b, 220, 17, 158); }
static struct spec_file sample_b(int b) { return spec_of(15, 8, 2, 3, 5, 5, b, 26, 10, 20); }
static struct spec_file sample_c(void) { return spec_of(15, 8, 5, 6, 45, 46, 10, 79, 17, 159); }
static struct spec_file sample_d(void) { return spec_of(15, 8, 3, 5, 35, 46, 10, 79, 17, 158); }
static struct spec_file sample_e(void) { return spec_of(15, 8, 3, 10, 45, 80, 10, 79, 17, 159); }
static struct spec_file sample_f(void) { return spec_of(15, 8, 5, 5, 4, 4, 10, 10, 5, 20); }

/* The van of two shifts of samples/shift.spec, with these bounds of its second range. */
static struct spec_file two_shifts(int lower, int upper)
{
    return spec_of(47, 10, 1, 10, 5, 15, 22, 60, 8, 90, lower, upper);
}

/* ---- places that a call is lent ---- */

/* Five numbers, among them what a call writes; the rest must stay. */
static uint32_t places[5];
static const uint32_t held[5] = { 0xA1B2C3D4, 0x5E6F7081, 0x92A3B4C5, 0xD6E7F809, 0x1A2B3C4D };

static void fill_places(void) { memcpy(places, held, sizeof places); }
static bool untouched_from(size_t first) { return memcmp(places + first, held + first, sizeof places - first * sizeof *places) == 0; }
static bool untouched(void) { return untouched_from(0); }

static uint32_t consistency(struct spec_file s)
{
    fill_places();
    return maxeltu_consistency(SPEC(s), &places[0]);
}

static uint32_t min_demand(struct spec_file s, uint32_t k)
{
    fill_places();
    return maxeltu_min_demand(SPEC(s), k, &places[0], &places[1], &places[2]);
}

static uint32_t max_supply(struct spec_file s, uint32_t k)
{
    fill_places();
    return maxeltu_max_supply(SPEC(s), k, &places[0], &places[1], &places[2]);
}

/* The condition comes to the fifth place, so that the plan stands first. */
static uint32_t test(struct spec_file s)
{
    fill_places();
    return maxeltu_test(SPEC(s), &places[4], &places[0], &places[1], &places[2], &places[3]);
}

static uint32_t even_plan(struct spec_file s)
{
    fill_places();
    return maxeltu_even_plan(SPEC(s), &places[0], &places[1], &places[2]);
}

/* k comes to the first place, the period to the third and the total to the fourth. */
static uint32_t box_plan(struct spec_file s, uint32_t lateness)
{
    fill_places();
    return maxeltu_box_plan(SPEC(s), lateness, &places[0], &places[2], &places[3]);
}

/* The number comes to the first place. */
static uint32_t last_report(uint32_t kind, uint32_t k, uint32_t period, uint32_t total, uint32_t minute)
{
    fill_places();
    return maxeltu_last_report(kind, k, period, total, minute, &places[0]);
}

static uint32_t nearest_report(uint32_t kind, uint32_t k, uint32_t period, uint32_t total, uint32_t minute)
{
    fill_places();
    return maxeltu_nearest_report(kind, k, period, total, minute, &places[0]);
}

/* The reports come to the first place; the records between two numbers that must stay. */
static uint64_t records[3];
static const uint64_t records_held[3] = { 0xFEDCBA9876543210, 0x0123456789ABCDEF, 0x5A5A5A5AA5A5A5A5 };

static uint32_t between(uint32_t kind, uint32_t k, uint32_t period, uint32_t total, uint32_t a, uint32_t b)
{
    fill_places();
    memcpy(records, records_held, sizeof records);
    return maxeltu_between(kind, k, period, total, a, b, &places[0], &records[1]);
}

/* Tenths and cents come between two numbers that must stay. */
static uint64_t bill[4];
static const uint64_t bill_held[4] = { 0x0F1E2D3C4B5A6978, 0x8796A5B4C3D2E1F0, 0x13579BDF02468ACE, 0xECA86420FDB97531 };

static void fill_bill(void) { memcpy(bill, bill_held, sizeof bill); }
static bool bill_untouched(void) { return memcmp(bill, bill_held, sizeof bill) == 0; }

static bool bill_holds(uint64_t tenths, uint64_t cents)
{
    return bill[1] == tenths && bill[2] == cents && bill[0] == bill_held[0] && bill[3] == bill_held[3];
}

static uint32_t plan_cost(uint32_t kind, uint32_t k, uint32_t period, uint32_t total, uint32_t reports)
{
    fill_bill();
    return maxeltu_plan_cost(kind, k, period, total, reports, &bill[1], &bill[2]);
}

static uint32_t cycle_cost(struct spec_file s, const struct maxeltu_pair *cycle, size_t count, uint32_t reports)
{
    fill_bill();
    return maxeltu_cycle_cost(SPEC(s), cycle, count, reports, &bill[1], &bill[2]);
}

/* The first report's number comes to the second place, and how many there are to the fourth. */
static uint32_t shortest_stretch(struct spec_file s, const struct maxeltu_pair *cycle, size_t count)
{
    fill_places();
    return maxeltu_shortest_stretch(SPEC(s), cycle, count, &places[1], &places[3]);
}

/* The most and the least come to the places of tenths and cents, and the numbers of their reports to the second place and the fourth. */
static uint32_t margins(struct spec_file s, const struct maxeltu_pair *cycle, size_t count)
{
    fill_bill();
    fill_places();
    return maxeltu_margins(SPEC(s), cycle, count, &bill[1], &places[1], &bill[2], &places[3]);
}

/* The lateness comes to the third place. */
static uint32_t tolerance(struct spec_file s, const struct maxeltu_pair *cycle, size_t count)
{
    fill_places();
    return maxeltu_tolerance(SPEC(s), cycle, count, &places[2]);
}

/* The lateness comes to the first place, k, the period and the total to the last three. */
static uint32_t tolerant_plan(struct spec_file s)
{
    fill_places();
    return maxeltu_tolerant_plan(SPEC(s), &places[0], &places[2], &places[3], &places[4]);
}

/* A meter between numbers that no call may touch; `former` is what it held before the last call. */
static struct {
    uint32_t before[4];
    struct maxeltu_meter meter;
    uint32_t after[4];
} lent, former;

static void fill_meter(int byte) { memset(&lent, byte, sizeof lent); }
static bool meter_untouched(void) { return memcmp(&lent, &former, sizeof lent) == 0; }

/* All around the meter is untouched. */
static bool meter_kept_within(void)
{
    return memcmp(lent.before, former.before, sizeof lent.before) == 0
        && memcmp(lent.after, former.after, sizeof lent.after) == 0;
}

static uint32_t make_meter(struct spec_file s)
{
    former = lent;
    return maxeltu_make_meter(SPEC(s), &lent.meter);
}

/* The budget left comes to the first place. */
static uint32_t offer(uint32_t minute, uint32_t size)
{
    fill_places();
    former = lent;
    return maxeltu_offer(&lent.meter, minute, size, &places[0]);
}

/* The places from here to the end are untouched, and those before it hold these numbers. */
static bool hold(size_t numbers, ...)
{
    va_list list;
    bool same = untouched_from(numbers);
    va_start(list, numbers);
    for (size_t i = 0; i < numbers; i++)
        same &= places[i] == va_arg(list, unsigned);
    va_end(list);
    return same;
}

/* ---- samples ---- */

static bool report_is(uint32_t kind, uint32_t k, uint32_t period, uint32_t total,
                      uint32_t i, uint64_t minute, uint32_t size)
{
    uint64_t got_minute;
    uint32_t got_size;
    return maxeltu_report(kind, k, period, total, i, &got_minute, &got_size) == MAXELTU_OK
        && got_minute == minute && got_size == size;
}

/* The last report at or before this minute, and the nearest one. */
static bool minute_has(uint32_t kind, uint32_t k, uint32_t period, uint32_t total,
                       uint32_t minute, uint32_t last, uint32_t nearest)
{
    return last_report(kind, k, period, total, minute) == MAXELTU_OK && hold(1, last)
        && nearest_report(kind, k, period, total, minute) == MAXELTU_OK && hold(1, nearest);
}

static bool between_has(uint32_t kind, uint32_t k, uint32_t period, uint32_t total,
                        uint32_t a, uint32_t b, uint32_t reports, uint64_t sum)
{
    return between(kind, k, period, total, a, b) == MAXELTU_OK && hold(1, reports) && records[1] == sum
        && records[0] == records_held[0] && records[2] == records_held[2];
}

static bool between_refused(uint32_t refusal, uint32_t kind, uint32_t k, uint32_t period, uint32_t total,
                            uint32_t a, uint32_t b)
{
    return between(kind, k, period, total, a, b) == refusal && untouched()
        && memcmp(records, records_held, sizeof records) == 0;
}

static void samples_of_plans(void)
{
    begin("samples A to F");
    CHECK(min_demand(sample_a(29), 2) == 0 && hold(3, 110, 17, 34));
    CHECK(min_demand(sample_a(29), 3) == 0 && hold(3, 158, 17, 29));
    CHECK(test(sample_a(29)) == 0 && hold(4, 3, 158, 17, 29));
    CHECK(report_is(MAXELTU_WELL_FORMED, 3, 158, 17, 0, 0, 6));
    CHECK(report_is(MAXELTU_WELL_FORMED, 3, 158, 17, 1, 52, 6));
    CHECK(report_is(MAXELTU_WELL_FORMED, 3, 158, 17, 2, 105, 5));
    CHECK(report_is(MAXELTU_WELL_FORMED, 3, 158, 17, 3, 158, 6));
    CHECK(even_plan(sample_a(29)) == 0 && hold(3, 3, 156, 17));
    CHECK(test(sample_a(28)) == MAXELTU_NOT_PASSED && untouched());
    CHECK(even_plan(sample_a(28)) == MAXELTU_NO_EVEN_PLAN && untouched());
    CHECK(test(sample_b(16)) == 0 && hold(4, 4, 20, 10, 16));
    CHECK(test(sample_b(15)) == MAXELTU_NOT_PASSED && untouched());
    CHECK(even_plan(sample_b(15)) == 0 && hold(3, 4, 20, 10));
    CHECK(even_plan(sample_b(14)) == MAXELTU_NO_EVEN_PLAN && untouched());
    for (uint32_t i = 0; i < 8; i++)
        CHECK(report_is(MAXELTU_EVEN, 4, 20, 10, i, 5 * i, 3 - i % 2));
    CHECK(max_supply(sample_c(), 2) == 0 && hold(3, 90, 10, 15));
    CHECK(test(sample_c()) == MAXELTU_NOT_PASSED && untouched());
    CHECK(even_plan(sample_c()) == MAXELTU_NO_EVEN_PLAN && untouched());
    CHECK(test(sample_d()) == 0 && hold(4, 2, 79, 10, 20));
    CHECK(even_plan(sample_d()) == MAXELTU_NO_EVEN_PLAN && untouched());
    CHECK(test(sample_e()) == 0 && hold(4, 1, 79, 10, 20));
    CHECK(consistency(sample_f()) == MAXELTU_INCONSISTENT && hold(1, 4));
    CHECK(test(sample_f()) == MAXELTU_INCONSISTENT && hold(5, held[0], held[1], held[2], held[3], 4));
    CHECK(test(spec_of(15, 8, 5, 5, 4, 4, 15, 10, 5, 20)) == 0 && hold(4, 3, 12, 15, 25));
    CHECK(even_plan(spec_of(7, 6, 5, 5, 4, 4, 10, 10)) == MAXELTU_NO_EVEN_PLAN && untouched());
    end();
}

/* Of sample A minutes 0, 52, 105, 158 and sizes 6, 6, 5; of B, every 5 minutes, 3 and 2 in turn. */
static void samples_of_minutes(void)
{
    begin("samples A and B, from a minute back to the report");
    CHECK(minute_has(MAXELTU_WELL_FORMED, 3, 158, 17, 0, 0, 0));
    CHECK(minute_has(MAXELTU_WELL_FORMED, 3, 158, 17, 26, 0, 0));
    CHECK(minute_has(MAXELTU_WELL_FORMED, 3, 158, 17, 27, 0, 1));
    CHECK(minute_has(MAXELTU_WELL_FORMED, 3, 158, 17, 51, 0, 1));
    CHECK(minute_has(MAXELTU_WELL_FORMED, 3, 158, 17, 52, 1, 1));
    CHECK(minute_has(MAXELTU_WELL_FORMED, 3, 158, 17, 157, 2, 3));
    CHECK(minute_has(MAXELTU_WELL_FORMED, 3, 158, 17, 158, 3, 3));
    CHECK(minute_has(MAXELTU_WELL_FORMED, 3, 158, 17, 184, 3, 3));
    CHECK(minute_has(MAXELTU_WELL_FORMED, 3, 158, 17, 185, 3, 4));
    CHECK(between_has(MAXELTU_WELL_FORMED, 3, 158, 17, 0, 158, 3, 17));
    CHECK(between_has(MAXELTU_WELL_FORMED, 3, 158, 17, 52, 158, 2, 11));
    CHECK(between_has(MAXELTU_WELL_FORMED, 3, 158, 17, 52, 159, 3, 17));
    CHECK(between_has(MAXELTU_WELL_FORMED, 3, 158, 17, 53, 158, 1, 5));
    CHECK(between_has(MAXELTU_WELL_FORMED, 3, 158, 17, 52, 52, 0, 0));
    for (uint32_t i = 0; i < 8; i++) {
        CHECK(minute_has(MAXELTU_EVEN, 4, 20, 10, 5 * i, i, i));
        CHECK(minute_has(MAXELTU_EVEN, 4, 20, 10, 5 * i + 2, i, i));
        CHECK(minute_has(MAXELTU_EVEN, 4, 20, 10, 5 * i + 3, i, i + 1));
        CHECK(minute_has(MAXELTU_EVEN, 4, 20, 10, 5 * i + 4, i, i + 1));
        CHECK(between_has(MAXELTU_EVEN, 4, 20, 10, 5 * i, 5 * i + 5, 1, 3 - i % 2));
        CHECK(between_has(MAXELTU_EVEN, 4, 20, 10, 5 * i + 1, 5 * i + 5, 0, 0));
        CHECK(between_has(MAXELTU_EVEN, 4, 20, 10, 5 * i, 5 * i + 20, 4, 10));
    }
    end();
}

static bool stretch_holds(uint32_t first, uint32_t reports)
{
    return hold(5, held[0], first, held[2], reports, held[4]);
}

/* The check of a cycle, which the loader's call must repeat of its file, and which with lateness 0 is the same; it also says whether
 * the reports have a cost, whether some show why it is refused, whether any may be late, and, but for its rates, whether there are margins. */
static uint32_t check_pairs(struct spec_file s, size_t count, const struct maxeltu_pair *cycle)
{
    uint8_t file[MAXELTU_MAX_CYCLE_FILE];
    uint32_t written, answer = maxeltu_check_cycle(SPEC(s), cycle, count);
    CHECK(maxeltu_write_cycle(cycle, count, file, sizeof file, &written) == 0);
    CHECK(maxeltu_verdict(SPEC(s), file, written) == answer);
    CHECK(maxeltu_check_late(SPEC(s), cycle, count, 0) == answer);
    CHECK(cycle_cost(s, cycle, count, 0) == answer && (answer ? bill_untouched() : bill_holds(0, 0)));
    CHECK(cycle_cost(s, cycle, count, UINT32_MAX) == answer && bill_untouched() == (answer != 0));
    CHECK(shortest_stretch(s, cycle, count) == answer);
    CHECK(untouched() == (answer != MAXELTU_TOO_FULL && answer != MAXELTU_TOO_THIN));
    CHECK(tolerance(s, cycle, count) == answer && untouched() == (answer != 0));
    bool rated = answer == MAXELTU_TOO_FULL || answer == MAXELTU_TOO_THIN;
    CHECK(margins(s, cycle, count) == (rated ? MAXELTU_OK : answer));
    CHECK(answer == 0 || rated || (untouched() && bill_untouched()));
    return answer;
}

static uint32_t check_sizes(struct spec_file s, uint16_t gap, size_t count, const uint16_t *sizes)
{
    struct maxeltu_pair cycle[MAXELTU_MAX_PAIRS];
    for (size_t i = 0; i < count; i++)
        cycle[i] = (struct maxeltu_pair){ .gap = gap, .size = sizes[i] };
    return check_pairs(s, count, cycle);
}

static void samples_of_cycles(void)
{
    begin("sample G");
    CHECK(check_sizes(sample_b(15), 5, 2, (uint16_t[]){ 3, 2 }) == MAXELTU_OK);
    CHECK(check_sizes(sample_b(15), 5, 4, (uint16_t[]){ 3, 3, 2, 2 }) == MAXELTU_TOO_FULL);
    CHECK(check_sizes(sample_b(15), 5, 4, (uint16_t[]){ 2, 2, 2, 3 }) == MAXELTU_TOO_THIN);
    CHECK(check_sizes(sample_b(15), 6, 2, (uint16_t[]){ 4, 2 }) == MAXELTU_GAP);
    CHECK(check_sizes(sample_b(15), 4, 2, (uint16_t[]){ 3, 2 }) == MAXELTU_GAP);
    CHECK(check_sizes(sample_b(15), 5, 2, (uint16_t[]){ 3, 4 }) == MAXELTU_SIZE);
    CHECK(check_sizes(sample_b(15), 5, 2, (uint16_t[]){ 1, 2 }) == MAXELTU_SIZE);
    end();
}

/* One pair of this gap, alone and last in a round with gaps of both ranges. */
static uint32_t check_gap(struct spec_file s, uint16_t gap)
{
    struct maxeltu_pair cycle[] = { { gap, 5 }, { 15, 5 }, { 60, 5 }, { gap, 5 } };
    uint32_t answer = check_pairs(s, 1, cycle);
    CHECK(check_pairs(s, 3, cycle + 1) == answer);
    return answer;
}

static void sample_of_two_ranges(void)
{
    begin("two ranges of gaps");
    static const struct maxeltu_pair good[] = { { 15, 5 }, { 15, 5 }, { 5, 4 }, { 90, 8 }, { 60, 8 } };
    static const struct maxeltu_pair gap_between[] = { { 15, 8 }, { 30, 4 }, { 90, 8 } };
    CHECK(check_pairs(two_shifts(60, 90), 5, good) == MAXELTU_OK);
    CHECK(check_pairs(two_shifts(16, 90), 5, good) == MAXELTU_OK);
    CHECK(check_pairs(two_shifts(61, 90), 5, good) == MAXELTU_GAP);
    CHECK(check_pairs(two_shifts(60, 89), 5, good) == MAXELTU_GAP);
    CHECK(check_pairs(two_shifts(60, 90), 3, gap_between) == MAXELTU_GAP);
    CHECK(check_pairs(two_shifts(16, 90), 3, gap_between) == MAXELTU_OK);
    /* Some 60 minutes hold 22 of these records, some 90 only 8. */
    CHECK(check_pairs(spec_of(47, 10, 1, 10, 5, 15, 21, 60, 8, 90, 60, 90), 5, good) == MAXELTU_TOO_FULL);
    CHECK(check_pairs(spec_of(47, 10, 1, 10, 5, 15, 22, 60, 9, 90, 60, 90), 5, good) == MAXELTU_TOO_THIN);
    CHECK(check_pairs(spec_of(47, 10, 5, 10, 5, 15, 22, 60, 8, 90, 60, 90), 5, good) == MAXELTU_SIZE);
    /* Without rates: both bounds of both ranges, and what lies beside them. */
    struct spec_file apart = spec_of(35, 6, 1, 10, 5, 15, 60, 90), touching = spec_of(35, 6, 1, 10, 5, 15, 16, 90);
    static const uint16_t in_range[] = { 5, 6, 14, 15, 60, 61, 89, 90 }, in_none[] = { 0, 1, 4, 91, 1000, 65535 };
    static const uint16_t between_them[] = { 16, 17, 30, 58, 59 };
    for (size_t i = 0; i < sizeof in_range / sizeof *in_range; i++)
        CHECK(check_gap(apart, in_range[i]) == MAXELTU_OK && check_gap(touching, in_range[i]) == MAXELTU_OK);
    for (size_t i = 0; i < sizeof in_none / sizeof *in_none; i++)
        CHECK(check_gap(apart, in_none[i]) == MAXELTU_GAP && check_gap(touching, in_none[i]) == MAXELTU_GAP);
    for (size_t i = 0; i < sizeof between_them / sizeof *between_them; i++)
        CHECK(check_gap(apart, between_them[i]) == MAXELTU_GAP && check_gap(touching, between_them[i]) == MAXELTU_OK);
    CHECK(even_plan(two_shifts(60, 90)) == 0 && hold(3, 1, 90, 8));
    CHECK(even_plan(apart) == 0 && hold(3, 1, 90, 1));
    /* 40 records in 70 minutes are 4 reports of 10: at gap 17, in the second range, in none, or in the first. */
    CHECK(even_plan(spec_of(43, 8, 3, 10, 5, 15, 40, 70, 16, 90)) == 0 && hold(3, 4, 68, 40));
    CHECK(even_plan(spec_of(43, 8, 3, 10, 5, 15, 40, 70, 18, 90)) == 0 && hold(3, 4, 60, 40));
    CHECK(even_plan(spec_of(43, 8, 3, 10, 5, 17, 40, 70, 18, 90)) == 0 && hold(3, 4, 68, 40));
    CHECK(even_plan(spec_of(43, 8, 3, 10, 18, 19, 40, 70, 20, 90)) == MAXELTU_NO_EVEN_PLAN && untouched());
    /* The duration stands before the second range. */
    CHECK(even_plan(spec_of(51, 8, 1, 10, 5, 15, 60, 90, 16, 30)) == 0 && hold(3, 1, 30, 1));
    end();
}

/* ---- costs ---- */

static bool plan_costs(uint32_t kind, uint32_t k, uint32_t period, uint32_t total, uint32_t reports,
                       uint64_t tenths, uint64_t cents)
{
    return plan_cost(kind, k, period, total, reports) == MAXELTU_OK && bill_holds(tenths, cents);
}

static bool cycle_costs(struct spec_file s, const struct maxeltu_pair *cycle, size_t count, uint32_t reports,
                        uint64_t tenths, uint64_t cents)
{
    return cycle_cost(s, cycle, count, reports) == MAXELTU_OK && bill_holds(tenths, cents);
}

/* What no report costs, the first, the first two and so on. */
static void samples_of_costs(void)
{
    begin("costs: samples A, B and G, and two shifts");
    static const uint64_t even[][2] = { { 0, 0 }, { 8, 1 }, { 13, 1 }, { 21, 2 }, { 26, 3 }, { 34, 3 }, { 39, 4 } };
    static const uint64_t well_formed[][2] = { { 0, 0 }, { 8, 1 }, { 16, 2 }, { 21, 2 }, { 26, 3 }, { 34, 3 }, { 42, 4 } };
    static const struct maxeltu_pair good[] = { { 5, 3 }, { 5, 2 } };
    for (uint32_t n = 0; n < sizeof even / sizeof *even; n++) {
        CHECK(plan_costs(MAXELTU_EVEN, 4, 20, 10, n, even[n][0], even[n][1]));
        CHECK(plan_costs(MAXELTU_WELL_FORMED, 4, 20, 10, n, well_formed[n][0], well_formed[n][1]));
        CHECK(cycle_costs(sample_b(15), good, 2, n, even[n][0], even[n][1]));
    }
    /* Sizes 6, 6 and 5 have one price. */
    CHECK(plan_costs(MAXELTU_WELL_FORMED, 3, 158, 17, 4, 56, 6));
    CHECK(plan_costs(MAXELTU_EVEN, 3, 156, 17, 4, 56, 6));
    static const struct maxeltu_pair shifts[] = { { 15, 5 }, { 15, 5 }, { 5, 4 }, { 90, 8 }, { 60, 8 } };
    CHECK(cycle_costs(two_shifts(60, 90), shifts, 5, 3, 36, 4));
    CHECK(cycle_costs(two_shifts(60, 90), shifts, 5, 5, 64, 6));
    CHECK(cycle_costs(two_shifts(60, 90), shifts, 5, 8, 100, 10));
    end();
}

static struct spec_file any_size(void) { return spec_of(3, 4, 1, 1000, 5, 5); }

/* One report of this size, of a plan of either kind and of a cycle. */
static bool report_costs(uint16_t size, uint64_t tenths, uint64_t cents)
{
    struct maxeltu_pair pair = { .gap = 5, .size = size };
    return plan_costs(MAXELTU_WELL_FORMED, 1, 5, size, 1, tenths, cents)
        && plan_costs(MAXELTU_EVEN, 1, 5, size, 1, tenths, cents)
        && cycle_costs(any_size(), &pair, 1, 1, tenths, cents);
}

static void bands(void)
{
    begin("costs: the first and the last size of each band");
    static const struct {
        uint16_t first, last;
        uint64_t tenths, cents;
    } rows[] = {
        { 1, 1, 3, 0 }, { 2, 2, 5, 1 }, { 3, 4, 8, 1 }, { 5, 8, 14, 1 }, { 9, 16, 25, 3 }, { 17, 32, 46, 5 },
        { 33, 64, 85, 9 }, { 65, 125, 150, 15 }, { 126, 250, 280, 28 }, { 251, 500, 530, 53 }, { 501, 1000, 1000, 100 },
    };
    for (size_t i = 0; i < sizeof rows / sizeof *rows; i++) {
        CHECK(report_costs(rows[i].first, rows[i].tenths, rows[i].cents));
        CHECK(report_costs(rows[i].last, rows[i].tenths, rows[i].cents));
    }
    end();
}

/* 2^32 - 1 is 20,160 * 213,044 + 255, and 512 * 8,388,607 + 511. */
static void largest_costs(void)
{
    begin("costs: 2^32 - 1 reports");
    for (uint32_t kind = MAXELTU_WELL_FORMED; kind <= MAXELTU_EVEN; kind++) {
        CHECK(plan_costs(kind, 1, 1, 1, UINT32_MAX, UINT64_C(12884901885), 1288490189));
        CHECK(plan_costs(kind, 20160, 406425600, 20160, UINT32_MAX, UINT64_C(12884901885), 1288490189));
        CHECK(plan_costs(kind, 1, 20160, 1000, UINT32_MAX, UINT64_C(4294967295000), UINT64_C(429496729500)));
        CHECK(plan_costs(kind, 20160, 20160, 20160000, UINT32_MAX, UINT64_C(4294967295000), UINT64_C(429496729500)));
        CHECK(plan_costs(kind, 20160, 20160, 20161, UINT32_MAX, UINT64_C(12885327975), 1288532798));
    }
    /* Half of the reports have 501 records and the others 500: the first half of a period, or every other. */
    CHECK(plan_costs(MAXELTU_WELL_FORMED, 20160, 20160, 10090080, UINT32_MAX, UINT64_C(3285650040600), UINT64_C(328565004060)));
    CHECK(plan_costs(MAXELTU_EVEN, 20160, 20160, 10090080, UINT32_MAX, UINT64_C(3285649980910), UINT64_C(328564998091)));
    struct maxeltu_pair cycle[MAXELTU_MAX_PAIRS + 1];
    for (size_t i = 0; i < sizeof cycle / sizeof *cycle; i++)
        cycle[i] = (struct maxeltu_pair){ .gap = 5, .size = 1000 };
    CHECK(cycle_costs(any_size(), cycle, MAXELTU_MAX_PAIRS, UINT32_MAX, UINT64_C(4294967295000), UINT64_C(429496729500)));
    CHECK(cycle_costs(any_size(), cycle, 1, UINT32_MAX, UINT64_C(4294967295000), UINT64_C(429496729500)));
    cycle[MAXELTU_MAX_PAIRS - 1].size = 1;
    CHECK(cycle_costs(any_size(), cycle, MAXELTU_MAX_PAIRS, UINT32_MAX, UINT64_C(4286603853821), UINT64_C(428660385382)));
    CHECK(cycle_costs(any_size(), cycle, MAXELTU_MAX_PAIRS, 511, 511000, 51100));
    CHECK(cycle_costs(any_size(), cycle, MAXELTU_MAX_PAIRS, 512, 511003, 51100));
    CHECK(cycle_costs(any_size(), cycle, MAXELTU_MAX_PAIRS, 513, 512003, 51200));
    CHECK(cycle_cost(any_size(), cycle, MAXELTU_MAX_PAIRS + 1, 0) == MAXELTU_COUNT && bill_untouched());
    CHECK(cycle_cost(any_size(), cycle, MAXELTU_MAX_PAIRS + 1, UINT32_MAX) == MAXELTU_COUNT && bill_untouched());
    CHECK(cycle_cost(any_size(), cycle, 0, 0) == MAXELTU_COUNT && bill_untouched());
    end();
}

static struct spec_file late_spec(void) { return spec_of(15, 8, 1, 2, 2, 6, 4, 6, 2, 8); }

/* The answer for one pair of this gap and size. */
static uint32_t late(struct spec_file s, uint16_t gap, uint16_t size, uint32_t lateness)
{
    struct maxeltu_pair cycle = { gap, size };
    return maxeltu_check_late(SPEC(s), &cycle, 1, lateness);
}

static void samples_of_late_reports(void)
{
    begin("late reports: samples");
    CHECK(late(late_spec(), 4, 2, 0) == MAXELTU_OK && late(late_spec(), 4, 2, 1) == MAXELTU_OK);
    CHECK(late(late_spec(), 4, 2, 2) == MAXELTU_OK && late(late_spec(), 4, 2, 3) == MAXELTU_GAP);
    CHECK(late(late_spec(), 3, 2, 0) == MAXELTU_OK && late(late_spec(), 3, 2, 1) == MAXELTU_TOO_FULL);
    CHECK(late(late_spec(), 4, 1, 0) == MAXELTU_OK && late(late_spec(), 4, 1, 1) == MAXELTU_TOO_THIN);
    CHECK(late(late_spec(), 3, 2, 2) == MAXELTU_GAP && late(late_spec(), 4, 3, 2) == MAXELTU_SIZE);
    /* Of two ranges every gap that delays make must be in one of them; those that touch leave none out. */
    CHECK(late(two_shifts(16, 90), 15, 4, 10) == MAXELTU_OK && late(two_shifts(16, 90), 15, 4, 11) == MAXELTU_GAP);
    CHECK(late(two_shifts(60, 90), 15, 4, 0) == MAXELTU_OK && late(two_shifts(60, 90), 15, 4, 1) == MAXELTU_GAP);
    CHECK(late(two_shifts(17, 90), 16, 4, 1) == MAXELTU_GAP && late(two_shifts(60, 90), 40, 4, 25) == MAXELTU_GAP);
    CHECK(late(spec_of(35, 6, 1, 10, 5, 50, 60, 90), 40, 4, 25) == MAXELTU_GAP);
    /* Two pairs: 8 minutes need hold no more than 7 planned ones do, of which some have a report of 1 record alone. */
    static const struct maxeltu_pair two[] = { { 3, 1 }, { 5, 2 } };
    struct spec_file s = late_spec();
    CHECK(maxeltu_check_late(SPEC(s), two, 2, 0) == MAXELTU_OK);
    CHECK(maxeltu_check_late(SPEC(s), two, 2, 1) == MAXELTU_TOO_THIN);
    CHECK(maxeltu_check_late(SPEC(s), two, 2, 2) == MAXELTU_GAP);
    end();
}

/* ---- the shortest stretch ---- */

/* A cycle gets this number, and so many reports from this one on show it; with 16, so many after it. */
static bool shown(struct spec_file s, const struct maxeltu_pair *cycle, size_t count, uint32_t number, uint32_t first, uint32_t reports)
{
    return shortest_stretch(s, cycle, count) == number && stretch_holds(first, reports);
}

static bool not_shown(struct spec_file s, const struct maxeltu_pair *cycle, size_t count, uint32_t number)
{
    return shortest_stretch(s, cycle, count) == number && untouched();
}

static void samples_of_stretches(void)
{
    begin("shortest stretches: samples");
    static const struct maxeltu_pair full[] = { { 5, 3 }, { 5, 3 }, { 5, 2 }, { 5, 2 }, { 5, 3 }, { 5, 3 }, { 5, 2 } };
    static const struct maxeltu_pair thin[] = { { 5, 2 }, { 5, 2 }, { 5, 2 }, { 5, 3 } };
    static const struct maxeltu_pair good[] = { { 5, 3 }, { 5, 2 } };
    /* Begun at each of its pairs: the six reports begin at the first 3 of two. */
    static const uint32_t first_of_six[] = { 0, 3, 2, 1 };
    for (size_t start = 0; start < 4; start++)
        CHECK(shown(sample_b(15), full + start, 4, MAXELTU_TOO_FULL, first_of_six[start], 6));
    CHECK(shown(sample_b(15), thin, 4, MAXELTU_TOO_THIN, 0, 4));
    CHECK(not_shown(sample_b(15), good, 2, MAXELTU_OK));
    CHECK(not_shown(sample_b(15), (struct maxeltu_pair[]){ { 5, 3 }, { 6, 2 } }, 2, MAXELTU_GAP));
    CHECK(not_shown(sample_b(15), (struct maxeltu_pair[]){ { 5, 3 }, { 5, 4 } }, 2, MAXELTU_SIZE));
    CHECK(not_shown(sample_b(15), good, 0, MAXELTU_COUNT));
    /* Six of its reports hold 15 records, five of them 13. */
    CHECK(shown(sample_b(14), good, 2, MAXELTU_TOO_FULL, 0, 6) && shown(sample_b(12), good, 2, MAXELTU_TOO_FULL, 0, 5));
    static const struct maxeltu_pair shift[] = { { 15, 5 }, { 15, 5 }, { 5, 4 }, { 90, 8 }, { 60, 8 } };
    CHECK(not_shown(two_shifts(60, 90), shift, 5, MAXELTU_OK));
    CHECK(shown(spec_of(47, 10, 1, 10, 5, 15, 21, 60, 8, 90, 60, 90), shift, 5, MAXELTU_TOO_FULL, 0, 4));
    CHECK(shown(spec_of(47, 10, 1, 10, 5, 15, 22, 60, 9, 90, 60, 90), shift, 5, MAXELTU_TOO_THIN, 2, 1));
    CHECK(shown(spec_of(47, 10, 1, 10, 5, 15, 21, 60, 9, 90, 60, 90), shift, 5, MAXELTU_TOO_FULL, 0, 4));
    end();
}

/* Two reports in turn, the gaps after them 10 minutes and 9; and what is just full or thin, and just not. */
static void bounds_of_stretches(void)
{
    begin("shortest stretches: R and P, B and L");
    static const struct maxeltu_pair two[] = { { 10, 5 }, { 9, 5 } };
    for (int r = 1; r < 40; r++) {
        struct spec_file s = spec_of(7, 6, 1, 9, 1, 99, 9, r);
        if (r < 10)
            CHECK(not_shown(s, two, 2, MAXELTU_OK));
        else
            CHECK(shown(s, two, 2, MAXELTU_TOO_FULL, r == 10, 2));
        CHECK(not_shown(spec_of(7, 6, 1, 9, 1, 99, 10, r), two, 2, MAXELTU_OK) == (r < 20));
    }
    for (int p = 1; p < 40; p++) {
        struct spec_file s = spec_of(11, 6, 1, 9, 1, 99, 1, p);
        if (p < 10)
            CHECK(shown(s, two, 2, MAXELTU_TOO_THIN, 0, 0));
        else
            CHECK(not_shown(s, two, 2, MAXELTU_OK));
        CHECK(not_shown(spec_of(11, 6, 1, 9, 1, 99, 5, p), two, 2, MAXELTU_OK) == (p >= 10));
        CHECK(not_shown(spec_of(11, 6, 1, 9, 1, 99, 6, p), two, 2, MAXELTU_OK) == (p >= 19));
    }
    static const struct maxeltu_pair turned[] = { { 9, 5 }, { 10, 5 } };
    CHECK(shown(spec_of(7, 6, 1, 9, 1, 99, 9, 10), turned, 2, MAXELTU_TOO_FULL, 0, 2));
    CHECK(shown(spec_of(11, 6, 1, 9, 1, 99, 1, 9), turned, 2, MAXELTU_TOO_THIN, 1, 0));
    CHECK(shown(spec_of(11, 6, 1, 9, 1, 99, 6, 18), turned, 2, MAXELTU_TOO_THIN, 0, 1));
    CHECK(shown(spec_of(11, 6, 1, 9, 1, 99, 6, 18), two, 2, MAXELTU_TOO_THIN, 0, 1));
    end();
}

/* One report or 512 of a record each minute, or of 20,160 minutes; the last pair of 512 is another, so that the stretch begins there. */
static void long_stretches(void)
{
    begin("shortest stretches: one pair and 512, up to 20,001 reports");
    struct maxeltu_pair cycle[MAXELTU_MAX_PAIRS];
    struct spec_file full = spec_of(7, 6, 1, 1000, 1, 20160, 20000, 20160), thin = spec_of(11, 6, 1, 1000, 1, 20160, 20000, 19999);
    for (size_t i = 0; i < MAXELTU_MAX_PAIRS; i++)
        cycle[i] = (struct maxeltu_pair){ .gap = 1, .size = 1 };
    CHECK(shown(full, cycle, 1, MAXELTU_TOO_FULL, 0, 20001) && shown(full, cycle, MAXELTU_MAX_PAIRS, MAXELTU_TOO_FULL, 0, 20001));
    CHECK(shown(thin, cycle, 1, MAXELTU_TOO_THIN, 0, 19999) && shown(thin, cycle, MAXELTU_MAX_PAIRS, MAXELTU_TOO_THIN, 0, 19999));
    cycle[MAXELTU_MAX_PAIRS - 1].gap = 2;
    CHECK(shown(spec_of(11, 6, 1, 1000, 1, 20160, 1, 1), cycle, MAXELTU_MAX_PAIRS, MAXELTU_TOO_THIN, 511, 0));
    CHECK(not_shown(spec_of(11, 6, 1, 1000, 1, 20160, 1, 2), cycle, MAXELTU_MAX_PAIRS, MAXELTU_OK));
    cycle[MAXELTU_MAX_PAIRS - 1].size = 1000;
    CHECK(shown(spec_of(7, 6, 1, 1000, 1, 20160, 999, 1), cycle, MAXELTU_MAX_PAIRS, MAXELTU_TOO_FULL, 511, 1));
    CHECK(shown(spec_of(7, 6, 1, 1000, 1, 20160, 1000, 2), cycle, MAXELTU_MAX_PAIRS, MAXELTU_TOO_FULL, 510, 2));
    CHECK(shown(spec_of(7, 6, 1, 1000, 1, 20160, 1001, 4), cycle, MAXELTU_MAX_PAIRS, MAXELTU_TOO_FULL, 509, 3));
    struct maxeltu_pair wide = { 20160, 1000 };
    CHECK(shown(spec_of(7, 6, 1, 1000, 1, 20160, 999, 20160), &wide, 1, MAXELTU_TOO_FULL, 0, 1));
    CHECK(not_shown(spec_of(7, 6, 1, 1000, 1, 20160, 1000, 20160), &wide, 1, MAXELTU_OK));
    CHECK(shown(spec_of(11, 6, 1, 1000, 1, 20160, 1, 20159), &wide, 1, MAXELTU_TOO_THIN, 0, 0));
    CHECK(shown(spec_of(11, 6, 1, 1000, 1, 20160, 20000, 20160), &wide, 1, MAXELTU_TOO_THIN, 0, 1));
    end();
}

/* ---- leeway ---- */

/* A cycle has these margins; of a rate that is absent what the places held. */
static bool margins_are(struct spec_file s, const struct maxeltu_pair *cycle, size_t count, uint64_t most, uint32_t from, uint64_t least,
                        uint32_t after)
{
    return margins(s, cycle, count) == MAXELTU_OK && bill_holds(most, least) && hold(4, held[0], from, held[2], after);
}

static bool most_is(struct spec_file s, const struct maxeltu_pair *cycle, size_t count, uint64_t most, uint32_t from)
{
    return margins_are(s, cycle, count, most, from, bill_held[2], held[3]);
}

static bool least_is(struct spec_file s, const struct maxeltu_pair *cycle, size_t count, uint64_t least, uint32_t after)
{
    return margins_are(s, cycle, count, bill_held[1], held[1], least, after);
}

static bool no_margins(struct spec_file s, const struct maxeltu_pair *cycle, size_t count, uint32_t refusal)
{
    return margins(s, cycle, count) == refusal && untouched() && bill_untouched();
}

static bool tolerance_is(struct spec_file s, const struct maxeltu_pair *cycle, size_t count, uint32_t lateness)
{
    return tolerance(s, cycle, count) == MAXELTU_OK && hold(3, held[0], held[1], lateness);
}

static bool no_tolerance(struct spec_file s, const struct maxeltu_pair *cycle, size_t count, uint32_t refusal)
{
    return tolerance(s, cycle, count) == refusal && untouched();
}

static void samples_of_margins(void)
{
    begin("margins: samples");
    static const struct maxeltu_pair good[] = { { 5, 3 }, { 5, 2 } }, thin[] = { { 5, 2 }, { 5, 2 }, { 5, 2 }, { 5, 3 } };
    static const struct maxeltu_pair full[] = { { 5, 3 }, { 5, 3 }, { 5, 2 }, { 5, 2 } };
    static const struct maxeltu_pair shift[] = { { 15, 5 }, { 15, 5 }, { 5, 4 }, { 90, 8 }, { 60, 8 } };
    static const struct maxeltu_pair a[] = { { 52, 6 }, { 53, 6 }, { 53, 5 } };
    CHECK(margins_are(sample_b(15), good, 2, 15, 0, 10, 0));
    CHECK(margins_are(sample_b(15), full, 4, 16, 0, 10, 0) && margins_are(sample_b(15), thin, 4, 14, 2, 9, 0));
    CHECK(margins_are(sample_a(29), a, 3, 29, 0, 17, 0) && margins_are(sample_a(28), a, 3, 29, 0, 17, 0));
    CHECK(margins_are(two_shifts(60, 90), shift, 5, 22, 0, 8, 2));
    end();
}

/* Two reports in turn, the gaps after them 10 minutes and 9. */
static void bounds_of_margins(void)
{
    begin("margins: R and P, and rates that are absent");
    static const struct maxeltu_pair two[] = { { 10, 5 }, { 9, 4 } };
    for (int r = 1; r < 20; r++)
        CHECK(most_is(spec_of(7, 6, 1, 9, 1, 99, 1, r), two, 2, r < 10 ? 5 : 9, r == 10));
    for (int p = 1; p < 20; p++)
        CHECK(least_is(spec_of(11, 6, 1, 9, 1, 99, 9, p), two, 2, p < 10 ? 0 : p < 19 ? 4 : 9, 0));
    static const struct maxeltu_pair turned[] = { { 9, 4 }, { 10, 5 } };
    for (int p = 1; p < 20; p++)
        CHECK(least_is(spec_of(11, 6, 1, 9, 1, 99, 9, p), turned, 2, p < 10 ? 0 : p < 19 ? 4 : 9, (p >= 9 && p < 19)));
    CHECK(margins_are(spec_of(3, 4, 1, 9, 1, 99), two, 2, bill_held[1], held[1], bill_held[2], held[3]));
    CHECK(margins_are(spec_of(19, 6, 1, 9, 1, 99, 1, 60), two, 2, bill_held[1], held[1], bill_held[2], held[3]));
    CHECK(margins_are(spec_of(15, 8, 1, 9, 1, 99, 1, 10, 9, 9), two, 2, 9, 1, 0, 0));
    end();
}

/* 512 reports of 1,000 records, each minute one; and the last of them longer before the next. */
static void large_margins(void)
{
    begin("margins: 512 pairs, and more than 16 bits");
    struct maxeltu_pair cycle[MAXELTU_MAX_PAIRS + 1], wide = { 20160, 1000 };
    for (size_t i = 0; i < MAXELTU_MAX_PAIRS + 1; i++)
        cycle[i] = (struct maxeltu_pair){ .gap = 1, .size = 1000 };
    struct spec_file longest = spec_of(15, 8, 1, 1000, 1, 20160, 1, 20160, 20000, 20160);
    CHECK(margins_are(longest, cycle, 1, 20160000, 0, 20160000, 0));
    CHECK(margins_are(longest, cycle, MAXELTU_MAX_PAIRS, 20160000, 0, 20160000, 0));
    cycle[MAXELTU_MAX_PAIRS - 1].gap = 20160;
    CHECK(margins_are(longest, cycle, MAXELTU_MAX_PAIRS, 512000, 0, 1000, 510));
    CHECK(least_is(spec_of(11, 6, 1, 1000, 1, 20160, 1, 20159), cycle, MAXELTU_MAX_PAIRS, 0, 511));
    CHECK(margins_are(longest, &wide, 1, 1000, 0, 1000, 0));
    end();
}

static void refusals_of_margins(void)
{
    begin("margins: refusals 12 to 14");
    struct spec_file s = sample_b(15);
    static const struct maxeltu_pair wrong[MAXELTU_MAX_PAIRS + 1];
    CHECK(no_margins(s, wrong, 0, MAXELTU_COUNT) && no_margins(s, wrong, MAXELTU_MAX_PAIRS + 1, MAXELTU_COUNT));
    /* In 16 bits this would be one pair, which is right. */
    CHECK(no_margins(s, (struct maxeltu_pair[]){ { 5, 3 } }, 65537, MAXELTU_COUNT));
    CHECK(no_margins(s, wrong, 1, MAXELTU_GAP) && no_margins(s, wrong, MAXELTU_MAX_PAIRS, MAXELTU_GAP));
    CHECK(no_margins(s, (struct maxeltu_pair[]){ { 5, 3 }, { 6, 4 } }, 2, MAXELTU_GAP));
    CHECK(no_margins(s, (struct maxeltu_pair[]){ { 5, 3 }, { 5, 4 } }, 2, MAXELTU_SIZE));
    CHECK(no_margins(two_shifts(60, 90), (struct maxeltu_pair[]){ { 15, 5 }, { 16, 5 } }, 2, MAXELTU_GAP));
    end();
}

static void samples_of_tolerances(void)
{
    begin("tolerances: samples");
    static const struct maxeltu_pair good = { 4, 2 }, full = { 3, 2 }, thin = { 4, 1 }, shift = { 15, 4 };
    CHECK(tolerance_is(late_spec(), &good, 1, 2) && tolerance_is(late_spec(), &full, 1, 0) && tolerance_is(late_spec(), &thin, 1, 0));
    CHECK(tolerance_is(two_shifts(16, 90), &shift, 1, 10) && tolerance_is(two_shifts(60, 90), &shift, 1, 0));
    /* What lies between the ranges is in none, though the ends are in either. */
    CHECK(tolerance_is(spec_of(35, 6, 1, 10, 5, 50, 60, 90), &(struct maxeltu_pair){ .gap = 40, .size = 4 }, 1, 10));
    /* Of both ranges: 5 minutes is what the first pair has room for, 7 the second. */
    CHECK(tolerance_is(spec_of(35, 6, 1, 10, 5, 15, 16, 90), (struct maxeltu_pair[]){ { 10, 4 }, { 12, 4 } }, 2, 5));
    CHECK(tolerance_is(spec_of(35, 6, 1, 10, 5, 15, 16, 90), (struct maxeltu_pair[]){ { 12, 4 }, { 13, 4 } }, 2, 7));
    end();
}

/* By the ends of the range, by R and by P. */
static void every_tolerance(void)
{
    begin("tolerances: each from 0 to 1,440");
    struct spec_file any_gap = spec_of(3, 4, 1, 1000, 1, 20160);
    struct maxeltu_pair pair = { 2000, 10 };
    for (uint32_t lateness = 0; lateness <= MAXELTU_MAX_LATENESS; lateness++) {
        struct maxeltu_pair lower = { (uint16_t)(lateness + 1), 10 }, upper = { (uint16_t)(20160 - lateness), 10 };
        CHECK(tolerance_is(any_gap, &lower, 1, lateness) && tolerance_is(any_gap, &upper, 1, lateness));
        CHECK(tolerance_is(spec_of(7, 6, 1, 1000, 1, 20160, 10, (int)(2000 - lateness)), &pair, 1, lateness));
        CHECK(tolerance_is(spec_of(11, 6, 1, 1000, 1, 20160, 10, (int)(2000 + lateness)), &pair, 1, lateness));
    }
    CHECK(tolerance_is(any_gap, &(struct maxeltu_pair){ .gap = 1442, .size = 10 }, 1, MAXELTU_MAX_LATENESS));
    CHECK(tolerance_is(any_gap, &(struct maxeltu_pair){ .gap = 18719, .size = 10 }, 1, MAXELTU_MAX_LATENESS));
    end();
}

static void refusals_of_tolerances(void)
{
    begin("tolerances: refusals 12 to 16");
    struct spec_file s = sample_b(15);
    static const struct maxeltu_pair wrong[MAXELTU_MAX_PAIRS + 1];
    CHECK(no_tolerance(s, wrong, 0, MAXELTU_COUNT) && no_tolerance(s, wrong, MAXELTU_MAX_PAIRS + 1, MAXELTU_COUNT));
    CHECK(no_tolerance(late_spec(), (struct maxeltu_pair[]){ { 4, 2 } }, 65537, MAXELTU_COUNT));
    CHECK(no_tolerance(s, wrong, 1, MAXELTU_GAP) && no_tolerance(s, wrong, MAXELTU_MAX_PAIRS, MAXELTU_GAP));
    CHECK(no_tolerance(s, (struct maxeltu_pair[]){ { 5, 3 }, { 5, 4 } }, 2, MAXELTU_SIZE));
    CHECK(no_tolerance(s, (struct maxeltu_pair[]){ { 5, 3 } }, 1, MAXELTU_TOO_FULL));
    CHECK(no_tolerance(s, (struct maxeltu_pair[]){ { 5, 2 } }, 1, MAXELTU_TOO_THIN));
    /* A minute late the gap of these would be wrong. */
    CHECK(no_tolerance(late_spec(), (struct maxeltu_pair[]){ { 2, 3 } }, 1, MAXELTU_SIZE));
    CHECK(no_tolerance(late_spec(), (struct maxeltu_pair[]){ { 2, 2 } }, 1, MAXELTU_TOO_FULL));
    CHECK(no_tolerance(late_spec(), (struct maxeltu_pair[]){ { 6, 1 } }, 1, MAXELTU_TOO_THIN));
    end();
}

/* ---- refusals ---- */

/* Every call that takes a specification answers this, and writes nothing. */
static void refused_everywhere(struct spec_file s, uint32_t refusal)
{
    static const uint8_t cycle[] = { 0, 1, 3, 0, 5, 0, 2 };
    static const struct maxeltu_pair pair = { 5, 2 };
    CHECK(maxeltu_verdict(SPEC(s), cycle, sizeof cycle) == refusal);
    CHECK(maxeltu_verdict(SPEC(s), cycle, 0) == refusal);
    CHECK(consistency(s) == refusal && untouched());
    CHECK(min_demand(s, 1) == refusal && untouched());
    CHECK(max_supply(s, 1) == refusal && untouched());
    CHECK(test(s) == refusal && untouched());
    CHECK(even_plan(s) == refusal && untouched());
    CHECK(box_plan(s, 0) == refusal && untouched());
    CHECK(box_plan(s, UINT32_MAX) == refusal && untouched());
    CHECK(maxeltu_check_cycle(SPEC(s), &pair, 1) == refusal);
    CHECK(maxeltu_check_cycle(SPEC(s), &pair, 0) == refusal);
    CHECK(maxeltu_check_late(SPEC(s), &pair, 1, 1) == refusal);
    CHECK(maxeltu_check_late(SPEC(s), &pair, 0, UINT32_MAX) == refusal);
    CHECK(shortest_stretch(s, &pair, 1) == refusal && untouched());
    CHECK(shortest_stretch(s, &pair, 0) == refusal && untouched());
    CHECK(margins(s, &pair, 1) == refusal && untouched() && bill_untouched());
    CHECK(margins(s, &pair, 0) == refusal && untouched() && bill_untouched());
    CHECK(tolerance(s, &pair, 1) == refusal && untouched());
    CHECK(tolerance(s, &pair, 0) == refusal && untouched());
    CHECK(tolerant_plan(s) == refusal && untouched());
    CHECK(cycle_cost(s, &pair, 1, 0) == refusal && bill_untouched());
    CHECK(cycle_cost(s, &pair, 0, 4) == refusal && bill_untouched());
    fill_meter(0x5A);
    CHECK(make_meter(s) == refusal && meter_untouched());
}

static void refusals_of_specifications(void)
{
    begin("refusals 1 to 4 and 24 of every call");
    struct spec_file s = sample_b(15);
    s.length = 0;
    refused_everywhere(s, MAXELTU_SPEC_MAP);
    s = sample_b(15);
    static const uint8_t bad_maps[] = { 0x4F, 0x8F, 0x6F, 0xAF, 0x0E, 0x0D, 0x2E, 0x2D, 0x00, 0x20, 0xFF };
    for (size_t i = 0; i < sizeof bad_maps; i++) {
        s.bytes[0] = bad_maps[i];
        refused_everywhere(s, MAXELTU_SPEC_MAP);
    }
    s = sample_b(15);
    s.length--;
    refused_everywhere(s, MAXELTU_SPEC_LENGTH);
    s.length += 2;
    refused_everywhere(s, MAXELTU_SPEC_LENGTH);
    s = sample_b(15);
    s.bytes[0] = 0x1F;
    refused_everywhere(s, MAXELTU_SPEC_LENGTH);
    s.bytes[0] = 0x2F;
    refused_everywhere(s, MAXELTU_SPEC_LENGTH);
    s = two_shifts(60, 90);
    s.bytes[0] = 0x0F;
    refused_everywhere(s, MAXELTU_SPEC_LENGTH);
    /* Every wrong length of the longest file, up to one byte over. */
    uint8_t longest[MAXELTU_MAX_SPEC_FILE + 1] = { 0x3F };
    for (size_t length = 1; length <= sizeof longest; length++)
        if (length != MAXELTU_MAX_SPEC_FILE)
            CHECK(maxeltu_verdict(longest, length, longest, 0) == MAXELTU_SPEC_LENGTH);
    static const int limits[] = { 1000, 1000, 20160, 20160, 20000, 20160, 20000, 20160, 60000, 60000, 20160, 20160 };
    for (size_t i = 0; i < sizeof limits / sizeof *limits; i++) {
        static const int wrong[] = { 0, 1, 65535 };
        for (size_t w = 0; w < 3; w++) {
            /* Also the wrong order, which comes second, and a second range below the first, which comes third. */
            s = spec_of(63, 12, 3, 2, 6, 5, 15, 26, 10, 20, 60, 50, 4, 3);
            int value = wrong[w] == 1 ? limits[i] + 1 : wrong[w];
            s.bytes[1 + 2 * i] = (uint8_t)(value >> 8);
            s.bytes[2 + 2 * i] = (uint8_t)value;
            refused_everywhere(s, MAXELTU_SPEC_LIMITS);
        }
    }
    refused_everywhere(spec_of(15, 8, 3, 2, 5, 5, 15, 26, 10, 20), MAXELTU_SPEC_ORDER);
    refused_everywhere(spec_of(15, 8, 2, 3, 6, 5, 15, 26, 10, 20), MAXELTU_SPEC_ORDER);
    refused_everywhere(spec_of(31, 10, 2, 3, 5, 5, 15, 26, 10, 20, 60, 59), MAXELTU_SPEC_ORDER);
    refused_everywhere(two_shifts(90, 89), MAXELTU_SPEC_ORDER);
    /* A wrong order comes before a second range that starts too low. */
    refused_everywhere(two_shifts(15, 14), MAXELTU_SPEC_ORDER);
    refused_everywhere(spec_of(47, 10, 1, 10, 15, 5, 22, 60, 8, 90, 6, 90), MAXELTU_SPEC_ORDER);
    refused_everywhere(spec_of(51, 8, 1, 10, 5, 15, 60, 59, 15, 90), MAXELTU_SPEC_ORDER);
    refused_everywhere(two_shifts(15, 90), MAXELTU_SPEC_RANGES);
    refused_everywhere(two_shifts(15, 15), MAXELTU_SPEC_RANGES);
    refused_everywhere(two_shifts(1, 4), MAXELTU_SPEC_RANGES);
    refused_everywhere(two_shifts(1, 20160), MAXELTU_SPEC_RANGES);
    refused_everywhere(spec_of(35, 6, 1, 10, 5, 15, 15, 90), MAXELTU_SPEC_RANGES);
    refused_everywhere(spec_of(63, 12, 1, 10, 5, 15, 22, 60, 8, 90, 90, 60000, 15, 90), MAXELTU_SPEC_RANGES);
    end();
}

/* The calls that take one range of gaps alone answer 25, for any k, and write nothing. */
static void refused_for_two_ranges(struct spec_file s)
{
    static const uint32_t any_k[] = { 0, 1, 4, 20160, 0xFFFFFFFF };
    CHECK(consistency(s) == MAXELTU_TWO_RANGES && untouched());
    CHECK(test(s) == MAXELTU_TWO_RANGES && untouched());
    for (size_t i = 0; i < sizeof any_k / sizeof *any_k; i++) {
        CHECK(min_demand(s, any_k[i]) == MAXELTU_TWO_RANGES && untouched());
        CHECK(max_supply(s, any_k[i]) == MAXELTU_TWO_RANGES && untouched());
    }
}

static void refusals_of_two_ranges(void)
{
    begin("refusal 25 of consistency, schedules and test");
    refused_for_two_ranges(two_shifts(60, 90));
    refused_for_two_ranges(two_shifts(16, 90));
    /* It comes before absent rates, */
    refused_for_two_ranges(spec_of(35, 6, 1, 10, 5, 15, 60, 90));
    refused_for_two_ranges(spec_of(39, 8, 1, 10, 5, 15, 22, 60, 60, 90));
    refused_for_two_ranges(spec_of(43, 8, 1, 10, 5, 15, 8, 90, 60, 90));
    /* before inconsistency (dmax above B, P above Tmin), and before a test that finds nothing or does not pass. */
    refused_for_two_ranges(spec_of(47, 10, 1, 23, 5, 15, 22, 60, 8, 90, 60, 90));
    refused_for_two_ranges(spec_of(63, 12, 1, 10, 5, 15, 22, 60, 8, 90, 89, 90, 60, 90));
    refused_for_two_ranges(spec_of(47, 10, 5, 5, 4, 4, 10, 10, 5, 20, 60, 90));
    refused_for_two_ranges(spec_of(47, 10, 3, 10, 45, 55, 28, 220, 17, 158, 60, 90));
    end();
}

static void refusals_of_plans(void)
{
    begin("refusals 5 to 10");
    struct spec_file no_supply = spec_of(11, 6, 2, 3, 5, 5, 10, 20);
    struct spec_file no_demand = spec_of(7, 6, 2, 3, 5, 5, 15, 26);
    CHECK(min_demand(no_supply, 4) == MAXELTU_RATE_ABSENT && untouched());
    CHECK(min_demand(no_demand, 4) == MAXELTU_RATE_ABSENT && untouched());
    CHECK(max_supply(no_supply, 4) == MAXELTU_RATE_ABSENT && untouched());
    CHECK(max_supply(no_demand, 4) == MAXELTU_RATE_ABSENT && untouched());
    CHECK(test(no_supply) == MAXELTU_RATE_ABSENT && untouched());
    CHECK(test(no_demand) == MAXELTU_RATE_ABSENT && untouched());
    /* An absent rate comes before inconsistency: smax is above P here. */
    CHECK(test(spec_of(11, 6, 2, 3, 5, 30, 10, 20)) == MAXELTU_RATE_ABSENT && untouched());
    static const uint32_t no_schedule[] = { 0, 1, 3, 5, 858993460, 0x80000000, 0xFFFFFFFF };
    for (size_t i = 0; i < sizeof no_schedule / sizeof *no_schedule; i++)
        CHECK(min_demand(sample_b(16), no_schedule[i]) == MAXELTU_NO_SCHEDULE && untouched());
    static const uint32_t no_supply_schedule[] = { 0, 1, 5, 9, 0x80000000, 0xFFFFFFFF };
    for (size_t i = 0; i < sizeof no_supply_schedule / sizeof *no_supply_schedule; i++)
        CHECK(max_supply(sample_b(16), no_supply_schedule[i]) == MAXELTU_NO_SCHEDULE && untouched());
    struct spec_file inconsistent[] = {
        spec_of(15, 8, 2, 17, 5, 5, 16, 26, 10, 20),          /* dmax > B */
        spec_of(15, 8, 2, 3, 5, 21, 16, 26, 10, 20),          /* smax > P */
        spec_of(31, 10, 2, 3, 5, 5, 16, 26, 10, 20, 19, 60),  /* P > Tmin */
        spec_of(15, 8, 2, 3, 5, 5, 11, 26, 10, 20),           /* 2 * 6 > 11 */
        spec_of(15, 8, 2, 3, 5, 5, 16, 26, 13, 20),           /* 5 reports of 3, 4 fit */
        spec_of(15, 8, 2, 3, 5, 5, 12, 26, 10, 20),           /* 12 * 20 < 10 * 26 */
    };
    static const uint32_t failing[] = { 3, 3, 3, 4, 5, 6 };
    for (size_t i = 0; i < sizeof failing / sizeof *failing; i++) {
        CHECK(consistency(inconsistent[i]) == MAXELTU_INCONSISTENT && hold(1, failing[i]));
        CHECK(test(inconsistent[i]) == MAXELTU_INCONSISTENT && places[4] == failing[i]);
        CHECK(memcmp(places, held, 4 * sizeof *places) == 0);
    }
    CHECK(even_plan(no_supply) == 0 && hold(3, 4, 20, 10));
    CHECK(even_plan(no_demand) == 0 && hold(3, 1, 5, 2));
    end();
}

/* Kind, k, period and total of plans that are not proper. */
static const uint32_t improper[][4] = {
    { 0, 0, 20, 10 }, { 0, 20161, 20161, 20161 }, { 0, 4, 3, 10 }, { 0, 4, 80641, 10 },
    { 0, 4, 20, 3 }, { 0, 4, 20, 4001 }, { 1, 4, 21, 10 }, { 1, 0, 0, 0 },
    { 2, 4, 20, 10 }, { 0xFFFFFFFF, 4, 20, 10 }, { 0, 0xFFFFFFFF, 0xFFFFFFFF, 0xFFFFFFFF },
};

static void refusals_of_reports(void)
{
    begin("refusal 11 and far reports");
    for (size_t i = 0; i < sizeof improper / sizeof *improper; i++) {
        const uint32_t *plan = improper[i];
        uint64_t minute = 0x0123456789ABCDEF;
        fill_places();
        CHECK(maxeltu_report(plan[0], plan[1], plan[2], plan[3], 7, &minute, &places[0]) == MAXELTU_PLAN_IMPROPER);
        CHECK(minute == 0x0123456789ABCDEF && untouched());
    }
    CHECK(report_is(MAXELTU_WELL_FORMED, 4, 21, 10, 3, 15, 2));
    CHECK(report_is(MAXELTU_WELL_FORMED, 4, 21, 10, 4, 21, 3));
    CHECK(report_is(MAXELTU_EVEN, 1, 20160, 1000, UINT32_MAX, UINT32_MAX * UINT64_C(20160), 1000));
    CHECK(report_is(MAXELTU_WELL_FORMED, 1, 20160, 1000, UINT32_MAX, UINT32_MAX * UINT64_C(20160), 1000));
    CHECK(report_is(MAXELTU_EVEN, 20160, 20160, 20160000, UINT32_MAX, UINT32_MAX, 1000));
    CHECK(report_is(MAXELTU_EVEN, 20160, 20160, 20159999, UINT32_MAX - 256, UINT32_MAX - 256, 999));
    CHECK(report_is(MAXELTU_EVEN, 20160, 20160, 20161, UINT32_MAX - 255, UINT32_MAX - 255, 2));
    end();
}

static void refusals_of_minutes(void)
{
    begin("refusals 11 and 23 of minutes, and far minutes");
    static const uint32_t minutes[] = { 0, 1, 20160, UINT32_MAX };
    for (size_t i = 0; i < sizeof improper / sizeof *improper; i++)
        for (size_t m = 0; m < sizeof minutes / sizeof *minutes; m++) {
            const uint32_t *plan = improper[i], minute = minutes[m];
            CHECK(last_report(plan[0], plan[1], plan[2], plan[3], minute) == MAXELTU_PLAN_IMPROPER && untouched());
            CHECK(nearest_report(plan[0], plan[1], plan[2], plan[3], minute) == MAXELTU_PLAN_IMPROPER && untouched());
            /* It comes before the order of the minutes. */
            CHECK(between_refused(MAXELTU_PLAN_IMPROPER, plan[0], plan[1], plan[2], plan[3], 5, minute));
            CHECK(between_refused(MAXELTU_PLAN_IMPROPER, plan[0], plan[1], plan[2], plan[3], minute, 5));
        }
    for (uint32_t kind = MAXELTU_WELL_FORMED; kind <= MAXELTU_EVEN; kind++) {
        CHECK(between_refused(MAXELTU_BACKWARDS, kind, 4, 20, 10, 1, 0));
        CHECK(between_refused(MAXELTU_BACKWARDS, kind, 4, 20, 10, 20, 19));
        CHECK(between_refused(MAXELTU_BACKWARDS, kind, 4, 20, 10, UINT32_MAX, 0));
        CHECK(between_refused(MAXELTU_BACKWARDS, kind, 4, 20, 10, UINT32_MAX, UINT32_MAX - 1));
        CHECK(between_has(kind, 4, 20, 10, UINT32_MAX, UINT32_MAX, 0, 0));
        /* A report every minute: the last is that of the last minute, and the records take more than 32 bits. */
        CHECK(minute_has(kind, 1, 1, 1000, UINT32_MAX, UINT32_MAX, UINT32_MAX));
        CHECK(minute_has(kind, 20160, 20160, 20160000, UINT32_MAX, UINT32_MAX, UINT32_MAX));
        CHECK(between_has(kind, 1, 1, 1000, 0, UINT32_MAX, UINT32_MAX, UINT64_C(4294967295000)));
        CHECK(between_has(kind, 20160, 20160, 20160000, 1, UINT32_MAX, UINT32_MAX - 1, UINT64_C(4294967294000)));
        /* The nearest report is past minute 2^32 - 1, at 20,001 * 214,738. */
        CHECK(minute_has(kind, 1, 20001, 1, UINT32_MAX, 214737, 214738));
        CHECK(minute_has(kind, 20160, 406425600, 20160000, UINT32_MAX, 213044, 213044));
        CHECK(between_has(kind, 20160, 406425600, 20160000, 0, UINT32_MAX, 213045, 213045000));
    }
    end();
}

static void refusals_of_costs(void)
{
    begin("refusal 11 of costs");
    static const uint32_t reports[] = { 0, 1, 4, 20160, UINT32_MAX };
    for (size_t i = 0; i < sizeof improper / sizeof *improper; i++)
        for (size_t r = 0; r < sizeof reports / sizeof *reports; r++) {
            const uint32_t *plan = improper[i];
            CHECK(plan_cost(plan[0], plan[1], plan[2], plan[3], reports[r]) == MAXELTU_PLAN_IMPROPER && bill_untouched());
        }
    end();
}

static void refusals_of_late_reports(void)
{
    begin("late reports: refusal 26, and what it comes before");
    struct spec_file any_gap = spec_of(3, 4, 1, 9, 1, 20160), s = late_spec();
    static const uint32_t too_late[] = { 1441, 1442, 65536, 65537, 65536 + 1440, 0x80000000, UINT32_MAX };
    static const struct maxeltu_pair wrong[MAXELTU_MAX_PAIRS + 1];
    for (size_t i = 0; i < sizeof too_late / sizeof *too_late; i++) {
        CHECK(late(any_gap, 10000, 5, too_late[i]) == MAXELTU_TOO_LATE);
        CHECK(maxeltu_check_late(SPEC(s), wrong, 1, too_late[i]) == MAXELTU_TOO_LATE);
        CHECK(maxeltu_check_late(SPEC(s), wrong, 0, too_late[i]) == MAXELTU_TOO_LATE);
        CHECK(maxeltu_check_late(SPEC(s), wrong, MAXELTU_MAX_PAIRS + 1, too_late[i]) == MAXELTU_TOO_LATE);
    }
    CHECK(late(any_gap, 1441, 5, MAXELTU_MAX_LATENESS) == MAXELTU_OK);
    CHECK(late(any_gap, 1440, 5, MAXELTU_MAX_LATENESS) == MAXELTU_GAP);
    CHECK(late(any_gap, 18720, 5, MAXELTU_MAX_LATENESS) == MAXELTU_OK);
    CHECK(late(any_gap, 18721, 5, MAXELTU_MAX_LATENESS) == MAXELTU_GAP);
    CHECK(maxeltu_check_late(SPEC(s), wrong, 0, MAXELTU_MAX_LATENESS) == MAXELTU_COUNT);
    CHECK(maxeltu_check_late(SPEC(s), wrong, MAXELTU_MAX_PAIRS + 1, MAXELTU_MAX_LATENESS) == MAXELTU_COUNT);
    /* P minutes can be empty unless 9 minutes less hold a report. */
    for (uint32_t p = 1; p < 40; p++)
        CHECK(late(spec_of(11, 6, 1, 9, 1, 99, 1, (int)p), 10, 5, 9) == (p < 19 ? MAXELTU_TOO_THIN : MAXELTU_OK));
    end();
}

static struct maxeltu_pair pairs[MAXELTU_MAX_PAIRS + 8];

static void fill_pairs(void) { memset(pairs, 0x5A, sizeof pairs); }

static bool pairs_untouched_from(size_t first)
{
    for (size_t i = first; i < sizeof pairs / sizeof *pairs; i++)
        if (pairs[i].gap != 0x5A5A || pairs[i].size != 0x5A5A)
            return false;
    return true;
}

static uint32_t read_cycle(const uint8_t *file, size_t length, size_t places_lent)
{
    fill_places();
    fill_pairs();
    return maxeltu_read_cycle(file, length, pairs, places_lent, &places[0]);
}

static bool read_refused(uint32_t refusal, const uint8_t *file, size_t length, size_t places_lent)
{
    return read_cycle(file, length, places_lent) == refusal && untouched() && pairs_untouched_from(0);
}

#define BYTES(...) (const uint8_t[]){ __VA_ARGS__ }, sizeof (const uint8_t[]){ __VA_ARGS__ }

static void reading_cycles(void)
{
    begin("reading cycle files");
    CHECK(read_cycle(BYTES(0, 3, 3, 0, 52, 0, 6, 1, 0, 53, 2, 0, 5), 3) == 0 && hold(1, 3));
    CHECK(pairs[0].gap == 52 && pairs[0].size == 6 && pairs[1].gap == 53 && pairs[1].size == 6);
    CHECK(pairs[2].gap == 53 && pairs[2].size == 5 && pairs_untouched_from(3));
    CHECK(read_cycle(BYTES(0, 2, 3, 0xFF, 0xFF, 0, 0, 0), MAXELTU_MAX_PAIRS) == 0 && hold(1, 2));
    CHECK(pairs[1].gap == 0xFFFF && pairs[1].size == 0 && pairs_untouched_from(2));
    CHECK(read_refused(MAXELTU_FILE_CUT, BYTES(9), 512));
    CHECK(read_refused(MAXELTU_FILE_CUT, (const uint8_t[]){ 0 }, 0, 512));
    CHECK(read_refused(MAXELTU_COUNT, BYTES(0, 0), 0));
    CHECK(read_refused(MAXELTU_COUNT, BYTES(2, 1), 0));
    CHECK(read_refused(MAXELTU_COUNT, BYTES(2, 1, 3, 0, 5, 0, 2), sizeof pairs / sizeof *pairs));
    CHECK(read_refused(MAXELTU_NO_ROOM, BYTES(0, 2), 1));
    CHECK(read_refused(MAXELTU_NO_ROOM, BYTES(0, 1, 9), 0));
    CHECK(read_refused(MAXELTU_FILE_CUT, BYTES(0, 2), 2));
    CHECK(read_refused(MAXELTU_PAIR_MAP, BYTES(0, 1, 7, 0, 5, 0, 2), 512));
    CHECK(read_refused(MAXELTU_PAIR_MAP, BYTES(0, 1, 1, 0, 5), 512));
    CHECK(read_refused(MAXELTU_PAIR_MAP, BYTES(0, 1, 2), 512));
    CHECK(read_refused(MAXELTU_PAIR_MAP, BYTES(0, 1, 0), 512));
    CHECK(read_refused(MAXELTU_PAIR_MAP, BYTES(0, 2, 3, 0, 5, 0, 2, 0x80), 512));
    CHECK(read_refused(MAXELTU_FILE_CUT, BYTES(0, 1, 3, 0, 5, 0), 512));
    CHECK(read_refused(MAXELTU_FILE_CUT, BYTES(0, 2, 3, 0, 5, 0, 2), 512));
    /* A cut field comes before one that should be left out. */
    CHECK(read_refused(MAXELTU_FILE_CUT, BYTES(0, 2, 3, 0, 5, 0, 2, 3, 0, 5), 512));
    CHECK(read_refused(MAXELTU_FIELD_REPEATED, BYTES(0, 2, 3, 0, 5, 0, 2, 3, 0, 5, 0, 3), 512));
    CHECK(read_refused(MAXELTU_FIELD_REPEATED, BYTES(0, 2, 3, 0, 5, 0, 2, 2, 0, 2), 512));
    CHECK(read_refused(MAXELTU_FIELD_REPEATED, BYTES(0, 2, 3, 0, 5, 0, 2, 1, 0, 5, 0), 512));
    CHECK(read_refused(MAXELTU_BYTES_OVER, BYTES(0, 1, 3, 0, 5, 0, 2, 0), 512));
    CHECK(read_refused(MAXELTU_BYTES_OVER, BYTES(0, 2, 3, 0, 5, 0, 2, 0, 1, 0, 6), 512));
    /* Bytes over come last of all: after the places, and after every pair. */
    CHECK(read_refused(MAXELTU_NO_ROOM, BYTES(0, 2, 3, 0, 5, 0, 2, 0, 9), 1));
    CHECK(read_refused(MAXELTU_PAIR_MAP, BYTES(0, 2, 3, 0, 5, 0, 2, 4, 9), 512));
    CHECK(read_refused(MAXELTU_FIELD_REPEATED, BYTES(0, 2, 3, 0, 5, 0, 2, 1, 0, 5, 9), 512));
    end();
}

static void writing_cycles(void)
{
    begin("writing cycle files");
    static const uint8_t wanted[] = { 0, 4, 3, 0, 5, 0, 3, 0, 2, 0, 2, 3, 1, 0, 0, 9 };
    static const struct maxeltu_pair cycle[] = { { 5, 3 }, { 5, 3 }, { 5, 2 }, { 256, 9 } };
    uint8_t file[MAXELTU_MAX_CYCLE_FILE + 8];
    for (size_t room = 0; room < sizeof wanted + 3; room++) {
        memset(file, 0x5A, sizeof file);
        fill_places();
        uint32_t answer = maxeltu_write_cycle(cycle, 4, file, room, &places[0]);
        bool fits = room >= sizeof wanted;
        CHECK(answer == (fits ? MAXELTU_OK : MAXELTU_NO_ROOM));
        CHECK(fits ? hold(1, (unsigned)sizeof wanted) && memcmp(file, wanted, sizeof wanted) == 0 : untouched());
        for (size_t i = fits ? sizeof wanted : 0; i < sizeof file; i++)
            if (file[i] != 0x5A)
                CHECK(!"a byte that the call should have left as it was");
    }
    fill_places();
    fill_pairs();
    CHECK(maxeltu_write_cycle(pairs, 0, file, 0, &places[0]) == MAXELTU_COUNT && untouched());
    CHECK(maxeltu_write_cycle(pairs, MAXELTU_MAX_PAIRS + 1, file, 0, &places[0]) == MAXELTU_COUNT && untouched());
    end();
}

static void longest_cycle(void)
{
    begin("512 pairs there and back");
    uint8_t file[MAXELTU_MAX_CYCLE_FILE];
    struct maxeltu_pair cycle[MAXELTU_MAX_PAIRS];
    struct spec_file wide = spec_of(15, 8, 1, 1000, 1, 20160, 20000, 26, 1, 20160);
    for (uint16_t i = 0; i < MAXELTU_MAX_PAIRS; i++)
        cycle[i] = (struct maxeltu_pair){ .gap = (uint16_t)(100 + i % 7), .size = (uint16_t)(1 + i % 3) };
    fill_places();
    CHECK(maxeltu_write_cycle(cycle, MAXELTU_MAX_PAIRS, file, sizeof file, &places[0]) == 0);
    CHECK(hold(1, MAXELTU_MAX_CYCLE_FILE));
    CHECK(maxeltu_verdict(SPEC(wide), file, sizeof file) == 0);
    CHECK(maxeltu_check_cycle(SPEC(wide), cycle, MAXELTU_MAX_PAIRS) == 0);
    CHECK(read_cycle(file, sizeof file, MAXELTU_MAX_PAIRS) == 0 && hold(1, MAXELTU_MAX_PAIRS));
    CHECK(memcmp(pairs, cycle, sizeof cycle) == 0 && pairs_untouched_from(MAXELTU_MAX_PAIRS));
    fill_pairs();
    CHECK(maxeltu_check_cycle(SPEC(wide), pairs, MAXELTU_MAX_PAIRS + 1) == MAXELTU_COUNT);
    CHECK(shortest_stretch(wide, pairs, MAXELTU_MAX_PAIRS + 1) == MAXELTU_COUNT && untouched());
    CHECK(no_margins(wide, pairs, MAXELTU_MAX_PAIRS + 1, MAXELTU_COUNT) && no_tolerance(wide, pairs, MAXELTU_MAX_PAIRS + 1, MAXELTU_COUNT));
    /* Its gaps are 100 to 106. */
    CHECK(maxeltu_check_late(SPEC(wide), cycle, MAXELTU_MAX_PAIRS, 99) == 0);
    CHECK(maxeltu_check_late(SPEC(wide), cycle, MAXELTU_MAX_PAIRS, 100) == MAXELTU_GAP);
    CHECK(maxeltu_check_late(SPEC(wide), pairs, MAXELTU_MAX_PAIRS + 1, 99) == MAXELTU_COUNT);
    CHECK(tolerance_is(wide, cycle, MAXELTU_MAX_PAIRS, 99));
    end();
}

/* ---- box plans, and plans written out ---- */

/* A specification's box plan, with so much lateness. */
static bool box_plan_is(struct spec_file s, uint32_t lateness, uint32_t k, uint32_t period, uint32_t total)
{
    return box_plan(s, lateness) == MAXELTU_OK && places[0] == k && places[2] == period && places[3] == total
        && places[1] == held[1] && places[4] == held[4];
}

static bool no_box_plan(struct spec_file s, uint32_t lateness, uint32_t refusal)
{
    return box_plan(s, lateness) == refusal && untouched();
}

/* The room that a plan is written into, and how much of it is the file; all past it must stay. */
static uint8_t room[MAXELTU_MAX_CYCLE_FILE + 8];

static bool room_untouched_from(size_t first)
{
    for (size_t i = first; i < sizeof room; i++)
        if (room[i] != 0x5A)
            return false;
    return true;
}

/* The length comes to the second place. */
static uint32_t write_plan(uint32_t kind, uint32_t k, uint32_t period, uint32_t total, size_t bytes)
{
    memset(room, 0x5A, sizeof room);
    fill_places();
    return maxeltu_write_plan(kind, k, period, total, room, bytes, &places[1]);
}

static bool only_length_written(void)
{
    return places[0] == held[0] && places[1] <= sizeof room && untouched_from(2) && room_untouched_from(places[1]);
}

static bool plan_refused(uint32_t refusal, uint32_t kind, uint32_t k, uint32_t period, uint32_t total, size_t bytes)
{
    return write_plan(kind, k, period, total, bytes) == refusal && untouched() && room_untouched_from(0);
}

/* A plan has this file, in room that is just enough, and in more; a byte less is too little. */
static bool plan_written(uint32_t kind, uint32_t k, uint32_t period, uint32_t total, const uint8_t *file, size_t length)
{
    return write_plan(kind, k, period, total, length) == MAXELTU_OK && places[1] == length && only_length_written()
        && memcmp(room, file, length) == 0
        && write_plan(kind, k, period, total, sizeof room) == MAXELTU_OK && places[1] == length && only_length_written()
        && memcmp(room, file, length) == 0
        && plan_refused(MAXELTU_NO_ROOM, kind, k, period, total, length - 1)
        && plan_refused(MAXELTU_NO_ROOM, kind, k, period, total, 0);
}

static void samples_of_box_plans(void)
{
    begin("samples of box plans");
    CHECK(box_plan_is(sample_b(15), 0, 2, 10, 5));
    CHECK(box_plan_is(sample_b(16), 0, 2, 10, 5));
    CHECK(no_box_plan(sample_b(14), 0, MAXELTU_NO_BOX_PLAN));
    CHECK(no_box_plan(sample_b(15), 1, MAXELTU_NO_BOX_PLAN));
    static const uint32_t of_a[] = { 52, 52, 52, 51, 51, 50 };
    for (uint32_t lateness = 0; lateness < 6; lateness++)
        CHECK(box_plan_is(sample_a(29), lateness, 3, 3 * of_a[lateness], 17));
    CHECK(no_box_plan(sample_a(29), 6, MAXELTU_NO_BOX_PLAN));
    CHECK(no_box_plan(sample_c(), 0, MAXELTU_NO_BOX_PLAN) && no_box_plan(sample_d(), 0, MAXELTU_NO_BOX_PLAN));
    CHECK(no_box_plan(sample_f(), 0, MAXELTU_NO_BOX_PLAN));
    CHECK(box_plan_is(sample_e(), 0, 1, 79, 9));
    CHECK(box_plan_is(two_shifts(60, 90), 0, 1, 90, 8) && box_plan_is(two_shifts(60, 90), 15, 1, 75, 8));
    CHECK(no_box_plan(two_shifts(60, 90), 16, MAXELTU_NO_BOX_PLAN));
    CHECK(box_plan_is(two_shifts(16, 90), 16, 1, 74, 8) && box_plan_is(two_shifts(16, 90), 40, 1, 50, 8));
    /* One record in each of 513 pairs, but for one of two, is in no cycle; in 512 it is. */
    CHECK(no_box_plan(spec_of(15, 8, 1, 2, 1, 1, 514, 513, 514, 513), 0, MAXELTU_NO_BOX_PLAN));
    CHECK(box_plan_is(spec_of(15, 8, 1, 2, 1, 1, 513, 512, 513, 512), 0, 512, 512, 513));
    end();
}

/* The file that was loaded last. */
static uint8_t loaded[MAXELTU_MAX_CYCLE_FILE];
static uint32_t loaded_length;

static void load(const uint8_t *file, uint32_t length)
{
    memcpy(loaded, file, length);
    loaded_length = length;
}

/* The lines of the header. */
static void load_box_plan(const uint8_t *spec, size_t spec_length)
{
    uint8_t file[MAXELTU_MAX_CYCLE_FILE];
    uint32_t k, period, total, length;
    if (maxeltu_box_plan(spec, spec_length, 0, &k, &period, &total) == 0 &&
        maxeltu_write_plan(MAXELTU_EVEN, k, period, total, file, sizeof file, &length) == 0 &&
        maxeltu_verdict(spec, spec_length, file, length) == 0)
        load(file, length);
}

/* They load this file, or none. */
static bool loads(struct spec_file s, const uint8_t *file, size_t length)
{
    loaded_length = 0;
    load_box_plan(SPEC(s));
    return loaded_length == length && memcmp(loaded, file, length) == 0;
}

static void checked_cycle_files(void)
{
    begin("from a specification to a checked cycle file");
    CHECK(loads(sample_b(15), BYTES(0, 2, 3, 0, 5, 0, 3, 2, 0, 2)));
    CHECK(loads(sample_a(29), BYTES(0, 3, 3, 0, 52, 0, 6, 0, 2, 0, 5)));
    CHECK(loads(two_shifts(60, 90), BYTES(0, 1, 3, 0, 90, 0, 8)));
    CHECK(loads(sample_b(14), loaded, 0));
    /* One record a report, but for the first, in 512 of them. */
    uint8_t longest[2 + 5 + 511 + 2] = { 2, 0, 3, 0, 1, 0, 2, 2, 0, 1 };
    CHECK(loads(spec_of(15, 8, 1, 2, 1, 1, 513, 512, 513, 512), longest, sizeof longest));
    /* The other reports may be late too. */
    for (uint32_t lateness = 0; lateness < 6; lateness++) {
        struct spec_file s = sample_a(29);
        CHECK(box_plan(s, lateness) == MAXELTU_OK);
        CHECK(write_plan(MAXELTU_EVEN, places[0], places[2], places[3], sizeof room) == MAXELTU_OK && only_length_written());
        CHECK(read_cycle(room, places[1], MAXELTU_MAX_PAIRS) == MAXELTU_OK && hold(1, 3));
        CHECK(maxeltu_check_late(SPEC(s), pairs, 3, lateness) == MAXELTU_OK);
    }
    end();
}

static void written_plans(void)
{
    begin("plans written out");
    CHECK(plan_written(MAXELTU_EVEN, 4, 20, 10, BYTES(0, 4, 3, 0, 5, 0, 3, 2, 0, 2, 2, 0, 3, 2, 0, 2)));
    CHECK(plan_written(MAXELTU_WELL_FORMED, 4, 20, 10, BYTES(0, 4, 3, 0, 5, 0, 3, 0, 2, 0, 2, 0)));
    CHECK(plan_written(MAXELTU_WELL_FORMED, 3, 158, 17, BYTES(0, 3, 3, 0, 52, 0, 6, 1, 0, 53, 2, 0, 5)));
    CHECK(plan_written(MAXELTU_WELL_FORMED, 2, 11, 5, BYTES(0, 2, 3, 0, 5, 0, 3, 3, 0, 6, 0, 2)));
    CHECK(plan_written(MAXELTU_EVEN, 1, 1, 1, BYTES(0, 1, 3, 0, 1, 0, 1)));
    CHECK(plan_written(MAXELTU_EVEN, 1, 20160, 1000, BYTES(0, 1, 3, 0x4E, 0xC0, 0x03, 0xE8)));
    /* Sizes 2 and 1 in turn: of even plans no file is longer. */
    CHECK(write_plan(MAXELTU_EVEN, MAXELTU_MAX_PAIRS, MAXELTU_MAX_PAIRS, 768, 1540) == MAXELTU_OK);
    CHECK(places[1] == 2 + 5 + 3 * 511 && only_length_written());
    CHECK(read_cycle(room, places[1], MAXELTU_MAX_PAIRS) == MAXELTU_OK && hold(1, MAXELTU_MAX_PAIRS));
    for (uint32_t i = 0; i < MAXELTU_MAX_PAIRS; i++)
        CHECK(report_is(MAXELTU_EVEN, MAXELTU_MAX_PAIRS, MAXELTU_MAX_PAIRS, 768, i, i, pairs[i].size) && pairs[i].gap == 1);
    end();
}

static void refusals_of_box_plans(void)
{
    begin("refusals 26 and 30 of box plans, 11, 12 and 20 of plans written out");
    static const uint32_t too_late[] = { 1441, 1442, 65536, 65536 + 1440, 0x80000000, UINT32_MAX };
    for (size_t i = 0; i < sizeof too_late / sizeof *too_late; i++)
        CHECK(no_box_plan(sample_b(15), too_late[i], MAXELTU_TOO_LATE) && no_box_plan(sample_b(14), too_late[i], MAXELTU_TOO_LATE));
    CHECK(box_plan_is(spec_of(3, 4, 3, 9, 1, 2881), MAXELTU_MAX_LATENESS, 1, 1441, 3));
    CHECK(no_box_plan(spec_of(3, 4, 3, 9, 1, 2880), MAXELTU_MAX_LATENESS, MAXELTU_NO_BOX_PLAN));
    static const size_t rooms[] = { 0, 7, sizeof room };
    for (size_t r = 0; r < sizeof rooms / sizeof *rooms; r++) {
        for (size_t i = 0; i < sizeof improper / sizeof *improper; i++) {
            const uint32_t *plan = improper[i];
            CHECK(plan_refused(MAXELTU_PLAN_IMPROPER, plan[0], plan[1], plan[2], plan[3], rooms[r]));
        }
        CHECK(plan_refused(MAXELTU_PLAN_IMPROPER, MAXELTU_EVEN, 513, 514, 513, rooms[r]));
        CHECK(plan_refused(MAXELTU_PLAN_IMPROPER, 2, 513, 513, 513, rooms[r]));
        CHECK(plan_refused(MAXELTU_COUNT, MAXELTU_EVEN, 513, 513, 513, rooms[r]));
        CHECK(plan_refused(MAXELTU_COUNT, MAXELTU_WELL_FORMED, 513, 514, 514, rooms[r]));
        CHECK(plan_refused(MAXELTU_COUNT, MAXELTU_EVEN, 20160, 406425600, 20160000, rooms[r]));
    }
    end();
}

/* ---- the most tolerant plan ---- */

static bool tolerant_plan_is(struct spec_file s, uint32_t lateness, uint32_t k, uint32_t period, uint32_t total)
{
    return tolerant_plan(s) == MAXELTU_OK && hold(5, lateness, held[1], k, period, total);
}

static bool no_tolerant_plan(struct spec_file s, uint32_t refusal)
{
    return tolerant_plan(s) == refusal && untouched();
}

static void samples_of_tolerant_plans(void)
{
    begin("most tolerant plans: samples");
    CHECK(tolerant_plan_is(sample_a(29), 5, 3, 150, 17) && tolerant_plan_is(sample_b(15), 0, 2, 10, 5));
    CHECK(tolerant_plan_is(sample_b(16), 0, 2, 10, 5) && tolerant_plan_is(sample_e(), 0, 1, 79, 9));
    CHECK(tolerant_plan_is(late_spec(), 2, 1, 4, 2));
    CHECK(tolerant_plan_is(two_shifts(60, 90), 15, 1, 75, 8) && tolerant_plan_is(two_shifts(16, 90), 40, 1, 50, 8));
    /* The first range has more room than the second. */
    CHECK(tolerant_plan_is(spec_of(35, 6, 3, 7, 5, 50, 60, 90), 22, 1, 28, 3));
    CHECK(tolerant_plan_is(spec_of(15, 8, 1, 2, 1, 1, 513, 512, 513, 512), 0, 512, 512, 513));
    end();
}

/* Its cycle, written out and read, has just its lateness; and a box plan for a minute more there is not. */
static void cycles_of_tolerant_plans(void)
{
    begin("most tolerant plans: written out and read");
    struct spec_file specs[] = { sample_a(29), sample_b(15), sample_e(), late_spec(), two_shifts(60, 90), two_shifts(16, 90) };
    for (size_t i = 0; i < sizeof specs / sizeof *specs; i++) {
        CHECK(tolerant_plan(specs[i]) == MAXELTU_OK);
        uint32_t lateness = places[0], k = places[2], period = places[3], total = places[4];
        CHECK(box_plan_is(specs[i], lateness, k, period, total) && no_box_plan(specs[i], lateness + 1, MAXELTU_NO_BOX_PLAN));
        CHECK(write_plan(MAXELTU_EVEN, k, period, total, sizeof room) == MAXELTU_OK && only_length_written());
        CHECK(read_cycle(room, places[1], MAXELTU_MAX_PAIRS) == MAXELTU_OK && hold(1, k));
        CHECK(tolerance_is(specs[i], pairs, k, lateness));
    }
    end();
}

static void every_tolerant_plan(void)
{
    begin("most tolerant plans: each lateness from 0 to 1,440");
    for (uint32_t lateness = 0; lateness <= MAXELTU_MAX_LATENESS; lateness++)
        CHECK(tolerant_plan_is(spec_of(3, 4, 3, 7, 3, (int)(3 + 2 * lateness)), lateness, 1, 3 + lateness, 3));
    CHECK(tolerant_plan_is(spec_of(3, 4, 3, 7, 3, 2884), MAXELTU_MAX_LATENESS, 1, 1444, 3));
    CHECK(tolerant_plan_is(spec_of(3, 4, 3, 7, 1, 20160), MAXELTU_MAX_LATENESS, 1, 18720, 3));
    end();
}

static void refusals_of_tolerant_plans(void)
{
    begin("most tolerant plans: refusal 30");
    CHECK(no_tolerant_plan(sample_b(14), MAXELTU_NO_BOX_PLAN) && no_tolerant_plan(sample_a(28), MAXELTU_NO_BOX_PLAN));
    CHECK(no_tolerant_plan(sample_c(), MAXELTU_NO_BOX_PLAN) && no_tolerant_plan(sample_d(), MAXELTU_NO_BOX_PLAN));
    CHECK(no_tolerant_plan(sample_f(), MAXELTU_NO_BOX_PLAN));
    CHECK(no_tolerant_plan(spec_of(15, 8, 1, 2, 1, 1, 514, 513, 514, 513), MAXELTU_NO_BOX_PLAN));
    end();
}

/* ---- normal forms ---- */

/* The normal form comes to the first pairs, their count to the first place. */
static uint32_t normal_form(const struct maxeltu_pair *cycle, size_t count, size_t places_lent)
{
    fill_places();
    fill_pairs();
    return maxeltu_normal_form(cycle, count, pairs, places_lent, &places[0]);
}

static bool normal_refused(uint32_t refusal, const struct maxeltu_pair *cycle, size_t count, size_t places_lent)
{
    return normal_form(cycle, count, places_lent) == refusal && untouched() && pairs_untouched_from(0);
}

/* In as many places as it has pairs, in one more, and in all of them; in one fewer, and in none, it is refused. */
static bool normal_is(const struct maxeltu_pair *cycle, size_t count, const struct maxeltu_pair *form, size_t length)
{
    const size_t enough[] = { length, length + 1, sizeof pairs / sizeof *pairs };
    bool same = normal_refused(MAXELTU_NO_ROOM, cycle, count, length - 1) && normal_refused(MAXELTU_NO_ROOM, cycle, count, 0);
    for (size_t i = 0; i < sizeof enough / sizeof *enough; i++) {
        same &= normal_form(cycle, count, enough[i]) == MAXELTU_OK && hold(1, (unsigned)length);
        same &= memcmp(pairs, form, length * sizeof *form) == 0 && pairs_untouched_from(length);
    }
    return same;
}

struct cycle {
    size_t count;
    struct maxeltu_pair pairs[MAXELTU_MAX_PAIRS + 1];
};

/* So many pairs: the list from this one of its pairs on, again and again. */
static struct cycle repeated(const struct maxeltu_pair *list, size_t length, size_t start, size_t count)
{
    struct cycle cycle = { .count = count };
    for (size_t i = 0; i < count; i++)
        cycle.pairs[i] = list[(start + i) % length];
    return cycle;
}

/* The cycle of a file. */
static struct cycle cycle_in(const uint8_t *file, size_t length)
{
    struct cycle cycle = { 0 };
    uint32_t count = 0;
    CHECK(maxeltu_read_cycle(file, length, cycle.pairs, MAXELTU_MAX_PAIRS, &count) == MAXELTU_OK);
    cycle.count = count;
    return cycle;
}

/* Whether two cycles have one normal form. */
static bool same_cycle(const struct cycle *one, const struct cycle *other)
{
    struct cycle form = { 0 }, others = { 0 };
    uint32_t count = 0, others_count = 0;
    CHECK(maxeltu_normal_form(one->pairs, one->count, form.pairs, MAXELTU_MAX_PAIRS, &count) == MAXELTU_OK);
    CHECK(maxeltu_normal_form(other->pairs, other->count, others.pairs, MAXELTU_MAX_PAIRS, &others_count) == MAXELTU_OK);
    return count == others_count && memcmp(form.pairs, others.pairs, count * sizeof *form.pairs) == 0;
}

/* The files of samples/: shift-turned.cycle is shift-good.cycle from its fourth pair on, twice. */
static void samples_of_normal_forms(void)
{
    begin("normal forms: samples");
    static const struct maxeltu_pair form[] = { { 5, 4 }, { 90, 8 }, { 60, 8 }, { 15, 5 }, { 15, 5 } };
    struct cycle good = cycle_in(BYTES(0, 5, 3, 0, 15, 0, 5, 0, 3, 0, 5, 0, 4, 3, 0, 90, 0, 8, 1, 0, 60));
    struct cycle turned = cycle_in(BYTES(0, 10, 3, 0, 90, 0, 8, 1, 0, 60, 3, 0, 15, 0, 5, 0, 3, 0, 5, 0, 4,
                                         3, 0, 90, 0, 8, 1, 0, 60, 3, 0, 15, 0, 5, 0, 3, 0, 5, 0, 4));
    struct cycle gap_between = cycle_in(BYTES(0, 3, 3, 0, 15, 0, 8, 3, 0, 30, 0, 4, 3, 0, 90, 0, 8));
    struct cycle late_shift = cycle_in(BYTES(0, 1, 3, 0, 15, 0, 4));
    CHECK(good.count == 5 && turned.count == 10);
    CHECK(normal_is(good.pairs, good.count, form, 5) && normal_is(turned.pairs, turned.count, form, 5));
    CHECK(normal_is(form, 5, form, 5));
    CHECK(normal_is(gap_between.pairs, 3, gap_between.pairs, 3) && normal_is(late_shift.pairs, 1, late_shift.pairs, 1));
    CHECK(same_cycle(&good, &turned) && same_cycle(&turned, &good) && same_cycle(&good, &good));
    CHECK(!same_cycle(&good, &gap_between) && !same_cycle(&turned, &late_shift) && !same_cycle(&gap_between, &late_shift));
    /* Each number that a check gives, with some lateness too. */
    struct {
        struct spec_file file;
        uint32_t number;
    } specs[] = {
        { two_shifts(60, 90), MAXELTU_OK },
        { two_shifts(16, 90), MAXELTU_OK },
        { spec_of(15, 8, 1, 10, 1, 99, 22, 60, 8, 90), MAXELTU_OK },
        { two_shifts(61, 90), MAXELTU_GAP },
        { spec_of(47, 10, 5, 10, 5, 15, 22, 60, 8, 90, 60, 90), MAXELTU_SIZE },
        { spec_of(47, 10, 1, 10, 5, 15, 21, 60, 8, 90, 60, 90), MAXELTU_TOO_FULL },
        { spec_of(47, 10, 1, 10, 5, 15, 22, 60, 9, 90, 60, 90), MAXELTU_TOO_THIN },
    };
    static const uint32_t latenesses[] = { 0, 1, 4, 5, 1440, 1441 };
    for (size_t i = 0; i < sizeof specs / sizeof *specs; i++) {
        CHECK(check_pairs(specs[i].file, 10, turned.pairs) == specs[i].number && check_pairs(specs[i].file, 5, form) == specs[i].number);
        for (size_t l = 0; l < sizeof latenesses / sizeof *latenesses; l++)
            CHECK(maxeltu_check_late(SPEC(specs[i].file), turned.pairs, 10, latenesses[l])
                  == maxeltu_check_late(SPEC(specs[i].file), form, 5, latenesses[l]));
    }
    end();
}

/* Normal forms. A list ends before the first pair that is 0, 0. */
static const struct maxeltu_pair lists[][8] = {
    { { 1, 9 }, { 2, 1 } }, { { 1, 9 }, { 2, 1 }, { 2, 2 } },             /* a gap against a size, and two */
    { { 5, 2 }, { 5, 3 } }, { { 5, 0 }, { 5, 65535 } },                   /* a size where the gaps are equal */
    { { 0, 65535 }, { 1, 0 } }, { { 0, 65535 }, { 1, 0 }, { 1, 0 } },     /* gap 0, whatever the size */
    { { 0, 5 }, { 65535, 5 } }, { { 65534, 65535 }, { 65535, 0 } },       /* the largest gap */
    { { 32767, 5 }, { 32768, 5 } }, { { 5, 32767 }, { 5, 32768 } },       /* no number has a sign */
    { { 255, 5 }, { 256, 5 }, { 511, 4 } }, { { 5, 255 }, { 5, 256 } },   /* nor does the low byte come first */
    { { 1, 1 }, { 2, 9 }, { 1, 1 }, { 3, 1 } },                           /* the second pair decides, by gap */
    { { 1, 1 }, { 2, 1 }, { 1, 1 }, { 2, 2 } },                           /* and by size */
    { { 1, 1 }, { 3, 1 }, { 1, 2 }, { 2, 1 } },                           /* the first size comes before the second gap */
    { { 7, 3 }, { 7, 4 }, { 7, 3 }, { 7, 4 }, { 7, 3 }, { 7, 4 }, { 7, 3 }, { 7, 5 } },
    { { 7, 3 }, { 7, 3 }, { 7, 3 }, { 7, 4 }, { 7, 3 }, { 7, 3 }, { 7, 4 } },
};

/* In every turn, written out once, twice, and as often as there is room. */
static void turns_of_normal_forms(void)
{
    begin("normal forms: the turn that comes first");
    for (size_t i = 0; i < sizeof lists / sizeof *lists; i++) {
        size_t length = 0;
        while (length < 8 && (lists[i][length].gap || lists[i][length].size))
            length++;
        const size_t times[] = { 1, 2, MAXELTU_MAX_PAIRS / length };
        for (size_t start = 0; start < length; start++)
            for (size_t n = 0; n < sizeof times / sizeof *times; n++) {
                struct cycle cycle = repeated(lists[i], length, start, times[n] * length);
                CHECK(normal_is(cycle.pairs, cycle.count, lists[i], length));
            }
    }
    end();
}

/* A list of so many growing pairs, repeated up to this count: a divisor, or the count itself. */
static bool repeats_by(size_t length, size_t count)
{
    struct cycle list = { 0 };
    for (uint16_t i = 0; i < length; i++)
        list.pairs[i] = (struct maxeltu_pair){ .gap = 5, .size = i };
    struct cycle cycle = repeated(list.pairs, length, length / 2, count);
    return normal_is(cycle.pairs, count, list.pairs, length);
}

static void long_normal_forms(void)
{
    begin("normal forms: up to 512 pairs");
    static const struct maxeltu_pair a = { 7, 3 }, b = { 7, 4 };
    for (size_t count = 1; count <= MAXELTU_MAX_PAIRS; count++) {
        CHECK(repeats_by(1, count) && repeats_by(count, count));
        CHECK(count % 2 || repeats_by(2, count));
    }
    CHECK(repeats_by(7, 511) && repeats_by(73, 511) && repeats_by(256, 512) && repeats_by(240, 480) && repeats_by(160, 480));
    struct cycle one = repeated((const struct maxeltu_pair[]){ a, b }, 2, 0, MAXELTU_MAX_PAIRS), other = one;
    CHECK(normal_is(one.pairs, one.count, one.pairs, 2));
    /* The last pair another: the cycle does not repeat, though all before it does. */
    other.pairs[MAXELTU_MAX_PAIRS - 1].size = 5;
    CHECK(normal_is(other.pairs, other.count, other.pairs, MAXELTU_MAX_PAIRS) && !same_cycle(&one, &other));
    /* Cut off in a repetition: begun at the last pair, as large as the first. */
    one.count = MAXELTU_MAX_PAIRS - 1;
    other = repeated(one.pairs, one.count, one.count - 1, one.count);
    CHECK(normal_is(one.pairs, one.count, other.pairs, one.count) && same_cycle(&one, &other));
    end();
}

static void refusals_of_normal_forms(void)
{
    begin("normal forms: refusals 12 and 20");
    struct maxeltu_pair a = { 7, 3 }, b = { 7, 4 };
    struct cycle equal = repeated(&a, 1, 0, MAXELTU_MAX_PAIRS + 1);
    struct cycle two = repeated((const struct maxeltu_pair[]){ b, a }, 2, 0, MAXELTU_MAX_PAIRS);
    static const size_t wrong_counts[] = { 0, MAXELTU_MAX_PAIRS + 1 };
    for (size_t i = 0; i < sizeof wrong_counts / sizeof *wrong_counts; i++)
        for (size_t places_lent = 0; places_lent <= sizeof pairs / sizeof *pairs; places_lent++)
            CHECK(normal_refused(MAXELTU_COUNT, equal.pairs, wrong_counts[i], places_lent));
    /* No pair is read: there is none behind these. */
    CHECK(normal_refused(MAXELTU_COUNT, &a, 65537, 1) && normal_refused(MAXELTU_COUNT, &a, SIZE_MAX, 0));
    /* The places are held against the normal form, not against the cycle. */
    CHECK(normal_refused(MAXELTU_NO_ROOM, equal.pairs, MAXELTU_MAX_PAIRS, 0));
    CHECK(normal_form(equal.pairs, MAXELTU_MAX_PAIRS, 1) == MAXELTU_OK && hold(1, 1) && pairs_untouched_from(1));
    CHECK(normal_refused(MAXELTU_NO_ROOM, two.pairs, MAXELTU_MAX_PAIRS, 1));
    for (size_t places_lent = 2; places_lent <= sizeof pairs / sizeof *pairs; places_lent++) {
        CHECK(normal_form(two.pairs, MAXELTU_MAX_PAIRS, places_lent) == MAXELTU_OK && hold(1, 2) && pairs_untouched_from(2));
        CHECK(pairs[0].gap == 7 && pairs[0].size == 3 && pairs[1].gap == 7 && pairs[1].size == 4);
    }
    end();
}

/* ---- which of two dated files is in force ---- */

#define FILE_OF(...) ((struct maxeltu_bytes){ BYTES(__VA_ARGS__) })

/* Which one it is comes to the first place. */
static uint32_t in_force(struct maxeltu_bytes first, struct maxeltu_bytes second)
{
    fill_places();
    return maxeltu_in_force(first.at, first.length, second.at, second.length, &places[0]);
}

static struct maxeltu_bytes part_in_force(struct maxeltu_bytes first, struct maxeltu_bytes second)
{
    return maxeltu_part_in_force(first.at, first.length, second.at, second.length);
}

/* The part is the bytes of the very file, past its day, and is read. */
static bool is_part_of(struct maxeltu_bytes part, struct maxeltu_bytes file)
{
    uint32_t count;
    return part.at == file.at + 2 && part.length == file.length - 2
        && maxeltu_read_cycle(part.at, part.length, pairs, MAXELTU_MAX_PAIRS, &count) == MAXELTU_OK;
}

static bool first_in_force(struct maxeltu_bytes first, struct maxeltu_bytes second)
{
    return in_force(first, second) == MAXELTU_OK && hold(1, 1) && is_part_of(part_in_force(first, second), first);
}

static bool second_in_force(struct maxeltu_bytes first, struct maxeltu_bytes second)
{
    return in_force(first, second) == MAXELTU_OK && hold(1, 2) && is_part_of(part_in_force(first, second), second);
}

/* Either way round the same file, which the other is not equal to. */
static bool beats(struct maxeltu_bytes file, struct maxeltu_bytes other)
{
    return first_in_force(file, other) && second_in_force(other, file);
}

static bool none_in_force(uint32_t refusal, struct maxeltu_bytes first, struct maxeltu_bytes second)
{
    struct maxeltu_bytes part = part_in_force(first, second);
    return in_force(first, second) == refusal && untouched() && part.length == 0 && part.at == first.at;
}

/* The files of samples/, and which of them the loader then judges. */
static void samples_of_dated_files(void)
{
    begin("dated files: samples");
    struct spec_file b15 = sample_b(15);
    struct maxeltu_bytes good = FILE_OF(0, 255, 0, 2, 3, 0, 5, 0, 3, 2, 0, 2), over = FILE_OF(1, 1, 0, 2, 3, 0, 5, 0, 3, 2, 0, 2, 0);
    struct maxeltu_bytes full = FILE_OF(1, 0, 0, 4, 3, 0, 5, 0, 3, 0, 2, 0, 2, 0), no_day = FILE_OF(1);
    struct maxeltu_bytes thin = FILE_OF(1, 0, 0, 4, 3, 0, 5, 0, 2, 0, 0, 2, 0, 3);
    CHECK(first_in_force(good, good) && first_in_force(full, full) && first_in_force(thin, thin));
    CHECK(beats(full, good) && beats(thin, good));
    CHECK(none_in_force(MAXELTU_SAME_DAY, full, thin) && none_in_force(MAXELTU_SAME_DAY, thin, full));
    CHECK(beats(good, over) && beats(full, over) && beats(thin, over));
    CHECK(beats(good, no_day) && beats(full, no_day) && beats(thin, no_day));
    CHECK(none_in_force(MAXELTU_BYTES_OVER, over, no_day) && none_in_force(MAXELTU_FILE_CUT, no_day, over));
    CHECK(none_in_force(MAXELTU_BYTES_OVER, over, over) && none_in_force(MAXELTU_FILE_CUT, no_day, no_day));
    struct maxeltu_bytes part = part_in_force(good, full);
    CHECK(maxeltu_verdict(SPEC(b15), part.at, part.length) == MAXELTU_TOO_FULL);
    part = part_in_force(thin, good);
    CHECK(maxeltu_verdict(SPEC(b15), part.at, part.length) == MAXELTU_TOO_THIN);
    part = part_in_force(over, good);
    CHECK(maxeltu_verdict(SPEC(b15), part.at, part.length) == MAXELTU_OK);
    end();
}

/* A file of one pair, issued on this day. */
struct dated {
    uint8_t bytes[9];
};

static struct dated dated(unsigned day, uint8_t gap, uint8_t size)
{
    return (struct dated){ { (uint8_t)(day >> 8), (uint8_t)day, 0, 1, 3, 0, gap, 0, size } };
}

#define DATED(d) ((struct maxeltu_bytes){ (d).bytes, sizeof (d).bytes })

static void days_of_dated_files(void)
{
    begin("dated files: the later day, and the same");
    static const unsigned days[] = { 0, 1, 2, 255, 256, 257, 511, 512, 32767, 32768, 40000, 65534, 65535 };
    for (size_t i = 0; i < sizeof days / sizeof *days; i++) {
        struct dated one = dated(days[i], 5, 2), equal = one, other = dated(days[i], 5, 3), longer_gap = dated(days[i], 6, 2);
        CHECK(first_in_force(DATED(one), DATED(equal)) && first_in_force(DATED(equal), DATED(one)));
        CHECK(none_in_force(MAXELTU_SAME_DAY, DATED(one), DATED(other)) && none_in_force(MAXELTU_SAME_DAY, DATED(other), DATED(one)));
        CHECK(none_in_force(MAXELTU_SAME_DAY, DATED(one), DATED(longer_gap)));
        for (size_t e = 0; e < i; e++) {
            struct dated earlier = dated(days[e], 5, 2);
            CHECK(beats(DATED(one), DATED(earlier)) && beats(DATED(other), DATED(earlier)));
        }
    }
    /* The same run of reports in another file. */
    CHECK(none_in_force(MAXELTU_SAME_DAY, FILE_OF(0, 7, 0, 1, 3, 0, 5, 0, 2), FILE_OF(0, 7, 0, 2, 3, 0, 5, 0, 2, 0)));
    end();
}

/* Whatever their days are. */
static void refusals_of_dated_files(void)
{
    begin("dated files: what cannot be read");
    const struct {
        uint32_t refusal;
        struct maxeltu_bytes file;
    } rows[] = {
        { MAXELTU_COUNT, { BYTES(255, 255, 0, 0) } },
        { MAXELTU_COUNT, { BYTES(0, 0, 2, 1, 3, 0, 5, 0, 2) } },
        { MAXELTU_PAIR_MAP, { BYTES(255, 255, 0, 1, 7, 0, 5, 0, 2) } },
        { MAXELTU_FILE_CUT, { BYTES(0, 255, 0, 1, 3, 0, 5, 0) } },
        { MAXELTU_FILE_CUT, { BYTES(255, 255, 0) } },
        { MAXELTU_FILE_CUT, { BYTES(0, 0) } },
        { MAXELTU_FILE_CUT, { BYTES(255) } },
        { MAXELTU_FILE_CUT, { (const uint8_t[]){ 0 }, 0 } },
        { MAXELTU_FIELD_REPEATED, { BYTES(1, 0, 0, 2, 3, 0, 5, 0, 2, 2, 0, 2) } },
        { MAXELTU_BYTES_OVER, { BYTES(255, 255, 0, 1, 3, 0, 5, 0, 2, 0) } },
    };
    struct dated day_0 = dated(0, 5, 2), last_day = dated(65535, 5, 2);
    for (size_t i = 0; i < sizeof rows / sizeof *rows; i++) {
        CHECK(beats(DATED(day_0), rows[i].file) && beats(DATED(last_day), rows[i].file));
        for (size_t other = 0; other < sizeof rows / sizeof *rows; other++)
            CHECK(none_in_force(rows[i].refusal, rows[i].file, rows[other].file));
    }
    end();
}

/* Both places may be one, or lie over each other: they are only read. */
static void dated_files_in_one_place(void)
{
    begin("dated files: in one place, and the longest");
    static const uint8_t lent_twice[] = { 0, 7, 0, 1, 3, 0, 5, 0, 2, 0 };
    struct maxeltu_bytes cut = { lent_twice, sizeof lent_twice - 2 }, over = { lent_twice, sizeof lent_twice };
    struct maxeltu_bytes whole = { lent_twice, sizeof lent_twice - 1 };
    CHECK(first_in_force(whole, whole) && beats(whole, cut) && beats(whole, over));
    CHECK(none_in_force(MAXELTU_FILE_CUT, cut, over) && none_in_force(MAXELTU_BYTES_OVER, over, cut));
    CHECK(none_in_force(MAXELTU_BYTES_OVER, over, over));
    /* As many bytes over as 16 bits cannot count. */
    static uint8_t long_file[65536 + sizeof lent_twice - 1];
    memcpy(long_file, lent_twice, sizeof lent_twice);
    over = (struct maxeltu_bytes){ long_file, sizeof long_file };
    CHECK(beats(whole, over) && none_in_force(MAXELTU_BYTES_OVER, over, over));
    /* 512 pairs that leave no field out, and a place for one more. */
    static uint8_t longest[2 + MAXELTU_MAX_CYCLE_FILE + 5], equal[sizeof longest];
    longest[2] = 2;
    for (size_t at = 4; at < sizeof longest; at += 5)
        memcpy(longest + at, (const uint8_t[]){ 3, 0, (uint8_t)(at % 2), 0, (uint8_t)(at % 2) }, 5);
    memcpy(equal, longest, sizeof equal);
    struct maxeltu_bytes file = { longest, sizeof longest - 5 }, other = { equal, sizeof equal - 5 };
    CHECK(first_in_force(file, other) && first_in_force(other, file));
    equal[other.length - 1] = 9;
    CHECK(none_in_force(MAXELTU_SAME_DAY, file, other) && none_in_force(MAXELTU_SAME_DAY, other, file));
    equal[1] = 1;
    CHECK(beats(other, file));
    equal[3] = 1;
    other.length = sizeof equal;
    CHECK(beats(file, other) && none_in_force(MAXELTU_COUNT, other, other));
    end();
}

/* ---- meters ---- */

/* A meter for this specification, made over bytes that are not 0. */
static void fresh_meter(struct spec_file s)
{
    fill_meter(0x5A);
    CHECK(make_meter(s) == MAXELTU_OK && meter_kept_within());
}

/* The offer is accepted, with so many records left, and nothing around the meter is written. */
static bool accepted(uint32_t minute, uint32_t size, uint32_t left)
{
    return offer(minute, size) == MAXELTU_OK && hold(1, left) && meter_kept_within() && !meter_untouched();
}

/* The offer is refused, with so many records left, and the meter keeps every byte. */
static bool refused(uint32_t refusal, uint32_t minute, uint32_t size, uint32_t left)
{
    return offer(minute, size) == refusal && hold(1, left) && meter_untouched();
}

static void layout_of_a_meter(void)
{
    begin("meter: layout, and what a fresh one holds");
    CHECK(sizeof (struct maxeltu_meter) == 6164 && _Alignof(struct maxeltu_meter) == 4);
    CHECK(offsetof(struct maxeltu_meter, dmin) == 0 && offsetof(struct maxeltu_meter, dmax) == 2);
    CHECK(offsetof(struct maxeltu_meter, smin) == 4 && offsetof(struct maxeltu_meter, budget) == 6);
    CHECK(offsetof(struct maxeltu_meter, window) == 8 && offsetof(struct maxeltu_meter, records) == 10);
    CHECK(offsetof(struct maxeltu_meter, first) == 12 && offsetof(struct maxeltu_meter, count) == 14);
    CHECK(offsetof(struct maxeltu_meter, last) == 16 && offsetof(struct maxeltu_meter, minutes) == 20);
    CHECK(offsetof(struct maxeltu_meter, sizes) == 4116);
    fresh_meter(sample_b(15));
    struct maxeltu_meter wanted = { .dmin = 2, .dmax = 3, .smin = 5, .budget = 15, .window = 26 };
    CHECK(memcmp(&lent.meter, &wanted, sizeof wanted) == 0);
    fresh_meter(spec_of(27, 8, 2, 3, 5, 9, 10, 20, 20, 30));
    wanted = (struct maxeltu_meter){ .dmin = 2, .dmax = 3, .smin = 5, .budget = 20000 };
    CHECK(memcmp(&lent.meter, &wanted, sizeof wanted) == 0);
    fresh_meter(two_shifts(60, 90));
    wanted = (struct maxeltu_meter){ .dmin = 1, .dmax = 10, .smin = 5, .budget = 22, .window = 60 };
    CHECK(memcmp(&lent.meter, &wanted, sizeof wanted) == 0);
    end();
}

/* Of two ranges a meter keeps smin alone: also a gap between them, or above both, is accepted. */
static void meter_of_two_ranges(void)
{
    begin("meter: two ranges of gaps");
    fresh_meter(two_shifts(60, 90));
    CHECK(accepted(0, 1, 21));
    CHECK(refused(MAXELTU_GAP, 4, 1, 21));
    CHECK(accepted(5, 1, 20));
    CHECK(accepted(21, 1, 19));
    CHECK(accepted(80, 1, 20));
    CHECK(accepted(171, 1, 21));
    CHECK(accepted(20331, 1, 21));
    end();
}

/* The list of samples/b15.offers, with a copy of the meter in its middle. */
static void sample_of_a_meter(void)
{
    begin("meter: sample B with 15");
    fresh_meter(sample_b(15));
    CHECK(refused(MAXELTU_SIZE, 9, 4, 15));
    CHECK(accepted(3, 3, 12));
    CHECK(accepted(8, 3, 9));
    /* Far ahead nothing is left of these two; but as it is refused, they stay. */
    CHECK(refused(MAXELTU_SIZE, 1000, 9, 15));
    struct maxeltu_meter copy = lent.meter;
    CHECK(accepted(1000, 3, 12));
    lent.meter = copy;
    CHECK(accepted(13, 3, 6));
    CHECK(refused(MAXELTU_GAP, 17, 3, 6));
    CHECK(accepted(18, 3, 3));
    CHECK(accepted(23, 3, 0));
    CHECK(refused(MAXELTU_SIZE, 28, 1, 0));
    CHECK(refused(MAXELTU_TOO_FULL, 28, 3, 0));
    CHECK(accepted(29, 3, 0));
    CHECK(lent.meter.first == 1 && lent.meter.count == 5 && lent.meter.records == 15 && lent.meter.last == 29);
    end();
}

static void refusals_of_offers(void)
{
    begin("meter: refusals 13 to 15, clocks set back, wide sizes");
    fresh_meter(sample_b(15));
    static const uint32_t sizes[] = { 0, 1, 4, 65535, 65536, 65536 + 2, 65537, 131072 + 3, 0x80000002, 0xFFFF0003, 0xFFFFFFFF };
    for (size_t i = 0; i < sizeof sizes / sizeof *sizes; i++)
        CHECK(refused(MAXELTU_SIZE, 40, sizes[i], 15));
    /* Nothing has been accepted: an earlier minute is none too early. */
    CHECK(accepted(30, 2, 13));
    CHECK(refused(MAXELTU_GAP, 34, 2, 13));
    CHECK(refused(MAXELTU_GAP, 30, 2, 13));
    CHECK(refused(MAXELTU_GAP, 0, 2, 13));
    CHECK(refused(MAXELTU_GAP, 34, 65537, 13));
    CHECK(refused(MAXELTU_SIZE, 35, 65537, 13));
    CHECK(refused(MAXELTU_SIZE, 55, 4, 13));
    CHECK(refused(MAXELTU_SIZE, 56, 4, 15));
    CHECK(accepted(35, 3, 10));
    fresh_meter(spec_of(7, 6, 1, 1000, 1, 1, 1000, 60));
    CHECK(accepted(0, 600, 400));
    CHECK(refused(MAXELTU_TOO_FULL, 59, 401, 400));
    CHECK(refused(MAXELTU_SIZE, 59, 65536 + 400, 400));
    CHECK(accepted(59, 400, 0));
    CHECK(refused(MAXELTU_TOO_FULL, 60, 601, 600));
    CHECK(accepted(60, 600, 0));
    end();
}

static void last_minutes_of_a_meter(void)
{
    begin("meter: up to minute 2^32 - 1");
    static const uint32_t after[] = { 0xFFFFFFFF, 0xFFFFFFFE, 0xFFFFFFFD, 0, 1, 2, 3, 4, 5, 1000, 0x80000000 };
    fresh_meter(sample_b(15));
    CHECK(accepted(0xFFFFFFFE, 3, 12));
    for (size_t i = 0; i < sizeof after / sizeof *after; i++)
        CHECK(refused(MAXELTU_GAP, after[i], 3, 12));
    /* Minute plus R passes 2^32, and the report is still in the window. */
    fresh_meter(sample_b(15));
    CHECK(accepted(0xFFFFFFF0, 3, 12));
    CHECK(accepted(0xFFFFFFFF, 3, 9));
    end();
}

/* Reports of one record at 1,024 minutes that follow each other, from this one on. */
static void fill_ring(uint32_t first, uint32_t budget)
{
    for (uint32_t i = 0; i < MAXELTU_METER_PLACES; i++)
        CHECK(accepted(first + i, 1, budget - i - 1));
    CHECK(lent.meter.count == MAXELTU_METER_PLACES && lent.meter.records == MAXELTU_METER_PLACES);
}

static void places_of_a_meter(void)
{
    begin("meter: refusal 22, and places again");
    fresh_meter(spec_of(7, 6, 1, 2, 1, 1, 20000, 2000));
    fill_ring(7, 20000);
    CHECK(refused(MAXELTU_NO_PLACE, 1031, 1, 18976));
    CHECK(refused(MAXELTU_NO_PLACE, 2006, 2, 18976));
    CHECK(refused(MAXELTU_GAP, 1030, 1, 18976));
    CHECK(refused(MAXELTU_SIZE, 1031, 65537, 18976));
    CHECK(accepted(2007, 2, 18975));
    CHECK(lent.meter.first == 1 && lent.meter.count == MAXELTU_METER_PLACES);
    CHECK(lent.meter.minutes[0] == 2007 && lent.meter.sizes[0] == 2);
    CHECK(accepted(4007, 1, 19999));
    CHECK(lent.meter.first == 1 && lent.meter.count == 1 && lent.meter.minutes[1] == 4007);
    /* Too many records come before too many reports. */
    fresh_meter(spec_of(7, 6, 1, 2, 1, 1, 1024, 2000));
    fill_ring(0, 1024);
    CHECK(refused(MAXELTU_TOO_FULL, 1024, 1, 0));
    end();
}

static void meter_without_supply(void)
{
    begin("meter: no supply rate");
    fresh_meter(spec_of(3, 4, 1, 1000, 1, 1));
    for (uint32_t i = 0; i < 3 * MAXELTU_METER_PLACES; i++)
        CHECK(offer(i, 1000) == MAXELTU_OK && untouched() && meter_kept_within());
    CHECK(lent.meter.count == 1 && lent.meter.records == 1000);
    CHECK(offer(0, 1000) == MAXELTU_GAP && untouched() && meter_untouched());
    CHECK(offer(9999, 1001) == MAXELTU_SIZE && untouched() && meter_untouched());
    end();
}

/* What such a meter answers means nothing; but it is an answer, and nothing around the meter is written. */
static void overwritten_meter(void)
{
    begin("meter: overwritten");
    static const uint32_t numbers[] = { 0, 1, 5, 1000, 0x5A5A, 0xFFFF, 0x10000, 0x5A5A5A5A, 0xFFFFFFFF };
    for (int byte = 0; byte < 256; byte++)
        for (size_t i = 0; i < 81; i++) {
            fill_meter(byte);
            uint32_t answer = offer(numbers[i / 9], numbers[i % 9]);
            CHECK(meter_kept_within() && untouched_from(1) && (answer == MAXELTU_OK || meter_untouched()));
            CHECK(answer == MAXELTU_OK || (answer >= MAXELTU_GAP && answer <= MAXELTU_TOO_FULL) || answer == MAXELTU_NO_PLACE);
        }
    end();
}

/* ---- duty hours ---- */

/* The two windows of a day. */
struct day {
    uint16_t opening, closing, second_opening, second_closing;
};

struct week {
    uint16_t numbers[MAXELTU_TABLE_NUMBERS];
};

static const struct day no_window, whole_day = { 0, 1440, 0, 0 }, office = { 480, 720, 780, 1020 };

/* Monday is day 0. */
static void set_day(struct week *week, size_t number, struct day day)
{
    uint16_t *at = week->numbers + 4 * number;
    at[0] = day.opening;
    at[1] = day.closing;
    at[2] = day.second_opening;
    at[3] = day.second_closing;
}

static struct week every_day(struct day day)
{
    struct week week;
    for (size_t number = 0; number < 7; number++)
        set_day(&week, number, day);
    return week;
}

/* Every day is like the others, but for this one. */
static struct week but_one(struct day others, size_t number, struct day day)
{
    struct week week = every_day(others);
    set_day(&week, number, day);
    return week;
}

#define TABLE(w) (w).numbers, MAXELTU_TABLE_NUMBERS

/* The calendar minute comes between two numbers that must stay. */
static uint64_t calendar[3];
static const uint64_t calendar_held[3] = { 0x0102030405060708, 0x8877665544332211, 0xF0E1D2C3B4A59687 };

static bool calendar_untouched(void) { return memcmp(calendar, calendar_held, sizeof calendar) == 0; }

static bool calendar_holds(uint64_t minute)
{
    return calendar[1] == minute && calendar[0] == calendar_held[0] && calendar[2] == calendar_held[2];
}

static uint32_t calendar_minute(const uint16_t *table, size_t numbers, uint32_t duty)
{
    memcpy(calendar, calendar_held, sizeof calendar);
    return maxeltu_calendar_minute(table, numbers, duty, &calendar[1]);
}

/* The duty minute comes to the first place. */
static uint32_t duty_minute(const uint16_t *table, size_t numbers, uint32_t minute)
{
    fill_places();
    return maxeltu_duty_minute(table, numbers, minute, &places[0]);
}

/* Either minute gives the other; from the calendar's where that is below 2^32. The table is only read. */
static bool open_at(struct week week, uint32_t duty, uint64_t minute)
{
    struct week lent_week = week;
    return maxeltu_week_table(TABLE(lent_week)) == MAXELTU_OK
        && calendar_minute(TABLE(lent_week), duty) == MAXELTU_OK && calendar_holds(minute)
        && (minute > UINT32_MAX || (duty_minute(TABLE(lent_week), (uint32_t)minute) == MAXELTU_OK && hold(1, duty)))
        && memcmp(&lent_week, &week, sizeof week) == 0;
}

static bool closed_at(struct week week, uint32_t minute)
{
    return duty_minute(TABLE(week), minute) == MAXELTU_CLOSED && untouched();
}

/* Whatever minute is asked for, all three calls answer 27, and write nothing. */
static bool no_table(const uint16_t *table, size_t numbers)
{
    static const uint32_t minutes[] = { 0, 1, 720, 10079, 10080, UINT32_MAX };
    bool refused_all = maxeltu_week_table(table, numbers) == MAXELTU_WEEK_TABLE;
    for (size_t i = 0; i < sizeof minutes / sizeof *minutes; i++) {
        refused_all &= calendar_minute(table, numbers, minutes[i]) == MAXELTU_WEEK_TABLE && calendar_untouched();
        refused_all &= duty_minute(table, numbers, minutes[i]) == MAXELTU_WEEK_TABLE && untouched();
    }
    return refused_all;
}

static void always_open(void)
{
    begin("duty hours: always open");
    static const uint32_t minutes[] = { 0, 1, 719, 720, 1439, 1440, 10079, 10080, 0x80000000, UINT32_MAX };
    for (size_t i = 0; i < sizeof minutes / sizeof *minutes; i++) {
        CHECK(open_at(every_day(whole_day), minutes[i], minutes[i]));
        CHECK(open_at(every_day((struct day){ 0, 720, 720, 1440 }), minutes[i], minutes[i]));
        CHECK(open_at(every_day((struct day){ 0, 0, 0, 1440 }), minutes[i], minutes[i]));
    }
    end();
}

/* Five days of 480 minutes, and 180 on Saturday in its second window alone: 2,580 a week. 2^32 - 1 is 426,088 * 10,080 + 255, and
 * 1,664,716 * 2,580 + 15. */
static void office_hours(void)
{
    begin("duty hours: a week of work and rest");
    struct week w = but_one(office, 6, no_window);
    set_day(&w, 5, (struct day){ 0, 0, 540, 720 });
    static const struct {
        uint32_t duty;
        uint64_t minute;
    } open[] = {
        { 0, 480 }, { 239, 719 }, { 240, 780 }, { 479, 1019 }, { 480, 1920 }, { 2399, 6779 }, { 2400, 7740 }, { 2579, 7919 },
        { 2580, 10560 }, { 5160, 20640 }, { 1099307039, 4294964879 }, { 1099307040, UINT64_C(4294967520) },
        { UINT32_MAX, UINT64_C(16780337775) },
    };
    static const uint32_t closed[] = {
        0, 479, 720, 779, 1020, 1440, 7739, 7920, 8640, 10079, 10080, 10559, 4294964880, 4294967040, UINT32_MAX,
    };
    for (size_t i = 0; i < sizeof open / sizeof *open; i++)
        CHECK(open_at(w, open[i].duty, open[i].minute));
    for (size_t i = 0; i < sizeof closed / sizeof *closed; i++)
        CHECK(closed_at(w, closed[i]));
    /* Every minute of three weeks, counted one by one. */
    uint32_t duty = 0;
    for (uint32_t minute = 0; minute < 3 * 10080; minute++) {
        uint32_t day = minute / 1440 % 7, of_day = minute % 1440;
        bool at_work = day < 5 && ((of_day >= 480 && of_day < 720) || (of_day >= 780 && of_day < 1020));
        bool is_open = at_work || (day == 5 && of_day >= 540 && of_day < 720);
        CHECK(is_open ? open_at(w, duty++, minute) : closed_at(w, minute));
    }
    end();
}

static void one_minute_a_week(void)
{
    begin("duty hours: one minute a week");
    struct week monday = but_one(no_window, 0, (struct day){ 0, 1, 0, 0 });
    struct week sunday = but_one(no_window, 6, (struct day){ 0, 0, 1439, 1440 });
    struct week last = but_one(no_window, 0, (struct day){ 255, 256, 0, 0 });
    CHECK(open_at(monday, 0, 0) && open_at(monday, 1, 10080) && open_at(monday, 426088, 4294967040));
    CHECK(open_at(monday, 426089, UINT64_C(4294977120)) && open_at(monday, UINT32_MAX, UINT64_C(43293270333600)));
    CHECK(closed_at(monday, 1) && closed_at(monday, 10079) && closed_at(monday, 10081) && closed_at(monday, UINT32_MAX));
    CHECK(open_at(sunday, 0, 10079) && open_at(sunday, 1, 20159) && open_at(sunday, 426087, 4294967039));
    CHECK(open_at(sunday, 426088, UINT64_C(4294977119)) && open_at(sunday, UINT32_MAX, UINT64_C(43293270343679)));
    CHECK(closed_at(sunday, 0) && closed_at(sunday, 10078) && closed_at(sunday, 10080) && closed_at(sunday, UINT32_MAX));
    CHECK(open_at(last, 426088, UINT32_MAX) && closed_at(last, UINT32_MAX - 1) && closed_at(last, 254) && closed_at(last, 256));
    end();
}

/* Each of these days is refused on every day of the week, among days that are open and among days that are closed. */
static void refusals_of_tables(void)
{
    begin("duty hours: refusal 27");
    static const struct day bad[] = {
        { 5, 5, 0, 0 }, { 1440, 1440, 0, 0 }, { 0, 0, 5, 5 }, { 60, 120, 120, 120 }, { 60, 60, 60, 120 }, { 0, 1440, 1440, 1440 },
        { 6, 5, 0, 0 }, { 0, 0, 6, 5 }, { 120, 60, 180, 240 }, { 1, 0, 0, 0 }, { 0, 0, 1, 0 }, { 60, 120, 120, 0 },
        { 0, 1441, 0, 0 }, { 0, 0, 0, 1441 }, { 1440, 1441, 0, 0 }, { 0, 65535, 0, 0 }, { 65535, 0, 0, 0 }, { 0, 0, 65535, 0 },
        { 60, 120, 119, 180 }, { 0, 1440, 1439, 1440 }, { 60, 120, 60, 120 }, { 60, 120, 0, 60 }, { 60, 120, 59, 121 },
    };
    for (size_t i = 0; i < sizeof bad / sizeof *bad; i++)
        for (size_t number = 0; number < 7; number++) {
            struct week alone = but_one(no_window, number, bad[i]), among = but_one(whole_day, number, bad[i]);
            CHECK(no_table(TABLE(alone)) && no_table(TABLE(among)));
        }
    static const struct day good[] = {
        { 0, 1, 0, 0 }, { 1439, 1440, 0, 0 }, { 0, 0, 0, 1 }, { 0, 0, 1439, 1440 }, { 60, 120, 120, 121 }, { 0, 1439, 1439, 1440 },
    };
    for (size_t i = 0; i < sizeof good / sizeof *good; i++)
        for (size_t number = 0; number < 7; number++) {
            struct week alone = but_one(no_window, number, good[i]), among = but_one(whole_day, number, good[i]);
            CHECK(maxeltu_week_table(TABLE(alone)) == MAXELTU_OK && maxeltu_week_table(TABLE(among)) == MAXELTU_OK);
        }
    struct week none = every_day(no_window);
    CHECK(no_table(TABLE(none)));
    end();
}

/* Of days that are all open, and of days that are all closed. */
static void other_lengths(void)
{
    begin("duty hours: refusal 27 of numbers that are not 28");
    static const uint16_t closings[] = { 1440, 0 };
    for (size_t round = 0; round < sizeof closings / sizeof *closings; round++) {
        uint16_t numbers[300] = { 0 };
        for (size_t i = 1; i < sizeof numbers / sizeof *numbers; i += 4)
            numbers[i] = closings[round];
        for (size_t count = 0; count <= sizeof numbers / sizeof *numbers; count++)
            if (count != MAXELTU_TABLE_NUMBERS)
                CHECK(no_table(numbers, count));
        CHECK(maxeltu_week_table(numbers, MAXELTU_TABLE_NUMBERS) == (closings[round] ? MAXELTU_OK : MAXELTU_WEEK_TABLE));
    }
    end();
}

/* The even plan of sample B with 15, every 5 minutes 3 and 2 records in turn, in a week of short windows, a whole day and a day of
 * rest. Some 26 calendar minutes hold the 15 records that they may. */
static void plan_on_duty(void)
{
    begin("duty hours: sample B with 15 run on duty minutes");
    struct {
        uint64_t minute;
        uint32_t size;
    } run[1000];
    const uint32_t reports = sizeof run / sizeof *run;
    struct week w = but_one((struct day){ 600, 605, 606, 612 }, 6, no_window);
    set_day(&w, 1, (struct day){ 0, 7, 1433, 1440 });
    set_day(&w, 2, whole_day);
    for (uint32_t i = 0; i < reports; i++) {
        CHECK(maxeltu_report(MAXELTU_EVEN, 4, 20, 10, i, &run[i].minute, &run[i].size) == MAXELTU_OK);
        uint32_t duty = (uint32_t)run[i].minute;
        CHECK(calendar_minute(TABLE(w), duty) == MAXELTU_OK && open_at(w, duty, calendar[1]));
        run[i].minute = calendar[1];
        CHECK(i == 0 || run[i].minute - run[i - 1].minute >= 5);
    }
    uint32_t most = 0;
    for (uint32_t first = 0; first < reports; first++) {
        uint32_t sum = 0;
        for (uint32_t i = first; i < reports && run[i].minute - run[first].minute < 26; i++)
            sum += run[i].size;
        most = sum > most ? sum : most;
    }
    CHECK(most == 15);
    end();
}

/* Not promised: the header tells that this build takes null with length 0 for an empty list or empty bytes. */
static void null_for_empty(void)
{
    begin("null pointers with length 0");
    struct spec_file b15 = sample_b(15);
    uint8_t file[8];
    fill_places();
    CHECK(maxeltu_verdict(NULL, 0, NULL, 0) == MAXELTU_SPEC_MAP);
    CHECK(maxeltu_verdict(SPEC(b15), NULL, 0) == MAXELTU_FILE_CUT);
    CHECK(maxeltu_even_plan(NULL, 0, &places[0], &places[1], &places[2]) == MAXELTU_SPEC_MAP);
    CHECK(maxeltu_box_plan(NULL, 0, 0, &places[0], &places[1], &places[2]) == MAXELTU_SPEC_MAP);
    CHECK(maxeltu_write_plan(MAXELTU_EVEN, 2, 10, 5, NULL, 0, &places[0]) == MAXELTU_NO_ROOM);
    CHECK(maxeltu_check_cycle(SPEC(b15), NULL, 0) == MAXELTU_COUNT);
    CHECK(maxeltu_check_late(SPEC(b15), NULL, 0, 10) == MAXELTU_COUNT);
    CHECK(maxeltu_shortest_stretch(SPEC(b15), NULL, 0, &places[0], &places[1]) == MAXELTU_COUNT);
    CHECK(maxeltu_tolerance(SPEC(b15), NULL, 0, &places[0]) == MAXELTU_COUNT);
    CHECK(maxeltu_tolerant_plan(NULL, 0, &places[0], &places[1], &places[2], &places[3]) == MAXELTU_SPEC_MAP);
    CHECK(no_margins(b15, NULL, 0, MAXELTU_COUNT));
    CHECK(cycle_cost(b15, NULL, 0, 4) == MAXELTU_COUNT && bill_untouched());
    CHECK(maxeltu_normal_form(NULL, 0, NULL, 0, &places[0]) == MAXELTU_COUNT);
    CHECK(maxeltu_normal_form(&(struct maxeltu_pair){ .gap = 5, .size = 2 }, 1, NULL, 0, &places[0]) == MAXELTU_NO_ROOM);
    CHECK(maxeltu_read_cycle(NULL, 0, NULL, 0, &places[0]) == MAXELTU_FILE_CUT);
    CHECK(maxeltu_read_cycle(BYTES(0, 1, 3, 0, 5, 0, 2), NULL, 0, &places[0]) == MAXELTU_NO_ROOM);
    CHECK(maxeltu_in_force(NULL, 0, NULL, 0, &places[0]) == MAXELTU_FILE_CUT);
    CHECK(maxeltu_part_in_force(NULL, 0, NULL, 0).length == 0);
    CHECK(maxeltu_write_cycle(NULL, 0, file, sizeof file, &places[0]) == MAXELTU_COUNT);
    CHECK(maxeltu_write_cycle(&(struct maxeltu_pair){ .gap = 5, .size = 2 }, 1, NULL, 0, &places[0]) == MAXELTU_NO_ROOM);
    CHECK(untouched());
    CHECK(beats(FILE_OF(0, 7, 0, 1, 3, 0, 5, 0, 2), (struct maxeltu_bytes){ NULL, 0 }));
    former = lent;
    CHECK(maxeltu_make_meter(NULL, 0, &lent.meter) == MAXELTU_SPEC_MAP && meter_untouched());
    CHECK(no_table(NULL, 0));
    end();
}

int main(int argc, char **argv)
{
    if (argc > 1)
        build = argv[1];
    samples_of_plans();
    samples_of_minutes();
    samples_of_cycles();
    sample_of_two_ranges();
    samples_of_costs();
    bands();
    largest_costs();
    samples_of_late_reports();
    samples_of_stretches();
    bounds_of_stretches();
    long_stretches();
    samples_of_margins();
    bounds_of_margins();
    large_margins();
    refusals_of_margins();
    samples_of_tolerances();
    every_tolerance();
    refusals_of_tolerances();
    refusals_of_specifications();
    refusals_of_two_ranges();
    refusals_of_plans();
    refusals_of_reports();
    refusals_of_minutes();
    refusals_of_costs();
    refusals_of_late_reports();
    reading_cycles();
    writing_cycles();
    longest_cycle();
    samples_of_box_plans();
    checked_cycle_files();
    written_plans();
    refusals_of_box_plans();
    samples_of_tolerant_plans();
    cycles_of_tolerant_plans();
    every_tolerant_plan();
    refusals_of_tolerant_plans();
    samples_of_normal_forms();
    turns_of_normal_forms();
    long_normal_forms();
    refusals_of_normal_forms();
    samples_of_dated_files();
    days_of_dated_files();
    refusals_of_dated_files();
    dated_files_in_one_place();
    layout_of_a_meter();
    meter_of_two_ranges();
    sample_of_a_meter();
    refusals_of_offers();
    last_minutes_of_a_meter();
    places_of_a_meter();
    meter_without_supply();
    overwritten_meter();
    always_open();
    office_hours();
    one_minute_a_week();
    refusals_of_tables();
    other_lengths();
    plan_on_duty();
    null_for_empty();
    printf("%u passed, %u failed\n", passed_groups, failed_groups);
    return failed_groups > 0;
}
