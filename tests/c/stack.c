/*
 * How many bytes of stack each call over a cycle needs, and the most tolerant
 * plan. It runs on a stack of its own that was painted before. The call's need is
 * how far below the top its deepest written byte lies, less the same of a call
 * that does nothing.
 *
 * Each must need less than two unpacked cycles, each of 1,024 16-bit words: then
 * none holds a cycle twice. The most tolerant plan is found with no cycle: it must
 * need less than half of one. A normal form is found with no copy of the cycle: it
 * must need less than a quarter. Which of two dated files is in force is told with
 * no pair stored: it must need less than an eighth.
 *
 * Prints a line for each call, and at the end 'N passed, M failed'. Exit status
 * 0 if none failed.
 */
#define _XOPEN_SOURCE 700
#include <stdbool.h>
#include <stdio.h>
#include <string.h>
#include <ucontext.h>

#include "maxeltu.h"

#define COUNT_OF(list) (sizeof (list) / sizeof *(list))

/* Bytes: a gap and a size of 16 bits each for 512 pairs. */
enum { UNPACKED_CYCLE = 2048 };

/* ---- a painted stack ---- */

static _Alignas(64) uint8_t stack[65536];
static ucontext_t outside, inside;
static void (*volatile on_the_stack)(void);

static void enter(void) { on_the_stack(); }

static size_t depth_in_paint(void (*call)(void), uint8_t paint)
{
    memset(stack, paint, sizeof stack);
    getcontext(&inside);
    inside.uc_stack.ss_sp = stack;
    inside.uc_stack.ss_size = sizeof stack;
    inside.uc_link = &outside;
    makecontext(&inside, enter, 0);
    on_the_stack = call;
    swapcontext(&outside, &inside);
    size_t unwritten = 0;
    while (unwritten < sizeof stack && stack[unwritten] == paint)
        unwritten++;
    return sizeof stack - unwritten;
}

/* In two paints: the call may have written one of them into its deepest byte. */
static size_t depth(void (*call)(void))
{
    size_t one = depth_in_paint(call, 0xA5), other = depth_in_paint(call, 0x5A);
    return one > other ? one : other;
}

/* ---- inputs ---- */

/* A specification with both rates and two ranges of gaps, and a cycle; its last pair is named, and the others follow from the
 * count. */
struct input {
    uint32_t answer;
    uint16_t numbers[10]; /* dmin dmax, smin smax, B R, L P, second range */
    size_t count;
    struct maxeltu_pair last;
};

/* Every answer is the same with this lateness. */
enum { LATENESS = 4 };

static const struct input inputs[] = {
    { MAXELTU_OK, { 1, 9, 1, 20, 20000, 60, 1, 60, 30, 40 }, 1, { 7, 5 } },
    { MAXELTU_OK, { 1, 9, 1, 20, 20000, 20160, 1, 20160, 30, 40 }, 1, { 7, 5 } },
    { MAXELTU_OK, { 1, 9, 1, 20, 20000, 60, 1, 60, 30, 40 }, 512, { 7, 5 } },
    { MAXELTU_OK, { 1, 9, 1, 20, 20000, 20160, 1, 20160, 30, 40 }, 512, { 7, 5 } },
    { MAXELTU_OK, { 1, 9, 1, 20, 20000, 60, 1, 60, 30, 40 }, 512, { 36, 5 } },
    { MAXELTU_SPEC_LIMITS, { 0, 9, 1, 20, 20000, 60, 1, 60, 30, 40 }, 512, { 7, 5 } },
    { MAXELTU_SPEC_ORDER, { 1, 9, 21, 20, 20000, 60, 1, 60, 30, 40 }, 512, { 7, 5 } },
    { MAXELTU_SPEC_RANGES, { 1, 9, 1, 20, 20000, 60, 1, 60, 20, 40 }, 512, { 7, 5 } },
    { MAXELTU_COUNT, { 1, 9, 1, 20, 20000, 60, 1, 60, 30, 40 }, 0, { 7, 5 } },
    { MAXELTU_COUNT, { 1, 9, 1, 20, 20000, 60, 1, 60, 30, 40 }, 513, { 7, 5 } },
    { MAXELTU_GAP, { 1, 9, 1, 20, 20000, 60, 1, 60, 30, 40 }, 512, { 21, 5 } },
    { MAXELTU_SIZE, { 1, 9, 1, 20, 20000, 60, 1, 60, 30, 40 }, 512, { 7, 10 } },
    { MAXELTU_TOO_FULL, { 1, 9, 1, 20, 1, 60, 1, 60, 30, 40 }, 512, { 7, 5 } },
    { MAXELTU_TOO_THIN, { 1, 9, 1, 20, 20000, 60, 20000, 60, 30, 40 }, 512, { 7, 5 } },
};

/* What the calls are lent: the input, as bytes and as pairs, also twice with an issue day before it, and room to read and to write a
 * cycle; and B and L. */
static uint8_t spec_file[1 + 2 * 10], cycle_file[2 + 5 * (MAXELTU_MAX_PAIRS + 1)], bytes[MAXELTU_MAX_CYCLE_FILE];
static uint8_t dated_files[2][2 + sizeof cycle_file];
static struct maxeltu_pair pairs[MAXELTU_MAX_PAIRS + 1], places[MAXELTU_MAX_PAIRS];
static size_t count, cycle_length;
static uint64_t budget, demand;

static uint8_t *put(uint8_t *at, size_t number)
{
    at[0] = (uint8_t)(number >> 8);
    at[1] = (uint8_t)number;
    return at + 2;
}

static void lend(const struct input *input)
{
    uint8_t *at = spec_file;
    *at++ = 47;
    for (size_t i = 0; i < COUNT_OF(input->numbers); i++)
        at = put(at, input->numbers[i]);
    budget = input->numbers[4];
    demand = input->numbers[6];
    count = input->count;
    at = put(cycle_file, count);
    for (size_t i = 0; i < count; i++) {
        /* Both fields change from pair to pair, so that the file leaves none out. */
        struct maxeltu_pair pair = { .gap = (uint16_t)(5 + i % 2), .size = (uint16_t)(3 + i % 2) };
        pairs[i] = i + 1 < count ? pair : input->last;
        *at++ = 3;
        at = put(put(at, pairs[i].gap), pairs[i].size);
    }
    cycle_length = (size_t)(at - cycle_file);
    for (size_t i = 0; i < COUNT_OF(dated_files); i++)
        memcpy(put(dated_files[i], 7), cycle_file, cycle_length);
}

/* ---- calls ---- */

static uint32_t answer, number, reports, period, total;
static uint64_t tenths, cents, most, least;

static void verdict(void) { answer = maxeltu_verdict(spec_file, sizeof spec_file, cycle_file, cycle_length); }
static void check_cycle(void) { answer = maxeltu_check_cycle(spec_file, sizeof spec_file, pairs, count); }
static void check_late(void) { answer = maxeltu_check_late(spec_file, sizeof spec_file, pairs, count, LATENESS); }
static void shortest_stretch(void) { answer = maxeltu_shortest_stretch(spec_file, sizeof spec_file, pairs, count, &number, &reports); }
static void tolerance(void) { answer = maxeltu_tolerance(spec_file, sizeof spec_file, pairs, count, &number); }
static void normal_form(void) { answer = maxeltu_normal_form(pairs, count, places, COUNT_OF(places), &number); }
static void read_cycle(void) { answer = maxeltu_read_cycle(cycle_file, cycle_length, places, COUNT_OF(places), &number); }
static void write_cycle(void) { answer = maxeltu_write_cycle(pairs, count, bytes, sizeof bytes, &number); }

/* Where the check gives 15 or 16 there are margins, one of which says so. */
static void margins(void)
{
    answer = maxeltu_margins(spec_file, sizeof spec_file, pairs, count, &most, &number, &least, &reports);
    if (answer == MAXELTU_OK && most > budget)
        answer = MAXELTU_TOO_FULL;
    else if (answer == MAXELTU_OK && least < demand)
        answer = MAXELTU_TOO_THIN;
}

/* A plan of so many reports, with two sizes and two gaps. None has no report: it is not proper. */
static void write_plan(void)
{
    uint32_t k = (uint32_t)count;
    answer = maxeltu_write_plan(MAXELTU_WELL_FORMED, k, 5 * k + k / 2, 3 * k + k / 2, bytes, sizeof bytes, &number);
    if (k == 0 && answer == MAXELTU_PLAN_IMPROPER)
        answer = MAXELTU_COUNT;
}

/* Equal files: both are read, and then compared to their ends. */
static void in_force(void)
{
    answer = maxeltu_in_force(dated_files[0], 2 + cycle_length, dated_files[1], 2 + cycle_length, &number);
}

static void cycle_cost(void)
{
    answer = maxeltu_cycle_cost(spec_file, sizeof spec_file, pairs, count, UINT32_MAX, &tenths, &cents);
}

static void tolerant_plan(void) { answer = maxeltu_tolerant_plan(spec_file, sizeof spec_file, &number, &reports, &period, &total); }

/* Two functions of our own, behind volatile pointers so that they are called as those of the library are. */
static uint32_t nothing(void) { return 0; }

static uint32_t fill_two_cycles(void)
{
    volatile uint8_t filled[2 * UNPACKED_CYCLE];
    for (size_t i = 0; i < sizeof filled; i++)
        filled[i] = (uint8_t)i;
    return filled[0];
}

static uint32_t (*volatile empty)(void) = nothing, (*volatile full)(void) = fill_two_cycles;

static void call_empty(void) { answer = empty(); }
static void call_full(void) { answer = full(); }

/* How much deeper the call goes than one that does nothing. It is made once
 * before it is measured: the first time, the dynamic linker may look up a name on
 * the same stack. */
static size_t need(void (*call)(void))
{
    size_t without = depth(call_empty);
    call();
    size_t with = depth(call);
    return with > without ? with - without : 0;
}

/* ---- groups ---- */

static unsigned passed, failed;

static const char *shown(size_t amount)
{
    static char text[32];
    if (amount < 1000)
        snprintf(text, sizeof text, "%zu", amount);
    else
        snprintf(text, sizeof text, "%zu,%03zu", amount / 1000, amount % 1000);
    return text;
}

static void group(bool holds, const char *name, size_t needed, const char *words)
{
    printf("%s stack of %s: %s bytes%s\n", holds ? "ok    " : "FAILED", name, shown(needed), words);
    *(holds ? &passed : &failed) += 1;
}

/* A measure that saw less than a call surely writes would pass every call. */
static void measure_itself(void)
{
    size_t needed = need(call_full);
    bool holds = needed >= 2 * UNPACKED_CYCLE && needed < 2 * UNPACKED_CYCLE + 256;
    group(holds, "a call that fills 4,096 bytes", needed, holds ? "" : ": the measure is wrong");
}

/* What a call answers where the check of the cycle gives this: the same; or, where it looks at no more than the count, that alone; or, where
 * it looks at the specification alone, what that is refused for, and no plan where a rate is too hard. */
static uint32_t checked(uint32_t number) { return number; }
static uint32_t counted(uint32_t number) { return number == MAXELTU_COUNT ? number : MAXELTU_OK; }

static uint32_t planned(uint32_t number)
{
    if (number == MAXELTU_TOO_FULL || number == MAXELTU_TOO_THIN)
        return MAXELTU_NO_BOX_PLAN;
    return number == MAXELTU_COUNT || number == MAXELTU_GAP || number == MAXELTU_SIZE ? MAXELTU_OK : number;
}

/* A call, what it answers, and how many bytes are too many for it. */
struct call {
    const char *name;
    void (*make)(void);
    uint32_t (*answers)(uint32_t number);
    size_t too_many;
};

static void measure(const struct call *call)
{
    size_t deepest = 0;
    bool all_answered = true;
    for (size_t i = 0; i < COUNT_OF(inputs); i++) {
        lend(&inputs[i]);
        size_t needed = need(call->make);
        deepest = needed > deepest ? needed : deepest;
        all_answered &= answer == call->answers(inputs[i].answer);
    }
    if (!all_answered)
        group(false, call->name, deepest, ", but an input got a wrong answer");
    else if (deepest >= call->too_many)
        group(false, call->name, deepest, ", which are too many: one unpacked cycle is 2,048");
    else
        group(true, call->name, deepest, ", one unpacked cycle is 2,048");
}

int main(void)
{
    static const struct call calls[] = {
        { "maxeltu_verdict", verdict, checked, 2 * UNPACKED_CYCLE },
        { "maxeltu_check_cycle", check_cycle, checked, 2 * UNPACKED_CYCLE },
        { "maxeltu_check_late", check_late, checked, 2 * UNPACKED_CYCLE },
        { "maxeltu_shortest_stretch", shortest_stretch, checked, 2 * UNPACKED_CYCLE },
        { "maxeltu_margins", margins, checked, 2 * UNPACKED_CYCLE },
        { "maxeltu_tolerance", tolerance, checked, 2 * UNPACKED_CYCLE },
        { "maxeltu_tolerant_plan", tolerant_plan, planned, UNPACKED_CYCLE / 2 },
        { "maxeltu_cycle_cost", cycle_cost, checked, 2 * UNPACKED_CYCLE },
        { "maxeltu_normal_form", normal_form, counted, UNPACKED_CYCLE / 4 },
        { "maxeltu_in_force", in_force, counted, UNPACKED_CYCLE / 8 },
        { "maxeltu_read_cycle", read_cycle, counted, 2 * UNPACKED_CYCLE },
        { "maxeltu_write_cycle", write_cycle, counted, 2 * UNPACKED_CYCLE },
        { "maxeltu_write_plan", write_plan, counted, 2 * UNPACKED_CYCLE },
    };
    measure_itself();
    for (size_t i = 0; i < COUNT_OF(calls); i++)
        measure(&calls[i]);
    printf("%u passed, %u failed\n", passed, failed);
    return failed > 0;
}
