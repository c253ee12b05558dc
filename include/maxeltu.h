/*
 * Maxeltu: a planner and checker of reporting plans for tracking boxes.
 *
 * A box sends reports. A specification says how large each report may be
 * (records), how far apart reports that follow each other may lie (minutes),
 * at most how many records any R minutes may hold (the supply rate: B, R) and
 * at least how many any P minutes must hold (the demand rate: L, P).
 *
 * Every call answers 0, or the number of its refusal (enum maxeltu_refusal):
 * the first that applies, in the order that the call's comment gives.
 *
 * What holds for every call:
 *
 *  - A specification passes as the bytes of its file. A call that takes one
 *    answers MAXELTU_SPEC_MAP, _LENGTH, _LIMITS, _ORDER or _RANGES (1 to 4 or
 *    24, in that order) before anything else.
 *  - What a pointer parameter is called to hand back is written only where the
 *    answer is 0, of the margins only for a rate that the specification has,
 *    `condition` only where it is MAXELTU_INCONSISTENT, `first` and
 *    `reports` of a shortest stretch only where it is MAXELTU_TOO_FULL or _TOO_THIN,
 *    and `left` after every offer to a meter with a supply rate, refused ones too.
 *    In every other case the place behind it keeps what it held.
 *  - No pointer may be null. For an empty list or empty bytes (length 0) pass
 *    any pointer that is not null; nothing is read or written behind it. (A null
 *    pointer with length 0 is taken for an empty list or empty bytes by this
 *    build, and the tests try it; but the toolchain's rules for callers do not
 *    promise it, so do not rely on it.)
 *  - The length of a list or of bytes that is handed in is a size_t, as C counts
 *    them, and any length may be handed in. Every number that is handed out is
 *    a uint32_t (a minute of a report or of the calendar, the records between two
 *    minutes or of a margin, and a bill, a uint64_t; the length of a part, which is
 *    handed in again, a size_t), also the count of pairs that were read and
 *    the length of a file that was written: these are at most 512 and 2562, and
 *    callers have one type for all of them.
 *  - The places behind two pointers of one call must not overlap, unless the
 *    call only reads both of them.
 *  - No call keeps a pointer, allocates, prints, or holds state between calls
 *    (what a meter has accepted stands in the caller's struct): calls from
 *    several threads at once are fine as long as they share no place that one of
 *    them writes. So one meter belongs to one thread at a time.
 *  - A call that checks, bills, reads or writes a cycle, tells its margins or its
 *    tolerance, or writes a plan out as one, holds it once, unpacked, on the stack:
 *    2,048 bytes, and with all else that it needs at most some 2,400 (measured on
 *    x86-64; tests/c/stack.c tells it of another build). A check looks at each pair a
 *    fixed number of times at most, whatever R, P and the lateness are, and so do
 *    margins. A normal form is found, and a dated file judged, with no copy of the
 *    cycle.
 *
 * Specification file: one byte of bit map (bit 0, the lowest, size; 1 gap;
 * 2 supply; 3 demand; 4 duration; 5 second range of gaps). Then, in that order,
 * the pairs whose bit stands, two 2-byte numbers each, high byte first: dmin
 * dmax, smin smax, B R, L P, Tmin Tmax, and the second range's bounds. Size and
 * gap must be there. A gap is allowed when it is in either range; the second
 * starts above smax (smax + 1 will do).
 *
 * Cycle file: the count of pairs, 2 bytes, high byte first. Then for each pair
 * one byte of bit map (bit 0 gap, bit 1 size) and 2 bytes for each bit that
 * stands, gap before size, high byte first. The first pair has both fields;
 * after it a field is left out exactly when it equals that of the pair before.
 *
 * Dated cycle file: an issue day, 2 bytes, high byte first, and then a cycle file.
 * Days are numbers, of which the larger is the later: one that began again at 0 is
 * an earlier one.
 */
#ifndef MAXELTU_H
#define MAXELTU_H

#include <stddef.h>
#include <stdint.h>

#ifdef __cplusplus
extern "C" {
#endif

/* What a call answers. */
enum maxeltu_refusal {
    MAXELTU_OK = 0,               /* no refusal */

    /* A specification's file. */
    MAXELTU_SPEC_MAP = 1,         /* no first byte, or its bit map has bit 6 or 7, or lacks size or gap */
    MAXELTU_SPEC_LENGTH = 2,      /* the length is not the one that the bit map calls for */
    MAXELTU_SPEC_LIMITS = 3,      /* a value is out of its limits (below, MAXELTU_MAX_..; none may be 0) */
    MAXELTU_SPEC_ORDER = 4,       /* a lower bound above its upper one: size, gap, duration or second range */
    MAXELTU_SPEC_RANGES = 24,     /* the second range of gaps does not start above smax */

    /* Consistency, schedules of k reports, and the test. */
    MAXELTU_TWO_RANGES = 25,      /* the specification has a second range of gaps: these do not take one */
    MAXELTU_RATE_ABSENT = 5,      /* the supply rate or the demand rate is absent, and both are needed */
    MAXELTU_NO_SCHEDULE = 6,      /* no schedule with this k */
    MAXELTU_INCONSISTENT = 7,     /* inconsistent; `condition` says which condition (3 to 6) fails first */
    /* 8 said that no k has a schedule. It is no longer given, since a consistent specification has one, and is not used again. */
    MAXELTU_NOT_PASSED = 9,       /* the schedule taken does not pass */

    /* The even plan, and the reports of a plan. */
    MAXELTU_NO_EVEN_PLAN = 10,    /* at no gap of either range does any endless list of sizes obey the rules */
    MAXELTU_PLAN_IMPROPER = 11,   /* the plan is not proper */

    /* Checking a cycle; 12 to 14 also of its margins, 12 to 16 of its tolerance, 13
       to 15 of an offer to a meter, 12 of a plan written out, 26 of the box plan. */
    MAXELTU_COUNT = 12,           /* the count of pairs is 0 or above MAXELTU_MAX_PAIRS */
    MAXELTU_GAP = 13,             /* some gap is in no range of the specification; the offer comes too early */
    MAXELTU_SIZE = 14,            /* some size, or the offer's, is out of the specification's range */
    MAXELTU_TOO_FULL = 15,        /* some R minutes hold more than B records, or would with the offer */
    MAXELTU_TOO_THIN = 16,        /* some P minutes hold fewer than L records */
    MAXELTU_TOO_LATE = 26,        /* the lateness is above MAXELTU_MAX_LATENESS */

    /* A cycle's file, and the room lent for a cycle, its normal form or its file. */
    MAXELTU_PAIR_MAP = 17,        /* a pair's bit map has bit 2 to 7, or the first pair lacks a field */
    MAXELTU_FILE_CUT = 18,        /* the file ends early, in its issue day, its count, a map byte or a field: fetch it again */
    MAXELTU_FIELD_REPEATED = 19,  /* a field that should have been left out: it equals the one before */
    MAXELTU_NO_ROOM = 20,         /* the lent list or the lent bytes are too few */
    MAXELTU_BYTES_OVER = 21,      /* bytes follow the last pair, and all pairs are right: write to the carrier */

    /* An offer to a meter. */
    MAXELTU_NO_PLACE = 22,        /* 1,024 accepted reports lie in those R minutes already: the meter cannot hold more */

    /* What lies between two minutes of a plan. */
    MAXELTU_BACKWARDS = 23,       /* the end is before the start */

    /* Duty hours. */
    MAXELTU_WEEK_TABLE = 27,      /* the week table breaks a rule, opens no minute, or has not MAXELTU_TABLE_NUMBERS numbers */
    MAXELTU_CLOSED = 28,          /* the calendar minute is closed: no duty minute */

    /* Which of two dated cycle files is in force; beside those of a cycle's file. */
    MAXELTU_SAME_DAY = 29,        /* both files can be read and have the same issue day, but they differ */

    /* The box plan, and the most tolerant plan. */
    MAXELTU_NO_BOX_PLAN = 30      /* every cycle of 1 to MAXELTU_MAX_PAIRS pairs with one gap throughout is refused */
};

/* Limits. Each value of a specification is at least 1 and at most: */
enum maxeltu_limit {
    MAXELTU_MAX_SIZE = 1000,      /* dmin, dmax: records */
    MAXELTU_MAX_GAP = 20160,      /* smin, smax, and the second range's bounds: minutes */
    MAXELTU_MAX_RECORDS = 20000,  /* B, L: records */
    MAXELTU_MAX_WINDOW = 20160,   /* R, P: minutes */
    MAXELTU_MAX_DURATION = 60000, /* Tmin, Tmax: minutes */

    MAXELTU_MAX_PAIRS = 512,      /* pairs in a cycle */
    MAXELTU_MAX_LATENESS = 1440,  /* minutes that a report may arrive late */
    MAXELTU_MAX_SPEC_FILE = 25,   /* bytes of the longest specification file */
    MAXELTU_MAX_CYCLE_FILE = 2562, /* bytes of the longest cycle file: 2 + 512 * 5; a dated one has 2 more */
    MAXELTU_METER_PLACES = 1024,  /* reports that a meter can hold */
    MAXELTU_TABLE_NUMBERS = 28    /* numbers of a week table: 7 days, 2 windows, opening and closing */
};

/* The kinds of a plan, for the calls that take one. */
enum maxeltu_kind {
    MAXELTU_WELL_FORMED = 0,      /* what maxeltu_min_demand, _max_supply and _test hand back */
    MAXELTU_EVEN = 1              /* what maxeltu_even_plan, _box_plan and _tolerant_plan hand back */
};

/*
 * One report of a cycle: its size in records, and the gap in minutes from it to
 * the next report (from the last pair, to the first report of the next round).
 */
struct maxeltu_pair {
    uint16_t gap;
    uint16_t size;
};

/*
 * A budget meter, kept by the box: it takes offers of reports one by one, and
 * refuses those with which some R minutes would hold more than B records.
 * maxeltu_make_meter makes one, and maxeltu_offer changes it.
 *
 * The fields are the library's. The layout is fixed: 6164 bytes with alignment
 * 4, no padding, each field at the offset beside it. The reports that are held
 * are the last of the accepted ones; of these report i, from the oldest on,
 * stands at place (first + i) % 1024 of both arrays.
 *
 * A struct that is copied byte for byte is a meter of the same state, so a box
 * may keep it over a restart. One that was never made, or was overwritten, is
 * safe to offer to: nothing outside it and `left` is read or written, and the
 * answer is one of those below; but the answers mean nothing.
 */
struct maxeltu_meter {
    uint16_t dmin, dmax;          /*  0,  2: the sizes that are allowed */
    uint16_t smin;                /*  4: the least gap, that of the first range */
    uint16_t budget;              /*  6: B; with no supply rate 20,000 */
    uint16_t window;              /*  8: R; with no supply rate 0 */
    uint16_t records;             /* 10: the records of the reports that are held */
    uint16_t first;               /* 12: the place of the oldest of them */
    uint16_t count;               /* 14: how many are held */
    uint32_t last;                /* 16: the last accepted minute */
    uint32_t minutes[MAXELTU_METER_PLACES]; /* 20 */
    uint16_t sizes[MAXELTU_METER_PLACES];   /* 4116 */
};

/*
 * The loader's call: reads a specification file and a cycle file and checks the
 * cycle against the specification, over its endless repetition.
 *
 * Answers 0 where the cycle obeys the specification; 1 to 4 or 24 for the
 * specification; then for the cycle file, as maxeltu_read_cycle does with 512
 * places: 18 where it has under 2 bytes, 12, then pair by pair 18, 17, 18, 19,
 * last 21 where bytes are left over; then 13 to 16, as maxeltu_check_cycle does.
 * Writes nothing.
 */
uint32_t maxeltu_verdict(const uint8_t *spec, size_t spec_len,
                         const uint8_t *cycle, size_t cycle_len);

/*
 * Whether the specification is consistent. The conditions, of which a part that
 * names an absent value is not applied:
 *   3  dmax <= B, smax <= P, P <= Tmin
 *   4  dmin * ceil(R / smax) <= B
 *   5  ceil(L / dmax) <= floor(P / smin)
 *   6  B * P >= L * R
 * R minutes that begin with a report hold ceil(R / smax) reports or more, so that
 * no schedule at all obeys a specification that fails condition 4.
 *
 * Answers 0 where it is; 1 to 4 or 24; 25 where there is a second range of gaps;
 * 7 where it is not.
 * Writes *condition, the first condition that fails (3 to 6; these are not
 * refusal numbers), only where the answer is 7.
 */
uint32_t maxeltu_consistency(const uint8_t *spec, size_t spec_len,
                             uint32_t *condition);

/*
 * The minimum demand schedule with k reports in a period, a plan of the
 * well-formed kind. It exists when k * smin <= P and k * dmax >= L.
 *
 * Answers 0; 1 to 4 or 24; 25 where there is a second range of gaps; 5 where a
 * rate is absent; 6 where it does not exist (any k may be asked for, 0 too).
 * Writes *period, the smaller of k * smax and P (minutes); *total, the larger of
 * k * dmin and L (records); *required, the records that minutes 0 to R - 1 hold.
 */
uint32_t maxeltu_min_demand(const uint8_t *spec, size_t spec_len, uint32_t k,
                            uint32_t *period, uint32_t *total,
                            uint32_t *required);

/*
 * The maximum supply schedule with k reports in a period, a plan of the
 * well-formed kind. It exists when k * smax >= R and k * dmin <= B.
 *
 * Answers 0; 1 to 4 or 24; 25 where there is a second range of gaps; 5 where a
 * rate is absent; 6 where it does not exist (any k may be asked for, 0 too).
 * Writes *period, the larger of k * smin and R (minutes); *total, the smaller of
 * k * dmax and B (records); *available, the least that any stretch of P minutes
 * holds.
 */
uint32_t maxeltu_max_supply(const uint8_t *spec, size_t spec_len, uint32_t k,
                            uint32_t *period, uint32_t *total,
                            uint32_t *available);

/*
 * The test. If R >= P it takes the minimum demand schedule with the least
 * required supply over all k, which passes if that is at most B; otherwise the
 * maximum supply schedule with the greatest available supply, which passes if
 * that is at least L. Where several are equal it takes the smallest k.
 *
 * Answers 0 where the schedule taken passes: then its endless run obeys the
 * specification. 1 to 4 or 24; 25 where there is a second range of gaps; 5 where
 * a rate is absent; 7 where the specification is inconsistent; 9 where the
 * schedule taken does not pass. There is always one to take: a consistent
 * specification with both rates has a schedule with some k.
 * Writes *condition, the condition that fails first, only where the answer is 7;
 * and only where it is 0 *k, *period and *total, the plan (of the well-formed
 * kind), and *supply, its required or available supply.
 */
uint32_t maxeltu_test(const uint8_t *spec, size_t spec_len,
                      uint32_t *condition, uint32_t *k, uint32_t *period,
                      uint32_t *total, uint32_t *supply);

/*
 * The even plan: a schedule whose gaps are all the same, as large as the ranges
 * and the rules allow: of the second range if one of its gaps will do, else of
 * the first. Consistency is not asked for.
 *
 * Answers 0; 1 to 4 or 24; 10 where none exists: no gap of either range has any
 * endless list of sizes that obeys the rules.
 * Writes *k, *period and *total, a plan of the even kind. Its gap is
 * *period / *k minutes.
 *
 * It sends least: any *k of its reports in a row hold *total records, and in no
 * list of sizes that obeys the rules at this gap do j * *k reports in a row hold
 * fewer than j * *total, unless report 0 is among them. At every longer gap each
 * list of sizes breaks a rule.
 */
uint32_t maxeltu_even_plan(const uint8_t *spec, size_t spec_len,
                           uint32_t *k, uint32_t *period, uint32_t *total);

/*
 * The box plan: a plan with one gap throughout that a box can load, as a cycle of
 * at most MAXELTU_MAX_PAIRS pairs. (With a demand rate an even plan has as many
 * reports in a period as P minutes have at least, up to 20,160.) Each report may
 * arrive up to `lateness` minutes late, as for maxeltu_check_late; 0 is on time.
 *
 * Answers 0; 1 to 4 or 24; 26 where the lateness is above MAXELTU_MAX_LATENESS; 30
 * where maxeltu_check_late refuses every cycle of 1 to 512 pairs that has one gap
 * throughout. Where maxeltu_even_plan gives 10 this gives 30 for every such lateness.
 * Writes *k (at most 512), *period and *total, a plan of the even kind. Its gap is
 * *period / *k minutes.
 *
 * Written out by maxeltu_write_plan it is a cycle of *k pairs that gets 0 from
 * maxeltu_check_late with this lateness, and from maxeltu_verdict. Of all cycles with
 * one gap throughout that get 0 for this lateness none has a longer gap, none with
 * this gap has fewer pairs, and none with this gap and as many pairs has fewer
 * records in a round. At most 284 gaps of each range are tried, each by a few
 * operations; only where some endless list of sizes obeys are counts of pairs tried
 * too, up to 512.
 *
 * From a specification to a checked cycle file:
 *
 *     uint8_t file[MAXELTU_MAX_CYCLE_FILE];
 *     uint32_t k, period, total, length;
 *     if (maxeltu_box_plan(spec, spec_length, 0, &k, &period, &total) == 0 &&
 *         maxeltu_write_plan(MAXELTU_EVEN, k, period, total, file, sizeof file, &length) == 0 &&
 *         maxeltu_verdict(spec, spec_length, file, length) == 0)
 *         load(file, length);
 */
uint32_t maxeltu_box_plan(const uint8_t *spec, size_t spec_len,
                          uint32_t lateness, uint32_t *k, uint32_t *period,
                          uint32_t *total);

/*
 * The most tolerant plan: the largest lateness, up to MAXELTU_MAX_LATENESS, for which
 * there is a box plan, and the box plan for it.
 *
 * Answers 0; 1 to 4 or 24; 30 where there is no box plan for reports that are on time.
 * Writes *lateness, and *k, *period and *total as maxeltu_box_plan does for it, a plan
 * of the even kind.
 *
 * No cycle of 1 to MAXELTU_MAX_PAIRS pairs with one gap throughout gets 0 from
 * maxeltu_check_late for a greater lateness. Of the cycle of this plan (written out
 * by maxeltu_write_plan and read by maxeltu_read_cycle) maxeltu_tolerance tells this
 * lateness. At most 11 box plans are looked for.
 */
uint32_t maxeltu_tolerant_plan(const uint8_t *spec, size_t spec_len,
                               uint32_t *lateness, uint32_t *k,
                               uint32_t *period, uint32_t *total);

/*
 * Minute and size of report i of a plan's endless run (reports count from 0;
 * report 0 is at minute 0). Any i may be asked for.
 *
 * `kind` is an enum maxeltu_kind. A plan is proper when 1 <= k <= 20160,
 * k <= period <= 20160 * k and k <= total <= 1000 * k, and for the even kind k
 * divides the period. A plan of any other kind is not proper.
 *
 * Well-formed: the first total % k sizes of a period are one record larger than
 * the rest, its last period % k gaps one minute longer. Even: all gaps are
 * period / k, and the larger sizes are spread over the period, from report 0 on:
 * n reports in a row hold n * total / k records, rounded down or up, and the
 * first n hold it rounded up. Of either kind no report is larger than report 0.
 *
 * Answers 0; 11 where the plan is not proper.
 * Writes *minute and *size.
 */
uint32_t maxeltu_report(uint32_t kind, uint32_t k, uint32_t period,
                        uint32_t total, uint32_t i,
                        uint64_t *minute, uint32_t *size);

/*
 * From a minute back to the report. A plan is handed in as for maxeltu_report;
 * any minute may be asked for, and the answer takes a few divisions, however
 * many reports lie before it.
 *
 * maxeltu_last_report: the last report at or before the minute, the greatest
 * number whose minute is at most this one. (Report 0 is at minute 0, so there
 * always is one.)
 * maxeltu_nearest_report: the report whose minute is nearest, the earlier of two
 * that are equally near. It may lie after the minute, and past minute 2^32 - 1.
 * The minute that maxeltu_report hands back for report i, where it is below
 * 2^32, gives i again in both.
 *
 * Answer 0; 11 where the plan is not proper.
 * Write *number, which is never above the minute.
 */
uint32_t maxeltu_last_report(uint32_t kind, uint32_t k, uint32_t period,
                             uint32_t total, uint32_t minute,
                             uint32_t *number);
uint32_t maxeltu_nearest_report(uint32_t kind, uint32_t k, uint32_t period,
                                uint32_t total, uint32_t minute,
                                uint32_t *number);

/*
 * How many reports of a plan, and how many records, lie from minute a up to but
 * not including minute b. A plan is handed in as for maxeltu_report. From a to b
 * and from b to c add up to from a to c.
 *
 * Answers 0; 11 where the plan is not proper; 23 where b is before a (where they
 * are equal, both counts are 0).
 * Writes *reports and *records.
 */
uint32_t maxeltu_between(uint32_t kind, uint32_t k, uint32_t period,
                         uint32_t total, uint32_t a, uint32_t b,
                         uint32_t *reports, uint64_t *records);

/*
 * What the first `reports` reports of a plan cost. A plan is handed in as for
 * maxeltu_report; any number of reports may be asked for, and the answer takes a
 * few divisions.
 *
 * The carrier prices each report by the first band that its size does not
 * exceed. Bands: 1, 2, 4, 8, 16, 32, 64, 125, 250, 500, 1000 records. Prices in
 * tenths of a cent: 3, 5, 8, 14, 25, 46, 85, 150, 280, 530, 1000. No report of a
 * proper plan, nor of a cycle that is passed, is larger than the last band.
 *
 * Answers 0; 11 where the plan is not proper.
 * Writes *tenths, the sum of their prices in tenths of a cent, and *cents, the
 * bill in whole cents, rounded once, at the end, half a cent up.
 */
uint32_t maxeltu_plan_cost(uint32_t kind, uint32_t k, uint32_t period,
                           uint32_t total, uint32_t reports,
                           uint64_t *tenths, uint64_t *cents);

/*
 * Checks a cycle of `count` pairs against the specification, over its endless
 * repetition.
 *
 * Answers 0 where it obeys; 1 to 4 or 24; 12 where count is 0 or above 512; 13
 * where some gap is in neither range; 14 where some size is out of range; 15
 * where some stretch of R minutes is too full; 16 where some stretch of P minutes
 * is too thin.
 * Reads `count` pairs; of more than 512, none. Writes nothing.
 */
uint32_t maxeltu_check_cycle(const uint8_t *spec, size_t spec_len,
                             const struct maxeltu_pair *pairs, size_t count);

/*
 * Checks a cycle of `count` pairs whose reports may arrive late: each by a number
 * of minutes of its own, from 0 to `lateness`, report 0 too. The rules are asked of
 * the minutes at which reports arrive, for every choice of these delays.
 *
 * Answers 0 where the cycle obeys however its reports are delayed; 1 to 4 or 24;
 * 26 where lateness is above 1440; 12 where count is 0 or above 512; 13 where some
 * delays make a gap that is in neither range: of the gaps from `lateness` less to
 * `lateness` more than some pair's, one is not allowed, or the pair's is not above
 * `lateness`; 14 where some size is out of range; 15 where with some delays some
 * stretch of R minutes is too full; 16 where with some delays some stretch of P
 * minutes is too thin (where P <= lateness it can be empty).
 * With lateness 0 the answer is that of maxeltu_check_cycle. A cycle that obeys for
 * some lateness obeys for every smaller one.
 * Reads `count` pairs; of more than 512, none. Writes nothing.
 */
uint32_t maxeltu_check_late(const uint8_t *spec, size_t spec_len,
                            const struct maxeltu_pair *pairs, size_t count,
                            uint32_t lateness);

/*
 * Checks a cycle as maxeltu_check_cycle does and, where that answers 15 or 16, finds
 * the least that shows it: the shortest stretch to send back. Reports are numbered
 * over the endless repetition, from 0: report i is that of pair i % count.
 *
 * For 15: the fewest reports in a row of which the first and the last are less than
 * R minutes apart and which hold more than B. They are the reports *first to
 * *first + *reports - 1.
 * For 16: the fewest reports that lie between two reports more than P minutes apart
 * and hold less than L. The first of the two is report *first; between them lie the
 * reports *first + 1 to *first + *reports, none where *reports is 0.
 * Wherever else in the endless repetition reports show it, they are as many or more;
 * of those that are as many, these have the lowest number. *first is below count;
 * *reports may be above it, at most 20,001.
 *
 * Answers what maxeltu_check_cycle does.
 * Reads `count` pairs; of more than 512, none. Looks at each pair a fixed number of
 * times at most.
 * Writes *first and *reports, only where the answer is 15 or 16.
 */
uint32_t maxeltu_shortest_stretch(const uint8_t *spec, size_t spec_len,
                                  const struct maxeltu_pair *pairs, size_t count,
                                  uint32_t *first, uint32_t *reports);

/*
 * How close a cycle comes to its limits, with reports that are on time: the most records
 * that any R minutes of its endless repetition hold and the least that any P minutes
 * hold, at whatever minute they start.
 *
 * *most is what the R minutes from report *most_from on hold, the report's own minute
 * the first of them; *least is what the P minutes hold that begin with the minute just
 * after report *least_after. Report i, counted from 0, is that of pairs[i]: both numbers
 * are below count, and of the reports of which this is so they are the lowest.
 * Where there is a supply rate, maxeltu_check_cycle gives 15 exactly where *most is above
 * B; where there is a demand rate and it does not give 15, 16 exactly where *least is
 * below L.
 *
 * Answers 0; 1 to 4 or 24; 12, 13 or 14 as maxeltu_check_cycle does. 15 and 16 are not
 * given here.
 * Reads `count` pairs; of more than 512, none. Looks at each pair a fixed number of
 * times at most.
 * Writes *most and *most_from only where the specification has a supply rate, *least
 * and *least_after only where it has a demand rate: set them before the call, where a
 * rate may be absent.
 */
uint32_t maxeltu_margins(const uint8_t *spec, size_t spec_len,
                         const struct maxeltu_pair *pairs, size_t count,
                         uint64_t *most, uint32_t *most_from, uint64_t *least,
                         uint32_t *least_after);

/*
 * How late the reports of a cycle may be: the largest lateness, up to
 * MAXELTU_MAX_LATENESS, for which maxeltu_check_late gives 0. It gives 0 for every
 * smaller one too, and for no greater one.
 *
 * Answers 0; what maxeltu_check_cycle answers, where that is not 0. A cycle that is
 * passed on time alone has 0, which is no refusal.
 * Reads `count` pairs; of more than 512, none. The cycle is checked at most 11 times.
 * Writes *lateness.
 */
uint32_t maxeltu_tolerance(const uint8_t *spec, size_t spec_len,
                           const struct maxeltu_pair *pairs, size_t count,
                           uint32_t *lateness);

/*
 * What the first `reports` reports of a cycle's endless repetition cost, by the
 * same prices. The cycle is checked first; its whole rounds are a product, so that
 * the work does not grow with the number of reports.
 *
 * Answers 0; 1 to 4 or 24, 12 and 13 to 16, as maxeltu_check_cycle does.
 * Reads `count` pairs; of more than 512, none.
 * Writes *tenths and *cents, as maxeltu_plan_cost does.
 */
uint32_t maxeltu_cycle_cost(const uint8_t *spec, size_t spec_len,
                            const struct maxeltu_pair *pairs, size_t count,
                            uint32_t reports,
                            uint64_t *tenths, uint64_t *cents);

/*
 * The normal form of a cycle of `count` pairs: the shortest list whose endless
 * repetition is the cycle's, turned so that it comes first in the order by gap,
 * then size, pair by pair. Gaps and sizes may be any 16-bit numbers, 0 too.
 *
 * Two cycles have equal normal forms, as many pairs and each the same, exactly when
 * the endless repetition of one, begun at some report, is that of the other: so a
 * cycle that starts at another pair, or is written out twice, has the same. The
 * normal form of a normal form is itself, and every check gives a cycle and its
 * normal form the same answer, with every lateness.
 *
 * Answers 0; 12 where count is 0 or above 512; 20 where `places` are fewer than
 * the pairs of the normal form (as many places as the cycle has pairs are always
 * enough).
 * Reads `count` pairs; of more than 512, none.
 * Writes the normal form to the first *normal_count places, and *normal_count.
 * Places past it keep their contents; so do all places where the answer is not 0.
 */
uint32_t maxeltu_normal_form(const struct maxeltu_pair *pairs, size_t count,
                             struct maxeltu_pair *normal, size_t places,
                             uint32_t *normal_count);

/*
 * Reads a cycle file into a lent list of `places` pairs.
 *
 * Answers 0; 18 where the file has under 2 bytes; 12 where its count is 0 or
 * above 512; 20 where places are fewer than the count; then pair by pair 18 no
 * map byte, 17 a bad map, 18 a field that is cut, 19 a field that should be left
 * out; last 21 where bytes are left over.
 * So a file that reads with 0 gets 18 wherever it is cut off, and 21 with any
 * bytes behind it; a file with a wrong pair keeps that pair's number with them.
 * Writes the pairs to the first *count places, and *count. Places past the
 * count keep their contents; so do all places where the answer is not 0.
 */
uint32_t maxeltu_read_cycle(const uint8_t *file, size_t file_len,
                            struct maxeltu_pair *pairs, size_t places,
                            uint32_t *count);

/*
 * Writes the file of a cycle of `count` pairs into `room` lent bytes. Gaps and
 * sizes may be any 16-bit numbers.
 *
 * Answers 0; 12 where count is 0 or above 512; 20 where room is less than the
 * file's length (MAXELTU_MAX_CYCLE_FILE bytes are always enough).
 * Reads `count` pairs; of more than 512, none.
 * Writes the file to the first *written bytes, and *written. Bytes past the
 * file keep their contents; so do all bytes where the answer is not 0.
 */
uint32_t maxeltu_write_cycle(const struct maxeltu_pair *pairs, size_t count,
                             uint8_t *file, size_t room, uint32_t *written);

/*
 * Writes a plan out as a cycle, into the file's `room` lent bytes: its k reports as
 * pairs, each with its size and the gap to the next. A plan is handed in as for
 * maxeltu_report, of either kind. Report by report the endless repetition of that
 * cycle is the plan, so that maxeltu_verdict gives 0 exactly where the plan obeys:
 * so it is with the box plan, and with every even plan and every plan that the test
 * passed which has at most 512 reports in a period.
 *
 * Answers 0; 11 where the plan is not proper; 12 where k is above 512; 20 where room
 * is less than the file's length (MAXELTU_MAX_CYCLE_FILE bytes are always enough).
 * Writes the file to the first *written bytes, and *written. Bytes past the file keep
 * their contents; so do all bytes where the answer is not 0.
 */
uint32_t maxeltu_write_plan(uint32_t kind, uint32_t k, uint32_t period,
                            uint32_t total, uint8_t *file, size_t room,
                            uint32_t *written);

/*
 * Which of two dated cycle files is in force. A file that cannot be read, as
 * maxeltu_read_cycle reads its cycle part into 512 places, gives way to one that
 * can. Of two that can be read the one with the later issue day is in force; of
 * equal files, day and all, the first.
 *
 * Answers 0; where neither can be read, what reading the first gives: 18 where it
 * has no whole issue day, else 12, 17 to 19 or 21, as maxeltu_read_cycle; 29 where
 * both can be read and have the same issue day, but differ.
 * Handed in the other way round the same file is told, or the same number, unless
 * the two are equal or neither can be read.
 * Reads each file once, and once more only two that can be read and have the same
 * day. Stores no pair.
 * Writes *which: 1 for the first, 2 for the second.
 */
uint32_t maxeltu_in_force(const uint8_t *first, size_t first_len,
                          const uint8_t *second, size_t second_len,
                          uint32_t *which);

/* A caller's bytes: where they begin, and how many there are. */
struct maxeltu_bytes {
    const uint8_t *at;
    size_t length;
};

/*
 * The cycle part of the file in force: the bytes of that file itself, past its
 * issue day, which maxeltu_read_cycle and maxeltu_verdict take. No byte is copied,
 * so they last as long as the file that was handed in. Where maxeltu_in_force does
 * not answer 0 there are none (length 0, where the first file begins), and only
 * there: a cycle file has bytes.
 * This is no call of the library, which can hand no bytes back to C, but written
 * here over maxeltu_in_force. It takes C99 or later, or C++.
 */
static inline struct maxeltu_bytes
maxeltu_part_in_force(const uint8_t *first, size_t first_len,
                      const uint8_t *second, size_t second_len)
{
    struct maxeltu_bytes part = { first, 0 };
    uint32_t which = 0;
    if (maxeltu_in_force(first, first_len, second, second_len, &which) == MAXELTU_OK) {
        part.at = (which == 1 ? first : second) + 2;
        part.length = (which == 1 ? first_len : second_len) - 2;
    }
    return part;
}

/*
 * Makes a meter for a specification, which has accepted nothing yet. Of the
 * specification it keeps dmin, dmax, smin (the first range's), B and R.
 *
 * Answers 0; 1 to 4 or 24.
 * Writes all of *meter: records, first, count, last and both arrays are 0. Where
 * the answer is not 0, *meter keeps every byte.
 */
uint32_t maxeltu_make_meter(const uint8_t *spec, size_t spec_len,
                            struct maxeltu_meter *meter);

/*
 * Offers a report of `size` records at this minute to a meter. The R minutes
 * that end with minute t are those above t - R and up to t (from 0 on where t is
 * below R).
 *
 * Answers 0 where the offer is accepted; 13 where something has been accepted
 * and the minute is before the last accepted one plus smin (this sum may pass
 * 2^32 - 1: then everything is too early); 14 where the size is out of dmin to
 * dmax; 15 where the accepted records of the R minutes that end with this one,
 * plus the size, exceed B; 22 where 1,024 accepted reports already lie in those
 * R minutes, and the meter cannot hold more. With no supply rate it answers
 * neither 15 nor 22.
 * A clock that was set back gets 13. Only accepted minutes count for that: before
 * anything is accepted, a minute may come before one that was offered earlier.
 * smax and the second range are not applied: a gap may be any that is not shorter
 * than smin.
 * Writes *meter only where the answer is 0. Writes *left, whatever the answer:
 * the budget left, B less the accepted records of the R minutes that end with
 * the later of the offered and the last accepted minute (with the offered one
 * while nothing has been accepted). With no supply rate *left keeps what it held.
 */
uint32_t maxeltu_offer(struct maxeltu_meter *meter, uint32_t minute,
                       uint32_t size, uint32_t *left);

/*
 * Duty hours. A van rests, and its box counts only the minutes that a week table
 * opens: these are the duty minutes, numbered in order from 0.
 *
 * A week table is MAXELTU_TABLE_NUMBERS numbers, day by day from Monday, each day
 * with two windows: opening, closing, opening, closing, in minutes of the day from
 * 0 to 1440. The opening minute is open, the closing one is not. Both 0 means no
 * window; otherwise the opening is before the closing. A second window, where there
 * is one, opens no earlier than the first pair's closing minute: windows may touch,
 * and a day may have its second window alone. Calendar minute 0 is Monday's start,
 * and the table repeats every 10080 minutes. Numbers of any other count are no week
 * table, and none of them is read.
 *
 * maxeltu_week_table: whether the numbers are such a table, which opens a minute.
 * Answers 0; 27 where they are not. Writes nothing.
 *
 * maxeltu_calendar_minute: the calendar minute of a duty minute, the open minute
 * that so many open ones come before. Any duty minute may be asked for.
 * Answers 0; 27. Writes *calendar, which may pass 2^32 - 1.
 *
 * maxeltu_duty_minute: the duty minute of an open calendar minute, the number of
 * open minutes that come before it. Any calendar minute may be asked for.
 * Answers 0; 27; 28 where the minute is closed. Writes *duty, which is never above
 * the calendar minute.
 *
 * Either undoes the other, where both minutes are below 2^32. A later duty minute is
 * a later calendar minute, at least as many minutes later. Both take a few divisions
 * and look at each window of the week a fixed number of times at most, whatever the
 * minute.
 *
 * A plan that maxeltu_test or maxeltu_even_plan hands back can be run on duty
 * minutes: report i at the calendar minute of the minute that maxeltu_report tells
 * (where that is below 2^32). Then any R calendar minutes hold at most B records,
 * wherever they begin, and reports are at least smin calendar minutes apart; L, P and
 * smax are kept in duty minutes. So it is with every cycle that maxeltu_check_cycle
 * passes.
 */
uint32_t maxeltu_week_table(const uint16_t *table, size_t numbers);
uint32_t maxeltu_calendar_minute(const uint16_t *table, size_t numbers,
                                 uint32_t duty, uint64_t *calendar);
uint32_t maxeltu_duty_minute(const uint16_t *table, size_t numbers,
                             uint32_t calendar, uint32_t *duty);

#ifdef __cplusplus
}
#endif

#endif
