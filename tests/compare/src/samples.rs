//! The samples of document 01, starred or not, through the library and through the reference, and the files in samples/. The sizes of
//! even plans are those of document 02, Req 02, the meter is that of Req 03, the van of two shifts that of Req 06, the prices are those
//! of Req 08, the reports that arrive late those of Req 09, the first report that may be thinner that of Req 10, the week table is that of
//! Req 11, the normal forms are those of Req 12, the dated files those of Req 13, and the shortest stretches those of Req 14; the box plans,
//! and the leeway of cycles, are worked out from their own requests.

use crate::checks::{self, both_rates, demand_only, pairs_of, supply_only, with_second, Checks, Offer};
use crate::dated::dated;
use crate::group::Runner;
use reference::feasibility::Failure::{Inconsistent, Refused};
use reference::{cycle, even, file, schedule, spec, Pair, Plan, Spec};

/// Samples A, B and F with this budget.
fn a_with(b: u64) -> Spec {
    both_rates((3, 10), (45, 55), (b, 220), (17, 158))
}

fn b_with(b: u64) -> Spec {
    both_rates((2, 3), (5, 5), (b, 26), (10, 20))
}

fn f_with(b: u64) -> Spec {
    both_rates((5, 5), (4, 4), (b, 10), (5, 20))
}

/// The van of samples/shift.spec and samples/touching.spec, before it has a second range of gaps.
fn one_shift() -> Spec {
    both_rates((1, 10), (5, 15), (22, 60), (8, 90))
}

/// The fleet of samples/least.spec.
pub fn thin_start() -> Spec {
    demand_only((1, 3), (5, 5), (3, 7))
}

/// The pairs of samples/shift-good.cycle, of samples/shift-turned.cycle, begun at the fourth of them and twice, and of
/// samples/shift-between.cycle.
const SHIFT_GOOD: [(u16, u16); 5] = [(15, 5), (15, 5), (5, 4), (90, 8), (60, 8)];
const SHIFT_TURNED: [(u16, u16); 10] = [(90, 8), (60, 8), (15, 5), (15, 5), (5, 4), (90, 8), (60, 8), (15, 5), (15, 5), (5, 4)];
const SHIFT_BETWEEN: [(u16, u16); 3] = [(15, 8), (30, 4), (90, 8)];

/// The first reports of a plan, by minute and size.
fn reports(checks: &mut Checks, name: &str, plan: Plan, wanted: &[(u64, u64)]) {
    for (i, &report) in (0..).zip(wanted) {
        checks.report(name, plan, i, Ok(report));
    }
}

pub fn all(runner: &mut Runner) {
    checks::group(runner, "samples of documents 01 and 02", |checks| {
        sample_a(checks);
        sample_b(checks);
        samples_c_d_e(checks);
        sample_f(checks);
        two_shifts(checks);
        least_sent(checks);
    });
    checks::group(runner, "samples of plans, from a minute back to the report", minutes);
    checks::group(runner, "samples of plans and cycles, what they cost", costs);
    checks::group(runner, "samples of cycles with late reports", late);
    checks::group(runner, "samples of cycles, the shortest stretch to send back", shortest_stretches);
    checks::group(runner, "samples of cycles, their margins and tolerances", leeway);
    checks::group(runner, "samples of specifications, their box plans and the most tolerant", box_plans);
    checks::group(runner, "samples of meters", meters);
    checks::group(runner, "sample of a week table", duty_hours);
    checks::group(runner, "samples of cycles, their normal forms", normal_forms);
    checks::group(runner, "samples of dated files, which of two is in force", dated_files);
}

/// Samples A and B with 15, by the reports that document 01 names and the sizes of document 02, Req 02.
fn minutes(checks: &mut Checks) {
    let (a, a_even, b15) = (checks::well(3, 158, 17), checks::even(3, 156, 17), checks::even(4, 20, 10));
    // Minutes 0, 52, 105, 158, 210: of 26 and 184, both neighbours are 26 minutes away.
    for (minute, wanted) in [
        (0, (0, 0)),
        (26, (0, 0)),
        (27, (0, 1)),
        (51, (0, 1)),
        (52, (1, 1)),
        (78, (1, 1)),
        (79, (1, 2)),
        (104, (1, 2)),
        (105, (2, 2)),
        (131, (2, 2)),
        (132, (2, 3)),
        (157, (2, 3)),
        (158, (3, 3)),
        (184, (3, 3)),
        (185, (3, 4)),
    ] {
        checks.minute("A", a, minute, wanted);
    }
    for (minute, wanted) in [(103, (1, 2)), (104, (2, 2)), (130, (2, 2)), (131, (2, 3)), (156, (3, 3))] {
        checks.minute("A, even", a_even, minute, wanted);
    }
    for (minute, wanted) in [(2, (0, 0)), (3, (0, 1)), (4, (0, 1)), (5, (1, 1)), (22, (4, 4)), (23, (4, 5))] {
        checks.minute("B with 15, even", b15, minute, wanted);
    }
    // Sizes 6, 6, 5.
    for (minutes, wanted) in [
        ((0, 52), (1, 6)),
        ((0, 53), (2, 12)),
        ((1, 52), (0, 0)),
        ((52, 158), (2, 11)),
        ((52, 159), (3, 17)),
        ((53, 158), (1, 5)),
        ((0, 158), (3, 17)),
        ((105, 263), (3, 17)),
        ((105, 264), (4, 22)),
    ] {
        checks.between("A", a, minutes, Ok(wanted));
    }
    checks.between("A", a, (53, 52), Err(23));
    // Sizes 3, 2, 3, 2.
    for (minutes, wanted) in [((0, 5), (1, 3)), ((5, 10), (1, 2)), ((5, 20), (3, 7)), ((1, 21), (4, 10)), ((15, 25), (2, 5))] {
        checks.between("B with 15, even", b15, minutes, Ok(wanted));
    }
}

/// Samples A, B, D, E and F with B 15, and the van of one shift and of two: what none of their reports costs, the first, the first
/// two and so on, in tenths and in cents.
fn costs(checks: &mut Checks) {
    let plans: [(&str, Plan, &[(u64, u64)]); 9] = [
        // Sizes 3, 2, 3, 2: "four reports: 26 tenths, 3 cents".
        ("B with 15, even", checks::even(4, 20, 10), &[(0, 0), (8, 1), (13, 1), (21, 2), (26, 3), (34, 3), (39, 4)]),
        ("B", checks::well(4, 20, 10), &[(0, 0), (8, 1), (16, 2), (21, 2), (26, 3), (34, 3), (42, 4)]),
        ("A", checks::well(3, 158, 17), &[(0, 0), (14, 1), (28, 3), (42, 4), (56, 6)]),
        ("A, even", checks::even(3, 156, 17), &[(0, 0), (14, 1), (28, 3), (42, 4), (56, 6)]),
        ("D", checks::well(2, 79, 10), &[(0, 0), (14, 1), (28, 3), (42, 4)]),
        ("E", checks::well(1, 79, 10), &[(0, 0), (25, 3), (50, 5), (75, 8)]),
        ("F with B 15", checks::well(3, 12, 15), &[(0, 0), (14, 1), (28, 3), (42, 4), (56, 6)]),
        ("two shifts", checks::even(1, 90, 8), &[(0, 0), (14, 1), (28, 3)]),
        // Sizes 2, 1, 1, 2, 1, 1.
        ("one shift", checks::even(6, 90, 8), &[(0, 0), (5, 1), (8, 1), (11, 1), (16, 2), (19, 2), (22, 2), (27, 3)]),
    ];
    for (name, plan, wanted) in plans {
        for (reports, &wanted) in (0..).zip(wanted) {
            checks.plan_cost(name, plan, reports, wanted);
        }
    }
    let [shift, touching] = [60, 16].map(|lower| with_second(&one_shift(), (lower, 90)));
    let cycles: [(&str, Spec, &[(u16, u16)], &[(u64, u64)]); 5] = [
        ("G", b_with(15), &[(5, 3), (5, 2)], &[(0, 0), (8, 1), (13, 1), (21, 2), (26, 3), (34, 3), (39, 4)]),
        ("A", a_with(29), &[(52, 6), (53, 6), (53, 5)], &[(0, 0), (14, 1), (28, 3), (42, 4), (56, 6)]),
        ("F with B 15", f_with(15), &[(4, 5)], &[(0, 0), (14, 1), (28, 3)]),
        ("two shifts", shift, &SHIFT_GOOD, &[(0, 0), (14, 1), (28, 3), (36, 4), (50, 5), (64, 6), (78, 8)]),
        ("ranges that touch", touching, &SHIFT_BETWEEN, &[(0, 0), (14, 1), (22, 2), (36, 4), (50, 5)]),
    ];
    for (name, spec, pairs, wanted) in cycles {
        for (reports, &wanted) in (0..).zip(wanted) {
            checks.cycle_cost(name, &spec, pairs, reports, wanted);
        }
    }
}

/// The cycles of samples/late-*.cycle, and others, against their specifications: the answer for each lateness.
fn late(checks: &mut Checks) {
    let spec = both_rates((1, 2), (2, 6), (4, 6), (2, 8));
    checks.file("late.spec", &spec::write(&spec));
    for (name, pair) in [("late-good", (4, 2)), ("late-full", (3, 2)), ("late-thin", (4, 1)), ("late-shift", (15, 4))] {
        checks.file(&format!("{name}.cycle"), &file::write(&pairs_of(&[pair]), usize::MAX).expect(name));
    }
    let [shift, touching] = [60, 16].map(|lower| with_second(&one_shift(), (lower, 90)));
    // With 2 to 3 and 4 to 6 the gaps of `late.spec` are all allowed; with 1 to 3 and 5 to 6, 4 is not.
    let cut = with_second(&Spec { gap: (2, 3), ..spec.clone() }, (4, 6));
    let apart = with_second(&Spec { gap: (1, 3), ..spec.clone() }, (5, 6));
    let rows: [(&str, &Spec, &[(u16, u16)], &[(u32, u32)]); 11] = [
        ("late-good", &spec, &[(4, 2)], &[(0, 0), (1, 0), (2, 0), (3, 13), (4, 13), (1_440, 13), (1_441, 26)]),
        ("late-full", &spec, &[(3, 2)], &[(0, 0), (1, 15), (2, 13), (1_441, 26)]),
        ("late-thin", &spec, &[(4, 1)], &[(0, 0), (1, 16), (2, 16), (3, 13)]),
        ("two pairs", &spec, &[(3, 1), (5, 2)], &[(0, 0), (1, 16), (2, 13)]),
        ("late-good, ranges that touch", &cut, &[(4, 2)], &[(0, 0), (1, 0), (2, 0), (3, 13)]),
        ("late-full, ranges apart", &apart, &[(3, 2)], &[(0, 0), (1, 13), (2, 13)]),
        ("late-shift, ranges that touch", &touching, &[(15, 4)], &[(0, 0), (1, 0), (10, 0), (11, 13)]),
        ("late-shift", &shift, &[(15, 4)], &[(0, 0), (1, 13)]),
        ("A", &a_with(29), &[(52, 6), (53, 6), (53, 5)], &[(0, 0), (1, 16), (2, 16), (3, 13)]),
        ("two shifts", &shift, &SHIFT_GOOD, &[(0, 0), (1, 13)]),
        ("no pair", &spec, &[], &[(0, 12), (1_440, 12), (1_441, 26)]),
    ];
    for (name, spec, pairs, wanted) in rows {
        for &(lateness, wanted) in wanted {
            checks.late(name, spec, pairs, lateness, wanted);
        }
    }
}

/// The cycles of samples/ against their specifications: the most and the least, each with its report, and the tolerance; or what the check gives.
fn leeway(checks: &mut Checks) {
    type Margins = [(u64, u64); 2];
    let rows: [(&str, &str, Margins, Result<u64, u32>); 19] = [
        ("a", "a-good", [(29, 0), (17, 0)], Ok(0)),
        ("a28", "a-good", [(29, 0), (17, 0)], Err(15)),
        // Six reports in 26 minutes, and four in 20.
        ("b15", "b15-good", [(15, 0), (10, 0)], Ok(0)),
        ("b15", "b15-full", [(16, 0), (10, 0)], Err(15)),
        ("b15", "b15-thin", [(14, 2), (9, 0)], Err(16)),
        // Reports at 0, 15, 30, 35 and 125 of 5, 5, 4, 8 and 8, in a round of 185 minutes; and from that at 35 on, twice.
        ("shift", "shift-good", [(22, 0), (8, 2)], Ok(0)),
        ("touching", "shift-good", [(22, 0), (8, 2)], Ok(0)),
        ("shift", "shift-turned", [(22, 2), (8, 0)], Ok(0)),
        ("touching", "shift-turned", [(22, 2), (8, 0)], Ok(0)),
        ("touching", "shift-between", [(20, 0), (8, 1)], Ok(0)),
        ("late", "late-good", [(4, 0), (4, 0)], Ok(2)),
        ("late", "late-full", [(4, 0), (4, 0)], Ok(0)),
        ("late", "late-thin", [(2, 0), (2, 0)], Ok(0)),
        ("shift", "late-shift", [(16, 0), (24, 0)], Ok(0)),
        ("touching", "late-shift", [(16, 0), (24, 0)], Ok(10)),
        ("apart", "apart-thin", [(9, 0), (0, 0)], Err(16)),
        ("day", "day-box", [(1_440, 0), (1_440, 0)], Ok(0)),
        // The same cycles beside others: margins are told where a rate is broken too.
        ("b14", "b15-good", [(15, 0), (10, 0)], Err(15)),
        ("b", "b15-full", [(16, 0), (10, 0)], Ok(0)),
    ];
    for (spec, cycle, [most, least], tolerance) in rows {
        let name = format!("{cycle}.cycle against {spec}.spec");
        let (spec, pairs) = (spec_in(&format!("{spec}.spec")), pairs_in(&format!("{cycle}.cycle")));
        checks.margins(&name, &spec, &pairs, Ok([Some(most), Some(least)]));
        checks.tolerance(&name, &spec, &pairs, tolerance);
    }
    for (spec, cycle, number) in [("b15", "b15-gap", 13), ("b15", "b15-size", 14), ("shift", "shift-between", 13)] {
        let (spec, pairs) = (spec_in(&format!("{spec}.spec")), pairs_in(&format!("{cycle}.cycle")));
        checks.margins(cycle, &spec, &pairs, Err(number));
        checks.tolerance(cycle, &spec, &pairs, Err(number));
    }
    // One rate alone.
    let (most, full) = (spec_in("most.spec"), pairs_in("most-full.cycle"));
    checks.margins("most-full.cycle", &most, &full, Ok([Some((20_160, 0)), None]));
    checks.tolerance("most-full.cycle", &most, &full, Err(15));
    let (least, thin) = (spec_in("least.spec"), [(5, 1), (5, 3)]);
    checks.margins("1 and 3 against least.spec", &least, &thin, Ok([None, Some((1, 1))]));
    checks.tolerance("1 and 3 against least.spec", &least, &thin, Err(16));
}

/// The specifications of samples/, for each lateness from 0 on: gap, pairs and records, or none. What follows the last is none, and the last
/// is the most tolerant.
fn box_plans(checks: &mut Checks) {
    let touching: Vec<[u64; 3]> = (0..=40).map(|lateness| [90 - lateness, 1, 8]).collect();
    let rows: [(&str, &[[u64; 3]]); 18] = [
        ("a", &[[52, 3, 17], [52, 3, 17], [52, 3, 17], [51, 3, 17], [51, 3, 17], [50, 3, 17]]),
        ("a28", &[]),
        ("b", &[[5, 2, 5]]),
        ("b15", &[[5, 2, 5]]),
        ("b14", &[]),
        ("c", &[]),
        ("d", &[]),
        ("e", &[[79, 1, 9]]),
        ("f", &[]),
        ("f15", &[[4, 1, 5]]),
        ("f-no-demand", &[]),
        ("shift", &touching[..16]),
        ("touching", &touching),
        ("late", &[[6, 1, 2], [5, 1, 2], [4, 1, 2]]),
        ("least", &[[5, 1, 3]]),
        ("most", &[]),
        ("apart", &[[3, 1, 1], [2, 1, 1]]),
        ("day", &[[2, 1, 2]]),
    ];
    for (name, wanted) in rows {
        let spec = spec_in(&format!("{name}.spec"));
        let last = wanted.last().map(|&[gap, pairs, records]| [wanted.len() as u64 - 1, gap, pairs, records]);
        checks.tolerant_plan(name, &spec, last.ok_or(30));
        for lateness in (0..=60).chain([719, 1_439, 1_440]) {
            checks.box_plan(name, &spec, lateness, wanted.get(lateness as usize).copied().ok_or(30));
        }
        for lateness in [1_441, u32::MAX] {
            checks.box_plan(name, &spec, lateness, Err(26));
        }
    }
    // An even plan of more pairs than a box takes.
    let day = both_rates((1, 4), (2, 2), (1_500, 1_440), (1_440, 1_440));
    checks.file("day.spec", &spec::write(&day));
    checks.even("day.spec", &day, Ok([2, 720, 1_440]));
    checks.file("day-box.cycle", &file::write(&pairs_of(&[(2, 2)]), usize::MAX).expect("day-box.cycle"));
    checks.cycle("day-box.cycle", &day, &[(2, 2)], 0);
}

/// Document 01, sample G, and the cycles of samples/ against the specifications there.
fn shortest_stretches(checks: &mut Checks) {
    let b15 = b_with(15);
    // Six reports of 16 records, 25 minutes apart; and four of 9, between two that are 25 minutes apart.
    checks.shortest("b15-full.cycle", &b15, &pairs_in("b15-full.cycle"), 15, [0, 6]);
    checks.shortest("b15-thin.cycle", &b15, &pairs_in("b15-thin.cycle"), 16, [0, 4]);
    // As many as a 15 can need, and none between two.
    let [most, apart] = [supply_only((1, 1), (1, 1), (20_000, 20_160)), both_rates((1, 9), (1, 9), (9, 1), (1, 3))];
    checks.file("most.spec", &spec::write(&most));
    checks.file("apart.spec", &spec::write(&apart));
    checks.shortest("most-full.cycle", &most, &pairs_in("most-full.cycle"), 15, [0, 20_001]);
    checks.shortest("apart-thin.cycle", &apart, &pairs_in("apart-thin.cycle"), 16, [0, 0]);
    for (name, number) in [("b15-good.cycle", 0), ("b15-gap.cycle", 13), ("b15-size.cycle", 14)] {
        checks.no_shortest(name, &b15, &pairs_in(name), number);
    }
    // Of the turns of the first the six begin at its first 3, which stands elsewhere; of the second the four have one 3.
    for (sizes, number, stretch) in [
        ([3, 2, 2, 3], 15, [3, 6]),
        ([2, 2, 3, 3], 15, [2, 6]),
        ([2, 3, 3, 2], 15, [1, 6]),
        ([2, 2, 3, 2], 16, [0, 4]),
        ([3, 2, 2, 2], 16, [0, 4]),
        ([2, 2, 2, 2], 16, [0, 4]),
        ([3, 3, 3, 3], 15, [0, 6]),
    ] {
        checks.shortest("sizes of sample G", &b15, &sizes.map(|size| (5, size)), number, stretch);
    }
    let shift = with_second(&one_shift(), (60, 90));
    let [full, thin] = [Spec { supply: Some((21, 60)), ..shift.clone() }, Spec { demand: Some((9, 90)), ..shift.clone() }];
    for (name, of_full, of_thin) in [("shift-good.cycle", [0, 4], [2, 1]), ("shift-turned.cycle", [2, 4], [0, 1])] {
        checks.no_shortest(name, &shift, &pairs_in(name), 0);
        checks.shortest(name, &full, &pairs_in(name), 15, of_full);
        checks.shortest(name, &thin, &pairs_in(name), 16, of_thin);
    }
}

fn meters(checks: &mut Checks) {
    let sound = ["a", "a28", "b", "b14", "b15", "c", "d", "e", "f", "f15", "f-no-demand", "shift", "touching", "late", "least"]
        .map(|name| (name, 0));
    let refused = [("bad-map", 1), ("empty", 1), ("bad-length", 2), ("bad-limits", 3), ("bad-order", 4), ("bad-ranges", 24)];
    for (name, wanted) in sound.into_iter().chain(refused) {
        let name = format!("{name}.spec");
        checks.made(&name, &std::fs::read(checks::sample(&name)).expect(&name), wanted);
    }
    let b15 = b_with(15);
    checks.meter("B with 15", &b15, [2, 3, 5, 15, 26]);
    checks.meter("B with no supply rate", &Spec { supply: None, ..b15.clone() }, [2, 3, 5, 20_000, 0]);
    let offers = offers_of("b15.offers");
    checks.holds("samples/b15.offers has 11 offers", offers.len() == 11);
    checks.offers("samples/b15.offers", &b15, &offers);
}

/// From 6 to 12 and from 13 to 18 o'clock, on Saturdays from 8 to 12.
fn duty_hours(checks: &mut Checks) {
    let table: Vec<u16> = fours_of("working.week").into_iter().flatten().map(|number| number as u16).collect();
    checks.holds("samples/working.week has 28 numbers", table.len() == 28);
    let open = [
        (0, 360),
        (359, 719),
        (360, 780),
        (660, 1_800),
        (3_539, 7_919),
        (3_540, 10_440),
        (1_508_351_519, 4_294_964_879),
        (1_508_351_520, 4_294_967_400),
        (u32::MAX, 12_229_736_175),
    ];
    let closed = [0, 359, 720, 779, 1_080, 7_920, 10_439, u32::MAX];
    checks.week("samples/working.week", &table, &open, &closed);
}

/// The cycles in samples/, each with its normal form: two of them are one run, and no others.
fn normal_forms(checks: &mut Checks) {
    let shift: [(u16, u16); 5] = [(5, 4), (90, 8), (60, 8), (15, 5), (15, 5)];
    let rows: [(&str, &[(u16, u16)]); 13] = [
        ("shift-good.cycle", &shift),
        ("shift-turned.cycle", &shift),
        ("shift-between.cycle", &SHIFT_BETWEEN),
        ("a-good.cycle", &[(52, 6), (53, 6), (53, 5)]),
        ("b15-good.cycle", &[(5, 2), (5, 3)]),
        ("b15-full.cycle", &[(5, 2), (5, 2), (5, 3), (5, 3)]),
        ("b15-thin.cycle", &[(5, 2), (5, 2), (5, 2), (5, 3)]),
        ("b15-gap.cycle", &[(5, 3), (6, 2)]),
        ("b15-size.cycle", &[(5, 3), (5, 4)]),
        ("late-good.cycle", &[(4, 2)]),
        ("late-full.cycle", &[(3, 2)]),
        ("late-thin.cycle", &[(4, 1)]),
        ("late-shift.cycle", &[(15, 4)]),
    ];
    for (name, form) in rows {
        let pairs = pairs_in(name);
        for places in [form.len(), 512] {
            checks.normal(name, &pairs, places, Ok(form));
        }
        for (other, others) in rows {
            checks.one_run(&format!("{name} and {other}"), &pairs, &pairs_in(other), form == others);
        }
    }
}

/// The dated files in samples/: an issue day and a cycle file that is there too, or too few bytes for a day. Each beside each.
fn dated_files(checks: &mut Checks) {
    let bytes = |name: &str| std::fs::read(checks::sample(name)).expect(name);
    let parts = [
        ("day255-good.dated", 255, "b15-good.cycle"),
        ("day256-full.dated", 256, "b15-full.cycle"),
        ("day256-thin.dated", 256, "b15-thin.cycle"),
        ("day257-over.dated", 257, "bad-over.cycle"),
    ];
    for (name, day, part) in parts {
        checks.file(name, &dated(day, &bytes(part)));
    }
    checks.file("bad-day.dated", &[1]);
    let names = ["day255-good.dated", "day256-full.dated", "day256-thin.dated", "day257-over.dated", "bad-day.dated"];
    let wanted = [
        [Ok(1), Ok(2), Ok(2), Ok(1), Ok(1)],
        [Ok(1), Ok(1), Err(29), Ok(1), Ok(1)],
        [Ok(1), Err(29), Ok(1), Ok(1), Ok(1)],
        [Ok(2), Ok(2), Ok(2), Err(21), Err(21)],
        [Ok(2), Ok(2), Ok(2), Err(18), Err(18)],
    ];
    for (first, row) in names.into_iter().zip(wanted) {
        for (second, wanted) in names.into_iter().zip(row) {
            checks.in_force(&format!("{first} and {second}"), &bytes(first), &bytes(second), wanted);
        }
    }
}

/// The pairs of a cycle file in samples/.
fn pairs_in(name: &str) -> Vec<(u16, u16)> {
    let file = std::fs::read(checks::sample(name)).expect(name);
    file::read(&file, 512).expect(name).iter().map(|pair| (pair.gap, pair.size)).collect()
}

/// The specification of a file in samples/.
fn spec_in(name: &str) -> Spec {
    spec::read(&std::fs::read(checks::sample(name)).expect(name)).expect(name)
}

/// The offers of a file in samples/: on each line minute, size, number and budget left.
fn offers_of(name: &str) -> Vec<Offer> {
    fours_of(name).into_iter().map(|[minute, size, number, left]| (minute, size, number as u32, Some(left))).collect()
}

/// The lines of a text in samples/, each of four numbers.
fn fours_of(name: &str) -> Vec<[u64; 4]> {
    let text = std::fs::read_to_string(checks::sample(name)).expect(name);
    let lines = text.lines().filter(|line| !line.is_empty() && !line.starts_with('#'));
    lines.map(|line| four_of(line).unwrap_or_else(|| panic!("samples/{name}: {line}"))).collect()
}

fn four_of(line: &str) -> Option<[u64; 4]> {
    let numbers: Vec<u64> = line.split(' ').map(|number| number.parse().ok()).collect::<Option<_>>()?;
    numbers.try_into().ok()
}

fn sample_a(checks: &mut Checks) {
    let a = a_with(29);
    checks.file("a.spec", &spec::write(&a));
    checks.consistency("A", &a, None);
    checks.min_demand("A", &a, 2, Ok([110, 17, 34]));
    checks.min_demand("A", &a, 3, Ok([158, 17, 29]));
    checks.min_demand("A", &a, 1, Err(6));
    checks.min_demand("A", &a, 4, Err(6));
    checks.test("A", &a, Ok([3, 158, 17, 29]));
    reports(checks, "A", checks::well(3, 158, 17), &[(0, 6), (52, 6), (105, 5), (158, 6)]);
    checks.even("A", &a, Ok([52, 3, 17]));
    reports(checks, "A, even", checks::even(3, 156, 17), &[(0, 6), (52, 6), (104, 5), (156, 6)]);
    checks.even("A with gaps 53 to 55", &Spec { gap: (53, 55), ..a.clone() }, Err(10));
    checks.cycle("A", &a, &[(52, 6), (53, 6), (53, 5)], 0);
    let a28 = a_with(28);
    checks.file("a28.spec", &spec::write(&a28));
    checks.test("A with 28", &a28, Err(Refused(9)));
    checks.even("A with 28", &a28, Err(10));
}

fn sample_b(checks: &mut Checks) {
    let b = b_with(16);
    checks.file("b.spec", &spec::write(&b));
    checks.test("B", &b, Ok([4, 20, 10, 16]));
    let b15 = b_with(15);
    checks.file("b15.spec", &[0x0F, 0, 2, 0, 3, 0, 5, 0, 5, 0, 0x0F, 0, 0x1A, 0, 0x0A, 0, 0x14]);
    checks.file("b15.spec", &spec::write(&b15));
    checks.test("B with 15", &b15, Err(Refused(9)));
    checks.even("B with 15", &b15, Ok([5, 4, 10]));
    reports(checks, "B with 15, even", checks::even(4, 20, 10), &[(0, 3), (5, 2), (10, 3), (15, 2), (20, 3)]);
    checks.cycle("G, 3 2", &b15, &[(5, 3), (5, 2)], 0);
    checks.cycle("G, 3 3 2 2", &b15, &[(5, 3), (5, 3), (5, 2), (5, 2)], 15);
    checks.cycle("G, 2 2 2 3", &b15, &[(5, 2), (5, 2), (5, 2), (5, 3)], 16);
    let b14 = b_with(14);
    checks.file("b14.spec", &spec::write(&b14));
    checks.even("B with 14", &b14, Err(10));
    // The search for size lists agrees, from the rules alone.
    checks.holds("search, B with 15", even::list_exists(&b15, 5));
    checks.holds("search, B with 14", !even::list_exists(&b14, 5));
}

fn samples_c_d_e(checks: &mut Checks) {
    let c = both_rates((5, 6), (45, 46), (10, 79), (17, 159));
    checks.file("c.spec", &spec::write(&c));
    checks.max_supply("C", &c, 2, Ok([90, 10, 15]));
    checks.test("C", &c, Err(Refused(9)));
    checks.even("C", &c, Err(10));
    let d = both_rates((3, 5), (35, 46), (10, 79), (17, 158));
    checks.file("d.spec", &spec::write(&d));
    checks.max_supply("D", &d, 2, Ok([79, 10, 20]));
    checks.test("D", &d, Ok([2, 79, 10, 20]));
    checks.even("D", &d, Err(10));
    let e = both_rates((3, 10), (45, 80), (10, 79), (17, 159));
    checks.file("e.spec", &spec::write(&e));
    checks.test("E", &e, Ok([1, 79, 10, 20]));
}

fn sample_f(checks: &mut Checks) {
    let f = f_with(10);
    checks.file("f.spec", &spec::write(&f));
    checks.consistency("F", &f, Some(4));
    checks.test("F", &f, Err(Inconsistent(4)));
    let kept = f_with(15);
    checks.file("f15.spec", &spec::write(&kept));
    checks.consistency("F with B 15", &kept, None);
    checks.test("F with B 15", &kept, Ok([3, 12, 15, 25]));
    checks.cycle("F with B 15, its only schedule", &kept, &[(4, 5)], 0);
    // Without its demand F has no schedule either: one size and one gap leave one, and it breaks the supply rule.
    let no_demand = Spec { demand: None, ..f };
    checks.file("f-no-demand.spec", &spec::write(&no_demand));
    checks.consistency("F without demand", &no_demand, Some(4));
    checks.test("F without demand", &no_demand, Err(Refused(5)));
    checks.even("F without demand", &no_demand, Err(10));
    checks.cycle("F without demand, its only schedule", &no_demand, &[(4, 5)], 15);
    let only = [Pair { gap: 4, size: 5 }];
    checks.holds("reference, F's only schedule breaks a rule", !schedule::obeys(&no_demand, &cycle::Cycle(&only)));
}

/// "Two-shift vans report every 5 to 15 minutes or every 60 to 90, and never in between."
fn two_shifts(checks: &mut Checks) {
    let one_shift = one_shift();
    let shift = with_second(&one_shift, (60, 90));
    let bytes = [0x2F, 0, 1, 0, 10, 0, 5, 0, 15, 0, 22, 0, 60, 0, 8, 0, 90, 0, 60, 0, 90];
    checks.file("shift.spec", &bytes);
    checks.file("shift.spec", &spec::write(&shift));
    checks.two_ranges("two shifts", &shift);
    checks.even("two shifts", &shift, Ok([90, 1, 8]));
    checks.even("one shift", &one_shift, Ok([15, 6, 8]));
    checks.meter("two shifts", &shift, [1, 10, 5, 22, 60]);
    for (name, pairs) in
        [("shift-good.cycle", &SHIFT_GOOD[..]), ("shift-turned.cycle", &SHIFT_TURNED), ("shift-between.cycle", &SHIFT_BETWEEN)]
    {
        checks.file(name, &file::write(&pairs_of(pairs), usize::MAX).expect(name));
    }
    let touching = with_second(&one_shift, (16, 90));
    checks.file("touching.spec", &spec::write(&touching));
    checks.two_ranges("ranges that touch", &touching);
    checks.even("ranges that touch", &touching, Ok([90, 1, 8]));
    for (name, spec, good_gets, between_gets) in
        [("two shifts", &shift, 0, 13), ("ranges that touch", &touching, 0, 0), ("one shift", &one_shift, 13, 13)]
    {
        checks.cycle(&format!("{name}, shift-good.cycle"), spec, &SHIFT_GOOD, good_gets);
        checks.cycle(&format!("{name}, shift-turned.cycle"), spec, &SHIFT_TURNED, good_gets);
        checks.cycle(&format!("{name}, shift-between.cycle"), spec, &SHIFT_BETWEEN, between_gets);
    }
    let too_low = spec::write(&with_second(&one_shift, (15, 90)));
    checks.file("bad-ranges.spec", &too_low);
    checks.refused("a second range from smax", &too_low, 24);
}

/// A list of sizes that obeys at the even plan's gap with a first report of 1 record, where the plan sends 3; from report 1 on none sends less.
fn least_sent(checks: &mut Checks) {
    let spec = thin_start();
    checks.file("least.spec", &[0x0B, 0, 1, 0, 3, 0, 5, 0, 5, 0, 3, 0, 7]);
    checks.file("least.spec", &spec::write(&spec));
    checks.even("least.spec", &spec, Ok([5, 1, 3]));
    reports(checks, "least.spec, even", checks::even(1, 5, 3), &[(0, 3), (5, 3), (10, 3)]);
    checks.cycle("least.spec, 3 each", &spec, &[(5, 3)], 0);
    // Only the endless list may have a thin first report: a cycle comes back to it.
    checks.cycle("least.spec, 1 and 3", &spec, &[(5, 1), (5, 3)], 16);
    let lists = even::Lists::at(&spec, 5);
    checks.holds("reference, report 0 of 1", lists.least_in_a_row(0, 1) == Some(1));
    checks.holds("reference, every other of 3", lists.least_in_a_row(1, 1) == Some(3));
}
