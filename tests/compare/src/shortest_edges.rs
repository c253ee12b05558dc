//! Document 02, Req 14: reports just within R minutes and just not, more than P apart and just not, equals of which the lowest counts, stretches
//! over the join and over many whole rounds, and numbers at their limits. Every answer is worked out by hand from the document, and asked of
//! the library and of the reference.

use crate::checks::{self, both_rates, demand_only, no_rates, supply_only, with_second, Checks, BEFORE_RATES};
use crate::group::Runner;
use reference::Spec;

pub fn all(runner: &mut Runner) {
    checks::group(runner, "shortest stretches: less than R minutes apart, more than B", just_full);
    checks::group(runner, "shortest stretches: more than P minutes apart, less than L", just_thin);
    checks::group(runner, "shortest stretches: the fewest, and of equals the lowest", fewest);
    checks::group(runner, "shortest stretches: over the join", over_the_join);
    checks::group(runner, "shortest stretches: whole rounds that are too full", full_rounds);
    checks::group(runner, "shortest stretches: whole rounds that are too thin", thin_rounds);
    checks::group(runner, "shortest stretches: numbers at their limits", limits);
    checks::group(runner, "shortest stretches: sums of more than 16 bits", wide_sums);
    checks::group(runner, "shortest stretches: both rates", both);
    checks::group(runner, "shortest stretches: other numbers, which get none", others);
}

/// A cycle, B and R or L and P, and the first report's number and how many there are; none where the rate is kept.
type Row<'a> = (&'a [(u16, u16)], (u64, u64), Option<[u64; 2]>);

/// Cycles of any gaps and sizes against a supply rate alone.
fn full(checks: &mut Checks, rows: &[Row]) {
    for (pairs, rate, stretch) in rows {
        alone(checks, &supply_only((1, 1_000), (1, 20_160), *rate), pairs, 15, *stretch);
    }
}

/// The same against a demand rate.
fn thin(checks: &mut Checks, rows: &[Row]) {
    for (pairs, rate, stretch) in rows {
        alone(checks, &demand_only((1, 1_000), (1, 20_160), *rate), pairs, 16, *stretch);
    }
}

fn alone(checks: &mut Checks, spec: &Spec, pairs: &[(u16, u16)], number: u32, stretch: Option<[u64; 2]>) {
    let few = &pairs[..pairs.len().min(8)];
    let name = format!("{} pairs {few:?}, supply {:?}, demand {:?}", pairs.len(), spec.supply, spec.demand);
    match stretch {
        Some(stretch) => checks.shortest(&name, spec, pairs, number, stretch),
        None => checks.no_shortest(&name, spec, pairs, 0),
    }
}

fn just_full(checks: &mut Checks) {
    full(
        checks,
        &[
            // Two reports 10 minutes apart.
            (&[(10, 5)], (9, 10), None),
            (&[(10, 5)], (9, 11), Some([0, 2])),
            (&[(10, 5)], (10, 11), None),
            (&[(10, 5)], (10, 20), None),
            (&[(10, 5)], (10, 21), Some([0, 3])),
            (&[(10, 5)], (4, 1), Some([0, 1])),
            (&[(10, 5)], (5, 1), None),
            // 10 minutes apart, and then 9.
            (&[(10, 5), (9, 5)], (9, 9), None),
            (&[(10, 5), (9, 5)], (9, 10), Some([1, 2])),
            (&[(10, 5), (9, 5)], (9, 11), Some([0, 2])),
            // The first three are 10 minutes apart, the three after them 9.
            (&[(5, 4), (5, 4), (4, 4)], (11, 10), Some([1, 3])),
            (&[(5, 4), (5, 4), (4, 4)], (11, 11), Some([0, 3])),
            (&[(5, 4), (5, 4), (4, 4)], (11, 9), None),
            (&[(5, 4), (5, 4), (4, 4)], (12, 14), None),
            (&[(5, 4), (5, 4), (4, 4)], (12, 15), Some([0, 4])),
            // The fewest from report 0 that hold more are too far apart, those from report 2 not.
            (&[(6, 4), (6, 4), (2, 4), (2, 3)], (10, 7), Some([2, 3])),
            (&[(6, 4), (6, 4), (2, 4), (2, 3)], (10, 5), Some([2, 3])),
            (&[(6, 4), (6, 4), (2, 4), (2, 3)], (10, 4), None),
            // One report more than B alone.
            (&[(5, 3), (5, 8)], (7, 1), Some([1, 1])),
            (&[(5, 3), (5, 8)], (8, 5), None),
            (&[(5, 3), (5, 8)], (8, 6), Some([0, 2])),
            (&[(5, 3), (5, 8)], (2, 20), Some([0, 1])),
        ],
    );
}

fn just_thin(checks: &mut Checks) {
    thin(
        checks,
        &[
            // 10 minutes apart with none between, 20 with one, 30 with two.
            (&[(10, 5)], (1, 9), Some([0, 0])),
            (&[(10, 5)], (1, 10), None),
            (&[(10, 5)], (5, 10), None),
            (&[(10, 5)], (6, 10), Some([0, 1])),
            (&[(10, 5)], (5, 19), None),
            (&[(10, 5)], (6, 19), Some([0, 1])),
            (&[(10, 5)], (6, 20), None),
            (&[(10, 5)], (10, 20), None),
            (&[(10, 5)], (11, 20), Some([0, 2])),
            // Longer gaps, the second or the first.
            (&[(10, 5), (11, 5)], (1, 10), Some([1, 0])),
            (&[(11, 5), (10, 5)], (1, 10), Some([0, 0])),
            (&[(10, 5), (11, 5)], (1, 11), None),
            // The reports outside are not counted in, however large they are.
            (&[(10, 1_000), (10, 1)], (2, 19), Some([0, 1])),
            (&[(10, 1), (10, 1_000)], (2, 19), Some([1, 1])),
            (&[(10, 1_000), (10, 1)], (1, 19), None),
            (&[(10, 1_000), (10, 1)], (1_000, 19), Some([0, 1])),
            (&[(10, 1_000), (10, 1)], (1_001, 29), None),
            (&[(10, 1_000), (10, 1)], (1_002, 29), Some([0, 2])),
            // Sizes 4 and 6, 6 and 5, 5 and 4.
            (&[(10, 5), (10, 4), (10, 6)], (5, 19), Some([0, 1])),
            (&[(10, 5), (10, 4), (10, 6)], (10, 20), Some([2, 2])),
            (&[(10, 5), (10, 4), (10, 6)], (11, 20), Some([0, 2])),
            (&[(10, 5), (10, 4), (10, 6)], (9, 20), None),
        ],
    );
}

/// So many pairs, but for these gaps and sizes at their places.
fn but_for(count: usize, pair: (u16, u16), others: &[(usize, (u16, u16))]) -> Vec<(u16, u16)> {
    let mut pairs = vec![pair; count];
    others.iter().for_each(|&(at, other)| pairs[at] = other);
    pairs
}

fn fewest(checks: &mut Checks) {
    let sizes = but_for(512, (5, 1), &[(300, (5, 9)), (400, (5, 9))]);
    full(
        checks,
        &[
            // Three from report 0, two from report 4.
            (&[(1, 2), (1, 2), (1, 2), (9, 1), (1, 5), (9, 2)], (5, 3), Some([4, 2])),
            (&[(1, 2), (1, 2), (1, 2), (9, 1), (1, 4), (9, 1)], (5, 3), Some([0, 3])),
            (&[(5, 3), (5, 8), (5, 2), (5, 8)], (7, 3), Some([1, 1])),
            (&[(7, 1), (7, 5), (7, 5), (7, 1), (7, 5), (7, 5)], (9, 8), Some([1, 2])),
            (&[(5, 8), (5, 3), (5, 8)], (7, 1), Some([0, 1])),
            (&[(5, 3); 512], (5, 6), Some([0, 2])),
            (&sizes, (8, 1), Some([300, 1])),
            (&sizes, (9, 6), Some([299, 2])),
        ],
    );
    let gaps = but_for(512, (5, 3), &[(300, (6, 3)), (400, (6, 3))]);
    thin(
        checks,
        &[
            (&[(30, 5), (5, 1), (5, 1), (5, 1)], (2, 8), Some([0, 0])),
            (&[(5, 5), (12, 5), (5, 5), (12, 5)], (6, 10), Some([1, 0])),
            // From report 3 none, one or two; from the others more, or the same with more records.
            (&[(5, 1), (5, 1), (5, 1), (20, 9)], (4, 14), Some([3, 0])),
            (&[(5, 1), (5, 1), (5, 1), (20, 9)], (4, 20), Some([3, 1])),
            (&[(5, 1), (5, 1), (5, 1), (20, 9)], (10, 20), Some([2, 1])),
            (&[(5, 1), (5, 1), (5, 1), (20, 9)], (10, 25), Some([3, 2])),
            (&[(5, 1), (5, 1), (5, 1), (20, 9)], (11, 25), Some([1, 2])),
            (&[(5, 3); 512], (4, 9), Some([0, 1])),
            (&gaps, (1, 5), Some([300, 0])),
            (&gaps, (4, 10), Some([299, 1])),
        ],
    );
}

fn over_the_join(checks: &mut Checks) {
    let (near, large) = (but_for(512, (100, 7), &[(511, (5, 7))]), but_for(512, (100, 7), &[(0, (100, 20)), (511, (100, 30))]));
    full(
        checks,
        &[
            (&[(5, 2), (20, 3), (5, 9)], (10, 5), None),
            (&[(5, 2), (20, 3), (5, 9)], (10, 6), Some([2, 2])),
            (&[(5, 2), (20, 3), (5, 9)], (11, 10), None),
            (&[(5, 2), (20, 3), (5, 9)], (11, 11), Some([2, 3])),
            (&[(5, 4), (5, 3), (20, 2), (5, 6)], (9, 11), Some([3, 2])),
            (&[(5, 4), (5, 3), (20, 2), (5, 6)], (10, 11), Some([3, 3])),
            (&[(5, 4), (5, 3), (20, 2), (5, 6)], (12, 11), Some([3, 3])),
            (&[(5, 4), (5, 3), (20, 2), (5, 6)], (13, 11), None),
            (&near, (13, 5), None),
            (&near, (13, 6), Some([511, 2])),
            (&near, (14, 106), Some([510, 3])),
            (&large, (49, 100), None),
            (&large, (49, 101), Some([511, 2])),
            (&large, (50, 101), None),
        ],
    );
    let (far, small) = (but_for(512, (100, 7), &[(511, (200, 7))]), but_for(512, (100, 7), &[(0, (100, 1)), (511, (100, 2))]));
    thin(
        checks,
        &[
            (&[(5, 5), (5, 5), (12, 5)], (6, 10), Some([2, 0])),
            (&[(10, 2), (10, 5), (10, 5)], (3, 19), Some([2, 1])),
            (&[(10, 2), (10, 5), (10, 5)], (7, 29), None),
            (&[(10, 2), (10, 5), (10, 5)], (8, 29), Some([1, 2])),
            (&far, (1, 199), Some([511, 0])),
            (&far, (8, 199), Some([511, 0])),
            (&far, (7, 200), None),
            (&far, (8, 200), Some([510, 1])),
            (&small, (3, 299), None),
            (&small, (4, 299), Some([510, 2])),
        ],
    );
}

/// Of these a round of 6 minutes holds 7 records.
const THREE: [(u16, u16); 3] = [(3, 1), (2, 2), (1, 4)];

fn full_rounds(checks: &mut Checks) {
    let one_larger = but_for(512, (1, 1), &[(511, (1, 2))]);
    let one_longer = but_for(512, (1, 1), &[(99, (2, 1))]);
    full(
        checks,
        &[
            (&[(1, 1)], (20_000, 20_160), Some([0, 20_001])),
            (&[(1, 1)], (20_000, 20_001), Some([0, 20_001])),
            (&[(1, 1)], (20_000, 20_000), None),
            (&[(1, 1)], (19_999, 20_000), Some([0, 20_000])),
            (&[(1, 1), (1, 2)], (10, 6), None),
            (&[(1, 1), (1, 2)], (10, 7), Some([1, 7])),
            (&[(1, 1), (1, 2)], (11, 20_160), Some([0, 8])),
            (&[(1, 1), (1, 2)], (9, 6), None),
            (&[(1, 1), (1, 2)], (8, 6), Some([0, 6])),
            // 1,000 rounds; 999 and the two larger reports; 999 and the largest.
            (&THREE, (6_999, 20_160), Some([0, 3_000])),
            (&THREE, (6_998, 20_160), Some([1, 2_999])),
            (&THREE, (6_998, 5_997), Some([1, 2_999])),
            (&THREE, (6_998, 5_996), None),
            (&THREE, (6_996, 20_160), Some([2, 2_998])),
            (&THREE, (6_996, 5_995), Some([2, 2_998])),
            (&THREE, (6_996, 5_994), None),
            // 19 rounds of 513 records, and 253 reports of which one is the larger.
            (&one_larger, (10_000, 20_160), Some([259, 9_981])),
            (&one_larger, (10_000, 9_981), Some([259, 9_981])),
            (&one_larger, (10_000, 9_980), None),
            // As many reports as pairs, or four times as many: begun after the longer gap they are a minute less apart.
            (&one_longer, (511, 513), Some([0, 512])),
            (&one_longer, (511, 512), Some([100, 512])),
            (&one_longer, (511, 511), None),
            (&one_longer, (2_047, 2_052), Some([0, 2_048])),
            (&one_longer, (2_047, 2_051), Some([100, 2_048])),
            (&one_longer, (2_047, 2_050), None),
        ],
    );
}

fn thin_rounds(checks: &mut Checks) {
    let one_larger = but_for(512, (1, 1), &[(100, (1, 2))]);
    thin(
        checks,
        &[
            (&[(1, 1)], (20_000, 19_999), Some([0, 19_999])),
            (&[(1, 1)], (20_000, 19_000), Some([0, 19_000])),
            (&[(1, 1)], (20_000, 20_000), None),
            (&[(1, 1)], (19_999, 19_999), None),
            (&[(2, 1)], (10_081, 20_160), Some([0, 10_080])),
            (&[(2, 1)], (10_080, 20_160), None),
            (&[(1, 1), (1, 2)], (15, 9), Some([0, 9])),
            (&[(1, 1), (1, 2)], (14, 9), Some([1, 9])),
            (&[(1, 1), (1, 2)], (13, 9), None),
            // 1,000 rounds; 1,000 but for the report before, which is one of each.
            (&THREE, (7_001, 6_000), Some([0, 3_000])),
            (&THREE, (7_000, 6_000), None),
            (&THREE, (7_000, 5_999), Some([0, 2_999])),
            (&THREE, (6_999, 5_999), Some([1, 2_999])),
            (&THREE, (6_998, 5_999), Some([2, 2_999])),
            (&THREE, (6_997, 5_999), Some([2, 2_999])),
            (&THREE, (6_996, 5_999), None),
            // 999 rounds and a report of 2 records.
            (&THREE, (6_996, 5_998), Some([0, 2_998])),
            (&THREE, (6_995, 5_998), None),
            // 19 rounds of 513 records, and 272 reports of which none is the larger.
            (&one_larger, (10_019, 10_000), None),
            (&one_larger, (10_020, 10_000), Some([100, 10_000])),
            (&one_larger, (10_021, 10_000), Some([0, 10_000])),
        ],
    );
}

fn limits(checks: &mut Checks) {
    full(
        checks,
        &[
            (&[(20_160, 1_000)], (999, 1), Some([0, 1])),
            (&[(20_160, 1_000)], (999, 20_160), Some([0, 1])),
            (&[(20_160, 1_000)], (1_000, 20_160), None),
            (&[(20_159, 1_000)], (1_000, 20_160), Some([0, 2])),
            (&[(20_159, 1_000)], (1_999, 20_160), Some([0, 2])),
            (&[(20_159, 1_000)], (2_000, 20_160), None),
            (&[(20_160, 1_000), (20_159, 1_000)], (1_000, 20_160), Some([1, 2])),
            (&[(20_160, 999), (1, 999)], (1_997, 2), Some([1, 2])),
            (&[(1, 1_000)], (20_000, 21), Some([0, 21])),
            (&[(1, 1_000)], (20_000, 20_160), Some([0, 21])),
            (&[(1, 1_000)], (20_000, 20), None),
            (&[(1, 1)], (1, 1), None),
            (&[(1, 1)], (1, 2), Some([0, 2])),
            (&but_for(512, (20_160, 1_000), &[(511, (20_159, 1_000))]), (1_000, 20_160), Some([511, 2])),
        ],
    );
    thin(
        checks,
        &[
            (&[(20_160, 1)], (1, 20_159), Some([0, 0])),
            (&[(20_160, 1)], (1, 20_160), None),
            (&[(20_160, 1)], (2, 20_160), Some([0, 1])),
            (&[(20_160, 1)], (20_000, 20_160), Some([0, 1])),
            (&[(20_160, 1)], (20_000, 1), Some([0, 0])),
            (&[(1, 1_000)], (20_000, 19), Some([0, 19])),
            (&[(1, 1_000)], (20_000, 20), None),
            (&[(1, 1)], (1, 1), None),
            (&[(1, 1)], (2, 1), Some([0, 1])),
            (&[(20_160, 1); 512], (20_000, 20_160), Some([0, 1])),
            (&but_for(512, (20_160, 2), &[(511, (20_160, 1))]), (2, 20_160), Some([510, 1])),
        ],
    );
}

/// Sums that fewer bits cannot hold would be small ones.
fn wide_sums(checks: &mut Checks) {
    // The first and the last of five reports are 65,536 minutes apart, and then of five 4; of 101 they are 25 times that, and then 100.
    let far = [vec![(16_384, 1); 5], vec![(1, 1); 6]].concat();
    let farther = [vec![(16_384, 1); 100], vec![(1, 1); 102]].concat();
    full(checks, &[(&far, (4, 5), Some([5, 5])), (&far, (4, 4), None), (&farther, (100, 101), Some([100, 101]))]);
    // A round of 65,536 minutes.
    let long = [(20_160, 5), (20_160, 7), (20_160, 9), (5_056, 3)];
    full(checks, &[(&long, (7, 20_160), Some([2, 1])), (&long, (9, 20_160), None)]);
    thin(
        checks,
        &[
            (&long, (1, 20_159), Some([0, 0])),
            (&long, (4, 20_160), Some([2, 1])),
            (&long, (6, 20_160), Some([2, 1])),
            (&long, (8, 20_160), Some([0, 1])),
        ],
    );
    // Between two that are 700 minutes apart lie 69 reports: 69,000 records, or 3 reports of 1,000 and 66 of one.
    let large_first = [vec![(10, 1_000); 100], vec![(10, 1); 100]].concat();
    let small_first = [vec![(10, 1); 100], vec![(10, 1_000); 100]].concat();
    thin(
        checks,
        &[
            (&large_first, (4_000, 699), Some([96, 69])),
            (&large_first, (3_067, 699), Some([96, 69])),
            (&large_first, (3_066, 699), Some([97, 69])),
            (&small_first, (4_000, 699), Some([0, 69])),
        ],
    );
}

fn both(checks: &mut Checks) {
    // B, R, L, P, and what is given.
    let rows: [(&[(u16, u16)], (u64, u64), (u64, u64), u32, [u64; 2]); 11] = [
        (&[(5, 5), (5, 5)], (9, 6), (21, 20), 15, [0, 2]),
        (&[(5, 5), (5, 5)], (10, 6), (21, 20), 16, [0, 4]),
        // Of 16 fewer reports would show it.
        (&[(5, 5), (40, 5)], (9, 6), (20, 30), 15, [0, 2]),
        (&[(5, 5), (40, 5)], (10, 6), (20, 30), 16, [1, 0]),
        (&[(40, 5), (5, 5)], (9, 6), (20, 30), 15, [1, 2]),
        (&[(40, 5), (5, 5)], (10, 6), (20, 30), 16, [0, 0]),
        (&[(10, 5), (10, 4), (10, 6)], (10, 20), (11, 20), 15, [2, 2]),
        (&[(10, 5), (10, 4), (10, 6)], (11, 20), (11, 20), 16, [0, 2]),
        // Equal rates: as many records, as many minutes.
        (&[(10, 5), (9, 5)], (9, 10), (9, 10), 15, [1, 2]),
        (&[(10, 5), (9, 5)], (10, 10), (10, 10), 16, [0, 1]),
        (&[(10, 5), (9, 5)], (10, 10), (6, 9), 16, [0, 0]),
    ];
    for (pairs, supply, demand, number, stretch) in rows {
        let name = format!("{pairs:?}, supply {supply:?}, demand {demand:?}");
        checks.shortest(&name, &both_rates((1, 9), (1, 60), supply, demand), pairs, number, stretch);
    }
    let shift = with_second(&both_rates((1, 9), (5, 15), (8, 61), (1, 90)), (60, 90));
    checks.shortest("two ranges", &shift, &[(15, 3), (60, 4), (90, 5)], 15, [1, 2]);
    checks.no_shortest("two ranges, a gap in none", &shift, &[(15, 3), (60, 4), (59, 5)], 13);
    let thin = Spec { supply: None, demand: Some((5, 90)), ..shift };
    checks.shortest("two ranges, no supply rate", &thin, &[(15, 3), (60, 4), (90, 5)], 16, [2, 1]);
}

/// Counts that 16 or 32 bits take for that of a cycle.
pub const TOO_MANY: [usize; 8] = [513, 65_536, 65_537, 65_536 + 512, 1 << 32, (1 << 32) + 1, (1 << 32) + 512, (1 << 34) + 1];

fn others(checks: &mut Checks) {
    let rated = both_rates((3, 7), (5, 30), (6, 20), (100, 20));
    let more: [(&str, &[(u16, u16)], u32); 3] =
        [("gap 0", &[(10, 3), (0, 3)], 13), ("gap 65,535", &[(65_535, 3), (10, 3)], 13), ("size 0", &[(10, 0), (12, 3)], 14)];
    for (name, pairs, number) in BEFORE_RATES.into_iter().chain(more) {
        checks.no_shortest(name, &rated, pairs, number);
    }
    for count in TOO_MANY {
        checks.shortest_out_of_reach(&rated, count);
    }
    let cycle = [(10, 4), (12, 4)];
    checks.shortest("both rates", &rated, &cycle, 15, [0, 2]);
    checks.no_shortest("no rate", &no_rates((3, 7), (5, 30)), &cycle, 0);
    checks.no_shortest("rates that are kept", &both_rates((3, 7), (5, 30), (8, 20), (4, 20)), &cycle, 0);
    // A file that is refused keeps its number, whatever the cycle is.
    for pairs in [&cycle[..], &[], &[(10, 3); 513], &[(0, 0)]] {
        checks.no_shortest("dmax 1,001", &Spec { size: (3, 1_001), ..rated.clone() }, pairs, 3);
        checks.no_shortest("gaps 31 to 30", &Spec { gap: (31, 30), ..rated.clone() }, pairs, 4);
        checks.no_shortest("a second range from smax", &with_second(&rated, (30, 40)), pairs, 24);
    }
    checks.refused_files();
}
