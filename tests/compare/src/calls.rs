//! Each call of the interface against the reference, on random inputs.

use crate::generate::{self, Scale, FULL, MID, SMALL, TINY};
use crate::group::{same, Runner, Verdict, RUNS};
use crate::library::{Library, Outcome};
use crate::plans::{plan_of, some_plan};
use crate::random::Random;
use reference::feasibility::{self, Failure};
use reference::schedule::{least_and_most_by_report, obeys, LAID_OUT};
use reference::{cycle, even, file, plan, spec, verdict, Kind, Pair, Plan, Refusal, Spec};

pub fn all(runner: &mut Runner) {
    runner.random("verdict", RUNS, &[0, 1, 2, 3, 4, 12, 13, 14, 15, 16, 17, 18, 19, 21, 24], verdict_case);
    runner.random("consistency", RUNS, &[0, 1, 2, 3, 4, 24, 25, 73, 74, 75, 76], consistency_case);
    runner.random("minimum demand", RUNS, &[0, 1, 2, 3, 4, 5, 6, 24, 25], min_demand_case);
    runner.random("maximum supply", RUNS, &[0, 1, 2, 3, 4, 5, 6, 24, 25], max_supply_case);
    runner.random("test", RUNS, &[0, 1, 2, 3, 4, 5, 73, 74, 75, 76, 9, 24, 25], test_case);
    runner.random("test at the limits", RUNS / 8_000, &[0, 9], test_at_the_limits_case);
    runner.random("even plan, every gap counted", RUNS, &[0, 1, 2, 3, 4, 10, 24], even_case);
    runner.random("even plan of two ranges", RUNS, &[0, 1, 2, 3, 10], even_of_two_ranges_case);
    runner.random("even plan, size lists searched", RUNS / 4, &[0, 10], even_search_case);
    runner.random("report", RUNS, &[0, 11], report_case);
    let of_both_ranges = [100, 113, 114, 115, 116];
    runner.random("check cycle", RUNS, &[&[0, 1, 2, 3, 4, 12, 13, 14, 15, 16, 24], &of_both_ranges[..]].concat(), check_case);
    runner.random("read cycle", RUNS, &[0, 12, 17, 18, 19, 20, 21], read_case);
    runner.random("read cycle, cut off or too long", RUNS, &[12, 17, 18, 19, 20, 21], cut_or_over_case);
    runner.random("write cycle", RUNS, &[0, 12, 20], write_case);
    runner.random("plans obey the rules", RUNS / 2, &[0, 1, 2, 3], obeying_case);
}

pub fn hex(bytes: &[u8]) -> String {
    bytes.iter().map(|b| format!("{b:02x}")).collect()
}

/// Places as the reference leaves them: what it writes on success, else what they held.
pub fn expected<const N: usize, P: TryFrom<u64>>(result: Result<[u64; N], Refusal>, before: [P; N]) -> Outcome<N, P> {
    match result {
        Ok(values) => {
            Outcome { answer: 0, places: values.map(|v| P::try_from(v).ok().expect("a number that its place can hold")) }
        }
        Err(answer) => Outcome { answer, places: before },
    }
}

/// The same of a list of pairs, which it writes to the first places, and of their count.
pub fn listed(made: Result<Vec<Pair>, Refusal>, before: &[Pair], count: u32) -> (Outcome<1>, Vec<Pair>) {
    let mut held = before.to_vec();
    if let Ok(pairs) = &made {
        held[..pairs.len()].copy_from_slice(pairs);
    }
    (expected(made.map(|pairs| [pairs.len() as u64]), [count]), held)
}

/// The same of a file, which it writes to the first bytes, and of their number.
pub fn put_before(made: Result<Vec<u8>, Refusal>, before: &[u8], written: u32) -> (Outcome<1>, Vec<u8>) {
    let mut held = before.to_vec();
    if let Ok(file) = &made {
        held[..file.len()].copy_from_slice(file);
    }
    (expected(made.map(|file| [file.len() as u64]), [written]), held)
}

fn verdict_case(random: &mut Random, library: &mut Library) -> Verdict {
    let (spec, pairs) = generate::spec_and_cycle(random);
    let spec_file = if random.once_in(30) { generate::spec_file(random) } else { spec::write(&spec) };
    let spec_file = if random.once_in(4) { generate::seldom_damaged(random, spec_file) } else { spec_file };
    let cycle_file = match file::write(&pairs, usize::MAX) {
        Ok(file) if random.once_in(10) => generate::damaged(random, file),
        Ok(file) if random.once_in(10) => stray_map(random, file),
        Ok(file) => file,
        Err(_) => generate::cycle_file(random),
    };
    let answer = verdict(&spec_file, &cycle_file);
    same(answer, library.verdict(&spec_file, &cycle_file), answer, || {
        format!("spec {} cycle {}", hex(&spec_file), hex(&cycle_file))
    })
}

fn consistency_case(random: &mut Random, library: &mut Library) -> Verdict {
    let file = generate::spec_file(random);
    let before = random.places();
    let wanted = consistency_outcome(&file, before);
    same(with_condition(wanted), library.consistency(&file, before), wanted, || hex(&file))
}

/// What the reference answers of a file, and what the place for the condition holds afterwards.
pub fn consistency_outcome(file: &[u8], before: [u32; 1]) -> Outcome<1> {
    match spec::read(file).map_err(Failure::Refused).and_then(|spec| feasibility::consistency(&spec)) {
        Ok(()) => Outcome { answer: 0, places: before },
        Err(Failure::Inconsistent(condition)) => Outcome { answer: 7, places: [condition] },
        Err(Failure::Refused(answer)) => Outcome { answer, places: before },
    }
}

/// The answer, 7 being told apart by its condition: 73 to 76.
pub fn with_condition<const N: usize>(outcome: Outcome<N>) -> u32 {
    if outcome.answer == 7 {
        70 + outcome.places[0]
    } else {
        outcome.answer
    }
}

/// A number of reports near the ends of what has a schedule, or any 32-bit number. `wraps` is a factor whose product with k
/// may pass 2^32.
fn some_k(random: &mut Random, ends: [u64; 2], wraps: u64) -> u32 {
    let k = match random.below(8) {
        0 => random.of_any_length(32),
        1 => random.pick(&[0, 1, 20_160, 20_161, u64::from(u32::MAX)]),
        2 => (1 << 32) / wraps + random.below(ends[1] + 2),
        3 => random.near(ends[0], 1, u64::MAX >> 1),
        4 => random.near(ends[1], 1, u64::MAX >> 1),
        _ => random.between(ends[0].min(ends[1]), ends[1].max(ends[0])),
    };
    k.min(u64::from(u32::MAX)) as u32
}

fn min_demand_case(random: &mut Random, library: &mut Library) -> Verdict {
    let file = generate::spec_file(random);
    let accepted = spec::read(&file);
    let (l, p) = accepted.as_ref().ok().and_then(|spec| spec.demand).unwrap_or((1, 1));
    let (dmax, smin) = accepted.as_ref().map_or((1, 1), |spec| (spec.size.1, spec.gap.0));
    let k = some_k(random, [l.div_ceil(dmax), p / smin], smin.max(2));
    let before = random.places();
    let made = accepted.and_then(|spec| feasibility::min_demand(&spec, k.into()));
    let wanted = expected(made.map(|(plan, required)| [plan.period, plan.total, required]), before);
    same(wanted.answer, library.min_demand(&file, k, before), wanted, || format!("{} k {k}", hex(&file)))
}

fn max_supply_case(random: &mut Random, library: &mut Library) -> Verdict {
    let file = generate::spec_file(random);
    let accepted = spec::read(&file);
    let (b, r) = accepted.as_ref().ok().and_then(|spec| spec.supply).unwrap_or((1, 1));
    let (dmin, smax) = accepted.as_ref().map_or((1, 1), |spec| (spec.size.0, spec.gap.1));
    let k = some_k(random, [r.div_ceil(smax), b / dmin], smax.max(2));
    let before = random.places();
    let made = accepted.and_then(|spec| feasibility::max_supply(&spec, k.into(), LAID_OUT));
    let wanted = expected(made.map(|(plan, available)| [plan.period, plan.total, available]), before);
    same(wanted.answer, library.max_supply(&file, k, before), wanted, || format!("{} k {k}", hex(&file)))
}

/// About how many reports the reference's test looks at: the numbers of reports that it tries, times the reports of one.
fn steps_of_test(spec: &Spec) -> u64 {
    let (Some((b, r)), Some((l, p))) = (spec.supply, spec.demand) else { return 0 };
    if feasibility::consistency(spec).is_err() {
        return 0;
    }
    let (first, last) =
        if r >= p { (l.div_ceil(spec.size.1), p / spec.gap.0) } else { (r.div_ceil(spec.gap.1), b / spec.size.0) };
    let k = (first + last) / 2 + 1;
    let reports = if r >= p { r * k / (k * spec.gap.1).min(p) } else { 20 * (k + p * k / (k * spec.gap.0).max(r)) };
    (last + 1).saturating_sub(first) * (reports + 1)
}

/// The reference tries every k and every start in turn, so large specifications are drawn seldom.
fn spec_for_test(random: &mut Random) -> Spec {
    let most_steps = match random.below(20_000) {
        0 => 100_000_000,
        1..=10 => 10_000_000,
        11..=400 => 500_000,
        _ => 20_000,
    };
    loop {
        let scale = random.pick(&[TINY, SMALL, SMALL, MID, MID, FULL, FULL]);
        let mut spec = generate::near_spec_with_rates(random, scale);
        if random.once_in(2) {
            make_consistent(random, &mut spec, scale);
        }
        if steps_of_test(&spec) <= most_steps {
            return spec;
        }
    }
}

/// Moves what makes a specification inconsistent, so that the test itself is reached.
pub fn make_consistent(random: &mut Random, spec: &mut Spec, scale: Scale) {
    spec.duration = None;
    let (Some((b, r)), Some((l, p))) = (&mut spec.supply, &mut spec.demand) else { return };
    *p = (*p).max(spec.gap.1);
    let least_budget = spec.size.1.max(spec.size.0 * r.div_ceil(spec.gap.1)).max((*l * *r).div_ceil(*p));
    *b = if random.once_in(2) { least_budget } else { random.near(least_budget + 2, 2, scale.records) };
    *b = (*b).clamp(1, 20_000);
    *l = (*l).min(spec.size.1 * (*p / spec.gap.0)).max(1);
}

fn test_case(random: &mut Random, library: &mut Library) -> Verdict {
    let file = match random.below(40) {
        0 => {
            let near = generate::near_spec(random, TINY);
            spec::write(&near)
        }
        1 => {
            let near = generate::near_spec(random, SMALL);
            generate::damaged(random, spec::write(&near))
        }
        2 => {
            let near = generate::near_spec_of_one_range(random, TINY);
            let second = Some(generate::stray_second(random, near.gap.1));
            spec::write(&Spec { second, ..near })
        }
        _ => spec::write(&spec_for_test(random)),
    };
    test_of(&file, random, library)
}

/// The reference looks at up to a billion reports here, so the cases are few. In turn they are taken as drawn, or drawn until
/// the library gives a certain answer; the reference judges all of them.
fn test_at_the_limits_case(random: &mut Random, library: &mut Library) -> Verdict {
    let turn = [Some(0), None, Some(9), None][random.case as usize % 4];
    for _ in 0..1_000 {
        let spec = spec_at_the_limits(random);
        let file = spec::write(&spec);
        let fits = turn.map_or(true, |answer| library.test(&file, [0; 5]).answer == answer);
        if fits && steps_of_test(&spec) <= 1_000_000_000 {
            return test_of(&file, random, library);
        }
    }
    Err(format!("the library never gave {turn:?}"))
}

/// Rates, ranges and numbers of reports all near their limits.
fn spec_at_the_limits(random: &mut Random) -> Spec {
    let longest = |random: &mut Random| random.pick(&[20_160, 20_159, 20_000, 10_081, 10_080]);
    let smallest = random.pick(&[1, 1, 2]);
    let shortest = random.pick(&[1, 1, 2, 3]);
    let mut spec = Spec {
        size: (smallest, random.pick(&[smallest, 2, 7, 999, 1_000])),
        gap: (shortest, random.pick(&[3, 4, 9, 10_080, 20_160])),
        supply: Some((random.between(10_000, 20_000), longest(random))),
        demand: Some((random.between(1, 20_000), longest(random))),
        duration: None,
        second: None,
    };
    if random.once_in(3) {
        // The other branch, with fewer k: by report it is slower.
        spec.size.0 = 10;
        spec.size.1 = spec.size.1.max(10);
        spec.supply = spec.supply.map(|(b, r)| (b, r / 2));
    }
    make_consistent(random, &mut spec, FULL);
    spec
}

fn test_of(file: &[u8], random: &mut Random, library: &mut Library) -> Verdict {
    let before: [u32; 5] = random.places();
    let wanted = match spec::read(file).map(|spec| feasibility::test(&spec, 2_000)) {
        Err(answer) | Ok(Err(Failure::Refused(answer))) => Outcome { answer, places: before },
        Ok(Err(Failure::Inconsistent(condition))) => {
            Outcome { answer: 7, places: [condition, before[1], before[2], before[3], before[4]] }
        }
        Ok(Ok((plan, supply))) => {
            Outcome { answer: 0, places: [before[0], plan.k as u32, plan.period as u32, plan.total as u32, supply as u32] }
        }
    };
    same(with_condition(wanted), library.test(file, before), wanted, || hex(file))
}

fn even_outcome(spec: Result<Spec, Refusal>, works: impl Fn(&Spec, u64) -> bool, before: [u32; 3]) -> Outcome<3> {
    let made = spec.and_then(|spec| even::even_plan(&spec, works));
    expected(made.map(|plan| [plan.k, plan.period, plan.total]), before)
}

fn even_case(random: &mut Random, library: &mut Library) -> Verdict {
    let file = generate::spec_file(random);
    let before = random.places();
    let wanted = even_outcome(spec::read(&file), even::counts_fit, before);
    same(wanted.answer, library.even_plan(&file, before), wanted, || hex(&file))
}

/// It counts as 1 where the plan's gap is of the first range, 2 where of the second, and 10 where there is none; where a gap between the
/// ranges is longer and would do, as 3 and 0 in place of 1 and 10.
fn even_of_two_ranges_case(random: &mut Random, library: &mut Library) -> Verdict {
    let scale = generate::scale(random);
    let spec = generate::near_spec_of_two_ranges(random, scale);
    let second = spec.second.expect("a second range");
    let file = spec::write(&spec);
    let before = random.places();
    let wanted = even_outcome(Ok(spec.clone()), even::counts_fit, before);
    let between_would_do = (spec.gap.1 + 1..second.0).any(|gap| even::counts_fit(&spec, gap));
    let met = match (wanted.answer, between_would_do) {
        (0, _) if wanted.places[1] / wanted.places[0] >= second.0 as u32 => 2,
        (0, false) => 1,
        (0, true) => 3,
        (_, false) => 10,
        (_, true) => 0,
    };
    same(met, library.even_plan(&file, before), wanted, || hex(&file))
}

/// A specification small enough that every list of sizes can be tried: at most 3 sizes (seldom 4), and few reports in a window.
pub fn spec_for_search(random: &mut Random) -> Spec {
    let (sizes, reports) = if random.once_in(50) { (4, 8) } else { (3, 7) };
    loop {
        let mut spec = generate::near_spec(random, TINY);
        spec.size.1 = spec.size.1.min(spec.size.0 + sizes - 1);
        let window = spec.supply.map_or(0, |s| s.1).max(spec.demand.map_or(0, |d| d.1));
        if window / spec.gap.0 <= reports {
            return spec;
        }
    }
}

fn even_search_case(random: &mut Random, library: &mut Library) -> Verdict {
    let spec = spec_for_search(random);
    let file = spec::write(&spec);
    let before = random.places();
    let wanted = even_outcome(Ok(spec.clone()), even::list_exists, before);
    for gap in spec.gaps() {
        if even::list_exists(&spec, gap) != even::counts_fit(&spec, gap) {
            return Err(format!("at gap {gap} the search and the count differ on {}", hex(&file)));
        }
    }
    same(wanted.answer, library.even_plan(&file, before), wanted, || hex(&file))
}

fn report_case(random: &mut Random, library: &mut Library) -> Verdict {
    let (kind, [k, period, total]) = some_plan(random);
    let i = match random.below(6) {
        0 => random.pick(&[0, 1, u64::from(u32::MAX) - 1, u64::from(u32::MAX)]),
        // Around the join of two periods.
        1 => {
            let periods = random.of_any_length(16);
            random.near(k * periods, 2, u32::MAX.into())
        }
        2 | 3 => random.of_any_length(12),
        _ => random.of_any_length(32),
    };
    let before = random.places();
    let made = plan_of(kind, [k, period, total]).and_then(|plan| walked(plan, i));
    let wanted = expected(made.map(|(minute, size)| [minute >> 32, minute & 0xFFFF_FFFF, size]), before);
    let numbers = [k as u32, period as u32, total as u32];
    same(wanted.answer, library.report(kind, numbers, i as u32, before), wanted, || {
        format!("kind {kind} k {k} period {period} total {total} i {i}")
    })
}

/// Report by report where i is small, and by whole periods; both must agree.
fn walked(plan: plan::Plan, i: u64) -> Result<(u64, u64), Refusal> {
    let made = plan.report(i);
    if i < 4_096 {
        assert_eq!(made, plan.report_by_walk(i), "two ways of the reference");
    }
    made
}

/// The answer counts as 100 more where the cycle has gaps of both ranges.
fn check_case(random: &mut Random, library: &mut Library) -> Verdict {
    let (spec, pairs) = generate::spec_and_cycle(random);
    let file = if random.once_in(40) { generate::spec_file(random) } else { spec::write(&spec) };
    let (answer, both_ranges) = match spec::read(&file) {
        Ok(spec) => (cycle::check(&spec, &pairs), has_gaps_of_both_ranges(&spec, &pairs)),
        Err(answer) => (answer, false),
    };
    let met = answer + 100 * u32::from(both_ranges);
    same(met, library.check_cycle(&file, &pairs), answer, || format!("spec {} pairs {pairs:?}", hex(&file)))
}

fn has_gaps_of_both_ranges(spec: &Spec, pairs: &[Pair]) -> bool {
    let has_gap_of = |(lower, upper)| pairs.iter().any(|pair| (lower..=upper).contains(&pair.gap.into()));
    has_gap_of(spec.gap) && spec.second.is_some_and(has_gap_of)
}

pub fn some_pair(random: &mut Random) -> Pair {
    Pair { gap: random.next() as u16, size: random.next() as u16 }
}

fn read_case(random: &mut Random, library: &mut Library) -> Verdict {
    let sound = generate::cycle_file(random);
    let file = match random.below(3) {
        0 => generate::damaged(random, sound),
        1 => stray_map(random, sound),
        _ => sound,
    };
    let count = file.get(..2).map_or(0, |b| u64::from(b[0]) * 256 + u64::from(b[1])).min(700);
    let places = match random.below(4) {
        0 => random.below(count + 2),
        1 => count + random.below(3),
        _ => 512 + random.below(4),
    };
    let before: Vec<Pair> = (0..places).map(|_| some_pair(random)).collect();
    let [held] = random.places();
    let wanted = listed(file::read(&file, before.len()), &before, held);
    let got = library.read_cycle(&file, &before, held);
    same(wanted.0.answer, got, wanted, || format!("{} places {places}", hex(&file)))
}

/// A file that is read gets 18 wherever it is cut off, and 21 with bytes behind it; one that is refused for something else than
/// its end keeps its number with them.
fn cut_or_over_case(random: &mut Random, library: &mut Library) -> Verdict {
    let sound = generate::cycle_file(random);
    let mut file = if random.once_in(2) { stray_map(random, sound) } else { sound };
    let before = vec![some_pair(random); random.pick(&[1, 20, 512, 513])];
    let held = random.places::<1>();
    let answer = match file::read(&file, before.len()) {
        Ok(_) if random.once_in(2) => {
            file.truncate(random.below(file.len() as u64) as usize);
            18
        }
        Ok(_) => 21,
        Err(answer) => answer,
    };
    if answer != 18 {
        let over = random.pick(&[1, 1, 2, 5, 600]);
        file.extend((0..over).map(|_| random.next() as u8));
    }
    let wanted = (Outcome { answer, places: held }, before.clone());
    same(answer, library.read_cycle(&file, &before, held[0]), wanted, || format!("{} places {}", hex(&file), before.len()))
}

/// Spoils one pair of a sound file: its map byte, a field that should be left out, or a cut just there.
pub fn stray_map(random: &mut Random, mut file: Vec<u8>) -> Vec<u8> {
    let (mut at, mut before) = (2, None);
    let pairs = u64::from(file[0]) * 256 + u64::from(file[1]);
    for _ in 0..random.below(pairs + 1) {
        before = Some(at);
        at += 1 + 2 * usize::from(file[at] & 1) + usize::from(file[at] & 2);
    }
    if at >= file.len() {
        return file;
    }
    match (random.below(5), before) {
        (0, _) => file[at] = random.next() as u8,
        (1, _) => file[at] ^= 1 << random.below(8),
        (2, _) => file.truncate(at + random.below(5) as usize),
        (_, Some(before)) if file[before] == 3 => repeat_field(random, &mut file, before, at),
        _ => file[at] &= 3 & random.next() as u8,
    }
    file
}

/// Puts a field of the full pair `before` once more into the next pair, at `at`, where it should be left out.
fn repeat_field(random: &mut Random, file: &mut Vec<u8>, before: usize, at: usize) {
    let map = file[at];
    let (field, to) = if random.once_in(2) { (1, at + 1) } else { (2, at + 1 + 2 * usize::from(map & 1)) };
    if map & field == 0 {
        let from = before + 2 * usize::from(field) - 1;
        let repeated = [file[from], file[from + 1]];
        file[at] |= field;
        file.splice(to..to, repeated);
    }
}

fn write_case(random: &mut Random, library: &mut Library) -> Verdict {
    let pairs = generate::any_pairs(random);
    let length = file::write(&pairs, usize::MAX).map_or(2, |file| file.len()) as u64;
    let room = match random.below(4) {
        0 => random.below(length),
        1 => length - 1,
        2 => length,
        _ => length + random.below(80),
    };
    let before: Vec<u8> = (0..room).map(|_| random.next() as u8).collect();
    let held = random.places::<1>();
    let made = file::write(&pairs, before.len());
    let mut wanted_bytes = before.clone();
    if let Ok(file) = &made {
        wanted_bytes[..file.len()].copy_from_slice(file);
        assert_eq!(file::read(file, 512).as_ref(), Ok(&pairs), "the reference reads what it writes");
    }
    let wanted = expected(made.map(|file| [file.len() as u64]), held);
    let got = library.write_cycle(&pairs, &before, held[0]);
    same(wanted.answer, got, (wanted, wanted_bytes), || format!("{pairs:?} room {room}"))
}

/// The plans that the library yields run by the four rules. It counts as 0 where the test passes one, 1 where only an even plan
/// exists, 2 where neither, and 3 where there is an even plan of two ranges, which the test does not take.
fn obeying_case(random: &mut Random, library: &mut Library) -> Verdict {
    let scale = random.pick(&[TINY, SMALL, SMALL, MID]);
    let mut spec = match random.below(3) {
        0 => generate::near_spec_of_two_ranges(random, scale),
        _ => generate::near_spec_with_rates(random, scale),
    };
    if random.once_in(2) {
        make_consistent(random, &mut spec, scale);
    }
    let file = spec::write(&spec);
    let tested = library.test(&file, [0; 5]);
    let [_, k, period, total, _] = tested.places.map(u64::from);
    if tested.answer == 0 && !obeys(&spec, &Plan { kind: Kind::WellFormed, k, period, total }) {
        return Err(format!("the plan that the test passed breaks a rule: {}", hex(&file)));
    }
    let even = library.even_plan(&file, [0; 3]);
    let [k, period, total] = even.places.map(u64::from);
    if even.answer == 0 && !obeys(&spec, &Plan { kind: Kind::Even, k, period, total }) {
        return Err(format!("the even plan breaks a rule: {}", hex(&file)));
    }
    Ok(match (tested.answer, even.answer) {
        (0, _) => 0,
        (25, 0) => 3,
        (_, 0) => 1,
        _ => 2,
    })
}

/// Tests of the reference itself: its literal way and its way for large numbers say the same.
pub fn reference_itself(runner: &mut Runner) {
    runner.random("reference: by minute and by report", RUNS / 10, &[0, 1], |random, _| {
        let scale = random.pick(&[TINY, SMALL, MID]);
        let spec = generate::near_spec(random, scale);
        let count = random.between(1, 20) as usize;
        let pairs = generate::cycle_in_range(random, &spec, count);
        let window = random.between(1, scale.window);
        let run = cycle::Cycle(&pairs);
        let by_minute = reference::schedule::least_and_most_by_minute(&run, window);
        // 1 where some stretch holds more than another: where none does, the two ways can hardly differ.
        let apart = u32::from(by_minute.0 < by_minute.1);
        same(apart, least_and_most_by_report(&run, window), by_minute, || format!("{pairs:?} {window}"))
    });
    runner.random("reference: whole check by minute, long rounds", RUNS / 2_000, &[0, 15, 16], |random, _| {
        let mut spec = generate::near_spec(random, FULL);
        let most = random.between(20, 120) as usize;
        let pairs = generate::cycle_in_range(random, &spec, most);
        spec.size = (1, 1_000);
        if random.once_in(2) {
            generate::fit_rates(random, &mut spec, |n| least_and_most_by_report(&cycle::Cycle(&pairs), n));
        }
        let by_minute = cycle::check_laid_out(&spec, &pairs, u64::MAX);
        same(by_minute, cycle::check_laid_out(&spec, &pairs, 0), by_minute, || format!("{spec:?} {pairs:?}"))
    });
    runner.random("reference: maximum supply by minute", RUNS / 20, &[0, 6], |random, _| {
        let scale = random.pick(&[TINY, SMALL, MID]);
        let spec = generate::near_spec_with_rates(random, scale);
        let k = random.between(1, 30);
        let by_minute = feasibility::max_supply(&spec, k, u64::MAX);
        let answer = by_minute.map_or_else(|refusal| refusal, |_| 0);
        same(answer, feasibility::max_supply(&spec, k, 0), by_minute, || format!("{spec:?} {k}"))
    });
}
