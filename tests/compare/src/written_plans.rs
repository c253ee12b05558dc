//! Plans written out as cycles, against the reference, which takes their reports one by one; and that what is written is read back, holds the
//! reports that the library tells of the plan, and is passed where the plan obeys.

use crate::box_plans::tight_input;
use crate::calls::{self, put_before};
use crate::checks::{self, even, well, Checks, HELD};
use crate::generate::{self, FULL, MID, SMALL, TINY};
use crate::group::{same, Counts, Met, Runner, Verdict, RUNS};
use crate::library::Library;
use crate::normal::AGAIN;
use crate::plans::{some_plan, Handed, SmallPlans};
use crate::random::Random;
use reference::{file, spec, Kind, Pair, Plan, Spec};

pub fn all(runner: &mut Runner) {
    checks::group(runner, "plans written out: files by their bytes", files);
    checks::group(runner, "plans written out: the order of the refusals", order);
    checks::group(runner, "plans written out: up to 512 pairs", counts);
    let plans = SmallPlans { counts: 7, periods: 15, totals: 15 };
    runner.every("every small plan: written out in each room", plans.plans(), &[0, 11, 20], |number, library| {
        every_room(plans.plan(number), library)
    });
    runner.random("write a plan", RUNS / 2, &[0, 11, 12, 20, EVEN, LONG, LONG + EVEN, ALL_FIELDS], write_case);
    let name = "plans of the test and even plans written out, and passed";
    runner.random(name, RUNS / 4, &[0, 1, 2, 12], passed_case);
}

/// What a plan that is written out counts as: its kind is the even one, it has more than 255 pairs, or one whose both fields are written.
const EVEN: u32 = 100;
const LONG: u32 = 200;
const ALL_FIELDS: u32 = 400;

fn handed(plan: Plan) -> Handed {
    Handed { kind: u32::from(plan.kind == Kind::Even), k: plan.k, period: plan.period, total: plan.total }
}

fn files(checks: &mut Checks) {
    let rows: [(&str, Plan, &[u8]); 9] = [
        // Sizes 3, 2, 3, 2 and 3, 3, 2, 2 of document 02, Req 02, and 01.
        ("B with 15, even", even(4, 20, 10), &[0, 4, 3, 0, 5, 0, 3, 2, 0, 2, 2, 0, 3, 2, 0, 2]),
        ("B with 15, box", even(2, 10, 5), &[0, 2, 3, 0, 5, 0, 3, 2, 0, 2]),
        ("B", well(4, 20, 10), &[0, 4, 3, 0, 5, 0, 3, 0, 2, 0, 2, 0]),
        // Minutes 0, 52, 105, 158, sizes 6, 6, 5.
        ("A", well(3, 158, 17), &[0, 3, 3, 0, 52, 0, 6, 1, 0, 53, 2, 0, 5]),
        ("A, even", even(3, 156, 17), &[0, 3, 3, 0, 52, 0, 6, 0, 2, 0, 5]),
        ("one pair, the least", even(1, 1, 1), &[0, 1, 3, 0, 1, 0, 1]),
        ("one pair, the greatest", well(1, 20_160, 1_000), &[0, 1, 3, 78, 192, 3, 232]),
        ("both fields of the second", well(2, 11, 5), &[0, 2, 3, 0, 5, 0, 3, 3, 0, 6, 0, 2]),
        ("256 and 255", well(2, 511, 511), &[0, 2, 3, 0, 255, 1, 0, 3, 1, 0, 0, 255]),
    ];
    for (name, plan, file) in rows {
        let length = file.len();
        for room in [length, length + 1, length + 500] {
            checks.write_plan(name, handed(plan), room, Ok(file));
        }
        for room in [0, 1, 2, length - 2, length - 1] {
            checks.write_plan(name, handed(plan), room, Err(20));
        }
        for room in [4_096, 65_536, 1 << 32, (1 << 32) + 1, 1 << 34] {
            checks.write_plan_in_much_room(name, handed(plan), room, file);
        }
    }
}

fn order(checks: &mut Checks) {
    // Not proper, with and without room; some have more than 512 reports too.
    let improper: [(u32, [u64; 3]); 18] = [
        (0, [0, 5, 5]),
        (1, [0, 5, 5]),
        (0, [2, 1, 2]),
        (0, [2, 40_321, 2]),
        (0, [2, 4, 1]),
        (0, [2, 4, 2_001]),
        (1, [2, 5, 2]),
        (1, [2, 1, 2]),
        (1, [3, 60_481, 3]),
        (2, [2, 4, 4]),
        (256, [2, 4, 4]),
        (u32::MAX, [2, 4, 4]),
        (2, [513, 513, 513]),
        (1, [513, 514, 513]),
        (0, [513, 512, 513]),
        (0, [20_161, 20_161, 20_161]),
        (1, [65_537, 65_537, 65_537]),
        (1, [u64::from(u32::MAX); 3]),
    ];
    for (kind, [k, period, total]) in improper {
        for room in [0, 6, 7, 2_562, 10_000] {
            checks.write_plan("11", Handed { kind, k, period, total }, room, Err(11));
        }
    }
    for k in [513, 514, 1_024, 20_159, 20_160] {
        for room in [0, 6, 2_562, 10_000] {
            checks.write_plan("12", handed(even(k, k, k)), room, Err(12));
            checks.write_plan("12", handed(even(k, 20_160 * k, 1_000 * k)), room, Err(12));
            checks.write_plan("12", handed(well(k, k + 1, k + 1)), room, Err(12));
        }
    }
}

/// Plans of 511, 512 and 513 reports: the shortest file, the longest of either kind, and a byte less of room.
fn counts(checks: &mut Checks) {
    for k in [1, 2, 255, 256, 257, 511, 512] {
        for plan in [even(k, k, k), even(k, 20_160 * k, 1_000 * k), well(k, 5 * k, 7 * k)] {
            let length = 2 + 5 + (k as usize - 1);
            let mut file = vec![0; length];
            let first = [plan.period / k, plan.total / k].map(|n| (n as u16).to_be_bytes());
            file[..7].copy_from_slice(&[(k >> 8) as u8, k as u8, 3, first[0][0], first[0][1], first[1][0], first[1][1]]);
            checks.write_plan("all pairs the same", handed(plan), length, Ok(&file));
            checks.write_plan("all pairs the same", handed(plan), length - 1, Err(20));
            checks.write_plan("all pairs the same", handed(plan), length + 300, Ok(&file));
        }
    }
    // One larger size, the first, and one longer gap, the last.
    for k in [256, 257, 511, 512] {
        let mut file = vec![(k >> 8) as u8, k as u8, 3, 0, 5, 0, 8, 2, 0, 7];
        file.resize(10 + k as usize - 3, 0);
        file.extend([1, 0, 6]);
        checks.write_plan("the first and the last differ", handed(well(k, 5 * k + 1, 7 * k + 1)), file.len(), Ok(&file));
    }
    // Sizes 2 and 1 in turn: a field a pair, 2 + 5 + 3 × 511 bytes.
    let mut file = vec![2, 0, 3, 0, 9, 0, 2];
    (1..512u16).for_each(|i| file.extend([2, 0, 2 - (i % 2) as u8]));
    checks.write_plan("sizes in turn", handed(even(512, 512 * 9, 768)), file.len(), Ok(&file));
    checks.write_plan("sizes in turn", handed(even(512, 512 * 9, 768)), file.len() - 1, Err(20));
    checks.write_plan("sizes in turn", handed(even(513, 513 * 9, 768)), file.len(), Err(12));
}

/// What the library writes into this room is what the reference does.
fn compare(handed: Handed, before: &[u8], held: u32, library: &mut Library) -> Verdict {
    let wanted = put_before(handed.plan().and_then(|plan| plan.write(before.len())), before, held);
    let got = library.write_plan(handed.kind, handed.numbers(), before, held);
    same(wanted.0.answer, got, wanted, || format!("{handed:?} room {}", before.len()))
}

/// Every room from none to one more than the file takes. What is refused is refused again where nothing can be written.
fn every_room(handed: Handed, library: &mut Library) -> Result<Counts, String> {
    let length = handed.plan().and_then(|plan| plan.write(usize::MAX)).map_or(8, |file| file.len());
    let mut counts = Counts::new();
    for room in 0..=length + 1 {
        let answer = compare(handed, &vec![0xA5; room], HELD, library)?;
        if answer != 0 && room % 5 == 0 {
            let again = library.refused_write_plan(handed.kind, handed.numbers(), room);
            same(answer, again, answer, || format!("{handed:?} room {room}, again"))?;
        }
        answer.add_to(&mut counts);
    }
    Ok(counts)
}

/// Proper plans have up to 512 reports, mostly; half of the even ones become well-formed ones with some longer gaps.
fn handed_to_write(random: &mut Random) -> Handed {
    let (mut kind, [mut k, mut period, mut total]) = some_plan(random);
    if k > 512 && !random.once_in(10) {
        let most = random.pick(&[2, 300, 511, 512, 513]);
        let fewer = if random.once_in(4) { most } else { random.between(1, most) };
        (period, total) = (period / k * fewer, total / k * fewer + random.below(fewer));
        k = fewer;
    }
    if kind == 1 && random.once_in(2) {
        kind = 0;
        period += random.below(k.max(1));
    }
    let most = u64::from(u32::MAX);
    Handed { kind, k, period: period.min(most), total: total.min(most) }
}

fn some_room(random: &mut Random, length: u64) -> u64 {
    match random.below(6) {
        0 => random.below(length),
        1 => length - 1,
        2 => length,
        3 => 2_562,
        _ => length + random.below(80),
    }
}

fn write_case(random: &mut Random, library: &mut Library) -> Verdict {
    let handed = handed_to_write(random);
    let made = handed.plan().and_then(|plan| plan.write(usize::MAX));
    let room = some_room(random, made.as_ref().map_or(40, |file| file.len() as u64));
    let before: Vec<u8> = (0..room).map(|_| random.next() as u8).collect();
    let [held] = random.places();
    let answer = compare(handed, &before, held, library)?;
    if answer != 0 && random.once_in(AGAIN) {
        let again = library.refused_write_plan(handed.kind, handed.numbers(), room as usize);
        same(answer, again, answer, || format!("{handed:?} room {room}, again"))?;
    }
    match made {
        Ok(file) if answer == 0 => as_a_cycle(handed, &file, library),
        _ => Ok(answer),
    }
}

/// The file of a plan is that of its reports as a cycle, and reads back as they; report by report the repetition of these is the plan, as the
/// library tells it.
fn as_a_cycle(handed: Handed, file: &[u8], library: &mut Library) -> Verdict {
    let pairs = file::read(file, 512).map_err(|refusal| format!("{handed:?}: the reference reads with {refusal}"))?;
    let written = library.write_cycle(&pairs, &vec![0xA5; file.len()], HELD);
    let read = library.read_cycle(file, &vec![Pair { gap: 0, size: 0 }; pairs.len()], HELD);
    let held = (written.0.answer, &written.1[..], read.0.answer, &read.1[..]);
    same(0, held, (0, file, 0, &pairs[..]), || format!("{handed:?}"))?;
    let mut minute = 0;
    for i in 0..3 * handed.k {
        let pair = pairs[i as usize % pairs.len()];
        let report = handed.report(i, library);
        same(0, report, (minute, pair.size.into()), || format!("{handed:?}, report {i}"))?;
        minute += u64::from(pair.gap);
    }
    Ok(mark(handed, &pairs))
}

fn mark(handed: Handed, pairs: &[Pair]) -> u32 {
    let both_change = |two: &[Pair]| two[0].gap != two[1].gap && two[0].size != two[1].size;
    if pairs.windows(2).any(both_change) {
        return ALL_FIELDS;
    }
    let long = if pairs.len() > 255 { LONG } else { 0 };
    long + if handed.kind == 1 { EVEN } else { 0 }
}

/// A plan that the library gives, and the specification: of the test, or the even plan. The latter has many pairs now and then.
fn given_plan(random: &mut Random, library: &mut Library) -> (Spec, Handed) {
    loop {
        let turn = random.below(3);
        let scale = random.pick(&[TINY, SMALL, SMALL, MID, FULL]);
        let mut spec = match turn {
            0 => tight_input(random).0,
            _ => generate::near_spec_with_rates(random, scale),
        };
        if turn == 1 {
            calls::make_consistent(random, &mut spec, scale);
        }
        let file = spec::write(&spec);
        let outcome = match turn {
            1 => {
                let tested = library.test(&file, [0; 5]);
                (tested.answer, [tested.places[1], tested.places[2], tested.places[3]])
            }
            _ => {
                let even = library.even_plan(&file, [0; 3]);
                (even.answer, even.places)
            }
        };
        if let (0, [k, period, total]) = outcome {
            let [k, period, total] = [k, period, total].map(u64::from);
            return (spec, Handed { kind: u32::from(turn != 1), k, period, total });
        }
    }
}

/// Where a plan that obeys is written out, the loader's call passes it. It counts as 1 of the test, 0 where an even plan has one pair, 2 where it
/// has several.
fn passed_case(random: &mut Random, library: &mut Library) -> Verdict {
    let (spec, handed) = given_plan(random, library);
    let (outcome, bytes) = library.write_plan(handed.kind, handed.numbers(), &[0xA5; 2_562], HELD);
    let wanted = if handed.k > 512 { 12 } else { 0 };
    same(wanted, outcome.answer, wanted, || format!("{handed:?} {spec:?}"))?;
    if wanted != 0 {
        return Ok(wanted);
    }
    let verdict = library.verdict(&spec::write(&spec), &bytes[..outcome.places[0] as usize]);
    same(0, verdict, 0, || format!("verdict of {handed:?} written out: {spec:?}"))?;
    Ok(match handed.kind {
        0 => 1,
        _ => 2 * u32::from(handed.k > 1),
    })
}
