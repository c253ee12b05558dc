//! Which of two dated files is in force, against the reference. The library's answers are also held against each other: for two files and
//! for the same the other way round, and for a file and for its cycle part, which the library's other calls read and write.

use crate::calls::{expected, hex, stray_map};
use crate::checks::{HELD, HELD_PAIR};
use crate::generate;
use crate::group::{same, Runner, Verdict, RUNS};
use crate::library::{Library, Outcome};
use crate::normal::AGAIN;
use crate::random::Random;
use reference::{dated, Refusal};

pub fn all(runner: &mut Runner) {
    let files = small_files();
    let name =
        format!("every two of {} small dated files: which is in force, the other way round, and its cycle part", files.len());
    every_two(runner, &name, &files, &[1, 2, 12, 17, 18, 19, 21, 29, 101, 102, 103], |first, second, library| {
        turned_round(first, second, library)?;
        cycle_part(first, second, library)?;
        compare(first, second, HELD, library)
    });
    every_length(runner);
    every_small_list_of_bytes(runner);
    let numbers = [12, 17, 18, 19, 21, 29];
    runner.random("file in force of two", RUNS, &[&[1, 2, 101, 102, 103], &numbers[..]].concat(), in_force_case);
    let name = "file in force of two, and of the two the other way round";
    runner.random(name, RUNS, &[&[1, 2, 3, 100], &numbers[..]].concat(), |random, library| {
        let (first, second) = two_files(random);
        turned_round(&first, &second, library)
    });
    runner.random("cycle part of the file in force, read and written again", RUNS, &[0, 1, 2], |random, library| {
        let (first, second) = two_files(random);
        cycle_part(&first, &second, library)
    });
}

/// A cycle file with an issue day before it.
pub fn dated(day: u16, part: &[u8]) -> Vec<u8> {
    [&day.to_be_bytes(), part].concat()
}

/// The ends of what one byte and two can hold, days that change places where the low byte comes first, and where a sign would change.
const DAYS: [u16; 8] = [0, 1, 255, 256, 257, 32_767, 32_768, 65_535];

/// One pair, two and three that can be read, each another file: by one byte, by length, or written out again.
const READABLE: [&[u8]; 14] = [
    &[0, 1, 3, 0, 5, 0, 2],
    &[0, 1, 3, 0, 5, 0, 3],
    &[0, 1, 3, 0, 6, 0, 2],
    &[0, 1, 3, 0, 5, 1, 2],
    &[0, 1, 3, 1, 5, 0, 2],
    &[0, 1, 3, 0, 0, 0, 0],
    &[0, 2, 3, 0, 5, 0, 2, 0],
    &[0, 2, 3, 0, 5, 0, 2, 1, 0, 6],
    &[0, 2, 3, 0, 5, 0, 2, 2, 0, 6],
    &[0, 2, 3, 0, 6, 0, 2, 1, 0, 5],
    &[0, 2, 3, 0, 5, 0, 2, 3, 0, 6, 0, 3],
    &[0, 3, 3, 0, 5, 0, 2, 0, 0],
    &[0, 3, 3, 0, 5, 0, 2, 0, 2, 0, 3],
    &[0, 3, 3, 0, 5, 0, 2, 2, 0, 3, 0],
];

/// What gets 12, 17, 18, 19 and 21.
const UNREADABLE: [&[u8]; 26] = [
    &[0, 0],
    &[0, 0, 3, 0, 5, 0, 2],
    &[2, 1],
    &[2, 1, 3, 0, 5, 0, 2],
    &[255, 255],
    &[0, 1, 0],
    &[0, 1, 1, 0, 5],
    &[0, 1, 2, 0, 2],
    &[0, 1, 7, 0, 5, 0, 2],
    &[0, 1, 131, 0, 5, 0, 2],
    &[0, 2, 3, 0, 5, 0, 2, 4],
    &[],
    &[0],
    &[0, 1],
    &[2, 0],
    &[0, 1, 3],
    &[0, 1, 3, 0],
    &[0, 1, 3, 0, 5, 0],
    &[0, 2, 3, 0, 5, 0, 2],
    &[0, 2, 3, 0, 5, 0, 2, 1, 0],
    &[0, 2, 3, 0, 5, 0, 2, 1, 0, 5],
    &[0, 2, 3, 0, 5, 0, 2, 2, 0, 2],
    &[0, 2, 3, 0, 5, 0, 2, 3, 0, 5, 0, 3],
    &[0, 1, 3, 0, 5, 0, 2, 0],
    &[0, 1, 3, 0, 5, 0, 2, 3, 0, 6, 0, 2],
    &[0, 2, 3, 0, 5, 0, 2, 0, 0],
];

/// These on each of the days, and what is too short for a day.
fn small_files() -> Vec<Vec<u8>> {
    let on_days = |part: &&[u8]| DAYS.map(|day| dated(day, part));
    let short = [vec![], vec![0], vec![1], vec![255]];
    short.into_iter().chain(READABLE.iter().chain(&UNREADABLE).flat_map(on_days)).collect()
}

/// Each of these files beside each, in both orders.
fn every_two(
    runner: &mut Runner,
    name: &str,
    files: &[Vec<u8>],
    answers: &[u32],
    case: impl Fn(&[u8], &[u8], &mut Library) -> Verdict + Sync,
) {
    let count = files.len();
    runner.every(name, (count * count) as u64, answers, |number, library| {
        case(&files[number as usize / count], &files[number as usize % count], library)
    });
}

/// 512 pairs of which none leaves out a field: the longest cycle file.
pub fn longest_part() -> Vec<u8> {
    [vec![2, 0], [3, 0, 5, 0, 3, 3, 0, 6, 0, 2].repeat(256)].concat()
}

/// A file that can be read, cut off or with bytes over, beside another one of an earlier day, the same or a later one.
fn every_length(runner: &mut Runner) {
    let files = [READABLE[0], READABLE[10], READABLE[13], &longest_part()].map(|part| dated(256, part));
    let name = |file: &[u8]| format!("a dated file of {} bytes at every length, beside one that can be read", file.len());
    for file in files {
        let longer = [&file[..], &[0; 8]].concat();
        runner.every(&name(&file), longer.len() as u64 + 1, &[0, 18, 21], |length, library| {
            at_length(&file, &longer[..length as usize], library)
        });
    }
}

/// It counts as what the file gets at this length.
fn at_length(file: &[u8], cut: &[u8], library: &mut Library) -> Verdict {
    let answer = match cut.len() {
        length if length < file.len() => 18,
        length if length == file.len() => 0,
        _ => 21,
    };
    for (day, others_turn) in [(255, Ok(1)), (256, Err(29)), (257, Ok(2))] {
        let other = dated(day, READABLE[1]);
        let wanted = if answer == 0 { others_turn } else { Ok(2) };
        let turned = wanted.map(|which| 3 - which);
        for (first, second, wanted) in [(cut, &other[..], wanted), (&other, cut, turned)] {
            answers(first, second, wanted, library)?;
        }
    }
    answers(cut, cut, if answer == 0 { Ok(1) } else { Err(answer) }, library)?;
    Ok(answer)
}

/// The answer of the library, and of the reference, is this one.
fn answers(first: &[u8], second: &[u8], wanted: Result<u32, Refusal>, library: &mut Library) -> Verdict {
    let got = [library.in_force(first, second, [HELD]), told(dated::in_force(first, second), HELD)];
    same(0, got, [told(wanted, HELD); 2], || two(first, second))
}

fn every_small_list_of_bytes(runner: &mut Runner) {
    let lists: Vec<Vec<u8>> = (0..=4).flat_map(|length| lists_of(&[0, 1, 2, 255], length)).collect();
    every_two(runner, "every two dated files of up to 4 bytes 0, 1, 2 or 255", &lists, &[12, 18], again);
    let of_one_pair = |bytes: Vec<u8>| [&bytes[..2], &[0, 1, 3], &bytes[2..]].concat();
    let pairs: Vec<Vec<u8>> = lists_of(&[0, 1, 255], 6).into_iter().map(of_one_pair).collect();
    every_two(
        runner,
        "every two dated files of one pair, day and pair of bytes 0, 1 or 255",
        &pairs,
        &[29, 101, 102, 103],
        compared,
    );
    let others = [dated(0x0101, READABLE[0]), dated(0x0103, READABLE[0]), dated(0x0300, READABLE[0]), dated(0, &[2, 1])];
    let lists = [9, 10].map(|length| lists_of(&[0, 1, 3], length)).concat();
    let name = "every dated file of 9 bytes 0, 1 or 3, and of 10, beside some others";
    runner.every(name, lists.len() as u64, &[0, 12, 17, 18, 21], |number, library| {
        let list = &lists[number as usize];
        others.iter().try_for_each(|other| {
            compared(list, other, library)?;
            compared(other, list, library).map(|_| ())
        })?;
        Ok(dated::read(list).err().unwrap_or(0))
    });
}

/// All lists of so many of these bytes.
fn lists_of(values: &[u8], length: u32) -> Vec<Vec<u8>> {
    let longer = |list: Vec<u8>| values.iter().map(move |&value| [&list[..], &[value]].concat());
    (0..length).fold(vec![vec![]], |lists, _| lists.into_iter().flat_map(longer).collect())
}

fn two(first: &[u8], second: &[u8]) -> String {
    format!("first {} second {}", hex(first), hex(second))
}

/// The answer that tells this file, 1 or 2, or this refusal, where the place of the file held `which`.
pub fn told(made: Result<u32, Refusal>, which: u32) -> Outcome<1> {
    expected(made.map(|which| [which.into()]), [which])
}

/// The library's answer is the reference's.
fn compare(first: &[u8], second: &[u8], which: u32, library: &mut Library) -> Verdict {
    let made = dated::in_force(first, second);
    same(kind(first, second, made), library.in_force(first, second, [which]), told(made, which), || two(first, second))
}

fn compared(first: &[u8], second: &[u8], library: &mut Library) -> Verdict {
    compare(first, second, HELD, library)
}

/// What is refused is refused again where nothing can be written.
fn again(first: &[u8], second: &[u8], library: &mut Library) -> Verdict {
    let answer = compared(first, second, library)?;
    same(answer, library.refused_in_force(first, second), answer, || format!("{}, again", two(first, second)))
}

/// It counts as the number; or as the file in force, 1 or 2, which is the only one that can be read, and 100 more where its day is the later
/// one; or as 103 where the files are equal.
fn kind(first: &[u8], second: &[u8], made: Result<u32, Refusal>) -> u32 {
    let both_can_be_read = dated::read(first).is_ok() && dated::read(second).is_ok();
    match made {
        Err(refusal) => refusal,
        Ok(_) if first == second => 103,
        Ok(which) => which + 100 * u32::from(both_can_be_read),
    }
}

/// The cycle part, as include/maxeltu.h has it by an answer: what follows the issue day of the file in force, and no byte at a refusal.
pub fn part_of<'a>(got: Outcome<1>, first: &'a [u8], second: &'a [u8]) -> &'a [u8] {
    match got {
        Outcome { answer: 0, places: [1] } => first.get(2..).unwrap_or_default(),
        Outcome { answer: 0, .. } => second.get(2..).unwrap_or_default(),
        _ => &[],
    }
}

/// What the library answers of a dated file by its other calls.
fn reading(file: &[u8], library: &mut Library) -> u32 {
    match file {
        [_, _, part @ ..] => library.read_cycle(part, &[HELD_PAIR; 512], HELD).0.answer,
        _ => 18,
    }
}

/// The other way round the same file is in force, of equal files the first; two of one day get 29 again, and two that cannot be read the
/// number of reading the first of them, whichever that is. The cycle part has the same bytes. It counts as the file in force, as 3 where
/// they are equal, as the number, or as 100 where the other way round has another number.
fn turned_round(first: &[u8], second: &[u8], library: &mut Library) -> Verdict {
    let [there, back] = [library.in_force(first, second, [HELD]), library.in_force(second, first, [HELD])];
    let numbers = [reading(first, library), reading(second, library)];
    let (wanted, met) = match (there, numbers) {
        (Outcome { answer: 0, .. }, _) if first == second => ([Ok(1); 2], 3),
        (Outcome { answer: 0, places: [which] }, _) => ([Ok(which), Ok(3 - which)], which),
        (_, [0, 0]) => ([Err(29); 2], 29),
        (_, [one, other]) => ([Err(one), Err(other)], if one == other { one } else { 100 }),
    };
    same(met, [there, back], wanted.map(|made| told(made, HELD)), || two(first, second))?;
    same(met, part_of(there, first, second), part_of(back, second, first), || two(first, second))
}

/// The cycle part is read exactly where a file is in force, and what was read is written with the same bytes. It counts as the file in force,
/// or as 0.
fn cycle_part(first: &[u8], second: &[u8], library: &mut Library) -> Verdict {
    let got = library.in_force(first, second, [HELD]);
    let part = part_of(got, first, second);
    same(0, part, dated::part(first, second), || two(first, second))?;
    let (Outcome { answer, places: [count] }, pairs) = library.read_cycle(part, &[HELD_PAIR; 512], HELD);
    same(0, answer == 0, got.answer == 0, || format!("{}: the part is read", two(first, second)))?;
    if answer != 0 {
        return Ok(0);
    }
    let written = library.write_cycle(&pairs[..count as usize], &vec![0; part.len()], HELD);
    let wanted = (expected(Ok([part.len() as u64]), [HELD]), part.to_vec());
    same(got.places[0], written, wanted, || two(first, second))
}

fn some_day(random: &mut Random) -> u16 {
    if random.once_in(2) {
        random.pick(&DAYS)
    } else {
        random.next() as u16
    }
}

/// A file of any pairs on any day, not damaged.
fn some_dated(random: &mut Random) -> Vec<u8> {
    let part = generate::cycle_file(random);
    dated(some_day(random), &part)
}

/// One more file, as a carrier sends it after this one: mostly nearly the same, or of the same day.
fn beside(random: &mut Random, file: &[u8]) -> Vec<u8> {
    let [high, low] = [file[0], file[1]];
    let day = u16::from_be_bytes([high, low]);
    let part = &file[2..];
    match random.below(12) {
        0 | 1 => file.to_vec(),
        2 => dated(u16::from_be_bytes([random.next() as u8, low]), part),
        3 => dated(u16::from_be_bytes([high, random.next() as u8]), part),
        4 => dated(u16::from_be_bytes([low, high]), part),
        5 => dated(random.pick(&[day.wrapping_add(1), day.wrapping_sub(1)]), part),
        6 => dated(day, &generate::cycle_file(random)),
        7..=9 => one_bit(random, file.to_vec()),
        _ => some_dated(random),
    }
}

/// Changes a bit of the cycle part, of its last byte or of any.
fn one_bit(random: &mut Random, mut file: Vec<u8>) -> Vec<u8> {
    let last = file.len() as u64 - 1;
    let at = if random.once_in(3) { last } else { random.between(2, last) };
    file[at as usize] ^= 1 << random.below(8);
    file
}

/// Mostly the same file; else cut off, with bytes over, or with something wrong in it.
fn seldom_spoilt(random: &mut Random, mut file: Vec<u8>) -> Vec<u8> {
    match random.below(10) {
        0 | 1 => generate::damaged(random, file),
        2 | 3 if dated::read(&file).is_ok() => {
            let part = stray_map(random, file.split_off(2));
            file.extend(part);
            file
        }
        4 if random.once_in(3) => {
            file.truncate(random.below(4) as usize);
            file
        }
        _ => file,
    }
}

/// Two files, which may be equal though they cannot be read.
fn two_files(random: &mut Random) -> (Vec<u8>, Vec<u8>) {
    let first = some_dated(random);
    let second = beside(random, &first);
    let first = seldom_spoilt(random, first);
    if random.once_in(20) {
        return (first.clone(), first);
    }
    (first, seldom_spoilt(random, second))
}

fn in_force_case(random: &mut Random, library: &mut Library) -> Verdict {
    let (first, second) = two_files(random);
    let [which] = random.places();
    let met = compare(&first, &second, which, library)?;
    if dated::in_force(&first, &second).is_err() && random.once_in(AGAIN) {
        again(&first, &second, library)?;
    }
    Ok(met)
}
