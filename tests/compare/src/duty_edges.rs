//! Document 02, Req 11: week tables that just keep their rules or break one, and duty minutes at the ends of windows, days, weeks and
//! numbers. Every answer is worked out by hand from the document, and asked of the library and of the reference.

use crate::checks::{self, Checks};
use crate::group::Runner;
use crate::tables::{but_one, every_day, Day, NO_WINDOW, OFFICE, WHOLE_DAY};

pub fn all(runner: &mut Runner) {
    checks::group(runner, "duty hours: always open", always_open);
    checks::group(runner, "duty hours: one minute closed a week", one_closed);
    checks::group(runner, "duty hours: one minute a week", one_minute);
    checks::group(runner, "duty hours: the same windows in other words", same_windows);
    checks::group(runner, "duty hours: the ends of days and weeks", ends);
    checks::group(runner, "duty hours: days that differ, and days of rest", days);
    checks::group(runner, "duty hours: days that just keep the rules, and that break one", rules);
    checks::group(runner, "duty hours: numbers that are not 28", lengths);
}

const LAST: u32 = u32::MAX;

/// Every calendar minute is its own duty minute.
fn always_open(checks: &mut Checks) {
    let minutes = [0, 1, 719, 720, 721, 1_439, 1_440, 10_079, 10_080, 20_160, 65_535, 65_536, 0x8000_0000, LAST - 1, LAST];
    let open = minutes.map(|minute| (minute, minute.into()));
    let cut = |minute: u16| [0, minute, minute, 1_440];
    let days = [WHOLE_DAY, cut(720), cut(1), cut(1_439), [0, 0, 0, 1_440]];
    for day in days {
        checks.week(&format!("every day {day:?}"), &every_day(day), &open, &[]);
        for place in 0..7 {
            checks.week(&format!("day {place} {day:?}"), &but_one(WHOLE_DAY, place, day), &open, &[]);
        }
    }
    let other_cuts = [720, 1, 1_439, 2, 1_438, 600, 900].map(cut).concat();
    checks.week("cut each day elsewhere", &other_cuts, &open, &[]);
}

/// 2^32 − 1 is 426,088 × 10,080 + 255, and 426,130 × 10,079 + 3,025.
fn one_closed(checks: &mut Checks) {
    let at_the_end = [
        (0, 0),
        (10_078, 10_078),
        (10_079, 10_080),
        (20_157, 20_158),
        (20_158, 20_160),
        (4_294_541_207, 4_294_967_295),
        (4_294_541_208, 4_294_967_296),
        (LAST, 4_295_393_425),
    ];
    for sunday in [[0, 1_439, 0, 0], [0, 0, 0, 1_439], [0, 720, 720, 1_439]] {
        let table = but_one(WHOLE_DAY, 6, sunday);
        checks.week(&format!("Sunday {sunday:?}"), &table, &at_the_end, &[10_079, 20_159, 4_294_967_039]);
    }
    let at_the_start = [
        (0, 1),
        (10_078, 10_079),
        (10_079, 10_081),
        (20_157, 20_159),
        (20_158, 20_161),
        (4_294_541_206, 4_294_967_295),
        (LAST, 4_295_393_426),
    ];
    for monday in [[1, 1_440, 0, 0], [0, 0, 1, 1_440], [1, 2, 2, 1_440]] {
        let table = but_one(WHOLE_DAY, 0, monday);
        checks.week(&format!("Monday {monday:?}"), &table, &at_the_start, &[0, 10_080, 20_160, 4_294_967_040]);
    }
    // Thursday's noon, 3 × 1,440 + 720, between two windows.
    let table = but_one(WHOLE_DAY, 3, [0, 720, 721, 1_440]);
    checks.week(
        "Thursday's noon",
        &table,
        &[(5_039, 5_039), (5_040, 5_041), (15_118, 15_119), (15_119, 15_121)],
        &[5_040, 15_120],
    );
    // The last minute that can be asked for.
    let table = but_one(WHOLE_DAY, 0, [0, 255, 256, 1_440]);
    checks.week("Monday at 4:15", &table, &[(254, 254), (255, 256), (4_294_541_206, 4_294_967_294)], &[255, 10_335, LAST]);
    checks.week("Monday at 4:15", &table, &[(4_294_541_207, 4_294_967_296)], &[4_294_957_215]);
}

/// Duty minute n is in week n.
fn one_minute(checks: &mut Checks) {
    // The day, its minute, and the minute of the week.
    for (name, day, minute, of_week) in [
        ("Monday's first", 0, 0, 0),
        ("Monday's last", 0, 1_439, 1_439),
        ("Monday at 4:15", 0, 255, 255),
        ("Tuesday's first", 1, 0, 1_440),
        ("Wednesday's noon", 2, 720, 3_600),
        ("Sunday's first", 6, 0, 8_640),
        ("Sunday's last", 6, 1_439, 10_079),
    ] {
        for windows in [[minute, minute + 1, 0, 0], [0, 0, minute, minute + 1]] {
            let table = but_one(NO_WINDOW, day, windows);
            let weeks = [0, 1, 2, 426_086, 426_087, 426_088, 426_089, 0x8000_0000, LAST - 1, LAST];
            let open = weeks.map(|week| (week, u64::from(week) * 10_080 + of_week));
            let of_week = of_week as u32;
            let beside = [of_week + 1, of_week + 10_079, of_week + 10_081, 4_294_956_960 + of_week + 1];
            checks.week(name, &table, &open, &beside);
            checks.week(name, &table, &[], &(0..of_week).step_by(239).collect::<Vec<u32>>());
        }
    }
    // What these are, in numbers.
    let monday = but_one(NO_WINDOW, 0, [0, 1, 0, 0]);
    let at = [(426_088, 4_294_967_040), (426_089, 4_294_977_120), (LAST, 43_293_270_333_600)];
    checks.week("Monday's first", &monday, &at, &[4_294_967_039, 4_294_967_041, LAST - 1, LAST]);
    let sunday = but_one(NO_WINDOW, 6, [0, 0, 1_439, 1_440]);
    let at = [(426_087, 4_294_967_039), (426_088, 4_294_977_119), (LAST, 43_293_270_343_679)];
    checks.week("Sunday's last", &sunday, &at, &[0, 10_078, 10_080, 4_294_967_038, 4_294_967_040, LAST]);
    // The last minute that can be asked for is open.
    let at = [(426_087, 4_294_957_215), (426_088, 4_294_967_295), (426_089, 4_294_977_375), (LAST, 43_293_270_333_855)];
    checks.week("Monday at 4:15", &but_one(NO_WINDOW, 0, [255, 256, 0, 0]), &at, &[254, 256, LAST - 1, 4_294_957_216]);
}

/// From 1 to 3 o'clock every day: 120 minutes. In one window, first or second, or in two that touch.
fn same_windows(checks: &mut Checks) {
    let open = [
        (0, 60),
        (1, 61),
        (59, 119),
        (60, 120),
        (61, 121),
        (118, 178),
        (119, 179),
        (120, 1_500),
        (239, 1_619),
        (240, 2_940),
        (839, 8_819),
        (840, 10_140),
        (959, 10_259),
        (960, 11_580),
        // 426,088 × 840 + 119, and 5,113,056 × 840 + 255 in the third day of its week.
        (357_914_039, 4_294_967_219),
        (357_914_040, 4_294_968_540),
        (LAST, 51_539_607_435),
    ];
    let closed =
        [0, 1, 59, 180, 181, 1_439, 1_440, 1_499, 1_620, 8_820, 10_079, 10_080, 10_139, 4_294_967_099, 4_294_967_220, LAST];
    for day in [[60, 180, 0, 0], [0, 0, 60, 180], [60, 120, 120, 180], [60, 61, 61, 180], [60, 179, 179, 180]] {
        checks.week(&format!("every day {day:?}"), &every_day(day), &open, &closed);
        for place in 0..7 {
            checks.week(&format!("day {place} {day:?}"), &but_one([60, 180, 0, 0], place, day), &open, &closed);
        }
    }
}

fn ends(checks: &mut Checks) {
    let midnight = [[1_380, 1_440, 0, 0], [0, 60, 0, 0], NO_WINDOW, NO_WINDOW, NO_WINDOW, NO_WINDOW, NO_WINDOW].concat();
    let open = [(0, 1_380), (59, 1_439), (60, 1_440), (119, 1_499), (120, 11_460), (179, 11_519), (180, 11_520), (239, 11_579)];
    checks.week("over midnight", &midnight, &open, &[0, 1_379, 1_500, 2_880, 10_079, 10_080, 11_459, 11_580]);
    let week_end = [[0, 1, 0, 0], NO_WINDOW, NO_WINDOW, NO_WINDOW, NO_WINDOW, NO_WINDOW, [0, 0, 1_439, 1_440]].concat();
    let open = [(0, 0), (1, 10_079), (2, 10_080), (3, 20_159), (4, 20_160), (852_175, 4_294_967_039), (852_176, 4_294_967_040)];
    checks.week("over the end of the week", &week_end, &open, &[1, 10_078, 10_081, 20_158, 20_161, 4_294_967_041, LAST]);
    checks.week("over the end of the week", &week_end, &[(852_177, 4_294_977_119), (LAST, 21_646_635_171_839)], &[]);
    let first_and_last = every_day([0, 1, 1_439, 1_440]);
    let open = [(0, 0), (1, 1_439), (2, 1_440), (3, 2_879), (12, 8_640), (13, 10_079), (14, 10_080), (27, 20_159), (28, 20_160)];
    checks.week("the first and the last minute of each day", &first_and_last, &open, &[1, 720, 1_438, 1_441, 10_078, 10_081]);
    let beside = every_day([0, 1, 2, 3]);
    checks.week("one minute between two", &beside, &[(0, 0), (1, 2), (2, 1_440), (3, 1_442)], &[1, 3, 1_439, 1_441, 1_443]);
    // A minute of the last day of the week, and one of the first of the next.
    let sunday_and_monday = [[700, 701, 0, 0], NO_WINDOW, NO_WINDOW, NO_WINDOW, NO_WINDOW, NO_WINDOW, [800, 801, 0, 0]].concat();
    let open = [(0, 700), (1, 9_440), (2, 10_780), (3, 19_520), (4, 20_860)];
    checks.week("the last of a week and the first of the next", &sunday_and_monday, &open, &[0, 699, 701, 9_439, 9_441, 10_779]);
}

fn days(checks: &mut Checks) {
    // From minute 10 on: 1 minute on Monday, 2 on Tuesday, and so on to 7 on Sunday; the other way round; and in the second windows.
    let growing = [11, 12, 13, 14, 15, 16, 17].map(|closing| [10, closing, 0, 0]).concat();
    let open = [(0, 10), (1, 1_450), (2, 1_451), (3, 2_890), (5, 2_892), (6, 4_330), (9, 4_333), (10, 5_770), (14, 5_774)];
    checks.week("more each day", &growing, &open, &[0, 9, 11, 1_449, 1_452, 2_893, 4_334, 5_775]);
    let open = [(15, 7_210), (20, 7_215), (21, 8_650), (27, 8_656), (28, 10_090), (29, 11_530), (56, 20_170)];
    checks.week("more each day", &growing, &open, &[7_209, 7_216, 8_649, 8_657, 10_089, 10_091]);
    let fewer = [17, 16, 15, 14, 13, 12, 11].map(|closing| [0, 0, 10, closing]).concat();
    let open = [(0, 10), (6, 16), (7, 1_450), (12, 1_455), (13, 2_890), (17, 2_894), (18, 4_330), (22, 5_770), (25, 7_210)];
    checks.week("fewer each day", &fewer, &open, &[9, 17, 1_456, 2_895]);
    checks.week("fewer each day", &fewer, &[(26, 7_211), (27, 8_650), (28, 10_090)], &[7_212, 8_649, 8_651]);
    // Five days of 480 minutes, 180 on Saturday in the second window alone, none on Sunday: 2,580.
    let office = [OFFICE, OFFICE, OFFICE, OFFICE, OFFICE, [0, 0, 540, 720], NO_WINDOW].concat();
    let open = [(0, 480), (239, 719), (240, 780), (479, 1_019), (480, 1_920), (1_919, 5_339), (1_920, 6_240), (2_399, 6_779)];
    checks.week("office hours", &office, &open, &[0, 479, 720, 779, 1_020, 1_439, 1_440, 1_919, 6_780]);
    let open = [(2_400, 7_740), (2_579, 7_919), (2_580, 10_560), (2_819, 10_799), (2_820, 10_860), (5_160, 20_640)];
    checks.week("office hours", &office, &open, &[7_680, 7_739, 7_920, 8_640, 9_120, 10_079, 10_080, 10_559]);
    // The last before minute 2^32 and the next; and 2^32 − 1 is 1,664,716 × 2,580 + 15.
    let open = [(1_099_307_039, 4_294_964_879), (1_099_307_040, 4_294_967_520), (LAST, 16_780_337_775)];
    checks.week("office hours", &office, &open, &[4_294_964_880, 4_294_967_040, LAST - 1, LAST]);
}

/// A day alone, and one among others that are open: it is good or bad on each day of the week.
fn each_place(name: &str, day: Day, mut ask: impl FnMut(&str, &[u16])) {
    for place in 0..7 {
        for others in [NO_WINDOW, WHOLE_DAY, OFFICE] {
            ask(&format!("{name} {day:?} on day {place}"), &but_one(others, place, day));
        }
    }
}

fn rules(checks: &mut Checks) {
    let good = [
        [0, 1, 0, 0],
        [0, 1_440, 0, 0],
        [1_439, 1_440, 0, 0],
        [0, 0, 0, 1],
        [0, 0, 0, 1_440],
        [0, 0, 1_439, 1_440],
        [60, 120, 120, 121],
        [60, 120, 120, 1_440],
        [60, 120, 1_439, 1_440],
        [0, 1, 1, 2],
        [0, 1_439, 1_439, 1_440],
        [1_438, 1_439, 1_439, 1_440],
    ];
    for day in good {
        each_place("good day", day, |name, table| checks.week(name, table, &[], &[]));
    }
    let bad: [(&str, &[Day]); 8] = [
        ("opening at closing", &[[5, 5, 0, 0], [1_440, 1_440, 0, 0], [0, 0, 5, 5], [0, 0, 1_440, 1_440], [60, 120, 130, 130]]),
        ("opening at closing, windows that touch", &[[60, 120, 120, 120], [60, 60, 60, 120], [0, 1_440, 1_440, 1_440]]),
        ("turned", &[[6, 5, 0, 0], [1_440, 1_439, 0, 0], [0, 0, 6, 5], [60, 120, 180, 170], [120, 60, 180, 240]]),
        ("no closing", &[[1, 0, 0, 0], [1_440, 0, 0, 0], [0, 0, 1, 0], [60, 120, 120, 0], [60, 120, 1, 0], [5, 0, 60, 120]]),
        ("above 1,440", &[[0, 1_441, 0, 0], [1_439, 1_441, 0, 0], [0, 0, 0, 1_441], [60, 120, 120, 1_441], [1_440, 1_441, 0, 0]]),
        (
            "far above 1,440",
            &[[0, 65_535, 0, 0], [0, 0, 0, 65_535], [65_535, 0, 0, 0], [60, 120, 65_535, 0], [65_534, 65_535, 0, 0]],
        ),
        (
            "overlapping",
            &[[60, 120, 119, 180], [0, 1_440, 1_439, 1_440], [60, 120, 60, 120], [60, 120, 70, 80], [60, 120, 59, 121]],
        ),
        ("second before first", &[[60, 120, 0, 60], [60, 120, 0, 1], [60, 120, 30, 60], [720, 1_440, 0, 720], [60, 61, 59, 60]]),
    ];
    for (name, days) in bad {
        for &day in days {
            each_place(name, day, |name, table| checks.no_table(name, table));
        }
    }
    checks.no_table("no window", &every_day(NO_WINDOW));
}

fn lengths(checks: &mut Checks) {
    for table in [every_day(WHOLE_DAY), every_day(OFFICE), but_one(NO_WINDOW, 0, WHOLE_DAY), every_day(NO_WINDOW)] {
        let longest: Vec<u16> = table.iter().copied().cycle().take(2_000).collect();
        let others = (0..28).chain(29..=60).chain([84, 112, 256 + 28, 560, 2_000]);
        for count in others {
            checks.no_table(&format!("{count} numbers"), &longest[..count]);
        }
        let with_zeros = [&table[..], &[0; 4]].concat();
        for count in 29..=32 {
            checks.no_table(&format!("{count} numbers, the last of them 0"), &with_zeros[..count]);
        }
    }
    // As many as 28 in 16 bits, and in 32.
    for count in [0x1_0000 + 28, 0x1_0000_0000 + 28, 0x2_0000_0000 + 28] {
        checks.table_out_of_reach(count);
    }
}
