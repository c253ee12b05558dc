//! The work of a check does not depend on R and P: the same cycle against one rate of 1 minute, of 100 and of 20,160. The
//! reference lays out every minute of a stretch, so its work does.

use crate::calls::{LIBRARY, PLAIN_C};
use crate::{changing, shown, times};
use reference::{cycle, file, spec, verdict, Spec};

const WINDOWS: [(&str, u64); 3] = [("1", 1), ("100", 100), ("20,160", 20_160)];

/// What stands above such lines.
pub fn heading(name: &str) {
    println!();
    println!("{name:<60} {:>10} {:>8} {:>10} {:>8} {:>10} {:>8}", "library", "ratio", "plain C", "ratio", "literal", "ratio");
}

/// One such line: the time of each side, and a ratio.
pub fn row(name: &str, sides: [(f64, f64); 3]) {
    print!("{name:<60}");
    for (time, ratio) in sides {
        print!(" {:>10} {ratio:>8.2}", shown(time));
    }
    println!();
}

/// A line for each of the three ways to make a call: the time of each side, and its ratio to that side's time with the first way.
/// `call` makes the call of a side (library, plain C, literal) in one way, both by number. Every cycle must be passed: then every
/// stretch is looked at.
pub fn lines(names: [String; 3], call: impl Fn(usize, usize) -> u32) {
    let call = &call;
    let calls: [_; 9] = std::array::from_fn(|i| move || call(i / 3, i % 3));
    for (i, call) in calls.iter().enumerate() {
        assert_eq!(call(), 0, "side {}, {}", i / 3, names[i % 3]);
    }
    let times = times(calls.each_ref().map(|call| call as &dyn Fn() -> u32));
    for (way, name) in names.iter().enumerate() {
        row(name, [0, 3, 6].map(|side| (times[side + way], times[side + way] / times[side])));
    }
}

/// One line, for the second of two ways to make a call: the time of each side, and its ratio to that side's time with the first.
pub fn line_against(name: &str, call: impl Fn(usize, usize) -> u32) {
    let call = &call;
    let calls: [_; 6] = std::array::from_fn(|i| move || call(i / 2, i % 2));
    let times = times(calls.each_ref().map(|call| call as &dyn Fn() -> u32));
    row(name, [1, 3, 5].map(|i| (times[i], times[i] / times[i - 1])));
}

/// The check of so many pairs, and the loader's call on their files, with the rate that `specification` gives each window.
fn checks(name: &str, count: u64, specification: impl Fn(u64) -> Spec) {
    let specs = WINDOWS.map(|(_, minutes)| specification(minutes));
    let spec_files = specs.each_ref().map(spec::write);
    let pairs = changing(&specs[0], count);
    let cycle_file = file::write(&pairs, usize::MAX).unwrap();
    let names = |call: &str| WINDOWS.map(|(minutes, _)| format!("{call}, {name}{minutes}"));
    lines(names("check"), |side, window| match side {
        0 => LIBRARY.check_cycle(&spec_files[window], &pairs),
        1 => PLAIN_C.check_cycle(&spec_files[window], &pairs),
        _ => cycle::check(&spec::read(&spec_files[window]).unwrap(), &pairs),
    });
    lines(names("verdict"), |side, window| match side {
        0 => LIBRARY.verdict(&spec_files[window], &cycle_file),
        1 => PLAIN_C.verdict(&spec_files[window], &cycle_file),
        _ => verdict(&spec_files[window], &cycle_file),
    });
}

pub fn all() {
    heading("one call, one rate; ratios to the same with 1 minute");
    let no_rate = |gap| Spec { size: (1, 1), gap, supply: None, demand: None, duration: None, second: None };
    let supply = |gap| move |r| Spec { supply: Some((20_000, r)), ..no_rate(gap) };
    let demand = |gap| move |p| Spec { demand: Some((1, p)), ..no_rate(gap) };
    // With gap 1 the longest R would hold more than the greatest B, and with any other the shortest P less than the least L.
    checks("512 pairs, gaps 1 to 5, R = ", 512, supply((1, 5)));
    checks("512 pairs, gap 1, P = ", 512, demand((1, 1)));
    checks("1 pair, gap 2, R = ", 1, supply((2, 2)));
    checks("1 pair, gap 1, P = ", 1, demand((1, 1)));
}
