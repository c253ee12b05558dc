//! The check of cycles whose reports may arrive late, with no lateness and with the greatest. The literal way tries every delay of each
//! report that can touch a stretch.

use crate::calls::{LIBRARY, PLAIN_C};
use crate::windows::{heading, lines};
use crate::{both_rates, changing, line};
use reference::{cycle, late, spec, Pair, Spec};
use std::hint::black_box;

/// A specification that allows every gap, and a cycle of so many pairs, each of whose gaps leaves room for the greatest delay.
struct Input {
    name: &'static str,
    spec: Spec,
    pairs: Vec<Pair>,
}

fn input(name: &'static str, count: u64, gap: (u64, u64)) -> Input {
    let spec = both_rates((1, 9), (1, 20_160), (20_000, 20_160), (1, 20_160));
    let pairs = changing(&Spec { gap, ..spec.clone() }, count);
    Input { name, spec, pairs }
}

fn inputs() -> [Input; 3] {
    [
        input("512 pairs, gaps 1,500 to 2,500, R = P = 20,160", 512, (1_500, 2_500)),
        input("512 pairs, gaps 15,000 to 18,000, R = P = 20,160", 512, (15_000, 18_000)),
        input("1 pair, gap 1,500, R = P = 20,160", 1, (1_500, 1_500)),
    ]
}

const LATENESS: [(&str, u32); 2] = [("0", 0), ("1,440", 1_440)];

/// Each lateness in the three programs.
pub fn all() {
    for Input { name, spec, pairs } in inputs() {
        let spec_file = spec::write(&spec);
        for (minutes, lateness) in LATENESS {
            line(
                &format!("late {minutes}, {name}"),
                |calls| calls.check_late(&spec_file, &pairs, black_box(lateness)),
                || late::check(&spec::read(&spec_file).unwrap(), &pairs, black_box(lateness).into()),
            );
        }
    }
}

/// Each lateness against the check of a cycle in the same program.
pub fn against_check() {
    heading("one call; ratios to the check of a cycle");
    for Input { name, spec, pairs } in inputs() {
        let spec_file = spec::write(&spec);
        let [none, greatest] = LATENESS.map(|(minutes, _)| format!("late {minutes}, {name}"));
        let lateness = |way: usize| black_box(LATENESS[way - 1].1);
        lines([format!("check, {name}"), none, greatest], |side, way| match (side, way) {
            (0, 0) => LIBRARY.check_cycle(&spec_file, &pairs),
            (0, _) => LIBRARY.check_late(&spec_file, &pairs, lateness(way)),
            (1, 0) => PLAIN_C.check_cycle(&spec_file, &pairs),
            (1, _) => PLAIN_C.check_late(&spec_file, &pairs, lateness(way)),
            (_, 0) => cycle::check(&spec::read(&spec_file).unwrap(), &pairs),
            _ => late::check(&spec::read(&spec_file).unwrap(), &pairs, lateness(way).into()),
        });
    }
}
