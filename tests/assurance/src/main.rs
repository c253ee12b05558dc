//! Checks that docs/ASSURANCE.md and the folders below crates/ hold each other. No list stands here: every name comes from the page
//! or from the folders. `assurance` prints one line a check and last `N passed, M failed`; `assurance table` prints the table of
//! what a reader must believe, for the page.

mod checks;
mod code;
mod definitions;
mod page;
mod selfcheck;

use std::collections::BTreeMap;
use std::{env, fs, path::Path, process};

/// The texts of the project by their paths below crates/, as the page gives them.
pub type Files = BTreeMap<String, String>;

pub const PAGE: &str = "../docs/ASSURANCE.md";
pub const LAYERS: &str = "../crates.txt";

/// Adds a file, or the sources in a folder and those below it.
fn add(crates: &Path, name: &str, files: &mut Files) {
    let path = crates.join(name);
    if path.is_dir() {
        // What rt made there is no source.
        if name.ends_with("/out") {
            return;
        }
        for entry in fs::read_dir(path).expect("a folder that can be read") {
            let below = format!("{name}/{}", entry.expect("an entry that can be read").file_name().to_string_lossy());
            add(crates, below.trim_start_matches('/'), files);
        }
    } else if [PAGE, LAYERS].contains(&name) || [".antt", ".rt", ".edit"].iter().any(|end| name.ends_with(end)) {
        files.insert(name.to_string(), fs::read_to_string(path).unwrap_or_else(|error| panic!("{name}: {error}")));
    }
}

fn main() {
    let mut files = Files::new();
    for name in ["", PAGE, LAYERS] {
        add(&Path::new(env!("CARGO_MANIFEST_DIR")).join("../../crates"), name, &mut files);
    }
    match env::args().skip(1).collect::<Vec<_>>().join(" ").as_str() {
        "" => {}
        "table" => return print!("{}", checks::table(&files)),
        _ => panic!("usage: assurance [table]"),
    }
    let mut checks = checks::all(&files);
    checks.push(selfcheck::run());
    for checks::Check(name, detail, problems) in &checks {
        match problems.is_empty() {
            true => println!("ok     {name}: {detail}"),
            false => println!("FAILED {name}: {}", problems.join("; ")),
        }
    }
    let failed = checks.iter().filter(|check| !check.2.is_empty()).count();
    println!("{} passed, {failed} failed", checks.len() - failed);
    process::exit(i32::from(failed > 0));
}
