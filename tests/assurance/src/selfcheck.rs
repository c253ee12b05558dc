//! Shows that the checks can fail: a small page with folders that pass, and one change at a time that its check must find.

use crate::checks::{self, Check};
use crate::{Files, LAYERS, PAGE};

const SMALL: &[(&str, &str)] = &[
    (LAYERS, "k:\nmain: k\nmaxeltu: k\n"),
    (
        "k/src/lib.rt",
        "mod inner;\nghost use Rattle.k.specs.Top.{top};\npub fn f(x: u8) -> u8\n    ensures { top x }\n{\n}\n",
    ),
    ("k/src/inner.rt", "ghost use Rattle.k.specs.Inner.{held};\npub fn g(x: u8) -> u8\n    ensures { held x }\n{\n}\n"),
    ("k/specs/Top.antt", "-- comment\nuse Rattle.k.specs.Base.{some as one}\n\npub top : ℕ → ℕ\ntop x = one x\n"),
    ("k/specs/Base.antt", "pub data Base : Type 0 where\n  some : Base\n"),
    ("k/specs/Inner.antt", "pub held : ℕ → ℕ\nheld x = x\n"),
    ("k/must-fail/first.edit", ""),
    ("k/must-fail/second.edit", ""),
    ("main/src/main.rt", "fn main() {\n}\n"),
    ("demands/specs/Demands.antt", "use Rattle.k.specs.Top.{top}\npub record Demands : Type 0 where\n  pub kept : top 0 ≡ 0\n"),
    (
        PAGE,
        "The program `main`.\n\n| Definition | Theorem | Function | Must-fail edits |\n|---|---|---|---|\n\
         | `k/specs/Top.antt` `top` | `kept` | `k::f` | `k/first`, `second` |\n\n\
         | Where |\n|---|\n| `k`, `Base` |\n\n## What a reader must believe\n\n\
         | Definitions | Lines |\n|---|---|\n| `k/specs/Top.antt` | 2 |\n| `k/specs/Base.antt` | 2 |\n\
         | `demands/specs/Demands.antt` | 2 |\n| together | 6 |\n\nThe rest: `k/specs/Inner.antt`.\n",
    ),
];

/// What is changed (file, old text, new text), and the check that must find it.
const CHANGES: &[(&str, &str, &str, &str)] = &[
    (PAGE, "`second`", "`third`", "edits on the page"),
    (PAGE, "`k/first`, `second`", "`second`, `k/first`", "edits on the page"),
    (PAGE, "main`.", "main` and `k/third`.", "edits on the page"),
    (PAGE, ", `second`", "", "edits in the folders"),
    (PAGE, "`second`", "`second", "layout of the page"),
    (PAGE, "| `kept` ", "", "layout of the page"),
    (PAGE, "| `k/specs/Base.antt` | 2 |\n", "", "definitions reached"),
    ("k/src/lib.rt", "mod inner", "pub mod inner", "definitions reached"),
    ("demands/specs/Demands.antt", "Top.{top}", "Inner.{held as top}", "definitions reached"),
    ("k/specs/Top.antt", "one x\n", "x\n", "files counted"),
    ("k/specs/Top.antt", "some as", "none as", "public contracts"),
    ("k/src/lib.rt", "Top.{top}", "Top", "public contracts"),
    ("k/src/lib.rt", "mod inner", "pub use inner::g;\nmod inner", "public contracts"),
    ("k/src/lib.rt", "mod inner", "pub mod outer", "public contracts"),
    ("k/src/lib.rt", "ensures", "requires", "public contracts"),
    ("demands/specs/Demands.antt", "Demands", "Demand", "public contracts"),
    (PAGE, "The rest: `k/specs/Inner.antt`", "The rest", "other specs files"),
    (PAGE, "The rest: `", "The rest: `k/specs/Top.antt`, `", "other specs files"),
    (PAGE, "Top.antt` | 2", "Top.antt` | 3", "line counts"),
    ("k/specs/Base.antt", "some : Base\n", "some : Base\n  more : Base\n", "line counts"),
    (PAGE, "together | 6", "together | 7", "line counts"),
    (PAGE, "| together | 6 |\n", "", "line counts"),
    (PAGE, "| together | 6", "| `k/specs/Top.antt` | 2 |\n| together | 8", "line counts"),
    (PAGE, "The rest: `k/specs/Inner", "The rest: `k/specs/Outer", "files on the page"),
    (PAGE, "`top`", "`held`", "names in the columns"),
    (PAGE, "`kept`", "`lost`", "names in the columns"),
    (PAGE, "`k::f`", "`k::e`", "names in the columns"),
    (PAGE, "`k::f`", "`f`", "names in the columns"),
    (PAGE, "`Base`", "`Basis`", "names in the columns"),
    (PAGE, "program `main`", "program `other`", "programs"),
];

/// The names of the checks that fail.
fn failing(files: &Files) -> Vec<&'static str> {
    checks::all(files).iter().filter(|Check(_, _, problems)| !problems.is_empty()).map(|check| check.0).collect()
}

pub fn run() -> Check {
    let small: Files = SMALL.iter().map(|(file, text)| (file.to_string(), text.to_string())).collect();
    let mut problems: Vec<String> = failing(&small).iter().map(|name| format!("{name} fails without a change")).collect();
    for (file, old, new, name) in CHANGES {
        let mut changed = small.clone();
        changed.insert(file.to_string(), small[*file].replacen(old, new, 1));
        if !failing(&changed).contains(name) {
            problems.push(format!("{name} does not find '{new}' for '{old}' in {file}"));
        }
    }
    Check("checks that fail when they should", format!("{} changes, each found", CHANGES.len()), problems)
}
