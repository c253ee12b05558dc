//! The definitions of specs/ and proofs/, and which of them rest on which.

use crate::Files;
use std::collections::{BTreeMap, BTreeSet};

/// A definition: its file and its name.
pub type Place = (String, String);

/// What stands in a file.
#[derive(Default)]
pub struct Source {
    /// Every name with its definition: that of a constructor or a field is the data or record that declares it.
    pub names: BTreeMap<String, String>,
    /// The words of each definition's type and body.
    words: BTreeMap<String, Vec<String>>,
    /// The names that `use` lines bring in.
    pub imports: BTreeMap<String, Place>,
    /// Lines of a form that is not known here: what they declare or bring in would be missed.
    pub unread: Vec<String>,
}

/// The libraries of the kit. What their definitions rest on is the kit's, and trusted with it.
const KIT: [&str; 4] = ["Rattle.std.", "Prim.", "mathlib.", "lib."];

/// The names in a text, an operator's as its sign. A projection such as `.size` in `s.size` is none: the type of what it is applied to
/// names its record.
pub fn words(text: &str) -> impl Iterator<Item = &str> {
    let words = text.split(|c: char| c.is_whitespace() || "(){}[];,".contains(c));
    words.map(|word| plain(word.split('.').next().unwrap_or(""))).filter(|word| !word.is_empty())
}

/// A name without the holes of an operator.
fn plain(name: &str) -> &str {
    name.trim().trim_matches('◌')
}

/// The names that a line declares: those before a colon, or the one behind `record` or `data`.
fn declared(code: &str) -> Vec<&str> {
    let words: Vec<&str> = code.split_whitespace().skip_while(|word| ["pub", "abbrev", "unfoldable"].contains(word)).collect();
    let names = match words[..] {
        ["record" | "data", _, ..] => &words[1..2],
        _ => &words[..words.iter().position(|word| *word == ":").unwrap_or(0)],
    };
    // In a clause the colon of a binder comes behind a bracket or an equals sign.
    let clause = names.iter().any(|name| name.contains(['(', '{', '=']));
    names.iter().filter(|_| !clause).map(|name| plain(name)).collect()
}

/// What a `use` line brings in, by the names here. None of the kit's, and no struct or enum of the code.
fn imported(line: &str) -> Option<BTreeMap<String, Place>> {
    let (module, names) = line.split_once("use ")?.1.trim_end_matches(';').strip_suffix('}')?.split_once(".{")?;
    if KIT.iter().any(|kit| module.starts_with(kit)) {
        return Some(BTreeMap::new());
    }
    let (home, module) = module.strip_prefix("Rattle.")?.split_once(".specs.")?;
    if module.starts_with("declared.") {
        return Some(BTreeMap::new());
    }
    let file = format!("{home}/specs/{}.antt", module.replace('.', "/"));
    let names = names.split(',').map(|name| name.split_once(" as ").unwrap_or((name, name)));
    Some(names.map(|(there, here)| (plain(here).to_string(), (file.clone(), plain(there).to_string()))).collect())
}

impl Source {
    /// A definition goes on until the next one begins as far to the left. What a `module _ (..) where` holds stands further in, and
    /// has the words of the module's own line too.
    fn of(text: &str) -> Source {
        let (mut source, mut current, mut modules) = (Source::default(), String::new(), Vec::new());
        for line in text.lines().map(|line| line.split("--").next().unwrap_or("")).filter(|line| !line.trim().is_empty()) {
            let code = line.trim();
            let indent = line.len() - line.trim_start().len();
            modules.truncate(indent / 2);
            match (indent - 2 * modules.len(), &declared(code)[..]) {
                (0, _) if code.starts_with("use ") || code.starts_with("pub use ") => match imported(code) {
                    Some(names) => source.imports.extend(names),
                    None => source.unread.push(code.to_string()),
                },
                // A definition's whole path in the middle of a text.
                _ if code.contains("Rattle.") => source.unread.push(code.to_string()),
                (0, _) if code.starts_with("module ") => {
                    modules.push(code);
                    current = String::new();
                }
                (0, [name]) => {
                    current = name.to_string();
                    source.names.insert(current.clone(), current.clone());
                    let around = modules.iter().flat_map(|line| words(line)).map(str::to_string);
                    source.words.insert(current.clone(), around.collect());
                }
                (0, [_, ..]) => source.unread.push(code.to_string()),
                (2, parts) => parts.iter().for_each(|part| {
                    source.names.entry(part.to_string()).or_insert(current.clone());
                }),
                _ => {}
            }
            source.words.entry(current.clone()).or_default().extend(words(code).map(str::to_string));
        }
        source
    }
}

/// Every file with what stands in it; of code the `ghost use` lines.
pub struct Library(pub BTreeMap<String, Source>);

impl Library {
    pub fn of(files: &Files) -> Library {
        let ghosts =
            |text: &str| text.lines().filter_map(|line| Some(line.split_once("ghost ")?.1)).collect::<Vec<_>>().join("\n");
        let source = |(file, text): (&String, &String)| match file.rsplit_once('.')?.1 {
            "antt" => Some((file.clone(), Source::of(text))),
            "rt" => Some((file.clone(), Source::of(&ghosts(text)))),
            _ => None,
        };
        Library(files.iter().filter_map(source).collect())
    }

    /// The definition that a word of a file means, if it means one of the project's. A bound name that is spelt like a definition is
    /// taken for it: that counts too much and never too little.
    pub fn resolve(&self, file: &str, word: &str) -> Option<Place> {
        let source = self.0.get(file)?;
        match source.names.get(word) {
            Some(name) => Some((file.to_string(), name.clone())),
            None => source.imports.get(word).and_then(|(file, there)| self.resolve(file, there)),
        }
    }

    /// All definitions that the given ones rest on, and they themselves.
    pub fn reach(&self, mut open: Vec<Place>) -> BTreeSet<Place> {
        let mut reached = BTreeSet::new();
        while let Some(place) = open.pop() {
            if !reached.contains(&place) {
                open.extend(self.0[&place.0].words[&place.1].iter().filter_map(|word| self.resolve(&place.0, word)));
                reached.insert(place);
            }
        }
        reached
    }
}

#[cfg(test)]
mod tests {
    use super::*;

    #[test]
    fn a_file() {
        let source = Source::of(
            "use Rattle.a.specs.B.{c as d, ◌⊕◌}\nuse Rattle.std.specs.Prelude.{leb}\nuse Rattle.a.specs.declared.T.{T}\n-- no : thing\n\
             pub data Way : Type 0 where\n  left : Way\n  right : T → Way\n\nabbrev pub f : Way → T\nf (left) = g (λ (q : T). d.size)\n\
             module _ (x : Way) where\n  h : T\n  h = f x\n\nk : T\nk = h left\n",
        );
        assert_eq!(source.names.keys().collect::<Vec<_>>(), ["Way", "f", "h", "k", "left", "right"]);
        assert_eq!(source.names["right"], "Way");
        assert_eq!(source.imports["d"], ("a/specs/B.antt".to_string(), "c".to_string()));
        assert_eq!(source.imports["⊕"].1, "⊕");
        assert_eq!(source.words["f"].join(" "), "abbrev pub f : Way → T f left = g λ q : T d");
        assert!(source.words["h"].contains(&"Way".to_string()) && !source.words["k"].contains(&"Way".to_string()));
        assert!(source.unread.is_empty());
        assert_eq!(Source::of("use Rattle.a.specs.B\nuse Other.{x}\na b : T\nc : T\nc = Rattle.a.specs.B.d\n").unread.len(), 4);
    }
}
