//! The code: which functions are public, what their contracts say, and what is declared where.

use crate::Files;
use std::collections::BTreeMap;

/// The file of a library's root or module, and those of the modules that `pub mod` opens from it.
pub fn public_files(files: &Files, file: String) -> Vec<String> {
    let folder = file.strip_suffix("lib.rt").map_or(file.replace(".rt", "/"), str::to_string);
    let text = files.get(&file).map_or("", String::as_str);
    let modules = text.lines().filter_map(|line| line.trim().strip_prefix("pub mod "));
    let below = modules.flat_map(|name| public_files(files, format!("{folder}{}.rt", name.trim_end_matches(';'))));
    std::iter::once(file.clone()).chain(below).collect()
}

/// What a line declares: the keyword and the name. Words such as `pub` and `extern "C"` may stand before the keyword.
fn declared(line: &str) -> Option<(&str, &str)> {
    let mut words = line.split(|c: char| !(c.is_alphanumeric() || c == '_')).filter(|word| !word.is_empty());
    let keywords = ["fn", "struct", "enum"];
    if !(line.starts_with("pub") || keywords.iter().any(|keyword| line.starts_with(keyword))) {
        return None;
    }
    Some((words.find(|word| keywords.contains(word))?, words.next()?))
}

/// The clauses of the function whose first line comes first: from `requires` or `ensures` to the brace alone that opens its body.
fn clauses(lines: &[&str]) -> String {
    let mut clauses = Vec::new();
    for line in lines {
        let begins = line.starts_with("requires ") || line.starts_with("ensures ");
        if *line == "{" || (clauses.is_empty() && !begins && line.ends_with('{')) {
            break;
        }
        if begins || !clauses.is_empty() {
            clauses.push(*line);
        }
    }
    clauses.join("\n")
}

/// The public functions of a file, each with its clauses.
pub fn contracts(text: &str) -> Vec<(String, String)> {
    let lines: Vec<&str> = text.lines().map(str::trim).collect();
    let public = |at: &usize| lines[*at].starts_with("pub ") && matches!(declared(lines[*at]), Some(("fn", _)));
    (0..lines.len()).filter(public).map(|at| (declared(lines[at]).unwrap().1.to_string(), clauses(&lines[at..]))).collect()
}

/// Every function, struct and enum as `crate::module::name`, and whether it is exported under its bare name.
pub fn items(files: &Files) -> BTreeMap<String, bool> {
    let mut items = BTreeMap::new();
    for (file, text) in files.iter().filter(|(file, _)| file.ends_with(".rt")) {
        let module = file.replace("/src/lib.rt", "").replace("/src/main.rt", "").replace("/src/", "::").replace(".rt", "");
        for line in text.lines().map(str::trim) {
            if let Some((_, name)) = declared(line) {
                items.insert(format!("{}::{name}", module.replace('/', "::")), line.contains("extern \"C\""));
            }
        }
    }
    items
}

#[cfg(test)]
mod tests {
    use super::*;

    #[test]
    fn a_file() {
        let text =
            "pub mod open;\nmod shut;\n// fn no()\npub fn a(x: u8) -> u8\n    requires { p x }\n    ensures { q\n\
                            × s }\n{\n}\nimpl T {\n    pub fn b() {\n    }\n}\npub(crate) fn c()\n    ensures { t }\n{\n}\n\
                    pub extern \"C\" fn d(\n    x: u8,\n) -> u8\n    ensures { u }\n{\n}\n";
        let found = contracts(text);
        assert_eq!(found.iter().map(|(name, _)| name.as_str()).collect::<Vec<_>>(), ["a", "b", "d"]);
        assert_eq!(found[0].1, "requires { p x }\nensures { q\n× s }");
        assert_eq!((found[1].1.as_str(), found[2].1.as_str()), ("", "ensures { u }"));
        let file = |name: &str, text: &str| (name.to_string(), text.to_string());
        let files = Files::from([
            file("k/src/lib.rt", text),
            file("k/src/open.rt", "pub mod in;\n"),
            file("k/src/open/in.rt", "fn e() {"),
        ]);
        assert_eq!(public_files(&files, "k/src/lib.rt".to_string()), ["k/src/lib.rt", "k/src/open.rt", "k/src/open/in.rt"]);
        let items = items(&files);
        assert_eq!(items.keys().collect::<Vec<_>>(), ["k::a", "k::b", "k::c", "k::d", "k::open::in::e"]);
        assert!(items["k::d"] && !items["k::a"]);
    }
}
