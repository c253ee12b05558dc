//! The checks. Each tells what it looked at, or else everything that does not hold.

use crate::definitions::{words, Library, Place};
use crate::{code, page, Files, LAYERS, PAGE};
use std::collections::{BTreeMap, BTreeSet};

/// The name of a check, what it looked at, and what does not hold.
pub struct Check(pub &'static str, pub String, pub Vec<String>);

type Names = BTreeSet<String>;

const BELIEVED: &str = "What a reader must believe";
/// The page of demands is read like a public contract.
const DEMANDS: (&str, &str) = ("demands/specs/Demands.antt", "Demands");

pub fn all(files: &Files) -> Vec<Check> {
    let project = Project::of(files);
    let mut checks = vec![project.layout(), project.followed()];
    checks.extend(project.edits());
    checks.extend(project.believed());
    checks.extend([project.lines(), project.sources(), project.columns(), project.programs()]);
    checks
}

/// The table of the page: the files that are reached, in the order of the layers and of each crate's modules.
pub fn table(files: &Files) -> String {
    let project = Project::of(files);
    let line = |file: &str, start: &str| files.get(file)?.lines().position(|line| line.split(':').next() == Some(start));
    let order = |file: &String| {
        let (home, module) = file.split_once("/specs/").expect("a file in specs/");
        (line(LAYERS, home), line(&format!("{home}/specs/Lib.antt"), &format!("pub mod {}", module.trim_end_matches(".antt"))))
    };
    let mut reached: Vec<String> = project.files_reached().into_iter().collect();
    reached.sort_by_key(order);
    let sum: usize = reached.iter().map(|file| project.count(file)).sum();
    let rows: String = reached.iter().map(|file| format!("| `{file}` | {} |\n", project.count(file))).collect();
    format!("| Definitions | Lines |\n|---|---|\n{rows}| together | {sum} |\n")
}

/// The page and the folders, and what follows from them.
struct Project<'a> {
    files: &'a Files,
    page: &'a str,
    crates: BTreeSet<&'a str>,
    library: Library,
    items: BTreeMap<String, bool>,
    /// The files whose public functions others can call, and what their contracts reach.
    public: Vec<String>,
    reached: BTreeSet<Place>,
}

/// A problem for each of the first that is not among the second.
fn without(these: &Names, those: &Names, what: &str) -> Vec<String> {
    these.difference(those).map(|one| format!("{one} {what}")).collect()
}

fn owned<'a>(words: impl IntoIterator<Item = &'a str>) -> Names {
    words.into_iter().map(str::to_string).collect()
}

fn is_antt(word: &&str) -> bool {
    word.ends_with(".antt")
}

impl<'a> Project<'a> {
    fn of(files: &'a Files) -> Project<'a> {
        let (library, items) = (Library::of(files), code::items(files));
        let crates = files.keys().filter_map(|file| Some(file.split_once('/')?.0)).filter(|home| *home != "..").collect();
        let roots = files.keys().filter(|file| file.ends_with("/src/lib.rt"));
        let public: Vec<String> = roots.flat_map(|file| code::public_files(files, file.clone())).collect();
        let mut open: Vec<Place> = library.resolve(DEMANDS.0, DEMANDS.1).into_iter().collect();
        for (file, text) in public.iter().filter_map(|file| files.get_key_value(file)) {
            let clauses = code::contracts(text).into_iter().map(|(_, clauses)| clauses).collect::<Vec<_>>().join(" ");
            open.extend(words(&clauses).filter_map(|word| library.resolve(file, word)));
        }
        let reached = library.reach(open);
        Project { files, page: &files[PAGE], crates, library, items, public, reached }
    }

    /// The lines of a file without comments, `use` lines and blank ones.
    fn count(&self, file: &str) -> usize {
        let counts = |line: &&str| !(line.is_empty() || line.starts_with("--") || line.starts_with("use "));
        self.files.get(file).map_or(0, |text| text.lines().map(str::trim).filter(counts).count())
    }

    fn files_reached(&self) -> Names {
        owned(self.reached.iter().map(|(file, _)| file.as_str()))
    }

    /// The specs files, without those that only declare modules.
    fn specs(&self) -> Names {
        self.files.keys().filter(|file| file.contains("/specs/") && !file.ends_with("/Lib.antt")).cloned().collect()
    }

    /// The rows of the table of files: the file, or the words of a row without one, and the count.
    fn rows_believed(&self) -> Vec<(&'a str, &'a str)> {
        let rows = page::rows(self.page).into_iter().filter(|(section, cells)| *section == BELIEVED && cells.len() == 2);
        rows.map(|(_, cells)| (cells[0].1.trim_matches('`'), cells[1].1)).collect()
    }

    fn layout(&self) -> Check {
        Check("layout of the page", format!("{} rows of tables", page::rows(self.page).len()), page::unclear(self.page))
    }

    /// Nothing is overlooked by which a definition is reached: each public function has a contract, and each line that brings in
    /// names can be read and brings in definitions.
    fn followed(&self) -> Check {
        let (mut problems, mut functions) = (Vec::new(), 0);
        for file in self.specs().iter().chain(&self.public) {
            let (Some(text), Some(source)) = (self.files.get(file), self.library.0.get(file)) else {
                problems.push(format!("{file} is not there"));
                continue;
            };
            let exported = text.lines().filter(|line| file.ends_with(".rt") && line.trim().starts_with("pub use "));
            let unread = source.unread.iter().map(String::as_str).chain(exported);
            problems.extend(unread.map(|line| format!("{file}: not followed: {line}")));
            let contracts = code::contracts(text);
            functions += contracts.len();
            let silent = contracts.iter().filter(|(_, clauses)| !clauses.contains("ensures ") || clauses.contains("Rattle."));
            problems.extend(silent.map(|(name, _)| format!("{file}: {name} ensures nothing, or what no `use` line brings in")));
            // Crates that are not in the folders are the kit's.
            let ours = source.imports.values().filter(|(from, _)| self.crates.contains(from.split('/').next().unwrap_or("")));
            let lost = ours.filter(|(from, there)| self.library.resolve(from, there).is_none());
            problems.extend(lost.map(|(from, there)| format!("{file}: {there} is not in {from}")));
        }
        if self.library.resolve(DEMANDS.0, DEMANDS.1).is_none() {
            problems.push(format!("no {} in {}", DEMANDS.1, DEMANDS.0));
        }
        Check("public contracts", format!("{functions}, every name in them followed"), problems)
    }

    /// Both ways: each edit that the page names is in the folders, and each in the folders is on the page.
    fn edits(&self) -> [Check; 2] {
        let edit = |file: &String| Some(file.strip_suffix(".edit")?.replace("/must-fail/", "/"));
        let there: Names = self.files.keys().filter_map(edit).collect();
        let full = |word: &&str| matches!(word.split('/').collect::<Vec<_>>()[..], [home, _] if self.crates.contains(home));
        let mut named = owned(page::quoted(self.page).into_iter().filter(full));
        for cell in page::column(self.page, "Must-fail edits") {
            // A bare name that no crate stands before gets none, and so is no edit.
            let mut home = "";
            for word in cell {
                home = word.split_once('/').map_or(home, |(home, _)| home);
                named.insert(if word.contains('/') { word.to_string() } else { format!("{home}/{word}") });
            }
        }
        [
            Check("edits on the page", format!("{}, each there", named.len()), without(&named, &there, "is no edit")),
            Check("edits in the folders", format!("{}, each named", there.len()), without(&there, &named, "is not on the page")),
        ]
    }

    /// The table counts the files that are reached and no others, and the text below it names all other specs files.
    fn believed(&self) -> [Check; 3] {
        let (reached, definitions) = (self.files_reached(), self.reached.len());
        let counted = owned(self.rows_believed().into_iter().map(|(file, _)| file).filter(is_antt));
        let named = owned(page::quoted(page::below_table(self.page, BELIEVED)).into_iter().filter(is_antt));
        let rest: Names = self.specs().difference(&reached).cloned().collect();
        let lost = self.reached.iter().filter(|(file, _)| !counted.contains(file));
        let uncounted = lost.map(|(file, name)| format!("{name} of {file} is reached and not counted")).collect();
        let mut unnamed = without(&rest, &named, "is not accounted for");
        unnamed.extend(without(&named, &rest, "is named as not reached"));
        [
            Check("definitions reached", format!("{definitions} in {} files, all counted", reached.len()), uncounted),
            Check("files counted", format!("{}, each reached", counted.len()), without(&counted, &reached, "is not reached")),
            Check("other specs files", format!("{}, each named below the table", rest.len()), unnamed),
        ]
    }

    fn lines(&self) -> Check {
        let (mut problems, mut seen, mut sum) = (Vec::new(), BTreeSet::new(), 0);
        for (file, lines) in self.rows_believed() {
            let count = if file == "together" { sum } else { self.count(file) };
            if !seen.insert(file) || lines != count.to_string() {
                problems.push(format!("{file}: {count} lines once, not {lines}"));
            }
            sum += if file == "together" { 0 } else { count };
        }
        if !seen.contains("together") {
            problems.push("no row for all together".to_string());
        }
        Check("line counts", format!("{sum} together"), problems)
    }

    fn sources(&self) -> Check {
        let named = owned(page::quoted(self.page).into_iter().filter(|word| is_antt(word) || word.ends_with(".rt")));
        let problems = without(&named, &owned(self.files.keys().map(String::as_str)), "is no file");
        Check("files on the page", format!("{}, each there", named.len()), problems)
    }

    /// Each name in these columns is there. Under `Where` all kinds stand together; what has a slash there is an edit or a file.
    fn columns(&self) -> Check {
        let (mut problems, mut count) = (Vec::new(), 0);
        for column in ["Definition", "Theorem", "Function", "Where"] {
            let cells = page::column(self.page, column);
            if cells.concat().is_empty() {
                problems.push(format!("no {column}"));
            }
            for (cell, at) in cells.iter().flat_map(|cell| (0..cell.len()).map(move |at| (cell, at))) {
                let (definition, function) = (self.is_definition(cell, at), self.is_function(&cell[..=at]));
                let other = cell[at].contains('/') || self.crates.contains(cell[at]);
                let known = match column {
                    "Function" => function,
                    "Where" => definition || function || other,
                    _ => definition,
                };
                if !known {
                    problems.push(format!("{} under {column}", cell[at]));
                }
                count += 1;
            }
        }
        Check("names in the columns", format!("{count}, each there"), problems)
    }

    /// A name stands in the file that its cell names before it, or in any where it names none. A file has a name behind it.
    fn is_definition(&self, cell: &[&str], at: usize) -> bool {
        let file = cell[..at].iter().rfind(|word| is_antt(word));
        let mut sources = self.library.0.iter().filter(|(name, _)| file.is_none_or(|file| file == name));
        match is_antt(&cell[at]) {
            true => at + 1 < cell.len(),
            false => sources.any(|(_, source)| source.names.contains_key(cell[at])),
        }
    }

    /// The last of these names is a function by its path, by its bare name where it is exported, or by the end of its path in the
    /// crate that is named last.
    fn is_function(&self, names: &[&str]) -> bool {
        let home = names.iter().rev().filter_map(|name| Some(name.split_once("::")?.0)).find(|first| self.crates.contains(first));
        let name = names[names.len() - 1];
        let ends = |path: &str| path.ends_with(&format!("::{name}"));
        let of_home = |path: &&String| ends(path) && path.split("::").next() == home;
        self.items.contains_key(name)
            || self.items.iter().any(|(path, exported)| *exported && ends(path))
            || self.items.keys().filter(of_home).count() == 1
    }

    fn programs(&self) -> Check {
        let there = owned(self.files.keys().filter_map(|file| file.strip_suffix("/src/main.rt")));
        let named = page::programs(self.page).into_iter().collect();
        let mut problems = without(&there, &named, "is not called a program");
        problems.extend(without(&named, &there, "is no program"));
        Check("programs", format!("{}, each called so", there.len()), problems)
    }
}
