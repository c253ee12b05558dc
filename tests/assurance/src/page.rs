//! The page: its tables, what it puts in backquotes, and what it calls a program.

/// The rows of all tables: the heading above, and the name of each column with the row's cell.
pub fn rows(page: &str) -> Vec<(&str, Vec<(&str, &str)>)> {
    let (mut section, mut columns, mut rows) = ("", Vec::new(), Vec::new());
    for line in page.lines() {
        section = line.strip_prefix("## ").unwrap_or(section);
        let Some(inner) = line.strip_prefix('|').and_then(|line| line.strip_suffix('|')) else {
            columns.clear();
            continue;
        };
        let cells: Vec<&str> = inner.split('|').map(str::trim).collect();
        if columns.is_empty() {
            columns = cells;
        } else if !inner.starts_with('-') {
            rows.push((section, columns.iter().copied().zip(cells).collect()));
        }
    }
    rows
}

/// What stands in backquotes in each cell of a column, in every table that has it.
pub fn column<'a>(page: &'a str, name: &str) -> Vec<Vec<&'a str>> {
    let cells = rows(page).into_iter().flat_map(|(_, cells)| cells);
    cells.filter(|(column, _)| *column == name).map(|(_, cell)| quoted(cell)).collect()
}

/// What stands in backquotes, line by line.
pub fn quoted(text: &str) -> Vec<&str> {
    text.lines().flat_map(|line| line.split('`').skip(1).step_by(2)).collect()
}

/// Lines that could be read in two ways: a backquote without its partner, a row with another number of cells than the one above.
pub fn unclear(page: &str) -> Vec<String> {
    let (mut above, mut unclear) = (0, Vec::new());
    for line in page.lines() {
        let bars = if line.starts_with('|') { line.matches('|').count() } else { 0 };
        if (bars != above && bars * above > 0) || line.matches('`').count() % 2 == 1 {
            unclear.push(line.to_string());
        }
        above = bars;
    }
    unclear
}

/// The text of a section behind its table.
pub fn below_table<'a>(page: &'a str, section: &str) -> &'a str {
    let text = page.split("\n## ").find_map(|text| text.strip_prefix(section)).unwrap_or("");
    text.rsplit_once("|\n").map_or("", |(_, below)| below)
}

/// The names that follow the word `program` or `programs`: one, or a list with commas and `and`.
pub fn programs(page: &str) -> Vec<String> {
    let text = page.split_whitespace().collect::<Vec<_>>().join(" ");
    let mut names = Vec::new();
    for list in text.split("program").skip(1) {
        let mut parts = list.split('`');
        let mut between = parts.next().map(|start| start.trim_start_matches('s'));
        while matches!(between, Some(" " | ", " | " and " | ", and ")) {
            names.extend(parts.next().map(str::to_string));
            between = parts.next();
        }
    }
    names
}

#[cfg(test)]
mod tests {
    use super::*;

    #[test]
    fn tables() {
        let page = "\n## One\n\n| A | B |\n|---|---|\n| `x` y | |\n\ntext `z`\n\n## Two\n| B |\n|---|\n| `w` |\nbelow\n";
        let rows = rows(page);
        assert_eq!(rows, [("One", vec![("A", "`x` y"), ("B", "")]), ("Two", vec![("B", "`w`")])]);
        assert_eq!(column(page, "B"), [vec![], vec!["w"]]);
        assert_eq!(quoted(page), ["x", "z", "w"]);
        assert_eq!((below_table(page, "One"), below_table(page, "Two")), ("\ntext `z`\n", "below\n"));
        assert!(unclear(page).is_empty());
        assert_eq!(unclear("a `b\n| 1 | 2 |\n| 1 |\n").len(), 2);
    }

    #[test]
    fn program_names() {
        assert_eq!(
            programs("the programs `a`,\n`b` and `c` (`d`); a separate program `e`. This program is `f`"),
            ["a", "b", "c", "e"]
        );
    }
}
