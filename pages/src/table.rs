//! Tables of a Markdown page, and what stands in backticks there.

pub struct Row {
    pub line: usize,
    pub cells: Vec<String>,
}

pub struct Table {
    pub heading: Vec<String>,
    pub rows: Vec<Row>,
}

fn cells(line: &str) -> Vec<String> {
    let inner = line.trim().trim_start_matches('|').trim_end_matches('|');
    inner
        .split('|')
        .map(|cell| cell.trim().to_string())
        .collect()
}

/// The tables whose first column has this heading; others explain the page
/// and name nothing.
pub fn tables(page: &str, heading: &str) -> Vec<Table> {
    let mut tables: Vec<Table> = Vec::new();
    let mut within = false;
    for (at, line) in page.lines().enumerate() {
        if !line.starts_with('|') {
            within = false;
            continue;
        }
        let cells = cells(line);
        let line_number = at + 1;
        match tables.last_mut() {
            Some(table) if within && !line.starts_with("|--") => table.rows.push(Row {
                line: line_number,
                cells,
            }),
            Some(_) if within => {}
            _ => tables.push(Table {
                heading: cells,
                rows: Vec::new(),
            }),
        }
        within = true;
    }
    tables.retain(|table| table.heading[0] == heading);
    tables
}

/// The rows of each table whose first column has this heading.
pub fn rows(page: &str, heading: &str) -> Vec<Row> {
    let tables = tables(page, heading).into_iter();
    tables.flat_map(|table| table.rows).collect()
}

/// What stands between backticks; none where one is not closed.
pub fn quoted(cell: &str) -> Option<Vec<&str>> {
    let parts: Vec<&str> = cell.split('`').collect();
    let closed = parts.len() % 2 == 1;
    closed.then(|| parts.into_iter().skip(1).step_by(2).collect())
}

/// What stands between backticks where a cell is that alone.
pub fn only_quoted(cell: &str) -> Option<&str> {
    let inner = cell.strip_prefix('`')?.strip_suffix('`')?;
    (!inner.is_empty() && !inner.contains('`')).then_some(inner)
}

/// How many words a cell has; what stands between two backticks is one.
pub fn word_count(cell: &str) -> usize {
    let plain = |part: &str| {
        let words = part.split_whitespace();
        words
            .filter(|word| word.contains(char::is_alphanumeric))
            .count()
    };
    let parts = cell.split('`').enumerate();
    parts
        .map(|(at, part)| if at % 2 == 1 { 1 } else { plain(part) })
        .sum()
}
