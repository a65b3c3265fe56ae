//! Tables written by hand in which one column is filled.

use super::tables::{cells, row};

/// How the line under the titles of a table begins.
const RULE: &str = "|---";

/// A row of a table, with the titles of its columns.
pub struct Row<'a> {
    titles: &'a [&'a str],
    pub cells: Vec<&'a str>,
}

impl Row<'_> {
    /// The cell in the column of this title, or nothing.
    pub fn cell(&self, title: &str) -> &str {
        let place = self.titles.iter().position(|other| *other == title);
        place.map_or("", |place| self.cells[place])
    }
}

/// Fills the column of this title in every table of a text. The rest stays.
pub fn filled<F>(text: &str, title: &str, cell_of: F) -> Result<String, String>
where
    F: Fn(&Row) -> Result<String, String>,
{
    let mut made = String::new();
    let mut faults = Vec::new();
    let mut titles: Option<Vec<&str>> = None;
    for line in text.split_inclusive('\n') {
        let cells = cells(line);
        match (&titles, cells) {
            (Some(titles), Some(cells)) if !line.starts_with(RULE) => {
                match filled_row(&Row { titles, cells }, title, &cell_of) {
                    Ok(row) => made += &row,
                    Err(fault) => faults.push(fault),
                }
            }
            (Some(_), Some(_)) => made += line,
            (_, cells) => {
                titles = cells;
                made += line;
            }
        }
    }
    if faults.is_empty() {
        Ok(made)
    } else {
        Err(faults.join("; "))
    }
}

/// A row with its column filled.
fn filled_row<F>(old: &Row, title: &str, cell_of: F) -> Result<String, String>
where
    F: Fn(&Row) -> Result<String, String>,
{
    let column = old.titles.iter().position(|other| *other == title);
    let column = column.ok_or_else(|| format!("a table has no column {title}"))?;
    if old.cells.len() != old.titles.len() {
        return Err(format!(
            "a row has too many or too few cells: {:?}",
            old.cells
        ));
    }
    let cell = cell_of(old)?;
    let mut cells = old.cells.clone();
    cells[column] = &cell;
    Ok(row(&cells))
}
