//! The tables that are printed.

use crate::clock::Figure;

/// What stands in a table's cell.
pub enum Cell {
    /// Nanoseconds a call.
    Time(Figure),
    /// A call's time beside another's.
    Ratio(Figure, Figure),
    /// A word.
    Word(&'static str),
}

impl Cell {
    /// As it is shown, a time in so many parts and with so many decimals.
    pub fn show(&self, parts: f64, decimals: usize) -> String {
        match self {
            Cell::Time(figure) => {
                let (best, median) = (figure.best / parts, figure.median / parts);
                format!("{best:.decimals$} / {median:.decimals$}")
            }
            Cell::Ratio(one, other) => {
                let (best, median) = (one.best / other.best, one.median / other.median);
                format!("{best:.2} / {median:.2}")
            }
            Cell::Word(word) => (*word).to_string(),
        }
    }
}

/// Prints the head of a table.
pub fn head(columns: &[&str]) {
    println!("\n| {} |", columns.join(" | "));
    println!("|---|{}", "--:|".repeat(columns.len() - 1));
}

/// Prints a row, whose times are shown for each of so many octets.
pub fn row(name: &str, octets: usize, cells: &[Cell]) {
    print(name, octets, cells, |cell| cell.show(octets as f64, 3));
}

/// Prints a row, whose times are shown for a call.
pub fn call_row(name: &str, octets: usize, cells: &[Cell]) {
    print(name, octets, cells, |cell| cell.show(1.0, 0));
}

fn print(name: &str, octets: usize, cells: &[Cell], show: impl Fn(&Cell) -> String) {
    let cells: Vec<String> = cells.iter().map(show).collect();
    println!("| {name} | {octets} | {} |", cells.join(" | "));
}
