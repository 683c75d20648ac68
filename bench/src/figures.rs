//! What is found of each box, a time or a count, and how a table shows it.

use crate::rows::Table;

#[derive(Clone, Copy)]
pub struct Figures {
    pub proved: f64,
    pub peer: f64,
    /// The peer by words, in the tables that have it.
    pub by_words: Option<f64>,
}

impl Figures {
    pub fn pair(proved: f64, peer: f64) -> Figures {
        Figures { proved, peer, by_words: None }
    }

    /// Cells of a row: proved, peer, ratio; and behind them the peer by words, and its ratio.
    pub fn cells(self) -> String {
        let cells = format!("{:.1} | {:.1} | {:.2}", self.proved, self.peer, self.peer / self.proved);
        match self.by_words {
            Some(by_words) => format!("{cells} | {by_words:.1} | {:.2}", by_words / self.proved),
            None => cells,
        }
    }
}

/// A table with figures for each of its rows.
pub fn print_table(table: &Table, unit: &str, figures: &[Figures]) {
    let (more, line) = if table.by_words { (" peer by words | ratio |", "---|---|") } else { ("", "") };
    println!("\n| {}: {unit} per {} | proved | peer | ratio |{more}", table.title, table.each);
    println!("|---|---|---|---|{line}");
    for (row, figures) in table.rows.iter().zip(figures) {
        println!("| {} | {} |", row.name, figures.cells());
    }
}

pub fn with_commas(number: usize) -> String {
    let digits = number.to_string();
    let mut text = String::new();
    for (place, digit) in digits.chars().enumerate() {
        if place > 0 && (digits.len() - place) % 3 == 0 {
            text.push(',');
        }
        text.push(digit);
    }
    text
}
