//! The rows of the tables and how they are printed.

use crate::measure::{Noise, Time};

/// What was measured of one rule on one log.
pub struct Row {
    pub rule: String,
    pub log: &'static str,
    pub runs: usize,
    /// The proved check: the whole log, and its last line alone. None where the whole log would take too long.
    pub whole: Time,
    pub single: Option<f64>,
    /// The whole log with the two-node rule.
    pub reading: f64,
    pub plain: Time,
    pub published: Time,
    /// The time of the whole log at 128 runs over that at 64.
    pub growth: Option<f64>,
}

/// A time or a ratio, and whether all times that it rests on were taken.
#[derive(Clone, Copy)]
pub struct Number {
    pub value: f64,
    pub is_taken: bool,
}

impl Number {
    fn time(time: Time) -> Number {
        Number { value: time.seconds, is_taken: time.is_taken }
    }

    fn taken(value: f64) -> Number {
        Number { value, is_taken: true }
    }

    fn ratio(time: Time, to: Time) -> Number {
        Number { value: time.seconds / to.seconds, is_taken: time.is_taken && to.is_taken }
    }

    /// The number, with a mark where it is carried on from shorter logs.
    pub fn shown(self, form: fn(f64) -> String) -> String {
        format!("{}{}", if self.is_taken { "" } else { "~" }, form(self.value))
    }
}

impl Row {
    pub fn whole(&self) -> Option<Number> {
        Some(Number::time(self.whole))
    }

    pub fn whole_to_reading(&self) -> Option<Number> {
        Some(Number { value: self.whole.seconds / self.reading, is_taken: self.whole.is_taken })
    }

    pub fn single_to_reading(&self) -> Option<Number> {
        self.single.map(|single| Number::taken(single / self.reading))
    }

    pub fn plain_to_proved(&self) -> Option<Number> {
        Some(Number::ratio(self.plain, self.whole))
    }

    pub fn published_to_proved(&self) -> Option<Number> {
        Some(Number::ratio(self.published, self.whole))
    }

    pub fn growth(&self) -> Option<Number> {
        self.growth.map(Number::taken)
    }
}

pub fn print_heading(title: &str) {
    println!("\n## {title}\n");
    println!(
        "| Rule | Log | Runs | Proved: whole log | single line | reading | whole / reading | single / reading \
         | Plain | Published | plain / proved | published / proved | 64 to 128 runs |"
    );
    println!("|---|---|--:|--:|--:|--:|--:|--:|--:|--:|--:|--:|--:|");
}

pub fn print_row(row: &Row) {
    let shown = |number: Option<Number>, form| number.map_or("–".into(), |number| number.shown(form));
    let cells = [
        row.rule.clone(),
        row.log.into(),
        row.runs.to_string(),
        shown(row.whole(), seconds),
        shown(row.single.map(Number::taken), seconds),
        seconds(row.reading),
        shown(row.whole_to_reading(), short),
        shown(row.single_to_reading(), short),
        shown(Some(Number::time(row.plain)), seconds),
        shown(Some(Number::time(row.published)), seconds),
        shown(row.plain_to_proved(), short),
        shown(row.published_to_proved(), short),
        shown(row.growth(), short),
    ];
    println!("| {} |", cells.join(" | "));
}

pub fn print_noise(noise: &Noise) {
    println!("\n## Noise\n");
    println!("The whole-log call of an interleaved log of 128 runs with the two-node rule.\n");
    println!("| Moment | Shortest | median / shortest |");
    println!("|---|--:|--:|");
    for (moment, shortest, spread) in &noise.0 {
        println!("| {moment} | {} | {spread:.2} |", seconds(*shortest));
    }
}

/// A time in the unit that suits it.
pub fn seconds(seconds: f64) -> String {
    match seconds {
        s if s < 1e-3 => format!("{} µs", short(s * 1e6)),
        s if s < 1.0 => format!("{} ms", short(s * 1e3)),
        s if s < 600.0 => format!("{} s", short(s)),
        s => format!("{} min", short(s / 60.0)),
    }
}

/// A number with two or three digits that count.
pub fn short(number: f64) -> String {
    match number {
        n if n < 0.1 => format!("{n:.4}"),
        n if n < 10.0 => format!("{n:.2}"),
        n if n < 100.0 => format!("{n:.1}"),
        n => with_commas(n.round() as u64),
    }
}

fn with_commas(number: u64) -> String {
    let digits = number.to_string();
    let mut text = String::new();
    for (place, digit) in digits.chars().enumerate() {
        if place > 0 && (digits.len() - place) % 3 == 0 {
            text.push(',');
        }
        text.push(digit);
    }
    text
}
