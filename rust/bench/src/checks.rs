//! What is required of the times, held against the rows of full logs. `docs/PERFORMANCE.md`, "What is required", has the same
//! limits in words.

use crate::logs::MAX_RUNS;
use crate::table::{seconds, short, Number, Row};
use crate::{book, layouts, modes, reading, relating, slips, typed};
use Limit::{AtLeast, AtMost, NoneDown, NoneUp};

/// The whole-log call and the single-line call, as multiples of the whole-log call with the two-node rule; and the single-line
/// call with that rule itself.
const WHOLE_TO_READING: f64 = 3.0;
const SINGLE_TO_READING: f64 = 3.0;
const SINGLE_OF_TWO_NODES: f64 = 1.6;

/// The baselines as multiples of the proved check, on properties 1, 3 and 4 of figure 1 and on property 2.
const PLAIN_TO_PROVED: f64 = 1000.0;
const PUBLISHED_TO_PROVED: f64 = 10.0;
const PUBLISHED_TO_PROVED_ON_2: f64 = 1.0;

/// The worst rules: plain as a multiple of the proved check, the seconds of a full log, and the growth from 64 to 128 runs. The
/// time is to be in the order of 0.3 s; anything up to 1 s passes as that.
const WORST_PLAIN_TO_PROVED: f64 = 1000.0;
const WORST_TIME: f64 = 1.0;
const WORST_GROWTH: f64 = 10.0;

/// A limit for one number of a row. Where none is set, the largest or the smallest number is shown.
#[derive(Clone, Copy)]
pub enum Limit {
    AtMost(f64),
    AtLeast(f64),
    NoneUp,
    NoneDown,
}

impl Limit {
    /// Whether it is the large numbers that come near the limit.
    fn is_upper(self) -> bool {
        matches!(self, AtMost(_) | NoneUp)
    }
}

/// What is asked of some rows: its name, the limit, the number of a row, and how it is written.
type Asked = (&'static str, Limit, fn(&Row) -> Option<Number>, fn(f64) -> String);

const SINGLE: Asked = ("single / reading", AtMost(SINGLE_TO_READING), Row::single_to_reading, short);

const TWO_NODES: Asked = ("single / reading", AtMost(SINGLE_OF_TWO_NODES), Row::single_to_reading, short);

const FIGURE_1: [Asked; 2] = [("whole / reading", AtMost(WHOLE_TO_READING), Row::whole_to_reading, short), SINGLE];

const PROPERTIES_1_3_4: [Asked; 2] = [
    ("properties 1, 3 and 4, plain / proved", AtLeast(PLAIN_TO_PROVED), Row::plain_to_proved, short),
    ("properties 1, 3 and 4, published / proved", AtLeast(PUBLISHED_TO_PROVED), Row::published_to_proved, short),
];

const PROPERTY_2: [Asked; 1] =
    [("property 2, published / proved", AtLeast(PUBLISHED_TO_PROVED_ON_2), Row::published_to_proved, short)];

const WORST: [Asked; 4] = [
    ("plain / proved", AtLeast(WORST_PLAIN_TO_PROVED), Row::plain_to_proved, short),
    ("whole log", AtMost(WORST_TIME), Row::whole, seconds),
    ("growth from 64 to 128 runs", AtMost(WORST_GROWTH), Row::growth, short),
    ("single / reading", NoneUp, Row::single_to_reading, short),
];

/// The same without a limit.
fn unlimited((what, limit, number, form): Asked) -> Asked {
    (what, if limit.is_upper() { NoneUp } else { NoneDown }, number, form)
}

/// Prints a line for each requirement, over the rows of full logs, of reading, of typed rules, of slips, of both
/// layouts, of both modes, of the label book and of relating two runs. Answers whether none failed.
pub fn print_checks(
    rows: &[Row],
    reading: &reading::Rows,
    typed: Option<&typed::Rows>,
    slips: &[slips::Row],
    layouts: &[layouts::Row],
    modes: &modes::Rows,
    book: &[book::Row],
    relating: &[relating::Row],
) -> bool {
    println!("\n## Required\n");
    let of = |rule: &str| rows.iter().filter(|row| row.runs == MAX_RUNS && row.rule.starts_with(rule)).collect::<Vec<&Row>>();
    let (section_6, others): (Vec<&Row>, Vec<&Row>) = of("figure 1").iter().partition(|row| row.log == "section 6");
    let passed = [
        print_figure_1("section 6 logs", &section_6, |asked| asked),
        print_figure_1("other logs", &others, unlimited),
        print_check("two nodes", &of("two nodes"), TWO_NODES),
        reading.print_checks(),
        print_check("section 3", &of("section 3"), SINGLE),
        print_all("worst rules", &of("worst"), &WORST),
        typed::print_checks(typed),
        slips::print_checks(slips),
        layouts::print_checks(layouts),
        modes.print_checks(),
        book::print_checks(book),
        relating::print_checks(relating),
    ];
    passed.iter().all(|passed| *passed)
}

/// The lines of the properties of figure 1 on some logs.
fn print_figure_1(logs: &str, rows: &[&Row], asked: fn(Asked) -> Asked) -> bool {
    let name = format!("figure 1, {logs}");
    let (second, others): (Vec<&Row>, Vec<&Row>) = rows.iter().partition(|row| row.rule.ends_with('2'));
    let passed = [
        print_all(&name, rows, &FIGURE_1.map(asked)),
        print_all(&name, &others, &PROPERTIES_1_3_4.map(asked)),
        print_all(&name, &second, &PROPERTY_2.map(asked)),
    ];
    passed.iter().all(|passed| *passed)
}

/// A line for each thing asked of the rows. Answers whether none failed.
fn print_all(name: &str, rows: &[&Row], all: &[Asked]) -> bool {
    all.iter().fold(true, |passed, asked| print_check(name, rows, *asked) && passed)
}

/// One line for some rows. Rows that were left out are named as not measured; a row whose whole-log time was not taken
/// does not pass.
fn print_check(name: &str, rows: &[&Row], (what, limit, number, form): Asked) -> bool {
    let numbers: Vec<Number> = rows.iter().filter_map(|row| number(row)).collect();
    let is_complete = numbers.len() == rows.len() && rows.iter().all(|row| row.whole.is_taken);
    print_line(name, what, limit, numbers, form, is_complete, rows.len())
}

/// The same for numbers that were all taken.
pub fn print_numbers(name: &str, what: &str, limit: Limit, numbers: Vec<Number>, form: fn(f64) -> String) -> bool {
    let count = numbers.len();
    print_line(name, what, limit, numbers, form, true, count)
}

/// PASS or FAIL, the number that comes nearest to the limit or is furthest past it, the limit, and in how many rows the
/// number is carried on from shorter logs.
fn print_line(
    name: &str,
    what: &str,
    limit: Limit,
    mut numbers: Vec<Number>,
    form: fn(f64) -> String,
    is_complete: bool,
    rows: usize,
) -> bool {
    if rows == 0 {
        println!("- not measured: {name}: {what}");
        return true;
    }
    numbers.sort_by(|one, other| one.value.total_cmp(&other.value));
    let furthest = if limit.is_upper() { numbers.last() } else { numbers.first() };
    let is_kept = |keeps: &dyn Fn(f64) -> bool| Some(is_complete && furthest.is_some_and(|number| keeps(number.value)));
    let (passed, words) = match limit {
        AtMost(most) => (is_kept(&|value| value <= most), format!("at most {}", form(most))),
        AtLeast(least) => (is_kept(&|value| value >= least), format!("at least {}", form(least))),
        NoneUp => (None, "the largest".into()),
        NoneDown => (None, "the smallest".into()),
    };
    let verdict = passed.map_or("no limit set", |passed| if passed { "PASS" } else { "FAIL" });
    let found = furthest.map_or("not measured".into(), |number| number.shown(form));
    let carried = match numbers.iter().filter(|number| !number.is_taken).count() {
        0 => String::new(),
        count => format!("; carried on in {count} of {rows} rows"),
    };
    println!("- {verdict}: {name}: {what}: {found} ({words}{carried})");
    passed.unwrap_or(true)
}
