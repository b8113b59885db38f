//! Times of the proved check, of a plain evaluator and of the published algorithm on the same rules and logs, side by side.
//!
//! `cargo run --release -p bench` prints a table for each group of rules, the noise, and whether the times are as required.
//! `--quick` stops at 32 runs; `--group NAME` measures one group: reading, figure1, section3, worst, typed, slips,
//! layouts, modes, book or earlier. SCENE_LOG_EARLIER in the environment names the earlier library of the last of them.
//! SCENE_LOG_EARLIER_NO_MODE is set where the calls of that one take a layout of a work area and no mode, and
//! SCENE_LOG_EARLIER_NO_LAYOUT where they take neither.
//! Times differ between machines; the ratios much less. `docs/PERFORMANCE.md` says what each column is.

#[cfg(test)]
mod agree;
mod book;
mod checks;
#[cfg(test)]
mod deep;
mod earlier;
mod layouts;
mod logs;
mod measure;
mod modes;
mod plain;
mod published;
mod reading;
mod relating;
mod rules;
mod slips;
mod table;
mod trace;
mod typed;

use earlier::Libraries;
use logs::{begins_first, interleaved, kept, section_6_of_figure_1, section_6_of_section_3, Log, MAX_RUNS};
use measure::{Noise, Series, Time};
use reference::rule::read_rule;
use rules::{figure_1, section_3, two_nodes, worst, Case};
use std::process::ExitCode;
use table::{print_heading, print_noise, print_row, Row};

/// Labels for the logs of the rules that name none; property 3 of section 3 names label 2.
const LABELS: [&str; 4] = ["1", "2", "3", ""];

/// A rule and the logs of one kind, by how many runs they have.
struct Measured {
    rule: Case,
    log: Box<dyn Fn(usize) -> Log>,
}

fn measured(rule: Case, log: impl Fn(usize) -> Log + 'static) -> Measured {
    Measured { rule, log: Box::new(log) }
}

/// The same rule on interleaved logs and on logs whose begins come first.
fn both_kinds(rule: fn() -> Case) -> [Measured; 2] {
    [measured(rule(), |runs| interleaved(runs, &LABELS)), measured(rule(), |runs| begins_first(runs, &LABELS))]
}

/// A property of figure 1 on logs of all kinds. Interleaved logs and those whose begins come first have the rule's labels in turn.
fn all_kinds(property: usize) -> [Measured; 4] {
    let rule = || figure_1(property);
    let (labels, same_labels) = (rule().labels(), rule().labels());
    [
        measured(rule(), move |runs| section_6_of_figure_1(property, runs)),
        measured(rule(), move |runs| kept(property, runs)),
        measured(rule(), move |runs| interleaved(runs, &labels)),
        measured(rule(), move |runs| begins_first(runs, &same_labels)),
    ]
}

/// The names of the groups, as `--group` takes them, and their headings.
const GROUPS: [(&str, &str); 10] = [
    (READING, "Reading"),
    ("figure1", "The properties of figure 1"),
    ("section3", "The properties of section 3"),
    ("worst", "The worst rules"),
    (TYPED, "Typed rules"),
    (SLIPS, "Slips"),
    (LAYOUTS, "Both layouts"),
    (MODES, "Both modes"),
    (BOOK, "The label book"),
    (EARLIER, "Beside an earlier library"),
];

/// The group that also has tables of logs whose runs share few ids, and of logs in small letters.
const READING: &str = "reading";

/// The groups with tables of their own: that which has texts instead of logs, that of the runs that break a rule, those
/// of both layouts of a work area and of both modes, that of the label book, and that which holds this library against
/// an earlier one.
const TYPED: &str = "typed";
const SLIPS: &str = "slips";
const LAYOUTS: &str = "layouts";
const MODES: &str = "modes";
const BOOK: &str = "book";
const EARLIER: &str = "earlier";

fn group(name: &str) -> Vec<Measured> {
    match name {
        READING => both_kinds(two_nodes).into(),
        "figure1" => (1..=4).flat_map(all_kinds).collect(),
        "section3" => (1..=4)
            .flat_map(|property| {
                let section_6 = measured(section_3(property), move |runs| section_6_of_section_3(property, runs));
                let mixed = measured(section_3(property), |runs| interleaved(runs, &LABELS));
                [section_6, mixed, measured(section_3(property), |runs| begins_first(runs, &LABELS))]
            })
            .collect(),
        _ => {
            let mixed = worst().into_iter().map(|rule| measured(rule, |runs| interleaved(runs, &LABELS)));
            mixed.chain(worst().into_iter().map(|rule| measured(rule, |runs| begins_first(runs, &LABELS)))).collect()
        }
    }
}

/// The rows of one rule on logs of one kind, from short to long.
fn rows_of(Measured { rule, log }: &Measured, sizes: &[usize]) -> Vec<Row> {
    let two_nodes = two_nodes().file;
    let nodes = read_rule(&rule.file).expect("a legal rule");
    let [mut whole, mut plain, mut published] = [(); 3].map(|()| Series::new(rule.nested));
    let mut rows: Vec<Row> = Vec::new();
    for runs in sizes {
        let log = log(*runs);
        // Where the proved check is not run, there are no verdicts to hold the baselines against.
        let mut verdicts = None;
        let whole = whole.next(*runs, || {
            let (time, found) = measure::whole_log(&rule.file, &log);
            verdicts = Some(found);
            time
        });
        let growth = rows.last().and_then(|last| growth(last, *runs, whole));
        let row = Row {
            rule: rule.name.clone(),
            log: log.kind,
            runs: *runs,
            whole,
            single: whole.is_taken.then(|| measure::single_line(&rule.file, &two_nodes, &log)),
            reading: measure::whole_log(&two_nodes, &log).0,
            plain: plain.next(*runs, || measure::baseline(plain::verdicts, &nodes, &log, verdicts.as_deref())),
            published: published.next(*runs, || measure::baseline(published::verdicts, &nodes, &log, verdicts.as_deref())),
            growth,
        };
        print_row(&row);
        rows.push(row);
    }
    rows
}

/// How many times as long a full log takes as one of half its runs.
fn growth(half: &Row, runs: usize, whole: Time) -> Option<f64> {
    let both_taken = half.whole.is_taken && whole.is_taken;
    (both_taken && runs == MAX_RUNS && half.runs == MAX_RUNS / 2).then(|| whole.seconds / half.whole.seconds)
}

/// What the command line asks for, and both libraries where an earlier one is to be measured and there is one.
struct Options {
    sizes: &'static [usize],
    groups: Vec<(&'static str, &'static str)>,
    libraries: Option<Libraries>,
}

fn options() -> Result<Options, String> {
    let mut options = Options { sizes: &[16, 32, 64, 128], groups: GROUPS.to_vec(), libraries: None };
    let mut words = std::env::args().skip(1);
    while let Some(word) = words.next() {
        match word.as_str() {
            "--quick" => options.sizes = &[16, 32],
            "--group" => {
                let name = words.next().unwrap_or_default();
                options.groups.retain(|(known, _)| *known == name);
            }
            _ => return Err(format!("{word} is not an option")),
        }
    }
    if options.groups.is_empty() {
        let names = "reading, figure1, section3, worst, typed, slips, layouts, modes, book and earlier";
        return Err(format!("the groups are {names}"));
    }
    if options.groups.iter().any(|(name, _)| *name == EARLIER) {
        options.libraries = Libraries::named()?;
    }
    Ok(options)
}

fn main() -> ExitCode {
    let Options { sizes, groups, libraries } = match options() {
        Ok(options) => options,
        Err(message) => {
            eprintln!("bench: {message}; usage: bench [--quick] [--group NAME]");
            return ExitCode::from(2);
        }
    };
    let (rule, log) = (two_nodes().file, interleaved(MAX_RUNS, &LABELS));
    let mut noise = Noise::default();
    noise.measure("beginning", &rule, &log);
    let is_own = |name: &str| [TYPED, SLIPS, LAYOUTS, MODES, BOOK, EARLIER].contains(&name);
    let (own, groups): (Vec<_>, Vec<_>) = groups.into_iter().partition(|(name, _)| is_own(name));
    let title_of = |wanted: &str| own.iter().find(|(name, _)| *name == wanted).map(|(_, title)| *title);
    let groups: Vec<_> = groups.iter().map(|(name, title)| (*name, title, group(name))).collect();
    let count: usize = groups.iter().map(|(_, _, group)| group.len()).sum();
    let longest = sizes[sizes.len() - 1];
    let mut rows = Vec::new();
    let mut reading = reading::Rows::default();
    for (name, title, group) in &groups {
        print_heading(title);
        for measured in group {
            if rows.len() == count / 2 * sizes.len() {
                noise.measure("middle", &rule, &log);
            }
            rows.extend(rows_of(measured, sizes));
        }
        if *name == READING {
            reading.measure_few(longest);
            reading.measure_small(longest);
        }
    }
    let typed = title_of(TYPED).map(typed::measured);
    let slips = title_of(SLIPS).map(|title| slips::measured(title, longest)).unwrap_or_default();
    let layouts = title_of(LAYOUTS).map(|title| layouts::measured(title, sizes)).unwrap_or_default();
    let modes = title_of(MODES).map(|title| modes::measured(title, longest)).unwrap_or_default();
    let book = title_of(BOOK).map(book::measured).unwrap_or_default();
    let relating = title_of(EARLIER).map(|title| relating::measured(title, libraries.as_ref())).unwrap_or_default();
    if let Some(libraries) = &libraries {
        reading.measure_earlier(libraries);
    }
    noise.measure("end", &rule, &log);
    print_noise(&noise);
    let passed = checks::print_checks(&rows, &reading, typed.as_ref(), &slips, &layouts, &modes, &book, &relating);
    if passed { ExitCode::SUCCESS } else { ExitCode::FAILURE }
}
