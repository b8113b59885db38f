//! Taking times: the shortest of repeats, times carried on to longer logs, and the noise of the machine.

use crate::logs::Log;
use crate::trace::Trace;
use reference::rule::Rule;
use scene_log::{check_line, check_log, Check, Layout, Mode, VERDICT_BYTES, WORK_BYTES};
use std::hint::black_box;
use std::time::{Duration, Instant};

/// A call is repeated for at least this long, and at least so often unless that takes too long.
const AT_LEAST: Duration = Duration::from_millis(200);
const REPEATS: usize = 9;
const LONG_ENOUGH: Duration = Duration::from_secs(3);

/// Calls that are held against each other take turns for this long, from 0 to 15 steps of two kinds down the stack.
const TAKING_TURNS: Duration = Duration::from_secs(2);
const STEPS: usize = 16;

/// No call is made that is expected to take longer, in seconds.
const LONGEST: f64 = 20.0;

/// A time in seconds, taken or carried on from shorter logs.
#[derive(Clone, Copy)]
pub struct Time {
    pub seconds: f64,
    pub is_taken: bool,
}

/// The times of the repeats of a call, in seconds, from the shortest on. What `prepare` does is not timed.
fn repeats<S>(state: &mut S, prepare: impl Fn(&mut S), call: impl Fn(&mut S)) -> Vec<f64> {
    let begin = Instant::now();
    let mut times = Vec::new();
    let is_enough = |count| count >= REPEATS || (count > 0 && begin.elapsed() >= LONG_ENOUGH);
    while begin.elapsed() < AT_LEAST || !is_enough(times.len()) {
        prepare(state);
        times.push(seconds_of(|| call(state)));
    }
    times.sort_by(f64::total_cmp);
    times
}

/// The shortest time of the whole-log call in full, and the verdicts.
pub fn whole_log(rule: &[u8], log: &Log) -> (f64, Vec<bool>) {
    let mut buffers = (vec![0; WORK_BYTES], vec![0; VERDICT_BYTES]);
    let times = whole_log_times(rule, log, &mut buffers);
    (times[0], buffers.1[..2 * log.runs].iter().map(|verdict| *verdict == 1).collect())
}

fn whole_log_times(rule: &[u8], log: &Log, buffers: &mut (Vec<u8>, Vec<u8>)) -> Vec<f64> {
    repeats(buffers, |_| {}, |(work, verdicts)| {
        let answer = check_log(Layout::Square, Mode::Full, rule, &log.bytes, work, verdicts);
        assert_eq!(answer.map(usize::from), Ok(2 * log.runs));
    })
}

/// The shortest time of the single-line call: the last line of the log on the record of the lines before it.
pub fn single_line(rule: &[u8], two_nodes: &[u8], log: &Log) -> f64 {
    let lines: Vec<&[u8]> = log.bytes.split_inclusive(|byte| *byte == b'\n').collect();
    let (last, before) = lines.split_last().expect("a log of some lines");
    let mut check = Check::start();
    // A record is the same with any rule.
    for line in before {
        check.line(two_nodes, line).expect("an accepted line");
    }
    let restore = |now: &mut Check| {
        now.record.copy_from_slice(&*check.record);
        now.work.copy_from_slice(&check.work);
    };
    let call = |now: &mut Check| {
        check_line(Layout::Square, rule, &mut *now.record, &mut now.work, last).expect("an accepted line");
    };
    repeats(&mut check.clone(), restore, call)[0]
}

/// The shortest time of a call that is lent a buffer of this length; its answer, and what it left there.
pub fn lent_buffer(
    length: usize,
    call: impl Fn(&mut [u8]) -> Result<usize, u8>,
) -> (f64, (Result<usize, u8>, Vec<u8>)) {
    let mut state = (Ok(0), vec![0; length]);
    let times = repeats(&mut state, |_| {}, |(answer, buffer)| *answer = call(buffer));
    (times[0], state)
}

/// The time of one call.
pub fn seconds_of(call: impl FnOnce()) -> f64 {
    let begin = Instant::now();
    call();
    begin.elapsed().as_secs_f64()
}

/// A time that is taken so many steps further down the stack. A step has so many bytes, and some more.
#[inline(never)]
fn seconds_below<const BYTES: usize>(steps: usize, take: &dyn Fn() -> f64) -> f64 {
    let room = black_box([0_u8; BYTES]);
    let time = if steps == 0 { take() } else { seconds_below::<BYTES>(steps - 1, take) };
    black_box(&room);
    time
}

/// The shortest times of calls that take turns: they go in order, and in the next round the other way. A call takes
/// longer where the stack stands badly in its page, and that is not the same place for all; so it is moved after every
/// two rounds.
pub fn in_turns<const N: usize>(calls: [&dyn Fn(); N]) -> [f64; N] {
    let timed = calls.map(|call| move || seconds_of(call));
    timed_in_turns(timed.each_ref().map(|call| call as &dyn Fn() -> f64))
}

/// The same of calls that take their own time, so that what they prepare is not in it.
pub fn timed_in_turns<const N: usize>(calls: [&dyn Fn() -> f64; N]) -> [f64; N] {
    let begin = Instant::now();
    let mut shortest = [f64::INFINITY; N];
    let mut place = 0;
    while begin.elapsed() < TAKING_TURNS {
        // The two kinds of steps differ by 16 bytes, so that together they reach many places of a page.
        let below = |take: &dyn Fn() -> f64| {
            seconds_below::<16>(place / STEPS % STEPS, &|| seconds_below::<32>(place % STEPS, take))
        };
        for turn in (0..N).chain((0..N).rev()) {
            shortest[turn] = shortest[turn].min(below(calls[turn]));
        }
        place += 1;
    }
    shortest
}

/// One of the two baselines: the verdict of every line.
pub type Baseline = fn(&Rule, &Trace) -> Vec<bool>;

/// The shortest time of a baseline, the reading of the log included, that of the rule not. Its verdicts must be those of the
/// proved check, where these are known.
pub fn baseline(verdicts_of: Baseline, rule: &Rule, log: &Log, expected: Option<&[bool]>) -> f64 {
    let mut verdicts = Vec::new();
    let times = repeats(&mut verdicts, |_| {}, |verdicts| *verdicts = verdicts_of(rule, &Trace::read(&log.bytes)));
    assert!(expected.is_none_or(|expected| verdicts == expected), "a baseline and the proved check differ");
    times[0]
}

/// The times of one rule on logs of one kind, from short to long.
pub struct Series {
    taken: Vec<(usize, f64)>,
    /// The highest power of the number of runs with which the time can grow: one for each nested "some", one for the lines.
    steepest: f64,
}

impl Series {
    pub fn new(nested: usize) -> Series {
        Series { taken: Vec::new(), steepest: nested as f64 + 1.0 }
    }

    /// Whether a log of so many runs is short enough, even if the time grows as fast as it can.
    pub fn is_short(&self, runs: usize) -> bool {
        self.taken.last().is_none_or(|last| carried_on(*last, runs, self.steepest) <= LONGEST)
    }

    /// The time for so many runs: taken where it is short, else carried on.
    pub fn next(&mut self, runs: usize, take: impl FnOnce() -> f64) -> Time {
        if self.is_short(runs) {
            self.taken.push((runs, take()));
            return Time { seconds: self.taken[self.taken.len() - 1].1, is_taken: true };
        }
        let last = self.taken[self.taken.len() - 1];
        Time { seconds: carried_on(last, runs, self.growth()), is_taken: false }
    }

    /// The power with which the time grew between the last two sizes taken.
    fn growth(&self) -> f64 {
        match self.taken[..] {
            [.., (runs, time), (more, longer)] => {
                ((longer / time).ln() / (more as f64 / runs as f64).ln()).min(self.steepest)
            }
            _ => self.steepest,
        }
    }
}

/// The time at so many runs if it grows with this power of their number.
fn carried_on((runs, time): (usize, f64), more: usize, power: f64) -> f64 {
    time * (more as f64 / runs as f64).powf(power)
}

/// The same call, measured now and then: the moment, the shortest time, and the median as a multiple of it.
#[derive(Default)]
pub struct Noise(pub Vec<(&'static str, f64, f64)>);

impl Noise {
    pub fn measure(&mut self, moment: &'static str, rule: &[u8], log: &Log) {
        let times = whole_log_times(rule, log, &mut (vec![0; WORK_BYTES], vec![0; VERDICT_BYTES]));
        self.0.push((moment, times[0], times[times.len() / 2] / times[0]));
    }
}
