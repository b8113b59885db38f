//! An earlier version of the library, loaded beside the present one, so that both are measured in one run.
//!
//! SCENE_LOG_EARLIER in the environment names a shared object made of its archive; `scripts/earlier` makes one. Where
//! its calls take a layout of a work area and no mode, as in versions that always read a log in full,
//! SCENE_LOG_EARLIER_NO_MODE is set too, to anything, and they are called without. Where they take neither, as in
//! versions that knew the square layout alone, SCENE_LOG_EARLIER_NO_LAYOUT is set. Both versions read logs in full, in
//! the square layout.
//!
//! The present version is loaded in the same way: where code stands in memory changes its time by up to a tenth, and
//! linked into this program it stands elsewhere with every change of the program.

use scene_log::{Layout, Mode, VERDICT_BYTES, WORK_BYTES};
use std::ffi::{c_char, c_int, c_void, CStr, CString};
use std::os::unix::ffi::OsStrExt;
use std::path::{Path, PathBuf};
use std::process::Command;
use std::sync::atomic::{AtomicU32, Ordering};
use std::{env, fs, mem, process, ptr};

pub const VARIABLE: &str = "SCENE_LOG_EARLIER";
const NO_MODE: &str = "SCENE_LOG_EARLIER_NO_MODE";
const NO_LAYOUT: &str = "SCENE_LOG_EARLIER_NO_LAYOUT";

const RTLD_LOCAL: c_int = 0;
const RTLD_NOW: c_int = 2;

extern "C" {
    fn dlopen(file: *const c_char, flags: c_int) -> *mut c_void;
    fn dlsym(library: *mut c_void, name: *const c_char) -> *mut c_void;
    fn dlerror() -> *const c_char;
}

type Relate = unsafe extern "C" fn(*const u8, usize, u32, u32) -> u32;
type CheckLine = unsafe extern "C" fn(u32, *const u8, usize, *mut u8, usize, *mut u8, usize, *const u8, usize) -> u32;
type CheckLineWithoutLayout =
    unsafe extern "C" fn(*const u8, usize, *mut u8, usize, *mut u8, usize, *const u8, usize) -> u32;
type CheckLog =
    unsafe extern "C" fn(u32, u32, *const u8, usize, *const u8, usize, *mut u8, usize, *mut u8, usize) -> u32;
type CheckLogWithoutMode =
    unsafe extern "C" fn(u32, *const u8, usize, *const u8, usize, *mut u8, usize, *mut u8, usize) -> u32;
type CheckLogWithoutLayout =
    unsafe extern "C" fn(*const u8, usize, *const u8, usize, *mut u8, usize, *mut u8, usize) -> u32;

/// What the call of a version takes that reads a whole log: a layout and a mode, a layout alone, or neither.
#[derive(Clone, Copy, PartialEq, Debug)]
enum Takes {
    Mode,
    NoMode,
    NoLayout,
}

impl Takes {
    /// What is said of the earlier library in the environment.
    fn named() -> Takes {
        let is_set = |variable: &str| env::var_os(variable).is_some();
        match (is_set(NO_LAYOUT), is_set(NO_MODE)) {
            (true, _) => Takes::NoLayout,
            (false, true) => Takes::NoMode,
            (false, false) => Takes::Mode,
        }
    }
}

/// The call that reads a whole log, as a version has it.
enum ReadLog {
    WithMode(CheckLog),
    WithoutMode(CheckLogWithoutMode),
    WithoutLayout(CheckLogWithoutLayout),
}

/// The call that takes one line, as a version has it.
enum TakeLine {
    WithLayout(CheckLine),
    WithoutLayout(CheckLineWithoutLayout),
}

/// The two libraries.
pub struct Libraries {
    pub now: Library,
    pub earlier: Library,
}

impl Libraries {
    /// The present library and the one that the environment names; none where it names none.
    pub fn named() -> Result<Option<Libraries>, String> {
        let Some(path) = env::var_os(VARIABLE) else {
            return Ok(None);
        };
        let earlier = Library::load(Path::new(&path), Takes::named()).map_err(|why| format!("{VARIABLE}: {why}"))?;
        if !earlier.is_called_right() {
            return Err(format!(
                "{VARIABLE}: the calls are other ones; set {NO_MODE} if they take a layout and no mode, {NO_LAYOUT} if \
                 they take neither, and none of the two if they take both"
            ));
        }
        Ok(Some(Libraries { now: Library::present()?, earlier }))
    }
}

/// The calls of a library that are measured, as `include/scene_log.h` has them. It stays loaded to the end.
pub struct Library {
    relate: Relate,
    check_log: ReadLog,
    check_line: TakeLine,
}

impl Library {
    /// The present library, in a shared object as `scripts/earlier` makes it.
    pub fn present() -> Result<Library, String> {
        let made = Path::new(env!("CARGO_MANIFEST_DIR")).join("../../crates/scene_log/out/libscene_log.a");
        let archive = env::var_os("SCENE_LOG_ARCHIVE").map_or(made, PathBuf::from);
        let object = temporary_object();
        let mut gcc = Command::new("gcc");
        gcc.args(["-shared", "-o"]).arg(&object).arg("-Wl,--whole-archive").arg(archive).arg("-Wl,--no-whole-archive");
        let output = gcc.output().map_err(|error| format!("gcc cannot be run: {error}"))?;
        if !output.status.success() {
            return Err(format!("gcc makes no shared object: {}", String::from_utf8_lossy(&output.stderr)));
        }
        let library = Library::load(&object, Takes::Mode);
        fs::remove_file(&object).map_err(|error| error.to_string())?;
        library
    }

    /// The library in this file.
    fn load(path: &Path, takes: Takes) -> Result<Library, String> {
        // A whole path: dlopen looks for a name without a slash in the system's folders.
        let path = fs::canonicalize(path).map_err(|error| format!("{}: {error}", path.display()))?;
        let file = CString::new(path.as_os_str().as_bytes()).expect("a path has no byte 0");
        // Safe if the file is what `scripts/earlier` makes: then loading it runs no code but the C compiler's own.
        let library = unsafe { dlopen(file.as_ptr(), RTLD_NOW | RTLD_LOCAL) };
        if library.is_null() {
            return Err(last_error());
        }
        let relate = call_of(library, c"scene_log_relate")?;
        let check_log = call_of(library, c"scene_log_check_log")?;
        // Safe: every version that has these calls has them with these arguments, and with a layout and a mode, with a
        // layout alone, or with neither.
        let check_log = unsafe {
            match takes {
                Takes::Mode => ReadLog::WithMode(mem::transmute::<*mut c_void, CheckLog>(check_log)),
                Takes::NoMode => ReadLog::WithoutMode(mem::transmute::<*mut c_void, CheckLogWithoutMode>(check_log)),
                Takes::NoLayout => {
                    ReadLog::WithoutLayout(mem::transmute::<*mut c_void, CheckLogWithoutLayout>(check_log))
                }
            }
        };
        let relate = unsafe { mem::transmute::<*mut c_void, Relate>(relate) };
        let check_line = call_of(library, c"scene_log_check_line")?;
        // Safe: as above; this call has never taken a mode.
        let check_line = unsafe {
            match takes {
                Takes::Mode | Takes::NoMode => {
                    TakeLine::WithLayout(mem::transmute::<*mut c_void, CheckLine>(check_line))
                }
                Takes::NoLayout => {
                    TakeLine::WithoutLayout(mem::transmute::<*mut c_void, CheckLineWithoutLayout>(check_line))
                }
            }
        };
        Ok(Library { relate, check_log, check_line })
    }

    /// The answer of relating two runs of a record: the relation's number, or a refusal, from 65,536 on.
    pub fn relate(&self, record: &[u8], first: u32, second: u32) -> u32 {
        // Safe: the pointer comes with the length of its slice.
        unsafe { (self.relate)(record.as_ptr(), record.len(), first, second) }
    }

    /// The answer of reading a whole log in full, in the square layout: the number of its lines, or a refusal, from
    /// 65,536 on.
    pub fn check_log(&self, rule: &[u8], log: &[u8], work: &mut [u8], verdicts: &mut [u8]) -> u32 {
        let (work, verdicts) = ((work.as_mut_ptr(), work.len()), (verdicts.as_mut_ptr(), verdicts.len()));
        // Safe: each pointer comes with the length of its own slice, and `&mut` slices do not overlap others.
        unsafe { self.check_log_at((rule.as_ptr(), rule.len()), (log.as_ptr(), log.len()), work, verdicts) }
    }

    /// The answer of taking one line on a record, in the square layout: 1 where the rule holds, 0 where it fails, or a
    /// refusal, from 65,536 on.
    pub fn check_line(&self, rule: &[u8], record: &mut [u8], work: &mut [u8], line: &[u8]) -> u32 {
        let (rule_at, line_at) = (rule.as_ptr(), line.as_ptr());
        let (record_at, work_at) = (record.as_mut_ptr(), work.as_mut_ptr());
        let (rule, record, work, line) = (rule.len(), record.len(), work.len(), line.len());
        // Safe: as above.
        unsafe {
            match self.check_line {
                TakeLine::WithLayout(call) => {
                    call(Layout::Square.number(), rule_at, rule, record_at, record, work_at, work, line_at, line)
                }
                TakeLine::WithoutLayout(call) => call(rule_at, rule, record_at, record, work_at, work, line_at, line),
            }
        }
    }

    /// The same on buffers that are each a pointer and a length.
    unsafe fn check_log_at(
        &self,
        (rule, rule_length): (*const u8, usize),
        (log, log_length): (*const u8, usize),
        (work, work_length): (*mut u8, usize),
        (verdicts, verdicts_length): (*mut u8, usize),
    ) -> u32 {
        let (layout, mode) = (Layout::Square.number(), Mode::Full.number());
        match self.check_log {
            ReadLog::WithMode(call) => {
                call(layout, mode, rule, rule_length, log, log_length, work, work_length, verdicts, verdicts_length)
            }
            ReadLog::WithoutMode(call) => {
                call(layout, rule, rule_length, log, log_length, work, work_length, verdicts, verdicts_length)
            }
            ReadLog::WithoutLayout(call) => {
                call(rule, rule_length, log, log_length, work, work_length, verdicts, verdicts_length)
            }
        }
    }

    /// Whether a layout and a mode are handed over exactly if the library's calls take them. A rule of no bytes is
    /// refused with 1. A library whose calls are others has an address, or the length of another buffer, in place of
    /// the length of the work area, which is too short, or in place of a layout, which it is not: 20.
    fn is_called_right(&self) -> bool {
        let nowhere: *mut u8 = ptr::without_provenance_mut(8);
        // Safe: neither refusal looks at a byte of a buffer.
        let answer = unsafe {
            self.check_log_at((nowhere, 0), (nowhere, 0), (nowhere, WORK_BYTES), (nowhere, VERDICT_BYTES))
        };
        answer == 1 << 16
    }
}

/// A name of its own for each shared object that is made here.
fn temporary_object() -> PathBuf {
    static MADE: AtomicU32 = AtomicU32::new(0);
    let number = MADE.fetch_add(1, Ordering::Relaxed);
    env::temp_dir().join(format!("scene_log_{}_{number}.so", process::id()))
}

/// Where a call of the library stands.
fn call_of(library: *mut c_void, name: &CStr) -> Result<*mut c_void, String> {
    // Safe: the library is loaded, and the name ends with a byte 0.
    let call = unsafe { dlsym(library, name.as_ptr()) };
    if call.is_null() { Err(last_error()) } else { Ok(call) }
}

/// What went wrong last.
fn last_error() -> String {
    // Safe: the call takes nothing.
    let message = unsafe { dlerror() };
    if message.is_null() {
        return "there is no message".into();
    }
    // Safe: a message ends with a byte 0, and stands until the next call of the three.
    unsafe { CStr::from_ptr(message) }.to_string_lossy().into_owned()
}

#[cfg(test)]
pub mod tests {
    use super::*;
    use crate::logs::{begins_first, interleaved};
    use crate::rules::two_nodes;
    use crate::LABELS;
    use scene_log::{Refusal, Relation};
    use std::io::Write;
    use std::process::Stdio;

    /// The library in a shared object of this text in C.
    fn library_of(text: &str, takes: Takes) -> Result<Library, String> {
        let object = temporary_object();
        let mut gcc = Command::new("gcc");
        gcc.args(["-shared", "-fPIC", "-o"]).arg(&object).args(["-x", "c", "-"]).stdin(Stdio::piped());
        let mut child = gcc.spawn().expect("gcc can be run: this test makes shared objects with it");
        child.stdin.take().unwrap().write_all(text.as_bytes()).unwrap();
        assert!(child.wait().unwrap().success());
        let library = Library::load(&object, takes);
        fs::remove_file(&object).unwrap();
        library
    }

    const RELATE: &str = "unsigned scene_log_relate(const char *r, unsigned long a, unsigned x, unsigned y)";
    const CHECK_LOG: &str = "unsigned scene_log_check_log(unsigned k, unsigned m, const char *r, unsigned long a, \
        const char *l, unsigned long b, char *w, unsigned long c, char *v, unsigned long d)";
    const CHECK_LOG_WITHOUT_MODE: &str = "unsigned scene_log_check_log(unsigned k, const char *r, unsigned long a, \
        const char *l, unsigned long b, char *w, unsigned long c, char *v, unsigned long d)";
    const CHECK_LOG_WITHOUT_LAYOUT: &str = "unsigned scene_log_check_log(const char *r, unsigned long a, \
        const char *l, unsigned long b, char *w, unsigned long c, char *v, unsigned long d)";

    const CHECK_LINE: &str = "unsigned scene_log_check_line(unsigned k, const char *r, unsigned long a, \
        char *c, unsigned long b, char *w, unsigned long d, const char *l, unsigned long e)";
    const CHECK_LINE_WITHOUT_LAYOUT: &str = "unsigned scene_log_check_line(const char *r, unsigned long a, \
        char *c, unsigned long b, char *w, unsigned long d, const char *l, unsigned long e)";

    /// A library whose calls answer these numbers and write nothing; a line is taken, and fails.
    pub fn library_that_answers(relate: u32, check_log: u32) -> Library {
        let logs = format!("{RELATE} {{ return {relate}; }}\n{CHECK_LOG} {{ return {check_log}; }}");
        library_of(&format!("{logs}\n{CHECK_LINE} {{ return 0; }}"), Takes::Mode).unwrap()
    }

    /// The calls that a version can have.
    const CHECK_LOGS: [(&str, Takes); 3] = [
        (CHECK_LOG, Takes::Mode),
        (CHECK_LOG_WITHOUT_MODE, Takes::NoMode),
        (CHECK_LOG_WITHOUT_LAYOUT, Takes::NoLayout),
    ];

    /// What is handed over arrives: a rule of 1 byte, a log of 2, a work area of 3, 4 verdict bytes; the square layout
    /// and the full mode where they are taken.
    #[test]
    fn a_library_is_called_with_a_layout_and_a_mode_or_without() {
        let body = "{ w[2] = *r; v[3] = l[1]; return a + 10 * b + 100 * c + 1000 * d";
        for (head, takes) in CHECK_LOGS {
            let (named, expected) = match takes {
                Takes::Mode => ("+ 10000 * (10 * k + m)", 14_321),
                Takes::NoMode => ("+ 20000 * (k + 1)", 24_321),
                Takes::NoLayout => ("+ 30000", 34_321),
            };
            // One line has no mode. Its record has 2 bytes, and the line 4.
            let (line_head, layout, line_expected) = match takes {
                Takes::Mode | Takes::NoMode => (CHECK_LINE, "+ 50000 * (k + 1)", 54_321),
                Takes::NoLayout => (CHECK_LINE_WITHOUT_LAYOUT, "+ 60000", 64_321),
            };
            let line_body = "{ c[1] = *r; w[2] = l[3]; return a + 10 * b + 100 * d + 1000 * e";
            let text = format!(
                "{RELATE} {{ return 1; }}\n{head} {body} {named}; }}\n{line_head} {line_body} {layout}; }}"
            );
            let library = library_of(&text, takes).unwrap();
            let (mut record, mut work) = ([7; 2], [7; 3]);
            assert_eq!(library.check_line(&[5], &mut record, &mut work, &[0, 0, 0, 6]), line_expected);
            assert_eq!((record, work), ([7, 5], [7, 7, 6]));
            let (mut work, mut verdicts) = ([7; 3], [7; 4]);
            assert_eq!(library.check_log(&[5], &[0, 6], &mut work, &mut verdicts), expected);
            assert_eq!((work, verdicts), ([7, 7, 5], [7, 7, 7, 6]));
        }
    }

    /// Three libraries that refuse short buffers with 20, and then a rule of no bytes with 1.
    #[test]
    fn a_library_that_is_called_wrong_is_noticed() {
        for (head, has) in CHECK_LOGS {
            let layout = if has == Takes::NoLayout { "" } else { "if (k > 1) return 20 << 16;" };
            let refusals = "if (c < 16384 || d < 256) return 20 << 16; return a < 1 ? 1 << 16 : 0;";
            let others = format!("{RELATE} {{ return 1; }}\n{CHECK_LINE} {{ return 0; }}");
            let text = format!("{others}\n{head} {{ {layout} {refusals} }}");
            for (_, takes) in CHECK_LOGS {
                let is_right = library_of(&text, takes).unwrap().is_called_right();
                assert_eq!(is_right, takes == has, "{has:?} called as {takes:?}");
            }
        }
    }

    #[test]
    fn a_shared_object_of_the_archive_answers_as_the_library_does() {
        let library = Library::present().unwrap();
        assert!(library.is_called_right());
        for log in [interleaved(9, &LABELS), begins_first(9, &LABELS)] {
            let record = log.record();
            for (one, other) in (0..100).map(|pair| (pair / 10, pair % 10)) {
                let refused = |refusal: Refusal| u32::from(refusal.number()) << 16;
                let now = scene_log::relate(&record, one, other).map(Relation::number);
                assert_eq!(library.relate(&record, one, other), now.map_or_else(refused, u32::from), "{one}, {other}");
            }
            let rule = two_nodes().file;
            let mut left = (vec![7; WORK_BYTES], vec![7; VERDICT_BYTES]);
            let mut left_now = left.clone();
            assert_eq!(library.check_log(&rule, &log.bytes, &mut left.0, &mut left.1), 18);
            let (layout, mode) = (Layout::Square, Mode::Full);
            let answer = scene_log::check_log(layout, mode, &rule, &log.bytes, &mut left_now.0, &mut left_now.1);
            assert_eq!(answer, Ok(18));
            assert!(left == left_now);
            // A line more, which is taken, and one that is refused.
            for (line, expected) in [(&b"B 99 test\n"[..], 1), (b"E 98\n", 16 << 16)] {
                let (mut one, mut other) = ((record.clone(), left.0.clone()), (record.clone(), left.0.clone()));
                assert_eq!(library.check_line(&rule, &mut one.0, &mut one.1, line), expected);
                let taken = scene_log::check_line(layout, &rule, &mut other.0, &mut other.1, line);
                assert_eq!((taken.is_ok(), one == other), (expected == 1, true));
            }
            // A line without LF as the 19th, and the number of its refusal.
            let log = [&log.bytes[..], b"B 99"].concat();
            assert_eq!(library.check_log(&rule, &log, &mut left.0, &mut left.1), (11 << 16) + 19);
        }
    }

    #[test]
    fn what_is_no_library_is_named_with_what_is_wrong() {
        let message = |library: Result<Library, String>| library.err().expect("no library");
        let load = |path: &str| Library::load(Path::new(path), Takes::Mode);
        assert!(message(load("no/such.so")).starts_with("no/such.so: "));
        let text = concat!(env!("CARGO_MANIFEST_DIR"), "/Cargo.toml");
        assert!(message(load(text)).contains("bench/Cargo.toml: "));
        assert!(message(library_of("int other;", Takes::Mode)).contains("scene_log_relate"));
        let relate_alone = format!("{RELATE} {{ return 1; }}");
        assert!(message(library_of(&relate_alone, Takes::Mode)).contains("scene_log_check_log"));
        let no_line = format!("{relate_alone}\n{CHECK_LOG} {{ return 1; }}");
        assert!(message(library_of(&no_line, Takes::Mode)).contains("scene_log_check_line"));
    }
}
