//! Measures the proved engine against the plain one, both by the processor time of this process, and prints the table.
//!
//! usage: measure CONTROL_ROOM PLAIN_CONTROL_ROOM FOLDER     the two programs, and a folder for what they print

#[path = "shared/proved.rs"]
mod proved;

use plain::calls::{NumberedCall, calls_on_newest, calls_on_table};
use plain::mixes::{Mix, book, commits, filling, mixes, old_reads, script, short_chains, store_reads};
use plain::{KEYS, MOST_RECORDS};
use std::ffi::c_int;
use std::fs::File;
use std::path::Path;
use std::process::{Command, ExitCode, Stdio};

const CALLS: usize = 30_000;
const TIMES: usize = 41;

#[repr(C)]
#[derive(Clone, Copy, Default)]
struct Seconds {
    seconds: i64,
    parts: i64,
}

#[repr(C)]
#[derive(Default)]
struct Usage {
    user: Seconds,
    system: Seconds,
    others: [i64; 14],
}

unsafe extern "C" {
    fn clock_gettime(clock: c_int, time: *mut Seconds) -> c_int;
    fn getrusage(who: c_int, usage: *mut Usage) -> c_int;
}

const CLOCK_PROCESS_CPUTIME_ID: c_int = 2;
const RUSAGE_CHILDREN: c_int = -1;

/// The processor time of this process, in nanoseconds.
fn processor_time() -> f64 {
    let mut time = Seconds::default();
    // SAFETY: `time` has the layout of Linux's 64-bit `timespec`
    let status = unsafe { clock_gettime(CLOCK_PROCESS_CPUTIME_ID, &mut time) };
    assert_eq!(status, 0, "there is no clock of processor time");
    time.seconds as f64 * 1e9 + time.parts as f64
}

/// The processor time of all children that have ended, in nanoseconds.
fn time_of_children() -> f64 {
    let mut usage = Usage::default();
    // SAFETY: `usage` has the layout of Linux's 64-bit `rusage`
    let status = unsafe { getrusage(RUSAGE_CHILDREN, &mut usage) };
    assert_eq!(status, 0, "the children's processor time is not known");
    let of = |time: Seconds| time.seconds as f64 * 1e9 + time.parts as f64 * 1e3;
    of(usage.user) + of(usage.system)
}

/// The shortest of the times that each side took, in nanoseconds.
#[derive(Clone, Copy)]
struct Times {
    proved: f64,
    plain: f64,
}

impl Times {
    /// The plain engine's time divided by the proved one's.
    fn ratio(self) -> f64 {
        self.plain / self.proved
    }
}

/// Runs both sides in turn. Their sums must be the same.
fn measured(what: &str, times: usize, proved: impl Fn() -> u64, plain: impl Fn() -> u64) -> Result<Times, String> {
    let timed = |run: &dyn Fn() -> u64| {
        let before = processor_time();
        let sum = std::hint::black_box(run());
        (sum, processor_time() - before)
    };
    let mut best = Times { proved: f64::INFINITY, plain: f64::INFINITY };
    for _ in 0..times {
        let (sum, time) = timed(&proved);
        let (other, other_time) = timed(&plain);
        if sum != other {
            return Err(format!("{what}: the sums of all answers differ: {sum} and {other}"));
        }
        best.proved = best.proved.min(time);
        best.plain = best.plain.min(other_time);
    }
    Ok(best)
}

fn cell(times: Times, count: usize) -> String {
    let each = |time: f64| time / count as f64;
    format!("{:>8.1} {:>8.1} {:>6.2}", each(times.proved), each(times.plain), times.ratio())
}

fn print_mixes() -> Result<(), String> {
    println!("nanoseconds a call           table of 1,024 records            newest store");
    println!("mix                    proved    plain  ratio      proved    plain  ratio     calls");
    for mix in mixes(CALLS) {
        let calls = &mix.calls;
        let table =
            measured(mix.name, TIMES, || proved::calls_on_table(MOST_RECORDS, calls), || calls_on_table(MOST_RECORDS, calls))?;
        let newest = measured(mix.name, TIMES, || proved::calls_on_newest(calls), || calls_on_newest(calls))?;
        let count = calls.len();
        println!("{:<18} {}    {}    {count:>6}", mix.name, cell(table, count), cell(newest, count));
    }
    Ok(())
}

/// How much the calls behind the filling of a table took, each.
fn behind_filling(what: &str, filling: &[NumberedCall], calls: &[NumberedCall], count: usize) -> Result<String, String> {
    let of = |calls: &[NumberedCall]| {
        measured(what, TIMES, || proved::calls_on_table(MOST_RECORDS, calls), || calls_on_table(MOST_RECORDS, calls))
    };
    let (first, both) = (of(filling)?, of(calls)?);
    let times = Times { proved: both.proved - first.proved, plain: both.plain - first.plain };
    Ok(cell(times, count))
}

fn print_growth() -> Result<(), String> {
    const COMMITS: usize = 4_000;
    const READS: usize = 16_000;
    println!("nanoseconds, over a table with so many versions; reads that no cache answers:");
    println!("           a commit of one key that drops  a read of the newest version    a read at half the time");
    println!("  versions   proved    plain  ratio          proved    plain  ratio          proved    plain  ratio");
    for keys in [1, 4, 8, 12, 21, 29, 38, 46, 55, 64] {
        let filling = filling(keys);
        let commit = behind_filling("commits", &filling, &commits(keys, COMMITS), COMMITS)?;
        let read = behind_filling("store reads", &filling, &store_reads(keys, READS), READS)?;
        let old = behind_filling("old reads", &filling, &old_reads(keys, READS), READS)?;
        println!("  {:>8} {commit}        {read}        {old}", usize::from(KEYS) + 15 * usize::from(keys));
    }
    println!("  (a commit with its begin and its write; a read with a 32nd part of what else its chain does)");
    Ok(())
}

fn print_short_chains() -> Result<(), String> {
    const CHAINS: usize = 1_000;
    println!("nanoseconds a chain, over the newest store           proved    plain  ratio");
    for Mix { name, calls } in short_chains(CHAINS) {
        let times = measured(name, TIMES, || proved::calls_on_newest(&calls), || calls_on_newest(&calls))?;
        println!("  {name:<48} {}", cell(times, CHAINS));
    }
    Ok(())
}

fn print_book() -> Result<(), String> {
    const MOST_BYTES: usize = 65_536;
    let book = book(MOST_BYTES);
    let times = measured("book", 200, || proved::read_book(&book), || plain::book::read_book(&book))?;
    println!("reading a book of {} bytes, nanoseconds a byte:", book.len());
    println!(
        "  proved {:.3}  plain {:.3}  ratio {:.2}",
        times.proved / book.len() as f64,
        times.plain / book.len() as f64,
        times.ratio()
    );
    Ok(())
}

/// The processor time of a program that reads the one file and writes the other.
fn time_of(program: &str, arguments: &[&str], input: &Path, output: &Path) -> Result<f64, String> {
    let failed = |error: std::io::Error| format!("{program}: {error}");
    let before = time_of_children();
    let status = Command::new(program)
        .args(arguments)
        .stdin(Stdio::from(File::open(input).map_err(failed)?))
        .stdout(Stdio::from(File::create(output).map_err(failed)?))
        .status()
        .map_err(failed)?;
    if !status.success() {
        return Err(format!("{program}: {status}"));
    }
    Ok(time_of_children() - before)
}

fn print_control_room(proved: &str, plain: &str, folder: &Path) -> Result<(), String> {
    const LINES: usize = 1_000_000;
    let file = |name: &str| folder.join(name);
    let (input, one, other, third) = (file("script"), file("proved"), file("plain"), file("batched"));
    let failed = |error: std::io::Error| error.to_string();
    std::fs::write(&input, script(LINES)).map_err(failed)?;
    let mut best = Times { proved: f64::INFINITY, plain: f64::INFINITY };
    let mut batched = f64::INFINITY;
    for _ in 0..4 {
        best.proved = best.proved.min(time_of(proved, &[], &input, &one)?);
        best.plain = best.plain.min(time_of(plain, &[], &input, &other)?);
        batched = batched.min(time_of(plain, &["--batched"], &input, &third)?);
    }
    let printed = std::fs::read(&one).map_err(failed)?;
    for another in [&other, &third] {
        if std::fs::read(another).map_err(failed)? != printed {
            return Err("the control rooms print different text".to_string());
        }
    }
    for it in [&input, &one, &other, &third] {
        std::fs::remove_file(it).map_err(failed)?;
    }
    println!("control room, a script of {LINES} lines, {} bytes printed, nanoseconds a line:", printed.len());
    let of = |time: f64| time / LINES as f64;
    println!("  proved {:.0}  plain, in blocks {:.0}  ratio {:.2}", of(best.proved), of(batched), batched / best.proved);
    println!("  plain, line by line {:.0}  ratio {:.2}", of(best.plain), best.ratio());
    Ok(())
}

fn print_all() -> Result<(), String> {
    let arguments: Vec<String> = std::env::args().skip(1).collect();
    let [proved, plain, folder] = &arguments[..] else {
        return Err("usage: measure CONTROL_ROOM PLAIN_CONTROL_ROOM FOLDER".to_string());
    };
    println!(
        "processor time, the shortest of {TIMES} runs of each side in turn; ratio: the plain time divided by the proved one"
    );
    println!();
    print_mixes()?;
    println!();
    print_growth()?;
    println!();
    print_short_chains()?;
    println!();
    print_book()?;
    println!();
    print_control_room(proved, plain, Path::new(folder))
}

fn main() -> ExitCode {
    match print_all() {
        Ok(()) => ExitCode::SUCCESS,
        Err(error) => {
            eprintln!("measure: {error}");
            ExitCode::FAILURE
        }
    }
}
