//! Plays random scripts by the proved control room and by the plain one; has both engines make the script's calls over stores of
//! several kinds; and has both read a book of the accounts that came, sound or damaged. Prints the first difference, of a script
//! with a shorter one that shows it.
//!
//! usage: compare CONTROL_ROOM SCRIPTS SEED

#[path = "shared/proved.rs"]
mod proved;

use plain::book::{read_accounts, read_book};
use plain::calls::{calls_on_newest, calls_on_table};
use plain::play::play;
use plain::random_scripts::{book, calls, script};
use std::collections::BTreeMap;
use std::io::{Read, Write};
use std::process::{Command, ExitCode, Stdio};
use std::sync::atomic::{AtomicBool, AtomicU64, Ordering};

/// What the proved program prints for the script.
fn played(program: &str, script: &[u8]) -> Result<Vec<u8>, String> {
    let failed = |error: std::io::Error| format!("{program}: {error}");
    let mut child = Command::new(program).stdin(Stdio::piped()).stdout(Stdio::piped()).spawn().map_err(failed)?;
    let (Some(mut input), Some(mut output)) = (child.stdin.take(), child.stdout.take()) else {
        return Err(format!("{program}: no pipes"));
    };
    let mut printed = Vec::new();
    std::thread::scope(|scope| {
        // a short script fits into the pipe, and a long one is written while the output is read
        if script.len() <= 4096 {
            input.write_all(script)?;
            drop(input);
            output.read_to_end(&mut printed)?;
            return Ok(());
        }
        let writer = scope.spawn(move || input.write_all(script));
        output.read_to_end(&mut printed)?;
        writer.join().expect("the writer does not stop")
    })
    .map_err(failed)?;
    let status = child.wait().map_err(failed)?;
    if status.success() { Ok(printed) } else { Err(format!("{program}: {status}")) }
}

fn differ(program: &str, script: &[u8]) -> Result<bool, String> {
    Ok(played(program, script)? != play(script))
}

/// Are the script's calls answered differently over a newest store, or over a table of 64, 200 or 1,024 records?
fn calls_differ(script: &[u8]) -> bool {
    let calls = calls(script);
    let on_table = |records| proved::calls_on_table(records, &calls) != calls_on_table(records, &calls);
    [64, 200, 1024].into_iter().any(on_table) || proved::calls_on_newest(&calls) != calls_on_newest(&calls)
}

/// Is the book of this seed and these accounts read differently?
fn reads_differ(seed: u64, printed: &[u8]) -> bool {
    let book = book(seed, printed);
    proved::read_book(&book) != read_book(&book)
}

/// Leaves out lines as long as both still differ.
fn shortened(program: &str, script: &[u8]) -> Result<Vec<u8>, String> {
    let mut lines: Vec<&[u8]> = script.split_inclusive(|&byte| byte == b'\n').collect();
    let mut size = lines.len().div_ceil(2);
    while size > 0 {
        let before = lines.len();
        let mut start = 0;
        while start < lines.len() {
            let mut fewer = lines.clone();
            fewer.drain(start..lines.len().min(start + size));
            if differ(program, &fewer.concat())? {
                lines = fewer;
            } else {
                start += size;
            }
        }
        // single lines are tried until none can go
        size = match size {
            1 if lines.len() == before => 0,
            size => size.div_ceil(2),
        };
    }
    Ok(lines.concat())
}

fn print_difference(program: &str, seed: u64, script: &[u8]) -> Result<(), String> {
    if !differ(program, script)? && calls_differ(script) {
        println!("over another store the calls of the script of seed {seed} are answered differently:");
        print!("{}", String::from_utf8_lossy(script));
        return Ok(());
    }
    if !differ(program, script)? {
        let book: String = book(seed, &play(script)).iter().map(|byte| format!("{byte:02x}")).collect();
        println!("the book of seed {seed} is read differently:\n{book}");
        return Ok(());
    }
    let short = shortened(program, script)?;
    let (one, other) = (played(program, &short)?, play(&short));
    let text = |bytes: &[u8]| String::from_utf8_lossy(bytes).into_owned();
    let (one, other) = (text(&one), text(&other));
    println!("the script of seed {seed} is played differently; so is this shorter one:");
    print!("{}", text(&short));
    println!();
    let mut pairs = one.lines().zip(other.lines()).enumerate();
    match pairs.find(|(_, (one, other))| one != other) {
        Some((at, (one, other))) => println!("line {} of the output:\n  proved: {one}\n  plain:  {other}", at + 1),
        None => println!("one output has more lines: proved {}, plain {}", one.lines().count(), other.lines().count()),
    }
    Ok(())
}

/// Counts each kind of answer that was printed: its word, and of a refusal its number and layer.
fn count_answers(printed: &[u8], answers: &mut BTreeMap<String, u64>) {
    for line in String::from_utf8_lossy(printed).lines() {
        let answer = match line.split_once(" -> ") {
            Some((_, answer)) => answer,
            None if line.starts_with("bad") => line,
            None => continue,
        };
        let mut words = answer.split(' ');
        let mut name = words.next().unwrap_or_default().to_string();
        if name == "refused" {
            name = format!("refused {:>2} {}", words.next().unwrap_or_default(), words.next().unwrap_or_default());
        }
        *answers.entry(name).or_default() += 1;
    }
}

/// Plays the scripts of these seeds on as many threads as half the processors; answers the seed of one that is played
/// differently, if there is one, and how often each kind of answer was printed.
fn compare(program: &str, first: u64, count: u64) -> Result<(Option<u64>, BTreeMap<String, u64>), String> {
    let next = AtomicU64::new(0);
    let stopped = AtomicBool::new(false);
    let work = || -> Result<(Option<u64>, BTreeMap<String, u64>), String> {
        let mut answers = BTreeMap::new();
        while !stopped.load(Ordering::Relaxed) {
            let number = next.fetch_add(1, Ordering::Relaxed);
            if number >= count {
                break;
            }
            let seed = first.wrapping_add(number);
            let script = script(seed);
            let printed = play(&script);
            if played(program, &script)? != printed || calls_differ(&script) || reads_differ(seed, &printed) {
                stopped.store(true, Ordering::Relaxed);
                return Ok((Some(seed), answers));
            }
            count_answers(&printed, &mut answers);
            let ending = match read_accounts(&book(seed, &printed)).1 {
                None => "book read to its end".to_string(),
                Some((refusal, _)) => format!("book refused {}", refusal.number()),
            };
            *answers.entry(ending).or_default() += 1;
        }
        Ok((None, answers))
    };
    let threads = std::thread::available_parallelism().map_or(1, |number| number.get().div_ceil(2));
    let mut found = None;
    let mut all = BTreeMap::new();
    std::thread::scope(|scope| {
        let workers: Vec<_> = (0..threads).map(|_| scope.spawn(work)).collect();
        for worker in workers {
            let (differs, answers) = worker.join().map_err(|_| "a thread stopped".to_string())??;
            found = found.or(differs);
            for (name, number) in answers {
                *all.entry(name).or_default() += number;
            }
        }
        Ok::<(), String>(())
    })?;
    Ok((found, all))
}

fn compare_all() -> Result<bool, String> {
    let usage = || "usage: compare CONTROL_ROOM SCRIPTS SEED".to_string();
    let arguments: Vec<String> = std::env::args().skip(1).collect();
    let [program, count, seed] = &arguments[..] else {
        return Err(usage());
    };
    let (count, seed): (u64, u64) = (count.parse().map_err(|_| usage())?, seed.parse().map_err(|_| usage())?);
    // scripts of seeds that differ little have little in common, and those of two runs none
    let first = seed.wrapping_mul(1_000_000_007);
    let (found, answers) = compare(program, first, count)?;
    if let Some(seed) = found {
        print_difference(program, seed, &script(seed))?;
        return Ok(false);
    }
    println!("{count} scripts, each one's calls over other stores, and a book of its accounts: no difference");
    for (name, number) in answers {
        println!("  {name:<24} {number:>9}");
    }
    Ok(true)
}

fn main() -> ExitCode {
    match compare_all() {
        Ok(true) => ExitCode::SUCCESS,
        Ok(false) => ExitCode::FAILURE,
        Err(error) => {
            eprintln!("compare: {error}");
            ExitCode::from(2)
        }
    }
}
