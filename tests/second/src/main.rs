//! The second program: writes stored results, and compares the archives with this implementation.

mod theirs;

use std::path::Path;
use std::process::ExitCode;
use std::time::{Duration, SystemTime, UNIX_EPOCH};
use std::{env, io};

use second::case::{hex, hex_slots, hex_words, Case, Entry, ENTRIES};
use second::compare::compare;
use second::invent::clip;
use second::side::{run, Ours, Outcome, Side};
use second::stored;
use theirs::{has, Theirs};

const USAGE: &str =
    "second write DIR | second compare SECONDS [SEED] [--all] | second lines SECONDS SEED | second replay CASE";

fn main() -> ExitCode {
    let given: Vec<String> = env::args().skip(1).collect();
    let (options, given): (Vec<String>, Vec<String>) = given.into_iter().partition(|word| word.starts_with("--"));
    let words: Vec<&str> = given.iter().map(String::as_str).collect();
    let all = options == ["--all"];
    match words[..] {
        ["write", folder] if options.is_empty() => write(folder),
        ["compare", seconds] if all || options.is_empty() => compared(seconds, None, all),
        ["compare", seconds, seed] if all || options.is_empty() => compared(seconds, Some(seed), all),
        ["lines", seconds, seed] if options.is_empty() => lines(seconds, seed),
        ["replay", ..] if options.is_empty() && words.len() > 1 => replay(&words[1..].join(" ")),
        _ => wrong(USAGE),
    }
}

fn wrong(words: &str) -> ExitCode {
    eprintln!("second: {words}");
    ExitCode::from(2)
}

fn write(folder: &str) -> ExitCode {
    match stored::write(Path::new(folder)) {
        Ok(written) => {
            println!("{written}");
            ExitCode::SUCCESS
        }
        Err(error) => wrong(&format!("{folder}: {error}")),
    }
}

/// Writes the cases of a comparison as stored results, for some seconds or until nobody reads on.
fn lines(seconds: &str, seed: &str) -> ExitCode {
    let (Ok(seconds), Some(seed)) = (seconds.parse(), seed_of(Some(seed))) else {
        return wrong(USAGE);
    };
    match stored::lines(&mut io::BufWriter::new(io::stdout()), seed, Duration::from_secs(seconds)) {
        Ok(()) => ExitCode::SUCCESS,
        Err(error) => wrong(&error.to_string()),
    }
}

/// Compares for some seconds; with `all`, an entry that the archives lack is a failure.
fn compared(seconds: &str, seed: Option<&str>, all: bool) -> ExitCode {
    let (Ok(seconds), Some(seed)) = (seconds.parse(), seed_of(seed)) else {
        return wrong(USAGE);
    };
    println!("seed {seed}");
    let (there, missing): (Vec<Entry>, Vec<Entry>) = ENTRIES.into_iter().partition(|&entry| has(entry));
    let compared = compare(&there, seed, Duration::from_secs(seconds), &Ours, &Theirs);
    for (entry, count) in &compared.calls {
        println!("{} {count}", entry.name());
    }
    println!("total {}", compared.calls.iter().map(|(_, count)| count).sum::<u64>());
    for entry in &missing {
        println!("not compared, for the archives lack it: {}", entry.name());
    }
    if let Some(case) = &compared.difference {
        println!("difference:");
        show(case);
        return ExitCode::FAILURE;
    }
    println!("no difference");
    if there.is_empty() || all && !missing.is_empty() {
        println!("but entries are missing");
        return ExitCode::FAILURE;
    }
    ExitCode::SUCCESS
}

/// The seed given, or one from the clock.
fn seed_of(given: Option<&str>) -> Option<u64> {
    match given {
        Some(digits) => digits.parse().ok(),
        None => Some(SystemTime::now().duration_since(UNIX_EPOCH).ok()?.as_nanos() as u64),
    }
}

fn replay(text: &str) -> ExitCode {
    let Some(mut case) = Case::parse(text) else {
        return wrong("this isn't a case as `compare` prints it");
    };
    clip(&mut case);
    show(&case);
    if has(case.entry) && run(&case, &Ours) != run(&case, &Theirs) {
        ExitCode::FAILURE
    } else {
        ExitCode::SUCCESS
    }
}

/// A case with both answers.
fn show(case: &Case) {
    println!("second replay {}", case.text());
    let (numbers, lists, words) = case.entry.fields();
    for (name, number) in numbers.iter().cycle().zip(&case.numbers) {
        println!("    {name} {number}");
    }
    for (at, list) in case.lists.iter().enumerate() {
        println!("    {} ({}) {}", lists[at.min(lists.len() - 1)], list.len(), hex(list));
    }
    if !words.is_empty() {
        println!("    {words} ({}) {}", case.words.len(), hex_words(&case.words));
    }
    show_side("second program", case, &Ours);
    if has(case.entry) {
        show_side("archive", case, &Theirs);
    }
}

fn show_side(name: &str, case: &Case, side: &impl Side) {
    let Outcome { returned, octets, words, slots } = run(case, side);
    let returned: Vec<String> = returned.iter().map(|number| format!("{number:x}")).collect();
    println!("  {name}: returned {}", returned.join(" "));
    println!("    lent octets after {}", hex(&octets));
    println!("    lent 16-bit numbers after {}", hex_words(&words));
    println!("    lent 32-bit numbers after {}", hex_slots(&slots));
}
