//! Makes requests for every call, compares what two programs answer, and counts what the answers cover.
//!
//! `requests make SEED COUNT [letters=LETTERS] [FAMILY..]`  writes COUNT requests or some more to standard output,
//! `requests compare REQUESTS FIRST SECOND`  asks both programs all requests of a file, and stops at the first difference,
//! `requests census REQUESTS PROGRAM [letters=LETTERS]`  fails where the program's answers lack something,
//! `requests sheet LENGTH`                   writes a good sheet of so many bytes.
//!
//! The families are limits, sheets, tables, values, runs, damage, lengths and edits; without a name it is all of them.
//! Without letters they are those that the program `drive` answers.

use std::io::{self, Write};

mod ask;
#[path = "../limits.rs"]
mod bounds;
mod census;
mod compare;
mod dice;
mod edits;
mod families;
mod handed;
mod limits;
mod model;
mod sheet;
mod stream;

use ask::Asker;
use dice::Dice;

type Family = fn(&mut Asker, &mut Dice) -> io::Result<()>;

/// The random families, each with the letters that it asks and its share of the turns. A model's tables are long, so they have few.
const FAMILIES: [(&str, &str, usize, Family); 7] = [
    ("sheets", "RLV", 12, families::sheets),
    ("tables", "JNS", 8, families::tables),
    ("values", "JNSP", 12, families::values),
    ("runs", "P", 16, families::runs),
    ("damage", "RLV", 24, families::damage),
    ("lengths", "RVJNSP", 4, families::lengths),
    ("edits", "E", 1, edits::edits),
];

const LETTERS: &str = "RLJNPSV";

fn usage(what: &str) -> io::Error {
    io::Error::new(io::ErrorKind::InvalidInput, format!("{what}; usage: requests make SEED COUNT [letters=LETTERS] [FAMILY..] | compare REQUESTS FIRST SECOND | census REQUESTS PROGRAM [letters=LETTERS] | sheet LENGTH"))
}

fn make(seed: &str, count: &str, words: &[&str]) -> io::Result<()> {
    let seed = seed.parse().map_err(|_| usage("SEED is no number"))?;
    let count: u64 = count.parse().map_err(|_| usage("COUNT is no number"))?;
    let mut letters = LETTERS;
    let mut names = Vec::new();
    for word in words {
        match word.strip_prefix("letters=") {
            Some(wanted) => letters = wanted,
            None if *word == "limits" || FAMILIES.iter().any(|family| family.0 == *word) => names.push(*word),
            None => return Err(usage(&format!("no family {word}"))),
        }
    }
    let wanted = |name: &str| names.is_empty() || names.contains(&name);
    let mut dice = Dice::new(seed);
    let mut asker = Asker::new(letters);
    if wanted("limits") {
        limits::limits(&mut asker, &mut dice)?;
    }
    let turns: Vec<Family> = FAMILIES
        .iter()
        .filter(|(name, asks, ..)| wanted(name) && asks.contains(|letter| letters.contains(letter)))
        .flat_map(|&(_, _, share, family)| vec![family; share])
        .collect();
    while !turns.is_empty() && asker.asked < count {
        dice.pick(&turns)(&mut asker, &mut dice)?;
    }
    asker.flush()?;
    eprintln!("requests: seed {seed}, {} requests", asker.asked);
    Ok(())
}

fn run(arguments: &[&str]) -> io::Result<bool> {
    match arguments {
        ["make", seed, count, words @ ..] => make(seed, count, words).map(|()| true),
        ["compare", requests, first, second] => {
            let alike = compare::compare(requests, [first, second])?;
            if let Some(counts) = &alike {
                println!("{} requests, {} calls, all answered alike", counts.requests, counts.calls);
            }
            Ok(alike.map_or(false, |counts| counts.calls > 0))
        }
        ["census", requests, program] => census::census(requests, program, LETTERS),
        ["census", requests, program, word] => {
            let letters = word.strip_prefix("letters=").ok_or_else(|| usage("no letters"))?;
            census::census(requests, program, letters)
        }
        ["sheet", length] => {
            let length = length.parse().map_err(|_| usage("LENGTH is no number"))?;
            io::stdout().write_all(&limits::sheet_of(length))?;
            Ok(true)
        }
        _ => Err(usage("not understood")),
    }
}

fn main() {
    let arguments: Vec<String> = std::env::args().skip(1).collect();
    let arguments: Vec<&str> = arguments.iter().map(String::as_str).collect();
    match run(&arguments) {
        Ok(true) => {}
        Ok(false) => std::process::exit(1),
        Err(error) => {
            eprintln!("requests: {error}");
            std::process::exit(2);
        }
    }
}
