//! Decides which command is run. An independent reading of the rules for property tables and
//! traces: the definitions themselves, tried on every list of samples.

mod cases;
mod coverage;
mod damage;
mod damage_trace;
mod draft;
mod fixed;
mod following;
mod judge;
mod left_sides;
mod monitors;
mod properties;
mod random;
mod replay;
mod selftest;
mod sequences;
mod states;
mod table;
mod tables;
mod trace;
mod traces;
mod tree;
mod vectors;

use std::path::Path;
use std::process::ExitCode;

const HELP: &str = "\
second judge DIR                              print what `judge` prints for DIR
second check FILE                             print `accepted` or `refused NUMBER PLACE`
second selftest                               run the built-in tests, exit 1 on a difference
second cases SEED OUT [VERDICTS [REFUSALS]]   write random cases (20000, 5000)
second checks SEED OUT [COUNT]                write table checks only (10000)
second steps SEED OUT [COUNT]                 write answers after every cycle (2000)
second strays SEED OUT [COUNT]                write steps of any monitors, on any tables (2000)
second fixed OUT                              write the small runs and other fixed cases
second replay FILE                            answer a written file again, exit 1 on a difference

SEED is a number, or `fresh` for one from the system; it is printed.

OUT is a sequence of records, numbers little endian:
  kind u8 (1 check, 2 judge, 3 steps, 4 state, 5 stray, 6 shut), property u32, table length
  u32, trace length u32, expected answer u64, table bytes, trace bytes;
  kind 3 has the answer to opening as expected answer, and after its trace bytes one u64 for
  the answer to each sample; kind 4 has the bytes of a monitor there; kind 6, the last monitor
  of kind 3 where its opening was refused, has 0 as expected answer, and one u64 for each sample.
  Steps after a refused opening are answered by refusal 13 or else 14. README.md says more.
An answer: 2^32 times (0 refused, 1 broken, 2 settled, 3 pending) plus the cycle, or
65,536 times the refusal number plus the place; 0 for an accepted table.
";

/// A file that can't be read counts as empty.
fn read_or_empty(path: &Path) -> Vec<u8> {
    std::fs::read(path).unwrap_or_default()
}

fn print_judged(directory: &str) -> Result<(), String> {
    let directory = Path::new(directory);
    let table = read_or_empty(&directory.join("table.bin"));
    let trace = read_or_empty(&directory.join("trace.bin"));
    print!("{}", judge::printed(&table, &trace));
    Ok(())
}

fn print_checked(file: &str) -> Result<(), String> {
    match table::check(&read_or_empty(Path::new(file))) {
        Ok(_) => println!("accepted"),
        Err(refusal) => println!("refused {} {}", refusal.number, refusal.place),
    }
    Ok(())
}

fn number<T: std::str::FromStr>(text: &str) -> Result<T, String> {
    text.parse().map_err(|_| format!("not a number: {}", text))
}

fn write_vectors(command: &str, seed: &str, out: &str, counts: &[&str]) -> Result<(), String> {
    let seed = match seed {
        "fresh" => random::fresh_seed(),
        text => number(text)?,
    };
    let count = |index: usize, default: usize| match counts.get(index) {
        Some(text) => number(text),
        None => Ok(default),
    };
    let mut random = random::Random::from_seed(seed);
    let mut vectors = vectors::Vectors::default();
    match command {
        "cases" => cases::cases(&mut random, &mut vectors, count(0, 20_000)?, count(1, 5_000)?),
        "checks" => cases::checks(&mut random, &mut vectors, count(0, 10_000)?),
        "steps" => monitors::steps(&mut random, &mut vectors, count(0, 2_000)?),
        "strays" => monitors::strays(&mut random, &mut vectors, count(0, 2_000)?),
        _ => fixed::fixed(&mut random, &mut vectors),
    }
    std::fs::write(out, &vectors.bytes).map_err(|error| format!("{}: {}", out, error))?;
    print!("{}", vectors.summary(seed));
    Ok(())
}

fn replay_file(file: &str) -> Result<(), String> {
    let bytes = std::fs::read(file).map_err(|error| format!("{}: {}", file, error))?;
    let (records, differences) = replay::replay(&bytes)?;
    println!("records {} differences {}", records, differences);
    match differences {
        0 => Ok(()),
        _ => Err(format!("{}: answers differ", file)),
    }
}

fn run(words: &[&str]) -> Result<(), String> {
    match words {
        ["judge", directory] => print_judged(directory),
        ["check", file] => print_checked(file),
        ["replay", file] => replay_file(file),
        ["selftest"] => selftest::run(),
        ["fixed", out] => write_vectors("fixed", "3", out, &[]),
        ["cases", seed, out, counts @ ..] if counts.len() <= 2 => {
            write_vectors("cases", seed, out, counts)
        }
        [command @ ("checks" | "steps" | "strays"), seed, out, counts @ ..] if counts.len() <= 1 => {
            write_vectors(command, seed, out, counts)
        }
        ["--help"] => {
            print!("{}", HELP);
            Ok(())
        }
        _ => Err(HELP.to_string()),
    }
}

fn main() -> ExitCode {
    let words: Vec<String> = std::env::args().skip(1).collect();
    let words: Vec<&str> = words.iter().map(String::as_str).collect();
    match run(&words) {
        Ok(()) => ExitCode::SUCCESS,
        Err(message) => {
            eprintln!("{}", message);
            ExitCode::FAILURE
        }
    }
}
