//! Random calls of every function, each compared with `second`: what is handed back, and every
//! slice that was lent with its guards. A difference ends the run and tells how to repeat it.

use fuzz::calls::Target;
use fuzz::cases::Case;
use fuzz::tally::Tally;
use std::env;
use std::ops::Range;
use std::panic::catch_unwind;
use std::process::ExitCode;

const USAGE: &str = "\
fuzz TARGET SEED CALLS [FIRST]
    TARGET   rust or c: how the library is called
    SEED     which cases
    CALLS    how many
    FIRST    the number of the first, if it is not 0";

/// The target, the seed and the cases that the arguments name.
fn parse(arguments: &[String]) -> Option<(Target, u32, Range<u32>)> {
    let number = |place: usize| arguments.get(place)?.parse::<u32>().ok();
    let target = match arguments.first()?.as_str() {
        "rust" => Target::Rust,
        "c" => Target::C,
        _ => return None,
    };
    let first = match arguments.len() {
        3 => 0,
        4 => number(3)?,
        _ => return None,
    };
    Some((target, number(1)?, first..first.checked_add(number(2)?)?))
}

/// Makes all calls, or gives the number of the first case with a difference.
fn run(target: Target, seed: u32, cases: Range<u32>) -> Result<Tally, u32> {
    let mut tally = Tally::default();
    for number in cases {
        for case in Case::all(seed, number) {
            let outcome = catch_unwind(|| case.compare(target)).map_err(|_| number)?;
            tally.add(case.name(), outcome.number);
        }
    }
    Ok(tally)
}

fn main() -> ExitCode {
    let arguments: Vec<String> = env::args().skip(1).collect();
    let Some((target, seed, cases)) = parse(&arguments) else {
        eprintln!("{USAGE}");
        return ExitCode::from(2);
    };
    let name = &arguments[0];
    println!("fuzz: target {name}, seed {seed}, cases {cases:?}");
    match run(target, seed, cases) {
        Ok(tally) => {
            print!("{tally}");
            ExitCode::SUCCESS
        }
        Err(case) => {
            println!("fuzz: seed {seed}, case {case} differs; again: fuzz {name} {seed} 1 {case}");
            ExitCode::FAILURE
        }
    }
}
