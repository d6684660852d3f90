//! The commands: a comparison of COUNT cases of each operation, a replay, a
//! self-check without any program under test, and the outside facts. Holds no
//! part of the rules.

use std::env;
use std::io;
use std::path::PathBuf;
use std::process::ExitCode;

use independent::variants::{ALL, Variant};
use independent::{compare, facts, selfcheck};

const USAGE: &str = "usage:
  run SEED COUNT [PROBE] [--variant NAME]   compare COUNT cases of each operation
  run --replay FILE [PROBE]                 ask one written case again
  run --self-check SEED COUNT               what the variants would show; no probe
  run --facts [PROBE]                       outside facts, also asked of a probe
  run --variants                            the names of the variants
PROBE may also be given as an environment variable of that name.";

/// What can go wrong: a bad command line, or the running itself.
enum Trouble {
    Usage,
    Run(io::Error),
}

impl From<io::Error> for Trouble {
    fn from(e: io::Error) -> Trouble {
        Trouble::Run(e)
    }
}

fn main() -> ExitCode {
    let mut words: Vec<String> = env::args().skip(1).collect();
    match command(&mut words) {
        Ok(true) => ExitCode::SUCCESS,
        Ok(false) => ExitCode::from(1),
        Err(Trouble::Usage) => {
            eprintln!("{USAGE}");
            ExitCode::from(2)
        }
        Err(Trouble::Run(e)) => {
            eprintln!("{e}");
            ExitCode::from(2)
        }
    }
}

fn probe(word: Option<&String>) -> Option<PathBuf> {
    word.cloned().or_else(|| env::var("PROBE").ok()).map(PathBuf::from)
}

fn number(word: Option<&String>) -> Result<u64, Trouble> {
    word.and_then(|w| w.parse().ok()).ok_or(Trouble::Usage)
}

/// True if nothing differed.
fn command(words: &mut Vec<String>) -> Result<bool, Trouble> {
    let variant = take_variant(words)?;
    match words.first().map(String::as_str) {
        Some("--replay") => {
            let file = words.get(1).ok_or(Trouble::Usage)?;
            let probe = probe(words.get(2)).ok_or(Trouble::Usage)?;
            Ok(compare::replay(&PathBuf::from(file), &probe)?)
        }
        Some("--self-check") => Ok(selfcheck::run(number(words.get(1))?, number(words.get(2))?)),
        Some("--facts") => Ok(facts::run(probe(words.get(1)).as_deref())?),
        Some("--variants") => {
            ALL.iter().for_each(|v| println!("{}", v.name()));
            Ok(true)
        }
        _ => {
            let (seed, count) = (number(words.first())?, number(words.get(1))?);
            let probe = probe(words.get(2)).ok_or(Trouble::Usage)?;
            let outcome = compare::run(seed, count, &probe, variant)?;
            println!("{}", outcome.summary());
            Ok(!outcome.any_differed())
        }
    }
}

/// Takes `--variant NAME` out of the words, wherever it stands.
fn take_variant(words: &mut Vec<String>) -> Result<Option<Variant>, Trouble> {
    let Some(at) = words.iter().position(|w| w == "--variant") else {
        return Ok(None);
    };
    let name = words.get(at + 1).ok_or(Trouble::Usage)?;
    let variant = Variant::named(name).ok_or(Trouble::Usage)?;
    words.drain(at..at + 2);
    Ok(Some(variant))
}
