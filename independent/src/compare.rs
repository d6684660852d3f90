//! Runs the program under test on a stream of cases and compares its answers
//! with the expected ones, byte for byte. A difference is printed in a form
//! that can be replayed. Holds no part of the rules, only the comparing.

use std::fs;
use std::io::{self, Read, Write};
use std::path::Path;
use std::process::{Command, Stdio};
use std::sync::mpsc;
use std::thread;

use crate::answer::{Oracle, Origin, is_built};
use crate::cases::Generator;
use crate::given::Case;
use crate::malformed;
use crate::rules::OverBudget;
use crate::stream::{Ask, Input, KINDS, OPERATIONS, TABLE_BYTES};
use crate::variants::Variant;

/// Rounds (a case of each operation) that go into one stream. Longer runs
/// are cut up, so that the answers always fit in memory.
const ROUNDS: u64 = 4_000;
/// Differences printed in full, with their files written.
const SHOWN: usize = 20;
/// Drawings of one case, at most.
const DRAWINGS: u64 = 64;

#[derive(Default)]
pub struct Outcome {
    pub compared: [u64; OPERATIONS.len()],
    pub differed: [u64; OPERATIONS.len()],
    pub streams: u64,
    pub streams_differed: u64,
    shown: usize,
}

impl Outcome {
    pub fn any_differed(&self) -> bool {
        self.streams_differed > 0 || self.differed.iter().any(|&n| n > 0)
    }

    /// The last line of a run.
    pub fn summary(&self) -> String {
        let mut parts: Vec<String> = (0..OPERATIONS.len())
            .map(|i| {
                format!(
                    "{} {} compared {} differed",
                    OPERATIONS[i], self.compared[i], self.differed[i]
                )
            })
            .collect();
        let (n, bad) = (self.streams, self.streams_differed);
        parts.push(format!("malformed streams {n} compared {bad} differed"));
        parts.join("; ")
    }
}

/// A case on its way: its number, and the answer that is expected.
struct Pending {
    number: u64,
    case: Case,
    expected: Vec<u8>,
}

/// The expected answer under a variant; where a mistake makes too many trees
/// to try, the true answer stands in and the case simply doesn't tell.
pub fn expected(case: &Case, variant: Option<Variant>) -> Result<Vec<u8>, OverBudget> {
    let wrong = Oracle::with(variant).answer(&case.ask, &case.origin);
    wrong.or_else(|_| Oracle::TRUE.answer(&case.ask, &case.origin))
}

/// Case `number` with its expected answer. Rescorings can leave more trees
/// than can be tried: such a case is drawn again. If no drawing will do, the
/// run stops.
pub fn tried(generator: &Generator, number: u64, variant: Option<Variant>) -> (Case, Vec<u8>) {
    (0..DRAWINGS)
        .find_map(|drawing| {
            let case = generator.case(number, drawing);
            expected(&case, variant).ok().map(|answer| (case, answer))
        })
        .unwrap_or_else(|| panic!("case {number}: none of {DRAWINGS} drawings is tried in time"))
}

/// `count` cases of each operation.
pub fn run(seed: u64, count: u64, probe: &Path, variant: Option<Variant>) -> io::Result<Outcome> {
    let generator = Generator::new(seed);
    let mut outcome = Outcome::default();
    let mut from = 0;
    while from < count {
        let to = count.min(from + ROUNDS);
        let mut pending = Vec::new();
        let answers = converse(probe, |send| {
            for number in from * KINDS..to * KINDS {
                let (case, expected) = tried(&generator, number, variant);
                send(case.ask.encode());
                pending.push(Pending { number, case, expected });
            }
        })?;
        judge_all(&mut outcome, seed, &pending, &answers)?;
        from = to;
    }
    malformed_streams(&mut outcome, seed, probe)?;
    Ok(outcome)
}

/// Starts the program, lets `speak` send it bytes, and hands back all that it
/// wrote. Writing and reading go on side by side, so neither can block.
pub fn converse(probe: &Path, speak: impl FnOnce(&mut dyn FnMut(Vec<u8>))) -> io::Result<Vec<u8>> {
    let mut child = Command::new(probe).stdin(Stdio::piped()).stdout(Stdio::piped()).spawn()?;
    let mut input = io::BufWriter::new(child.stdin.take().expect("input was asked for"));
    let mut output = child.stdout.take().expect("output was asked for");
    let (sender, receiver) = mpsc::channel::<Vec<u8>>();
    // A program that stops reading is found out by its missing answers.
    let writer = thread::spawn(move || {
        for bytes in receiver {
            if input.write_all(&bytes).is_err() {
                return;
            }
        }
        let _ = input.flush();
    });
    let reader = thread::spawn(move || {
        let mut all = Vec::new();
        output.read_to_end(&mut all).map(|_| all)
    });
    speak(&mut |bytes| {
        let _ = sender.send(bytes);
    });
    drop(sender);
    writer.join().expect("the writer doesn't panic");
    let answers = reader.join().expect("the reader doesn't panic")?;
    let status = child.wait()?;
    if !status.success() {
        println!("the program under test ended with {status}");
    }
    Ok(answers)
}

fn judge_all(
    outcome: &mut Outcome,
    seed: u64,
    pending: &[Pending],
    answers: &[u8],
) -> io::Result<()> {
    let mut at = 0;
    for p in pending {
        let operation = (p.number % KINDS) as usize;
        let end = (at + p.expected.len()).min(answers.len());
        let actual = &answers[at.min(end)..end];
        outcome.compared[operation] += 1;
        if actual != p.expected {
            outcome.differed[operation] += 1;
            outcome.shown += 1;
            if outcome.shown <= SHOWN {
                show(seed, p.number, &p.case, &p.expected, actual)?;
            }
        }
        at += p.expected.len();
    }
    if answers.len() > at {
        println!("{} bytes of answer are left over at the end", answers.len() - at);
        outcome.streams_differed += 1;
    }
    Ok(())
}

fn show(seed: u64, number: u64, case: &Case, expected: &[u8], actual: &[u8]) -> io::Result<()> {
    let operation = case.ask.operation();
    let name = OPERATIONS[operation as usize - 1];
    println!("seed {seed} case {number}: {name} differs; {}", case.says);
    println!("  {}", first_difference(operation, expected, actual));
    let file = format!("differs-{seed}-{number}.case");
    fs::write(&file, case.ask.encode())?;
    fs::write(want_file(Path::new(&file)), expected)?;
    println!("  written to {file}; replay with --replay {file}");
    Ok(())
}

fn want_file(case: &Path) -> std::path::PathBuf {
    case.with_extension("want")
}

/// Where two answers part, in words.
pub fn first_difference(operation: u8, expected: &[u8], actual: &[u8]) -> String {
    let at = expected.iter().zip(actual).position(|(a, b)| a != b);
    let at = at.unwrap_or(expected.len().min(actual.len()));
    let part = |bytes: &[u8]| {
        let end = bytes.len().min(at + 12);
        bytes.get(at..end).map_or("nothing".into(), |b| format!("{b:?}"))
    };
    let place = place(operation, at, expected.len());
    format!("byte {at} ({place}): expected {}, answered {}", part(expected), part(actual))
}

/// The field that a byte of an answer belongs to.
fn place(operation: u8, at: usize, length: usize) -> String {
    let sent = |at: usize| ["number", "position", "told"][(at > 0) as usize + (at > 8) as usize];
    let rooms = 17 * 2 + 4 * 128 + 256;
    match operation {
        5 => "fit or not".into(),
        1 | 2 | 6 | 7 | 8 | 10 if at < 17 => format!("refusal's or success's {}", sent(at)),
        1 => "record".into(),
        2 | 6 | 7 | 8 => format!("room, byte {}", at - 17),
        10 if at < 25 => "number of ? columns".into(),
        10 => format!("room, byte {}", at - 25),
        _ => {
            let after = if operation == 9 { rooms } else { 0 };
            let table = length - TABLE_BYTES - after;
            if at < table {
                format!("step {}, {}", at / 17, sent(at % 17))
            } else if at < table + TABLE_BYTES {
                table_place(at - table)
            } else {
                format!("tree and text, byte {}", at - table - TABLE_BYTES)
            }
        }
    }
}

fn table_place(at: usize) -> String {
    if at < 12 {
        return "table's d or number of rows".into();
    }
    let fields = [
        ("cluster", 8),
        ("weight", 4),
        ("state", 1),
        ("length", 8),
        ("count", 8),
        ("mark", 1),
        ("best", 8),
        ("low members", 8),
        ("high members", 8),
    ];
    let mut from = 12;
    for (name, size) in fields {
        if at < from + 128 * size {
            return format!("table row {}, {name}", (at - from) / size);
        }
        from += 128 * size;
    }
    "past the table".into()
}

/// Replays a written case. Its expected answer is the one written beside it,
/// or is worked out again from the bytes. True if the answers are the same.
pub fn replay(file: &Path, probe: &Path) -> io::Result<bool> {
    let bytes = fs::read(file)?;
    let mut input = Input { left: &bytes };
    let whole = Ask::decode(&mut input).filter(|_| input.left.is_empty());
    let ask = whole.ok_or_else(|| io::Error::other("the file doesn't hold one whole case"))?;
    let operation = ask.operation();
    println!("operation {}: {}", OPERATIONS[operation as usize - 1], brief(&ask));
    let expected = match fs::read(want_file(file)) {
        Ok(expected) => expected,
        Err(_) => worked_out(&ask)?,
    };
    let answers = converse(probe, |send| send(bytes.clone()))?;
    if answers == expected {
        println!("the answer is as expected ({} bytes)", expected.len());
        return Ok(true);
    }
    println!("{}", first_difference(operation, &expected, &answers));
    Ok(false)
}

fn worked_out(ask: &Ask) -> io::Result<Vec<u8>> {
    let built = match ask {
        Ask::Rescore { table, .. } => is_built(table),
        _ => false,
    };
    let origin = Origin { built, joints: Vec::new() };
    let answer = Oracle::TRUE.answer(ask, &origin);
    answer.map_err(|_| io::Error::other("too many trees to try; the .want file is needed"))
}

/// A case in few words, from its bytes alone.
fn brief(ask: &Ask) -> String {
    match ask {
        Ask::Read { bytes } => format!("{bytes:?}"),
        Ask::Write { cluster, weight, state, room } => {
            format!("cluster {cluster}, weight {weight}, state {state}, room {}", room.len())
        }
        Ask::Build { d, list } => format!("d = {d}, {} bytes of list", list.len()),
        Ask::Rescore { table, edits } => {
            format!("d = {}, {} rows, {edits:?}", table.d, table.n)
        }
        Ask::Fit { table } => format!("d = {}, {} rows", table.d, table.n),
        Ask::Tree { table, room } => {
            format!("d = {}, {} rows, room {}", table.d, table.n, room.len())
        }
        Ask::Text { table, room } => {
            format!("d = {}, {} rows, room {}", table.d, table.n, room.len())
        }
        Ask::Line { d, list, room } => {
            format!("d = {d}, {} bytes of list, room {}", list.len(), room.len())
        }
        Ask::Whole { d, list, edits } => {
            format!("d = {d}, {} bytes of list, {edits:?}", list.len())
        }
        Ask::Import { sheet, room } => {
            format!("{} bytes of sheet, room {}", sheet.len(), room.len())
        }
    }
}

/// Streams with something wrong in them, each in a run of its own.
fn malformed_streams(outcome: &mut Outcome, seed: u64, probe: &Path) -> io::Result<()> {
    for stream in malformed::streams(seed) {
        let answers = converse(probe, |send| send(stream.bytes.clone()))?;
        outcome.streams += 1;
        if answers != stream.expected {
            outcome.streams_differed += 1;
            println!("malformed stream differs: {}", stream.says);
            println!("  {} bytes expected, {} answered", stream.expected.len(), answers.len());
        }
    }
    Ok(())
}
