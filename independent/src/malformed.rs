//! Streams that break the probe's format: cut off inside a case, a byte that
//! names no operation, a length past what is allowed. What stands before the
//! fault is answered, then comes one line. From the stream format
//! (docs/PROBE.md); no part of the rules.

use crate::answer::{Oracle, Origin};
use crate::blocks::Made;
use crate::given::{built, house};
use crate::prng::Prng;
use crate::records::{list_bytes, raw_bytes};
use crate::stream::Ask;

/// What the probe writes where the stream has a fault.
pub const MALFORMED: &[u8] = b"malformed stream\n";

pub struct Stream {
    pub bytes: Vec<u8>,
    pub expected: Vec<u8>,
    pub says: String,
}

/// One small case of each operation.
fn one_of_each() -> Vec<Ask> {
    let made = Made { rows: house(), joints: Vec::new(), says: String::new() };
    let table = Box::new(built(3, &made).table);
    let list = list_bytes(&house());
    vec![
        Ask::Read { bytes: raw_bytes(1, 2, 1).to_vec() },
        Ask::Write { cluster: 1, weight: 2, state: 1, room: vec![9; 13] },
        Ask::Build { d: 3, list: list.clone() },
        Ask::Rescore { table: table.clone(), edits: Vec::new() },
        Ask::Fit { table: table.clone() },
        Ask::Tree { table: table.clone(), room: vec![1; 6] },
        Ask::Text { table, room: vec![1; 12] },
        Ask::Line { d: 4, list: list.clone(), room: vec![2; 30] },
        Ask::Whole { d: 5, list, edits: Vec::new() },
        Ask::Import { sheet: b"1?1\n011\n".to_vec(), room: vec![3; 40] },
    ]
}

pub fn streams(seed: u64) -> Vec<Stream> {
    let rng = &mut Prng::new(seed, 0x5_0000_0000);
    let cases = one_of_each();
    let mut all = vec![Stream { bytes: Vec::new(), expected: Vec::new(), says: "empty".into() }];
    for case in &cases {
        let bytes = case.encode();
        let cuts = [1, bytes.len() - 1, 1 + rng.below(bytes.len() - 1), bytes.len() / 2];
        for cut in cuts.into_iter().filter(|&c| c < bytes.len()) {
            let says = format!("operation {} cut to {cut} bytes", case.operation());
            all.push(with_fault(rng, &cases, &bytes[..cut], says));
        }
    }
    // Between the fields of a sheet's case, and inside its two lengths.
    let sheet = cases[9].encode();
    for cut in [2, 3, 11, 12, 13] {
        let says = format!("operation 10 cut between its fields, to {cut} bytes");
        all.push(with_fault(rng, &cases, &sheet[..cut], says));
    }
    for byte in [0, 11, 12, 48, 128, 255] {
        all.push(with_fault(rng, &cases, &[byte], format!("operation byte {byte}")));
    }
    for (fault, says) in long_lengths(&cases) {
        all.push(with_fault(rng, &cases, &fault, says));
    }
    all
}

/// Cases past the longest record, list, sheet and rooms that are allowed, with
/// all the bytes that the length speaks of.
fn long_lengths(cases: &[Ask]) -> Vec<(Vec<u8>, String)> {
    let mut all = Vec::new();
    let read = Ask::Read { bytes: vec![0; 4_097] };
    all.push((read.encode(), "a record of 4,097 bytes".into()));
    let build = Ask::Build { d: 3, list: vec![0; 4_097] };
    all.push((build.encode(), "a list of 4,097 bytes".into()));
    let line = Ask::Line { d: 3, list: vec![0; 4_097], room: Vec::new() };
    all.push((line.encode(), "a line's list of 4,097 bytes".into()));
    let whole = Ask::Whole { d: 3, list: vec![0; 4_097], edits: Vec::new() };
    all.push((whole.encode(), "a list of 4,097 bytes to rescore and draw".into()));
    let line = Ask::Line { d: 3, list: Vec::new(), room: vec![0; 513] };
    all.push((line.encode(), "a line's room of 513 bytes".into()));
    let write = Ask::Write { cluster: 1, weight: 0, state: 1, room: vec![0; 513] };
    all.push((write.encode(), "a room of 513 bytes".into()));
    if let Ask::Fit { table } = &cases[4] {
        let tree = Ask::Tree { table: table.clone(), room: vec![0; 257] };
        all.push((tree.encode(), "a room of 257 numbers".into()));
        let text = Ask::Text { table: table.clone(), room: vec![0; 513] };
        all.push((text.encode(), "a text room of 513 bytes".into()));
    }
    for (sheet, room) in [(8_193, 12), (65_535, 12), (4, 2_049), (8_192, 2_049), (4, 65_535)] {
        let marks = b"101\n".iter().copied().cycle().take(sheet).collect();
        let import = Ask::Import { sheet: marks, room: vec![0; room] };
        all.push((import.encode(), format!("a sheet of {sheet} bytes, its room of {room}")));
    }
    all
}

/// Some good cases, then the fault, then the line that says so.
fn with_fault(rng: &mut Prng, cases: &[Ask], fault: &[u8], says: String) -> Stream {
    let (mut bytes, mut expected) = (Vec::new(), Vec::new());
    for _ in 0..rng.below(4) {
        let case = &cases[rng.below(cases.len())];
        bytes.extend(case.encode());
        let origin = Origin { built: true, joints: Vec::new() };
        expected.extend(Oracle::TRUE.answer(case, &origin).expect("the house list is small"));
    }
    bytes.extend(fault);
    expected.extend(MALFORMED);
    Stream { bytes, expected, says }
}
