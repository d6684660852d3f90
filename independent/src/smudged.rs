//! Sheets with a fault in them: a line spoiled in one way or another, and
//! bytes that are no sheet at all. The first line at fault is what is told.

use crate::prng::Prng;
use crate::sheets::{COLUMNS, LINES};

/// Spoils one line of a sheet; each line ends with its LF.
pub type Smudge = fn(&mut Vec<Vec<u8>>, usize, &mut Prng);

/// Ways that are seen in the line itself, wherever it stands.
pub const SEEN: [(&str, Smudge); 9] = [
    ("a foreign byte for a mark", |lines, at, rng| {
        let place = rng.below(lines[at].len() - 1);
        lines[at][place] = foreign(rng);
    }),
    ("a foreign byte more", |lines, at, rng| {
        let place = rng.below(lines[at].len());
        lines[at].insert(place, foreign(rng));
    }),
    ("a CR before the LF", |lines, at, _| {
        let end = lines[at].len() - 1;
        lines[at].insert(end, b'\r');
    }),
    ("a CR for the last mark", |lines, at, _| {
        let end = lines[at].len() - 1;
        lines[at][end - 1] = b'\r';
    }),
    ("a space before the LF", |lines, at, _| {
        let end = lines[at].len() - 1;
        lines[at].insert(end, b' ');
    }),
    ("no marks", |lines, at, _| lines[at] = b"\n".to_vec()),
    ("an empty line before it", |lines, at, _| lines.insert(at, b"\n".to_vec())),
    ("129 marks", |lines, at, rng| refill(&mut lines[at], COLUMNS + 1, rng)),
    ("its bytes turned into anything", |lines, at, rng| {
        let many = lines[at].len() - 1;
        lines[at] = [vec![foreign(rng)], rng.bytes(many)].concat();
    }),
];

/// Ways that only change how long a line is. Line 0 is not at fault by them,
/// as long as it has 1 to 128 marks; the line after it is.
pub const LENGTHS: [(&str, Smudge); 4] = [
    ("a mark less", |lines, at, _| {
        lines[at].remove(0);
    }),
    ("a mark more", |lines, at, rng| lines[at].insert(0, rng.pick(b"01?"))),
    ("any other length", |lines, at, rng| {
        let width = lines[at].len() - 1;
        let other = 1 + (width + rng.below(COLUMNS - 1)) % COLUMNS;
        refill(&mut lines[at], other, rng);
    }),
    ("no LF", |lines, at, _| {
        lines[at].pop();
    }),
];

/// One line made into two, which may leave a good sheet.
const PARTED: [(&str, Smudge); 2] = [
    ("an LF inside", |lines, at, rng| {
        let place = rng.below(lines[at].len());
        lines[at].insert(place, b'\n');
    }),
    ("a copy before it", |lines, at, _| lines.insert(at, lines[at].clone())),
];

pub fn all_smudges() -> Vec<(&'static str, Smudge)> {
    SEEN.into_iter().chain(LENGTHS).chain(PARTED).collect()
}

/// A sheet with some of its lines, named from low to high, each spoiled in a
/// way of its own. The last of them goes first, so that the others still
/// stand where they stood.
pub fn smudged(rng: &mut Prng, mut lines: Vec<Vec<u8>>, at: &[usize]) -> (Vec<u8>, String) {
    let all = all_smudges();
    let mut says = Vec::new();
    for &line in at.iter().rev() {
        let (how, smudge) = all[rng.below(all.len())];
        smudge(&mut lines, line, rng);
        says.push(format!("line {line} with {how}"));
    }
    (lines.concat(), says.join(", "))
}

fn refill(line: &mut Vec<u8>, marks: usize, rng: &mut Prng) {
    *line = (0..marks).map(|_| rng.pick(b"01?")).chain([b'\n']).collect();
}

/// A byte that is no mark and no LF, often close to one.
fn foreign(rng: &mut Prng) -> u8 {
    let near = b"/2>@!oOlI\r\t -\x00\x0b\x7f\x80\xb0\xb1\xbf\x8a\xff";
    loop {
        let byte = if rng.chance(70) { rng.pick(near) } else { rng.draw() as u8 };
        if !b"01?\n".contains(&byte) {
            return byte;
        }
    }
}

/// Bytes that are at fault as a whole or at their end.
pub fn no_sheets(rng: &mut Prng) -> Vec<(Vec<u8>, String)> {
    let mut all = vec![(Vec::new(), "no bytes".to_string())];
    for byte in [b'0', b'1', b'?', b'\n', b'\r', b' ', 0, 255] {
        all.push((vec![byte], format!("the byte {byte} alone")));
    }
    for many in [2, 3, 31, 32, 33, 34, 8_192] {
        all.push((vec![b'\n'; many], format!("{many} LFs")));
        all.push((b"1\r\n".repeat(many.min(100)), format!("{} lines with CR", many.min(100))));
    }
    for many in [1, 2, 127, 128, 129, 4_096, 8_192] {
        all.push((vec![b'1'; many], format!("{many} marks and no LF")));
    }
    for (lines, marks) in [(1, 129), (2, 129), (32, 129), (33, 129), (1, 256), (32, 255)] {
        let line = [vec![b'0'; marks - 1], b"1\n".to_vec()].concat();
        all.push((line.repeat(lines), format!("{lines} lines of {marks}")));
    }
    for (lines, marks) in [(33, 1), (33, 128), (34, 5), (63, 128), (4_096, 1)] {
        let line = [vec![b'1'; marks - 1], b"0\n".to_vec()].concat();
        all.push((line.repeat(lines), format!("{lines} lines of {marks}")));
    }
    for (marks, after) in [(1, "0"), (3, "\n"), (3, "\r"), (128, "1"), (128, "?"), (5, "\n\n")] {
        let line = [vec![b'1'; marks - 1], b"?\n".to_vec()].concat();
        let bytes = [line.repeat(LINES), after.as_bytes().to_vec()].concat();
        all.push((bytes, format!("{after:?} after 32 lines of {marks}")));
    }
    for many in [2, 17, 32] {
        let sheet = b"10\n".repeat(many);
        all.push(([b"\xef\xbb\xbf", &sheet[..]].concat(), format!("{many} lines after a BOM")));
        all.push(([&sheet[..], b"\n"].concat(), format!("an LF after {many} lines")));
        all.push(([&sheet[..], b"\0"].concat(), format!("a zero byte after {many} lines")));
    }
    all.push((rng.bytes(8_192), "8,192 bytes of anything".into()));
    all
}
