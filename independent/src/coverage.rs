//! What the generated cases cover, from their true answers: how often each
//! refusal (RULES 8) is met by each operation, how many trees the built lists
//! have, and what the sheets and the leaf sets show, where nothing may be
//! missing.

use std::collections::BTreeMap;

use crate::leaf_coverage::LeafCoverage;
use crate::stream::{Ask, Input, OPERATIONS};
use crate::table::Table;
use crate::variants::Rules;

/// What the sheets have to show between them.
const SHOWN: [&str; 10] = [
    "a list, no ? column",
    "a list, some ? columns",
    "12 at line 0",
    "12 at a middle line",
    "12 at the last line",
    "12 at line 32",
    "13 without a ?",
    "13 with a ?",
    "11 without a ?",
    "11 with a ?",
];

/// Which of these a sheet shows; `None` for a refusal that no sheet has.
fn shown(sheet: &[u8], answer: &[u8]) -> Option<usize> {
    let lines = sheet.split_inclusive(|&byte| byte == b'\n').count() as u64;
    let has_unread = sheet.contains(&b'?') as usize;
    match (answer[0], number_at(answer, 1)) {
        (0, _) => Some((number_at(answer, 17) > 0) as usize),
        (12, 0) => Some(2),
        (12, 32) => Some(5),
        (12, position) if position + 1 == lines => Some(4),
        (12, _) => Some(3),
        (13, 0) => Some(6 + has_unread),
        (11, 0) => Some(8 + has_unread),
        _ => None,
    }
}

fn number_at(answer: &[u8], at: usize) -> u64 {
    u64::from_le_bytes(answer[at..at + 8].try_into().expect("eight bytes"))
}

#[derive(Default)]
pub struct Coverage {
    /// By operation and refusal number (0 for a success).
    sent: BTreeMap<(u8, u8), u64>,
    fit: [u64; 2],
    /// Built lists by the number of digits of their count; 99 is many.
    trees: BTreeMap<u32, u64>,
    longest_text: usize,
    most_rows: u64,
    /// Sheets by what they show.
    sheets: [u64; SHOWN.len()],
    most_records: u64,
    leaves: LeafCoverage,
}

impl Coverage {
    pub fn note(&mut self, ask: &Ask, answer: &[u8]) {
        let operation = ask.operation();
        self.leaves.note(ask, answer);
        match ask {
            Ask::Fit { .. } => self.fit[answer[0] as usize] += 1,
            Ask::Line { .. } => self.note_line(answer),
            Ask::Rescore { edits, .. } => {
                for step in answer.chunks(17).take(edits.len()) {
                    self.count(operation, step[0]);
                }
            }
            Ask::Whole { edits, .. } => {
                for step in answer.chunks(17).take(edits.len() + 1) {
                    self.count(operation, step[0]);
                }
            }
            _ => self.count(operation, answer[0]),
        }
        if let Ask::Build { .. } = ask {
            self.note_table(&Input { left: &answer[17..] }.table().expect("an answer is whole"));
        }
        if let (Ask::Text { .. }, 0) = (ask, answer[0]) {
            self.longest_text = self.longest_text.max(number_at(answer, 9) as usize);
        }
        if let Ask::Import { sheet, .. } = ask {
            self.most_records = self.most_records.max(number_at(answer, 9));
            self.sheets[shown(sheet, answer).expect("a sheet has no other refusal")] += 1;
        }
    }

    fn count(&mut self, operation: u8, number: u8) {
        *self.sent.entry((operation, number)).or_default() += 1;
    }

    /// A line has its refusal in its words, unless the room was too short.
    fn note_line(&mut self, answer: &[u8]) {
        let said = String::from_utf8_lossy(&answer[17..]).into_owned();
        let mut words = said.split_ascii_whitespace().skip(1);
        let refused = words.next() == Some("refused");
        let number = words.next().and_then(|w| w.parse().ok()).filter(|_| refused);
        let short = answer[0] == 11;
        self.count(8, if short { 11 } else { number.unwrap_or(0) });
    }

    fn note_table(&mut self, table: &Table) {
        self.most_rows = self.most_rows.max(table.n);
        if table.n == 0 {
            return;
        }
        let top = table.leaf_row(Rules::TRUE);
        let digits = match top {
            Some(top) if table.marks[top] == 1 => 99,
            Some(top) if table.counts[top] > 0 => table.counts[top].ilog10() + 1,
            _ => 0,
        };
        *self.trees.entry(digits).or_default() += 1;
    }

    pub fn print(&self) {
        for (i, name) in OPERATIONS.iter().enumerate() {
            let own = self.sent.iter().filter(|((o, _), _)| *o as usize == i + 1);
            let parts: Vec<String> = own.map(|((_, n), times)| format!("{n}: {times}")).collect();
            if !parts.is_empty() {
                println!("{name}, by refusal number (0 is a success): {}", parts.join(", "));
            }
        }
        println!("fit: {} not, {} so", self.fit[0], self.fit[1]);
        let size = |digits: &u32| match digits {
            0 => "none".to_string(),
            99 => "many".to_string(),
            n => format!("{n} digits"),
        };
        let trees: Vec<String> =
            self.trees.iter().map(|(d, times)| format!("{}: {times}", size(d))).collect();
        println!("built lists by trees on the leaf set: {}", trees.join(", "));
        println!("longest text {}, most rows {}", self.longest_text, self.most_rows);
        let sheets: Vec<String> =
            SHOWN.iter().zip(self.sheets).map(|(says, times)| format!("{says}: {times}")).collect();
        println!("sheets: {}; most records {}", sheets.join(", "), self.most_records);
        self.leaves.print();
    }

    /// What no sheet showed, and what no leaf set did.
    pub fn missing(&self) -> Vec<String> {
        let unshown = SHOWN.into_iter().zip(self.sheets).filter(|(_, times)| *times == 0);
        let sheets = unshown.map(|(says, _)| format!("import: {says}"));
        sheets.chain(self.leaves.missing()).collect()
    }
}
