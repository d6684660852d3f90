//! The expected answer to a case, byte for byte. From RULES 8 to 10, in the
//! probe's answer format.

use std::cell::RefCell;

use crate::blocks::Joint;
use crate::formulas::{Edit, judge, rescore, work_out};
use crate::newick::{drawn_tree, drawn_with_leaves_of, line, text};
use crate::records::{Refusal, Row, list_bytes, raw_bytes, read_list, read_record, refuse};
use crate::rules::OverBudget;
use crate::sheets::import;
use crate::solve::{BUDGET, ascending, table_of};
use crate::stream::{Ask, put_numbers, put_sent, put_table};
use crate::table::Table;
use crate::variants::{Rules, Variant};

/// What is known of a case beyond its bytes: whether its table is what a
/// build makes of its rows, and how the list was put together.
#[derive(Clone, Default)]
pub struct Origin {
    pub built: bool,
    pub joints: Vec<Joint>,
}

/// How tables are worked out: from the trees, or by the formulas alone (only
/// the stand-in for the program under test does the latter).
#[derive(Clone, Copy, PartialEq, Eq)]
pub enum Method {
    Sets,
    Formulas,
}

#[derive(Clone, Copy)]
pub struct Oracle {
    pub rules: Rules,
    pub method: Method,
    /// Steps that a list may take.
    pub budget: u64,
}

/// Steps for the mistakes that let far more sets through than there are
/// trees; generated lists are small only by the true rules.
const VARIANT_BUDGET: u64 = 300_000;

type Answer = Result<Vec<u8>, OverBudget>;

/// A list is solved when a case is made and again when it is answered; the
/// table solved last is kept for that.
type Key = (Option<Variant>, u32, Vec<Row>);
thread_local! {
    static LAST: RefCell<Option<(Key, Table)>> = const { RefCell::new(None) };
}

impl Oracle {
    pub const TRUE: Oracle = Oracle { rules: Rules::TRUE, method: Method::Sets, budget: BUDGET };

    pub fn with(variant: Option<Variant>) -> Oracle {
        let budget = match variant {
            Some(Variant::OneChildMore | Variant::UnscoredAsZero) => VARIANT_BUDGET,
            _ => BUDGET,
        };
        Oracle { rules: Rules { variant }, method: Method::Sets, budget }
    }

    /// The same with another number of steps.
    pub fn within(self, budget: u64) -> Oracle {
        Oracle { budget, ..self }
    }

    pub fn answer(&self, ask: &Ask, origin: &Origin) -> Answer {
        let mut out = Vec::new();
        match ask {
            Ask::Read { bytes } => read_answer(&mut out, bytes),
            Ask::Write { cluster, weight, state, room } => {
                write_answer(&mut out, raw_bytes(*cluster, *weight, *state), room)
            }
            Ask::Build { d, list } => {
                let built = self.build(*d, list, &origin.joints)?;
                put_sent(&mut out, built.as_ref().map(|_| 0).map_err(|r| *r));
                put_table(&mut out, &built.unwrap_or(Table::zero()));
            }
            Ask::Rescore { table, edits } => {
                let after = self.rescored(&mut out, table, edits, origin)?;
                put_table(&mut out, &after);
            }
            Ask::Fit { table } => out.push(table.is_fit() as u8),
            Ask::Tree { table, room } => put_tree(&mut out, &drawn_tree(table, self.rules), room),
            Ask::Text { table, room } => put_text(&mut out, &drawn_tree(table, self.rules), room),
            Ask::Line { d, list, room } => {
                let built = self.build(*d, list, &origin.joints)?;
                let said = line(*d, built.as_ref().map_err(|r| *r), self.rules);
                put_room(&mut out, Ok(said.as_bytes()), room);
            }
            Ask::Whole { d, list, edits } => {
                self.whole_answer(&mut out, *d, list, edits, origin)?
            }
            Ask::Import { sheet, room } => self.import_answer(&mut out, sheet, room),
        }
        Ok(out)
    }

    /// A build: its table or its refusal.
    pub fn build(
        &self,
        d: u32,
        list: &[u8],
        joints: &[Joint],
    ) -> Result<Result<Table, Refusal>, OverBudget> {
        match read_list(d, list) {
            Err(refusal) => Ok(Err(refusal)),
            Ok(rows) => self.table(d, &rows, joints).map(Ok),
        }
    }

    /// The table of good records, by the method in force.
    pub fn table(&self, d: u32, rows: &[Row], joints: &[Joint]) -> Result<Table, OverBudget> {
        let in_rows = self.rules.variant.filter(|v| v.is_in_rows());
        let key: Key = (in_rows, d, ascending(rows));
        if self.method == Method::Formulas {
            let mut table = Table::of_rows(d, &key.2);
            for i in 0..key.2.len() {
                table.set_results(i, work_out(&table, i, self.rules));
            }
            return Ok(table);
        }
        let kept = LAST.with_borrow(|last| match last {
            Some((of, table)) if *of == key => Some(table.clone()),
            _ => None,
        });
        if let Some(table) = kept {
            return Ok(table);
        }
        let table = table_of(d, rows, joints, self.rules, self.budget)?;
        LAST.set(Some((key, table.clone())));
        Ok(table)
    }

    /// The rescorings one after another: their SENTs, and the table that
    /// stands afterwards.
    fn rescored(
        &self,
        out: &mut Vec<u8>,
        table: &Table,
        edits: &[Edit],
        origin: &Origin,
    ) -> Result<Table, OverBudget> {
        let from_trees =
            origin.built && self.method == Method::Sets && !self.rules.has(Variant::OnlyEditedRow);
        if from_trees && table.is_fit() {
            return self.rescored_from_trees(out, table, edits, &origin.joints);
        }
        let mut after = table.clone();
        for &edit in edits {
            put_sent(out, rescore(&mut after, edit, self.rules).map(|_| 0));
        }
        Ok(after)
    }

    /// A built table after rescorings is what a build of the rescored list
    /// gives, so the trees of that list are counted afresh.
    fn rescored_from_trees(
        &self,
        out: &mut Vec<u8>,
        table: &Table,
        edits: &[Edit],
        joints: &[Joint],
    ) -> Result<Table, OverBudget> {
        let mut rows = table.rows();
        let mut touched = Vec::new();
        for &edit in edits {
            let judged = judge(table, true, edit);
            put_sent(out, judged.map(|_| 0));
            if let Ok(row) = judged {
                rows[row].weight = edit.weight;
                rows[row].scored = edit.state == 1;
                touched.push(edit.cluster);
            }
        }
        let mut after = self.table(table.d, &rows, joints)?;
        for i in 0..rows.len() {
            let reached = touched.iter().any(|c| c & !table.clusters[i] == 0);
            // A mistaken program works out wrongly only what it works out.
            if self.rules.variant.is_some() && !reached {
                after.set_results(i, table.results(i));
            }
        }
        Ok(after)
    }

    fn whole_answer(
        &self,
        out: &mut Vec<u8>,
        d: u32,
        list: &[u8],
        edits: &[Edit],
        origin: &Origin,
    ) -> Result<(), OverBudget> {
        let built = self.build(d, list, &origin.joints)?;
        put_sent(out, built.as_ref().map(|_| 0).map_err(|r| *r));
        let origin = Origin { built: built.is_ok(), joints: origin.joints.clone() };
        let table = built.unwrap_or(Table::zero());
        let after = self.rescored(out, &table, edits, &origin)?;
        put_table(out, &after);
        let too_early = self.rules.has(Variant::LeafSetBeforeRescoring);
        let leaves_of = if too_early { &table } else { &after };
        let drawn = drawn_with_leaves_of(&after, leaves_of, self.rules);
        put_tree(out, &drawn, &[0xAAAA_AAAA; 128]);
        put_text(out, &drawn, &[0xAA; 256]);
        Ok(())
    }

    /// SENT, the number of `?` columns, and the room.
    fn import_answer(&self, out: &mut Vec<u8>, sheet: &[u8], room: &[u8]) {
        let mut after = room.to_vec();
        let imported = import(sheet, self.rules).and_then(|imported| {
            lay(&list_bytes(&imported.rows), &mut after)?;
            Ok((imported.rows.len() as u64, imported.unread))
        });
        put_sent(out, imported.map(|(records, _)| records));
        out.extend(imported.map_or(0, |(_, unread)| unread).to_le_bytes());
        out.extend(after);
    }
}

fn read_answer(out: &mut Vec<u8>, bytes: &[u8]) {
    let read = read_record(bytes);
    put_sent(out, read.map(|_| 0));
    let (cluster, weight, state) = match read {
        Ok(row) => (row.cluster, row.weight, row.state()),
        Err(_) => (0, 0, 0),
    };
    out.extend(cluster.to_le_bytes());
    out.extend(weight.to_le_bytes());
    out.push(state);
}

fn write_answer(out: &mut Vec<u8>, bytes: [u8; 12], room: &[u8]) {
    let written = read_record(&bytes).map(|_| &bytes[..]);
    put_room(out, written, room);
}

type Drawn = Result<Vec<u32>, Refusal>;

fn put_tree(out: &mut Vec<u8>, drawn: &Drawn, room: &[u32]) {
    let mut after = room.to_vec();
    put_sent(out, drawn.as_ref().map_err(|r| *r).and_then(|members| lay(members, &mut after)));
    put_numbers(out, &after);
}

fn put_text(out: &mut Vec<u8>, drawn: &Drawn, room: &[u8]) {
    let drawn = drawn.as_ref().map(|members| text(members));
    put_room(out, drawn.as_ref().map(|t| t.as_bytes()).map_err(|r| **r), room);
}

/// SENT and the room after bytes were written into it, if they were.
fn put_room(out: &mut Vec<u8>, bytes: Result<&[u8], Refusal>, room: &[u8]) {
    let mut after = room.to_vec();
    put_sent(out, bytes.and_then(|bytes| lay(bytes, &mut after)));
    out.extend(after);
}

/// Writes at the front of a room that is long enough, and tells how many.
fn lay<T: Copy>(items: &[T], room: &mut [T]) -> Result<u64, Refusal> {
    let into = room.get_mut(..items.len()).ok_or(refuse(11))?;
    into.copy_from_slice(items);
    Ok(items.len() as u64)
}

/// Whether a table is what a build makes of its own rows, as far as that can
/// be found out by trying sets. For replays, where only the bytes are known.
pub fn is_built(table: &Table) -> bool {
    table.is_fit() && Oracle::TRUE.table(table.d, &table.rows(), &[]).is_ok_and(|t| t == *table)
}
