//! The bytes of cases and answers, by the probe's stream format. Written so
//! that a case can also be read back from a file for a replay. Of the rules
//! only the fields of the table (RULES 5) are in it.

use crate::formulas::Edit;
use crate::records::Refusal;
use crate::table::{ROOM, Table};

pub const TABLE_BYTES: usize = 6_924;

/// What one case asks.
#[derive(Clone, PartialEq, Eq, Debug)]
pub enum Ask {
    Read { bytes: Vec<u8> },
    Write { cluster: u32, weight: i32, state: u8, room: Vec<u8> },
    Build { d: u32, list: Vec<u8> },
    Rescore { table: Box<Table>, edits: Vec<Edit> },
    Fit { table: Box<Table> },
    Tree { table: Box<Table>, room: Vec<u32> },
    Text { table: Box<Table>, room: Vec<u8> },
    Line { d: u32, list: Vec<u8>, room: Vec<u8> },
    Whole { d: u32, list: Vec<u8>, edits: Vec<Edit> },
    Import { sheet: Vec<u8>, room: Vec<u8> },
}

/// The names of the operations, 1 to 10 in order.
pub const OPERATIONS: [&str; 10] =
    ["read", "write", "build", "rescore", "fit", "tree", "text", "line", "whole", "import"];

/// How many they are. Case number N asks operation N mod this, plus 1.
pub const KINDS: u64 = OPERATIONS.len() as u64;

impl Ask {
    /// The operation's byte.
    pub fn operation(&self) -> u8 {
        match self {
            Ask::Read { .. } => 1,
            Ask::Write { .. } => 2,
            Ask::Build { .. } => 3,
            Ask::Rescore { .. } => 4,
            Ask::Fit { .. } => 5,
            Ask::Tree { .. } => 6,
            Ask::Text { .. } => 7,
            Ask::Line { .. } => 8,
            Ask::Whole { .. } => 9,
            Ask::Import { .. } => 10,
        }
    }

    pub fn encode(&self) -> Vec<u8> {
        let mut out = vec![self.operation()];
        match self {
            Ask::Read { bytes } => put_bytes(&mut out, bytes),
            Ask::Write { cluster, weight, state, room } => {
                out.extend(cluster.to_le_bytes());
                out.extend(weight.to_le_bytes());
                out.push(*state);
                put_bytes(&mut out, room);
            }
            Ask::Build { d, list } => put_list(&mut out, *d, list),
            Ask::Rescore { table, edits } => {
                put_table(&mut out, table);
                put_edits(&mut out, edits);
            }
            Ask::Fit { table } => put_table(&mut out, table),
            Ask::Tree { table, room } => {
                put_table(&mut out, table);
                out.extend((room.len() as u16).to_le_bytes());
                put_numbers(&mut out, room);
            }
            Ask::Text { table, room } => {
                put_table(&mut out, table);
                put_bytes(&mut out, room);
            }
            Ask::Line { d, list, room } => {
                put_list(&mut out, *d, list);
                put_bytes(&mut out, room);
            }
            Ask::Whole { d, list, edits } => {
                put_list(&mut out, *d, list);
                put_edits(&mut out, edits);
            }
            Ask::Import { sheet, room } => {
                put_bytes(&mut out, sheet);
                put_bytes(&mut out, room);
            }
        }
        out
    }

    /// One case from the front of `input`; `None` if it is not whole or has a
    /// byte or a length that the format rules out.
    pub fn decode(input: &mut Input) -> Option<Ask> {
        match input.u8()? {
            1 => Some(Ask::Read { bytes: input.bytes(4_096)? }),
            2 => Some(Ask::Write {
                cluster: input.u32()?,
                weight: input.i32()?,
                state: input.u8()?,
                room: input.bytes(512)?,
            }),
            3 => Some(Ask::Build { d: input.u32()?, list: input.bytes(4_096)? }),
            4 => Some(Ask::Rescore { table: input.table()?, edits: input.edits()? }),
            5 => Some(Ask::Fit { table: input.table()? }),
            6 => Some(Ask::Tree { table: input.table()?, room: input.numbers(256)? }),
            7 => Some(Ask::Text { table: input.table()?, room: input.bytes(512)? }),
            8 => Some(Ask::Line {
                d: input.u32()?,
                list: input.bytes(4_096)?,
                room: input.bytes(512)?,
            }),
            9 => {
                let (d, list) = (input.u32()?, input.bytes(4_096)?);
                Some(Ask::Whole { d, list, edits: input.edits()? })
            }
            10 => Some(Ask::Import { sheet: input.bytes(8_192)?, room: input.bytes(2_048)? }),
            _ => None,
        }
    }
}

pub fn put_bytes(out: &mut Vec<u8>, bytes: &[u8]) {
    out.extend((bytes.len() as u16).to_le_bytes());
    out.extend(bytes);
}

fn put_list(out: &mut Vec<u8>, d: u32, list: &[u8]) {
    out.extend(d.to_le_bytes());
    put_bytes(out, list);
}

pub fn put_numbers(out: &mut Vec<u8>, numbers: &[u32]) {
    out.extend(numbers.iter().flat_map(|n| n.to_le_bytes()));
}

fn put_edits(out: &mut Vec<u8>, edits: &[Edit]) {
    out.extend((edits.len() as u16).to_le_bytes());
    for e in edits {
        out.extend(e.cluster.to_le_bytes());
        out.extend(e.weight.to_le_bytes());
        out.push(e.state);
    }
}

pub fn put_table(out: &mut Vec<u8>, t: &Table) {
    out.extend(t.d.to_le_bytes());
    out.extend(t.n.to_le_bytes());
    out.extend(t.clusters.iter().flat_map(|v| v.to_le_bytes()));
    out.extend(t.weights.iter().flat_map(|v| v.to_le_bytes()));
    out.extend(t.states);
    out.extend(t.lengths.iter().flat_map(|v| v.to_le_bytes()));
    out.extend(t.counts.iter().flat_map(|v| v.to_le_bytes()));
    out.extend(t.marks);
    out.extend(t.bests.iter().flat_map(|v| v.to_le_bytes()));
    out.extend(t.members.iter().flat_map(|v| (*v as u64).to_le_bytes()));
    out.extend(t.members.iter().flat_map(|v| ((*v >> 64) as u64).to_le_bytes()));
}

/// SENT: a refusal, or what a success tells.
pub fn put_sent(out: &mut Vec<u8>, sent: Result<u64, Refusal>) {
    let (number, position, told) = match sent {
        Ok(told) => (0, 0, told),
        Err(r) => (r.number, r.position, 0),
    };
    out.push(number);
    out.extend(position.to_le_bytes());
    out.extend(told.to_le_bytes());
}

/// Bytes still to be read.
pub struct Input<'a> {
    pub left: &'a [u8],
}

impl Input<'_> {
    fn take<const N: usize>(&mut self) -> Option<[u8; N]> {
        let (first, rest) = self.left.split_at_checked(N)?;
        self.left = rest;
        first.try_into().ok()
    }

    fn u8(&mut self) -> Option<u8> {
        self.take::<1>().map(|b| b[0])
    }

    fn u16(&mut self) -> Option<u16> {
        self.take().map(u16::from_le_bytes)
    }

    fn u32(&mut self) -> Option<u32> {
        self.take().map(u32::from_le_bytes)
    }

    fn u64(&mut self) -> Option<u64> {
        self.take().map(u64::from_le_bytes)
    }

    fn i32(&mut self) -> Option<i32> {
        self.take().map(i32::from_le_bytes)
    }

    fn bytes(&mut self, most: usize) -> Option<Vec<u8>> {
        let n = self.u16()? as usize;
        if n > most {
            return None;
        }
        let (first, rest) = self.left.split_at_checked(n)?;
        self.left = rest;
        Some(first.to_vec())
    }

    fn numbers(&mut self, most: usize) -> Option<Vec<u32>> {
        let n = self.u16()? as usize;
        if n > most {
            return None;
        }
        (0..n).map(|_| self.u32()).collect()
    }

    fn edits(&mut self) -> Option<Vec<Edit>> {
        let k = self.u16()?;
        let mut edit =
            || Some(Edit { cluster: self.u64()?, weight: self.i32()?, state: self.u8()? });
        (0..k).map(|_| edit()).collect()
    }

    pub fn table(&mut self) -> Option<Box<Table>> {
        if self.left.len() < TABLE_BYTES {
            return None;
        }
        let mut t = Box::new(Table::zero());
        t.d = self.u32()?;
        t.n = self.u64()?;
        for i in 0..ROOM {
            t.clusters[i] = self.u64()?;
        }
        for i in 0..ROOM {
            t.weights[i] = self.i32()?;
        }
        t.states = self.take()?;
        for i in 0..ROOM {
            t.lengths[i] = self.u64()?;
        }
        for i in 0..ROOM {
            t.counts[i] = self.u64()?;
        }
        t.marks = self.take()?;
        for i in 0..ROOM {
            t.bests[i] = self.u64()? as i64;
        }
        for i in 0..ROOM {
            t.members[i] = self.u64()? as u128;
        }
        for i in 0..ROOM {
            t.members[i] |= (self.u64()? as u128) << 64;
        }
        Some(t)
    }
}
