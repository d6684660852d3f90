//! Records and lists: the twelve bytes, the rules a record keeps, and the
//! refusals of a list in their order. From RULES 2 and 8.

pub const WEIGHT_END: i32 = 1_000_000;
pub const LIST_END: usize = 1_536;

/// A refusal: its number, and a position that only 5, 6 and 12 have.
#[derive(Clone, Copy, PartialEq, Eq, Debug)]
pub struct Refusal {
    pub number: u8,
    pub position: u64,
}

pub fn refuse(number: u8) -> Refusal {
    Refusal { number, position: 0 }
}

/// A good record.
#[derive(Clone, Copy, PartialEq, Eq, Debug)]
pub struct Row {
    pub cluster: u32,
    pub weight: i32,
    pub scored: bool,
}

impl Row {
    pub fn scored(cluster: u32, weight: i32) -> Row {
        Row { cluster, weight, scored: true }
    }

    pub fn unscored(cluster: u32) -> Row {
        Row { cluster, weight: 0, scored: false }
    }

    pub fn state(self) -> u8 {
        self.scored as u8
    }

    pub fn bytes(self) -> [u8; 12] {
        raw_bytes(self.cluster, self.weight, self.state())
    }
}

/// Twelve bytes from any values, lawful or not.
pub fn raw_bytes(cluster: u32, weight: i32, state: u8) -> [u8; 12] {
    let mut out = [0u8; 12];
    out[0..4].copy_from_slice(&cluster.to_le_bytes());
    out[4..8].copy_from_slice(&weight.to_le_bytes());
    out[8] = state;
    out
}

/// The rules about weight and state together.
pub fn lawful(weight: i32, state: u8) -> bool {
    match state {
        0 => weight == 0,
        1 => (-WEIGHT_END..=WEIGHT_END).contains(&weight),
        _ => false,
    }
}

/// One record; `None` if it breaks a rule. Expects twelve bytes.
fn parse(bytes: &[u8]) -> Option<Row> {
    let cluster = u32::from_le_bytes(bytes[0..4].try_into().unwrap());
    let weight = i32::from_le_bytes(bytes[4..8].try_into().unwrap());
    let good = cluster != 0 && lawful(weight, bytes[8]) && bytes[9..12] == [0, 0, 0];
    good.then_some(Row { cluster, weight, scored: bytes[8] == 1 })
}

pub fn read_record(bytes: &[u8]) -> Result<Row, Refusal> {
    if bytes.len() != 12 {
        return Err(refuse(2));
    }
    parse(bytes).ok_or(refuse(5))
}

/// A list for degree bound `d`, in the order in which it stands.
pub fn read_list(d: u32, bytes: &[u8]) -> Result<Vec<Row>, Refusal> {
    if !(3..=5).contains(&d) {
        return Err(refuse(4));
    }
    if bytes.is_empty() {
        return Err(refuse(1));
    }
    if bytes.len() > LIST_END {
        return Err(refuse(3));
    }
    if !bytes.len().is_multiple_of(12) {
        return Err(refuse(2));
    }
    let mut rows = Vec::new();
    for (at, record) in bytes.chunks(12).enumerate() {
        rows.push(parse(record).ok_or(Refusal { number: 5, position: at as u64 })?);
    }
    for at in 0..rows.len() {
        if rows[..at].iter().any(|r| r.cluster == rows[at].cluster) {
            return Err(Refusal { number: 6, position: at as u64 });
        }
    }
    Ok(rows)
}

pub fn list_bytes(rows: &[Row]) -> Vec<u8> {
    rows.iter().flat_map(|r| r.bytes()).collect()
}
