//! Cases, deterministic by kind, seed and number.

mod conversions;
mod damaged;
mod drift;
mod events;
mod limits;
mod records;
mod rng;
mod runs;
mod sheets;
mod wild;

pub use rng::Rng;

/// A log with all that is asked about it.
#[derive(Debug, Clone)]
pub struct LogCase {
    pub book: Vec<u8>,
    pub sheet: Vec<u8>,
    pub queries: Vec<u8>,
    pub window: Vec<u8>,
    /// Recovery's caller's time and the entries'.
    pub time: i64,
    pub entry_time: i64,
    /// Events of the addendum that join takes.
    pub k: u64,
    /// Room in bytes for orders, positions, report, addendum and joined book.
    pub rooms: [usize; 5],
}

#[derive(Debug, Clone)]
pub struct DriftCase {
    pub holdings: Vec<u8>,
    pub targets: Vec<u8>,
    pub prices: Vec<u8>,
    pub equity: i64,
    pub room: usize,
}

/// A value and a scale, as bits.
#[derive(Debug, Clone, Copy)]
pub struct FixedCase {
    pub value: u64,
    pub scale: u64,
}

/// A state as it is lent: its book, marks and records.
#[derive(Debug, Clone)]
pub struct Side {
    pub book: Vec<u8>,
    pub marks: doc01::Marks,
    pub orders: Vec<u8>,
    pub positions: Vec<u8>,
}

/// Two lent states, and what the first is compared and reconciled with.
#[derive(Debug, Clone)]
pub struct RecordsCase {
    pub first: Side,
    pub second: Side,
    pub sheet: Vec<u8>,
    pub queries: Vec<u8>,
    /// The entries' time.
    pub time: i64,
    /// Room in bytes for report and addendum.
    pub rooms: [usize; 2],
}

#[derive(Debug, Clone)]
pub enum Case {
    Log(LogCase),
    Records(RecordsCase),
    Drift(DriftCase),
    Fixed(FixedCase),
}

/// The kinds of cases.
pub const KINDS: [&str; 9] = ["runs", "wild", "damaged", "limits", "sheets", "queries", "records", "drift", "fixed"];

/// Case `number` of a kind under a seed.
pub fn case(kind: &str, seed: u64, number: u64) -> Option<Case> {
    let mut rng = Rng::new(kind, seed, number);
    let rng = &mut rng;
    Some(match kind {
        "runs" => Case::Log(runs::run(rng)),
        "wild" => Case::Log(wild::wild(rng)),
        "damaged" => Case::Log(damaged::damaged(rng)),
        "limits" => Case::Log(limits::limits(rng)),
        "sheets" => Case::Log(runs::sheet(rng)),
        "queries" => Case::Log(runs::queries(rng)),
        "records" => Case::Records(records::records(rng)),
        "drift" => Case::Drift(drift::drift(rng)),
        "fixed" => Case::Fixed(conversions::fixed(rng)),
        _ => return None,
    })
}
