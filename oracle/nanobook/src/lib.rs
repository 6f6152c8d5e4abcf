//! Stand-ins for the two types of the crate nanobook that the original's files use.

use serde::{Deserialize, Serialize};

/// Document 01: "1 to 8 bytes of A to Z, 0 to 9, `.` and `-`; as_str returns it; order is by bytes, a prefix first."
#[derive(Debug, Clone, Copy, PartialEq, Eq, Hash, Serialize, Deserialize)]
pub struct Symbol {
    bytes: [u8; 8],
    length: u8,
}

impl Symbol {
    pub fn try_new(text: &str) -> Option<Symbol> {
        let from = text.as_bytes();
        let allowed = |b: &u8| matches!(b, b'A'..=b'Z' | b'0'..=b'9' | b'.' | b'-');
        if from.is_empty() || from.len() > 8 || !from.iter().all(allowed) {
            return None;
        }
        let mut bytes = [0; 8];
        bytes[..from.len()].copy_from_slice(from);
        Some(Symbol { bytes, length: from.len() as u8 })
    }

    #[cfg(not(feature = "untested"))]
    pub fn as_str(&self) -> &str {
        std::str::from_utf8(&self.bytes[..self.length as usize]).expect("ASCII")
    }

    #[cfg(feature = "untested")]
    pub fn as_str(&self) -> &str {
        // Safe: try_new is the only way to a Symbol but for serde, which nothing here uses to read one, and it takes ASCII alone.
        unsafe { std::str::from_utf8_unchecked(&self.bytes[..self.length as usize]) }
    }
}

impl Ord for Symbol {
    fn cmp(&self, other: &Symbol) -> std::cmp::Ordering {
        self.bytes[..self.length as usize].cmp(&other.bytes[..other.length as usize])
    }
}

impl PartialOrd for Symbol {
    fn partial_cmp(&self, other: &Symbol) -> Option<std::cmp::Ordering> {
        Some(self.cmp(other))
    }
}

/// Named by types.rs, used by nothing that is compared.
#[derive(Debug, Clone, Copy, PartialEq, Eq)]
pub struct Price(pub i64);
