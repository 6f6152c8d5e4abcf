//! Symbol fields: eight bytes padded with zeros and a length byte, in the 16-byte form with seven zeros after it.

use crate::{zeros, Refusal};

#[derive(Debug, Clone, Copy, PartialEq, Eq, Hash)]
pub struct Symbol {
    pub bytes: [u8; 8],
    pub length: u8,
}

pub fn allowed(byte: u8) -> bool {
    byte.is_ascii_uppercase() || byte.is_ascii_digit() || byte == b'.' || byte == b'-'
}

impl Symbol {
    /// A text that parses as a symbol.
    pub fn of(text: &[u8]) -> Option<Symbol> {
        if text.is_empty() || text.len() > 8 || !text.iter().all(|b| allowed(*b)) {
            return None;
        }
        let mut bytes = [0; 8];
        bytes[..text.len()].copy_from_slice(text);
        Some(Symbol { bytes, length: text.len() as u8 })
    }

    /// The nine bytes that a record holds: eight of the symbol, then the length.
    pub fn field(nine: &[u8]) -> Result<Symbol, Refusal> {
        let length = nine[8] as usize;
        if !(1..=8).contains(&length) || !zeros(&nine[length..8]) {
            return Err(2);
        }
        Symbol::of(&nine[..length]).ok_or(2)
    }

    /// The 16-byte form of a position or a drift row.
    pub fn field16(sixteen: &[u8]) -> Result<Symbol, Refusal> {
        if !zeros(&sixteen[9..16]) {
            return Err(2);
        }
        Symbol::field(&sixteen[..9])
    }

    pub fn text(&self) -> &[u8] {
        &self.bytes[..self.length as usize]
    }

    pub fn put(&self, out: &mut Vec<u8>) {
        out.extend(self.bytes);
        out.push(self.length);
    }

    pub fn put16(&self, out: &mut Vec<u8>) {
        self.put(out);
        out.extend([0; 7]);
    }
}

impl Ord for Symbol {
    fn cmp(&self, other: &Symbol) -> std::cmp::Ordering {
        self.text().cmp(other.text())
    }
}

impl PartialOrd for Symbol {
    fn partial_cmp(&self, other: &Symbol) -> Option<std::cmp::Ordering> {
        Some(self.cmp(other))
    }
}
