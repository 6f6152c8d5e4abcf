//! Drift and held value: the rows, refusals 1, 2, 11 and 12, and held value, which the original has no counterpart for.

use std::collections::BTreeMap;

use crate::records::{self, Position};
use crate::{u64_at, Refusal, Symbol};

pub const MAX_COUNT: usize = 1_024;
pub const ROW: usize = 24;
pub const ENTRY: usize = 64;

/// A drift entry: three weights and three share counts.
#[derive(Debug, Clone, Copy)]
pub struct Entry {
    pub symbol: Symbol,
    /// Target, actual, difference.
    pub weights: [f64; 3],
    pub shares: [i64; 3],
}

impl Entry {
    pub fn put(&self, out: &mut Vec<u8>) {
        self.symbol.put16(out);
        self.weights.iter().for_each(|w| out.extend(w.to_bits().to_le_bytes()));
        self.shares.iter().for_each(|s| out.extend(s.to_le_bytes()));
    }
}

pub fn entry_bytes(entries: &[Entry]) -> Vec<u8> {
    let mut out = Vec::new();
    entries.iter().for_each(|e| e.put(&mut out));
    out
}

/// Refusal 1 of a list: over 1,024 whole records.
pub fn limit(bytes: &[u8], width: usize) -> Result<(), Refusal> {
    if bytes.len() / width > MAX_COUNT {
        return Err(1);
    }
    Ok(())
}

pub fn targets(bytes: &[u8]) -> Result<Vec<(Symbol, f64)>, Refusal> {
    records::table(bytes, ROW, |row| Ok((Symbol::field16(&row[..16])?, f64::from_bits(u64_at(row, 16)))))
}

pub fn prices(bytes: &[u8]) -> Result<Vec<(Symbol, i64)>, Refusal> {
    records::table(bytes, ROW, |row| Ok((Symbol::field16(&row[..16])?, u64_at(row, 16) as i64)))
}

pub fn target_bytes(rows: &[(Symbol, f64)]) -> Vec<u8> {
    let mut out = Vec::new();
    for (symbol, weight) in rows {
        symbol.put16(&mut out);
        out.extend(weight.to_bits().to_le_bytes());
    }
    out
}

pub fn price_bytes(rows: &[(Symbol, i64)]) -> Vec<u8> {
    let mut out = Vec::new();
    for (symbol, price) in rows {
        symbol.put16(&mut out);
        out.extend(price.to_le_bytes());
    }
    out
}

/// Refusal 11: any target row's weight, overridden ones too, not finite or beyond ±1,000.
pub fn weights(targets: &[(Symbol, f64)]) -> Result<(), Refusal> {
    if targets.iter().all(|(_, w)| w.is_finite() && w.abs() <= 1000.0) {
        Ok(())
    } else {
        Err(11)
    }
}

fn fits(value: i128) -> Result<i64, Refusal> {
    i64::try_from(value).map_err(|_| 12)
}

/// Refusal 12 of drift: a product with equity and price above 0, or a share difference, outside i64.
pub fn overflow(holdings: &[Position], targets: &[(Symbol, f64)], prices: &[(Symbol, i64)], equity: i64) -> Result<(), Refusal> {
    let price: BTreeMap<Symbol, i64> = prices.iter().copied().collect();
    let target: BTreeMap<Symbol, f64> = targets.iter().copied().collect();
    let held: BTreeMap<Symbol, i64> = holdings.iter().map(|p| (p.symbol, p.quantity)).collect();
    for symbol in held.keys().chain(target.keys()) {
        let p = price.get(symbol).copied().unwrap_or(0);
        let q = held.get(symbol).copied().unwrap_or(0);
        let w = target.get(symbol).copied().unwrap_or(0.0);
        if equity > 0 && p > 0 {
            fits(q as i128 * p as i128)?;
        }
        let shares = if p > 0 { (equity as f64 * w / p as f64) as i64 } else { 0 };
        fits(q as i128 - shares as i128)?;
    }
    Ok(())
}

/// Held value: the sum of quantity × price over held symbols, prices above 0 only. Last wins among repeated symbols.
pub fn held(holdings: &[Position], prices: &[(Symbol, i64)]) -> Result<i64, Refusal> {
    let price: BTreeMap<Symbol, i64> = prices.iter().copied().collect();
    let held: BTreeMap<Symbol, i64> = holdings.iter().map(|p| (p.symbol, p.quantity)).collect();
    let mut sum = 0i128;
    for (symbol, quantity) in held {
        match price.get(&symbol) {
            Some(p) if *p > 0 => sum += fits(quantity as i128 * *p as i128)? as i128,
            _ => {}
        }
    }
    fits(sum)
}
