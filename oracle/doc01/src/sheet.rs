//! The broker's sheet: header, orders, positions; its refusals 1 and 2.

use crate::{u32_at, u64_at, Refusal, Symbol};

pub const MAX_COUNT: u32 = 1_024;
pub const HEADER: usize = 24;
pub const ORDER: usize = 24;
pub const POSITION: usize = 24;

#[derive(Debug, Clone, Copy, PartialEq, Eq)]
pub struct SheetOrder {
    pub id: u64,
    pub remaining: u64,
    /// 0 to 5 as in OrderState.
    pub state: u32,
}

#[derive(Debug, Clone, Copy, PartialEq, Eq)]
pub struct SheetPosition {
    pub symbol: Symbol,
    pub quantity: i64,
}

#[derive(Debug, Clone, PartialEq, Eq, Default)]
pub struct Sheet {
    pub orders: Vec<SheetOrder>,
    pub positions: Vec<SheetPosition>,
    pub orders_failed: bool,
    pub positions_failed: bool,
}

impl Sheet {
    /// Refusal 1 alone: a count that a whole header claims.
    pub fn limits(bytes: &[u8]) -> Result<(), Refusal> {
        if bytes.len() >= HEADER && (u32_at(bytes, 0) > MAX_COUNT || u32_at(bytes, 8) > MAX_COUNT) {
            return Err(1);
        }
        Ok(())
    }

    /// The sheet, or refusal 1 or 2.
    pub fn parse(bytes: &[u8]) -> Result<Sheet, Refusal> {
        Sheet::limits(bytes)?;
        if bytes.len() < HEADER {
            return Err(2);
        }
        let [orders, order_at, positions, position_at, orders_failed, positions_failed] =
            [0, 4, 8, 12, 16, 20].map(|at| u32_at(bytes, at) as usize);
        let positions_due = HEADER + ORDER * orders;
        if order_at != HEADER || position_at != positions_due || bytes.len() != positions_due + POSITION * positions {
            return Err(2);
        }
        if orders_failed > 1 || positions_failed > 1 || (orders_failed == 1 && orders > 0) || (positions_failed == 1 && positions > 0) {
            return Err(2);
        }
        let mut sheet = Sheet { orders_failed: orders_failed == 1, positions_failed: positions_failed == 1, ..Sheet::default() };
        for order in bytes[HEADER..positions_due].chunks(ORDER) {
            let state = u32_at(order, 16);
            if state > 5 || u32_at(order, 20) != 0 {
                return Err(2);
            }
            sheet.orders.push(SheetOrder { id: u64_at(order, 0), remaining: u64_at(order, 8), state });
        }
        for position in bytes[positions_due..].chunks(POSITION) {
            let symbol = Symbol::field16(&position[..16])?;
            sheet.positions.push(SheetPosition { symbol, quantity: u64_at(position, 16) as i64 });
        }
        Ok(sheet)
    }

    pub fn bytes(&self) -> Vec<u8> {
        let position_at = HEADER + ORDER * self.orders.len();
        let mut out = Vec::new();
        for n in [
            self.orders.len(),
            HEADER,
            self.positions.len(),
            position_at,
            self.orders_failed as usize,
            self.positions_failed as usize,
        ] {
            out.extend((n as u32).to_le_bytes());
        }
        for order in &self.orders {
            out.extend(order.id.to_le_bytes());
            out.extend(order.remaining.to_le_bytes());
            out.extend((order.state as u64).to_le_bytes());
        }
        for position in &self.positions {
            position.symbol.put16(&mut out);
            out.extend(position.quantity.to_le_bytes());
        }
        out
    }
}
