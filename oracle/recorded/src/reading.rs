//! Document 01's reading alone as the judge: no file of the original is needed.

use doc01::answers::{self, Addendum, DriftAnswer, Lent};
use doc01::reply::{reply_by, Said};
use doc01::{reading, Book, Refusal, Sheet};

use crate::{Judge, Recovery};

pub struct Reading;

impl Judge for Reading {
    fn verdict(&self, book: &[u8]) -> (u32, u32, u32) {
        Book::parse(book).map_or_else(|refusal| (refusal, 0, 0), |book| reading::verdict(&book))
    }

    fn highest(&self, book: &[u8]) -> Result<u64, Refusal> {
        Ok(reading::max_checkpoint_sequence(&Book::parse(book)?))
    }

    fn window(&self, book: &[u8], id: &[u8]) -> Result<Option<u64>, Refusal> {
        Ok(reading::window_complete(&Book::parse(book)?, id))
    }

    fn reply(&self, book: &[u8], sheet: &[u8]) -> String {
        let said = |book: &Book, sheet: &Sheet| {
            let (state, _) = reading::recover(book, 0);
            Said { verdict: reading::verdict(book), action: reading::action(&state), report: reading::report(&state, sheet), state }
        };
        reply_by(said, book, sheet)
    }

    fn recover(&self, book: &[u8], time: i64, orders_room: usize, positions_room: usize) -> Result<Recovery, Refusal> {
        let book = Book::parse(book)?;
        doc01::time(time)?;
        let (state, most) = reading::recover(&book, time);
        answers::fits(most, orders_room, positions_room)?;
        let action = reading::action(&state);
        Ok(Recovery { marks: state.marks, orders: state.order_bytes(), positions: state.position_bytes(), action })
    }

    fn action(&self, marks: &[u8], orders: &[u8]) -> Result<u32, Refusal> {
        answers::action(reading::action, marks, orders)
    }

    fn compare(&self, marks: &[u8], orders: &[u8], positions: &[u8], sheet: &[u8], room: usize) -> Result<Vec<u8>, Refusal> {
        answers::compare(reading::report, marks, orders, positions, sheet, room)
    }

    fn reconcile(&self, marks: &[u8], orders: &[u8], sheet: &[u8], queries: &[u8], time: i64, room: usize) -> Result<Addendum, Refusal> {
        answers::reconcile(reading::reconcile, marks, orders, sheet, queries, time, room)
    }

    fn join(&self, a: &[u8], b: &[u8], k: u64, room: usize) -> Result<Vec<u8>, Refusal> {
        answers::join(a, b, k, room)
    }

    fn equal(&self, x: Lent, y: Lent) -> Result<bool, Refusal> {
        answers::states_equal(x, y)
    }

    fn drift(&self, holdings: &[u8], targets: &[u8], prices: &[u8], equity: i64, room: usize) -> Result<DriftAnswer, Refusal> {
        let asked = |holdings: &[_], targets: &[_], prices: &[_], equity, overflow: Result<(), Refusal>| {
            overflow?;
            Ok(reading::drift(holdings, targets, prices, equity))
        };
        answers::drift(asked, holdings, targets, prices, equity, room)
    }

    fn held(&self, holdings: &[u8], prices: &[u8]) -> Result<i64, Refusal> {
        answers::held_value(holdings, prices)
    }

    fn fixed(&self, value: u64, scale: u64) -> Result<i64, Refusal> {
        reading::fixed(f64::from_bits(value), f64::from_bits(scale))
    }

    fn cents(&self, value: u64) -> Result<i64, Refusal> {
        reading::cents(f64::from_bits(value))
    }

    fn cast(&self, value: u64) -> i64 {
        reading::cast(f64::from_bits(value))
    }
}
