//! Wild logs: cells of every kind everywhere, still well formed.

use doc01::book::{Cell, Event, Row, WINDOW};
use doc01::{LAST_TIME, NAMES};

use crate::events::Maker;
use crate::{sheets, LogCase, Rng};

pub fn wild(rng: &mut Rng) -> LogCase {
    let mut maker = Maker::new(rng);
    let rows = maker.rng.pick(&[0, 1, 3, 6, 12]);
    for _ in 0..rows {
        let row = match maker.rng.below(3) {
            0 => maker.position_row(),
            1 => maker.order_row(),
            _ => Row { cells: [0; 4].map(|_| maker.any(false)) },
        };
        maker.book.rows.push(row);
    }
    let count = maker.rng.pick(&[0, 1, 2, 3, 5, 8, 12, 20, 30]);
    let plain = maker.rng.pick(&[0, 30, 60]);
    let mut number = maker.rng.pick(&[0, 1, 7, u64::MAX - 40]);
    for _ in 0..count {
        let name = if maker.rng.chance(85) { maker.rng.pick(&NAMES) } else { maker.other_name() };
        let mut event = if maker.rng.chance(plain) {
            maker.event(name)
        } else {
            let name = maker.text(name);
            let mut cells = [0; 13].map(|_| maker.any(true));
            if !matches!(cells[WINDOW], Cell::None | Cell::Text(_)) {
                cells[WINDOW] = Cell::None;
            }
            Event { name, number: None, time: (maker.rng.next() % (LAST_TIME as u64 + 1)) as i64, cells }
        };
        event.number = match maker.rng.below(12) {
            0 => None,
            1 => Some(maker.rng.next()),
            2 => Some(number),
            _ => {
                number = number.saturating_add(maker.rng.within(1, 3) as u64);
                Some(number)
            }
        };
        maker.book.events.push(event);
    }
    sheets::ordinary(&mut maker)
}
