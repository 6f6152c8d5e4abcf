//! Making books: texts, cells, rows and events drawn from a small stock of values per case, so that lookups meet.

use doc01::book::*;
use doc01::LAST_TIME;

use crate::Rng;

pub const GOOD: [&str; 16] = [
    "AAPL", "MSFT", "BRK.B", "A", "AB", "ABCDEFGH", "ABCDEFG", "X-1", "UNKNOWN", "0", ".", "-", "GOOG", "Z9", "B", "AAP",
];
pub const BAD: [&str; 12] =
    ["bad sym", "aapl", "ABCDEFGHI", "", "AB_C", "\u{c9}", "A\0", "UNKNOWN ", " A", "[", "A/B", "\u{65e5}\u{672c}"];
const OTHER_NAMES: [&str; 12] = [
    "cron_start", "cron_completed", "risk_check", "kill_requested", "RunStarted", "run_started ", "order_intents", "", "note",
    "idempotency_rejection", "Cron_completed", "cron_complete",
];
const IDS: [i64; 16] = [
    0, 1, 2, 3, 77, 78, -1, -2, 4_294_967_297, 4_294_967_296, 2_147_483_647, 2_147_483_648, -2_147_483_648, -2_147_483_649,
    i64::MAX, i64::MIN,
];
const QUANTITIES: [i64; 10] = [0, 1, -1, 10, 100, -50, 7, i64::MAX, i64::MIN, 250];
const FLOATS: [f64; 28] = [
    0.125, -0.125, 0.005, 0.015, 1.005, 101.99, 101.5, 0.0, -0.0, 1.0, 10.0, -10.0, 1e15, 1e16, 92233720368547758.07,
    92233720368547740.0, -92233720368547758.08, -92233720368547780.0, 9.223372036854775e18, 9.223372036854776e18, -9.223372036854776e18,
    1e300, -1e300, 5e-324, 4503599627370497.5, 0.49999999999999994, 0.0049999999999999996, 2.5,
];
pub const WINDOWS: [&str; 6] = ["w1", "w2", "w1x", "", "w", "\u{e9}t\u{e9}"];
const WORDS: [&str; 8] = ["BUY", "SELL", "SELL SHORT", "BUY COVER", "c-1", "c-2", "rejected", "not_found_at_broker"];

/// A book in the making, with this case's stock of values.
pub struct Maker<'a> {
    pub rng: &'a mut Rng,
    pub book: Book,
    /// Percent of texts that are shared with an earlier place where their bytes already stand.
    shared: u64,
    /// Percent of cells that are replaced by a cell of any kind.
    pub corrupt: u64,
    /// Percent of texts that are not UTF-8.
    foreign: u64,
    pub symbols: Vec<&'static str>,
    pub ids: Vec<i64>,
    pub quantities: Vec<i64>,
    pub windows: Vec<&'static str>,
    time: i64,
}

impl<'a> Maker<'a> {
    pub fn new(rng: &'a mut Rng) -> Maker<'a> {
        let shared = rng.pick(&[0, 50, 90, 100]);
        let corrupt = rng.pick(&[0, 0, 3, 12, 30]);
        let foreign = rng.pick(&[0, 0, 0, 0, 0, 0, 0, 0, 0, 8]);
        let bad = rng.pick(&[0, 10, 40]);
        let symbols = (0..rng.within(1, 6)).map(|_| if rng.chance(bad) { rng.pick(&BAD) } else { rng.pick(&GOOD) }).collect();
        let ids = (0..rng.within(1, 5)).map(|_| rng.pick(&IDS)).collect();
        let quantities = (0..rng.within(1, 4)).map(|_| rng.pick(&QUANTITIES)).collect();
        let windows = (0..rng.within(1, 3)).map(|_| rng.pick(&WINDOWS)).collect();
        let time = rng.pick(&[0, 1, 1_700_000_000_000, 1_699_999_999_999, LAST_TIME - 50, 951_782_399_999]);
        Maker { rng, book: Book::default(), shared, corrupt, foreign, symbols, ids, quantities, windows, time }
    }

    pub fn text(&mut self, text: &str) -> TextRef {
        self.bytes(text.as_bytes())
    }

    pub fn bytes(&mut self, bytes: &[u8]) -> TextRef {
        let mut bytes = bytes.to_vec();
        if self.foreign > 0 && self.rng.chance(self.foreign) {
            let at = self.rng.below(bytes.len() + 1);
            bytes.insert(at, self.rng.pick(&[0x80, 0xff, 0xc3]));
        }
        let length = bytes.len() as u32;
        if bytes.is_empty() {
            return TextRef { first: self.rng.below(self.book.text.len() + 1) as u32, length };
        }
        if self.rng.chance(self.shared) {
            if let Some(first) = self.book.text.windows(bytes.len()).position(|w| w == bytes) {
                return TextRef { first: first as u32, length };
            }
        }
        let first = self.book.text.len() as u32;
        self.book.text.extend(bytes);
        TextRef { first, length }
    }

    pub fn symbol(&mut self) -> &'static str {
        let symbols = self.symbols.clone();
        if self.rng.chance(3) {
            return self.rng.pick(&GOOD);
        }
        self.rng.pick(&symbols)
    }

    pub fn id(&mut self) -> i64 {
        let ids = self.ids.clone();
        self.rng.pick(&ids)
    }

    pub fn quantity(&mut self) -> i64 {
        let quantities = self.quantities.clone();
        if self.rng.chance(5) {
            return self.rng.next() as i64;
        }
        self.rng.pick(&quantities)
    }

    pub fn float(&mut self) -> f64 {
        match self.rng.below(6) {
            0 => loop {
                let f = f64::from_bits(self.rng.next());
                if f.is_finite() {
                    return f;
                }
            },
            1 => self.rng.next() as i64 as f64 / 3.7e13,
            2 | 3 => (self.rng.below(2_000_000) as f64 - 1_000_000.0) / 200.0,
            _ => self.rng.pick(&FLOATS),
        }
    }

    /// Money: a float, or an integer of either kind.
    pub fn money(&mut self) -> Cell {
        match self.rng.below(12) {
            0 => Cell::Int(self.quantity()),
            1 => Cell::Int(self.rng.pick(&[9_007_199_254_740_993, i64::MAX, i64::MIN, 92_233_720_368_547_759])),
            2 => Cell::Big(1 << 63 | self.rng.next() >> self.rng.below(63)),
            _ => Cell::Float(self.float()),
        }
    }

    /// A cell of any kind.
    pub fn any(&mut self, list: bool) -> Cell {
        match self.rng.below(if list { 8 } else { 7 }) {
            0 => Cell::None,
            1 => Cell::Int(if self.rng.chance(50) { self.id() } else { self.rng.next() as i64 }),
            2 => Cell::Big(1 << 63 | self.rng.next() >> self.rng.below(63)),
            3 => Cell::Float(self.float()),
            4 => {
                let text = if self.rng.chance(50) { self.symbol() } else { self.rng.pick(&WORDS) };
                Cell::Text(self.text(text))
            }
            5 => Cell::Truth(self.rng.chance(50)),
            6 => Cell::Float(self.id() as f64),
            _ => {
                let rows = self.book.rows.len();
                let first = self.rng.below(rows + 1);
                let count = self.rng.below(rows - first + 1).min(4);
                Cell::List { first: first as u32, count: count as u32 }
            }
        }
    }

    /// The cell, or now and then another.
    pub fn maybe(&mut self, cell: Cell) -> Cell {
        if self.rng.chance(self.corrupt) {
            return self.any(true);
        }
        cell
    }

    fn word(&mut self) -> Cell {
        let word = self.rng.pick(&WORDS);
        let word = if self.rng.chance(10) { "" } else { word };
        Cell::Text(self.text(word))
    }

    fn symbol_cell(&mut self) -> Cell {
        let symbol = self.symbol();
        Cell::Text(self.text(symbol))
    }

    /// A list of rows: of the rows just made, or now and then of earlier ones.
    fn list(&mut self, count: usize, row: fn(&mut Maker<'a>) -> Row) -> Cell {
        let rows = self.book.rows.len();
        if self.rng.chance(8) && rows > 0 {
            let first = self.rng.below(rows + 1);
            let count = self.rng.below(rows - first + 1).min(5);
            return Cell::List { first: first as u32, count: count as u32 };
        }
        for _ in 0..count {
            let mut row = row(self);
            for cell in &mut row.cells {
                if self.rng.chance(self.corrupt) {
                    *cell = self.any(false);
                }
            }
            self.book.rows.push(row);
        }
        Cell::List { first: rows as u32, count: count as u32 }
    }

    pub fn position_row(&mut self) -> Row {
        let symbol = self.symbol_cell();
        let action = if self.rng.chance(10) { self.word() } else { Cell::None };
        Row { cells: [symbol, action, Cell::Int(self.quantity()), self.money()] }
    }

    pub fn order_row(&mut self) -> Row {
        let symbol = self.symbol_cell();
        let action = self.word();
        Row { cells: [symbol, action, Cell::Int(self.quantity()), self.money()] }
    }

    pub fn event_time(&mut self) -> i64 {
        if self.rng.chance(3) {
            return self.rng.pick(&[0, LAST_TIME, 86_399_999, 68_169_600_000]);
        }
        self.time = (self.time + self.rng.below(40) as i64).min(LAST_TIME);
        self.time
    }

    /// An event of this name, with the cells that the original's writers give it.
    pub fn event(&mut self, name: &str) -> Event {
        let mut cells = [Cell::None; 13];
        let money = self.money();
        match name {
            "positions_fetched" | "positions_result" => {
                let count = self.rng.pick(&[0, 1, 2, 3, 5]);
                cells[POSITIONS] = self.list(count, Maker::position_row);
                cells[EQUITY] = money;
            }
            "account_summary_result" => cells[EQUITY] = money,
            "diff_computed" => {
                let count = self.rng.pick(&[0, 0, 1, 2, 3, 4]);
                cells[ORDERS] = self.list(count, Maker::order_row);
            }
            "order_intent" => {
                cells[SYMBOL] = self.symbol_cell();
                cells[ACTION] = self.word();
                cells[SHARES] = Cell::Int(self.quantity());
                cells[LIMIT] = money;
                cells[CLIENT] = if self.rng.chance(85) { self.word() } else { self.any(true) };
            }
            "order_submitted" => {
                cells[SYMBOL] = self.symbol_cell();
                cells[IBKR] = Cell::Int(self.id());
                cells[RECONCILED] = if self.rng.chance(20) { Cell::Truth(true) } else { Cell::None };
            }
            "order_failed" => {
                cells[SYMBOL] = self.symbol_cell();
                cells[REASON] = if self.rng.chance(80) { self.word() } else { self.any(true) };
            }
            "order_filled" => {
                cells[SYMBOL] = self.symbol_cell();
                cells[IBKR] = Cell::Int(self.id());
            }
            "cancel_result" => {
                cells[SUCCESS] = match self.rng.below(4) {
                    0 => Cell::Truth(false),
                    1 => self.any(true),
                    _ => Cell::Truth(true),
                }
            }
            "cron_completed" | "cron_start" => {
                let windows = self.windows.clone();
                let window = self.rng.pick(&windows);
                cells[WINDOW] = Cell::Text(self.text(window));
            }
            _ => {}
        }
        if self.rng.chance(4) && cells[WINDOW] == Cell::None {
            let windows = self.windows.clone();
            let window = self.rng.pick(&windows);
            cells[WINDOW] = Cell::Text(self.text(window));
        }
        for (i, cell) in cells.iter_mut().enumerate() {
            if i != WINDOW {
                let kept = *cell;
                *cell = self.maybe(kept);
            } else if self.rng.chance(self.corrupt / 2) {
                *cell = Cell::None;
            }
        }
        let name = self.text(name);
        Event { name, number: None, time: self.event_time(), cells }
    }

    /// A name that is no checkpoint.
    pub fn other_name(&mut self) -> &'static str {
        self.rng.pick(&OTHER_NAMES)
    }

    /// The window that is asked for.
    pub fn window(&mut self) -> Vec<u8> {
        let windows = self.windows.clone();
        let window = if self.rng.chance(20) { self.rng.pick(&WINDOWS) } else { self.rng.pick(&windows) };
        window.as_bytes().to_vec()
    }
}
