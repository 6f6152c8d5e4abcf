//! What the rows are measured on: logs with their sheets, drift lists, floats.

use std::path::PathBuf;

use nanobook::Symbol;
use nanobook_broker::{Account, Broker, BrokerError, BrokerOrder, BrokerOrderStatus, OrderId, OrderState, Position, Quote};
use oracle::doc01::book::{Book, Cell, Event, Row, TextRef, ACTION, CLIENT, EVENT, HEADER, IBKR, LIMIT, MAX_BYTES, MAX_COUNT, ORDERS, POSITIONS, ROW, SHARES, SYMBOL};
use oracle::doc01::sheet::{SheetOrder, SheetPosition};
use oracle::doc01::{self, drift, records, Sheet};
use oracle::generator::{case, Case, DriftCase, LogCase};
use oracle::json::{lines, Texts};
use rebalancer::audit::{self, AuditEvent};
use rebalancer::diff::CurrentPosition;

/// The random inputs: so many of the generator's, where the input's name has no other number, under one seed.
const RANDOM: usize = 300;
const SEED: u64 = 1;

/// Drift's lists of so many rows stand in so many orders, so that no processor learns the way through one.
const ARRANGED: usize = 64;

/// The most bytes of each file of the desk.
const DESK: usize = oracle::desk::LENT;

/// A folder for log files, in memory where the system has one for that; it is removed at the end.
pub struct Folder(PathBuf);

impl Folder {
    pub fn new() -> Result<Folder, String> {
        let memory = PathBuf::from("/dev/shm");
        let base = if memory.is_dir() { memory } else { std::env::temp_dir() };
        let path = base.join(format!("driver-{}", std::process::id()));
        std::fs::create_dir_all(&path).map_err(|e| e.to_string())?;
        Ok(Folder(path))
    }
}

impl Drop for Folder {
    fn drop(&mut self) {
        let _ = std::fs::remove_dir_all(&self.0);
    }
}

/// A broker whose lists stand ready; the original asks for a copy of each.
pub struct Ready {
    orders: Option<Vec<BrokerOrderStatus>>,
    positions: Option<Vec<Position>>,
}

impl Ready {
    fn new(sheet: &Sheet) -> Result<Ready, String> {
        const STATES: [OrderState; 6] =
            [OrderState::Pending, OrderState::Submitted, OrderState::PartiallyFilled, OrderState::Filled, OrderState::Cancelled, OrderState::Rejected];
        let order = |o: &SheetOrder| BrokerOrderStatus {
            id: OrderId(o.id),
            status: STATES[o.state as usize],
            filled_quantity: 0,
            remaining_quantity: o.remaining,
            avg_fill_price_cents: 0,
        };
        let position = |p: &SheetPosition| {
            Ok(Position { symbol: symbol(&p.symbol)?, quantity: p.quantity, avg_cost_cents: 0, market_value_cents: 0, unrealized_pnl_cents: 0 })
        };
        let positions = sheet.positions.iter().map(position).collect::<Result<_, String>>()?;
        Ok(Ready { orders: (!sheet.orders_failed).then(|| sheet.orders.iter().map(order).collect()), positions: (!sheet.positions_failed).then_some(positions) })
    }
}

impl Broker for Ready {
    fn open_orders(&self) -> Result<Vec<BrokerOrderStatus>, BrokerError> {
        self.orders.clone().ok_or(BrokerError::NotConnected)
    }
    fn positions(&self) -> Result<Vec<Position>, BrokerError> {
        self.positions.clone().ok_or(BrokerError::NotConnected)
    }
    fn connect(&mut self) -> Result<(), BrokerError> {
        Ok(())
    }
    fn disconnect(&mut self) -> Result<(), BrokerError> {
        Ok(())
    }
    fn account(&self) -> Result<Account, BrokerError> {
        Err(BrokerError::NotConnected)
    }
    fn submit_order(&self, _: &BrokerOrder) -> Result<OrderId, BrokerError> {
        Err(BrokerError::NotConnected)
    }
    fn order_status(&self, _: OrderId) -> Result<BrokerOrderStatus, BrokerError> {
        Err(BrokerError::NotConnected)
    }
    fn cancel_order(&self, _: OrderId) -> Result<(), BrokerError> {
        Err(BrokerError::NotConnected)
    }
    fn quote(&self, _: &Symbol) -> Result<Quote, BrokerError> {
        Err(BrokerError::NotConnected)
    }
}

fn symbol(of: &doc01::Symbol) -> Result<Symbol, String> {
    std::str::from_utf8(of.text()).ok().and_then(Symbol::try_new).ok_or_else(|| "no symbol".into())
}

/// A log for both sides: its book and sheet as bytes, its file, its parsed events, its broker.
pub struct Log {
    pub book: Book,
    pub bytes: Vec<u8>,
    pub sheet: Vec<u8>,
    pub path: PathBuf,
    /// They stay for the whole run, so that they can be lent.
    pub events: &'static [AuditEvent],
    pub broker: Ready,
}

impl Log {
    fn new(folder: &Folder, number: usize, book: Book, sheet: &Sheet) -> Result<Log, String> {
        let text = lines(&book, Texts::of(&book), false);
        let path = folder.0.join(format!("{number}.jsonl"));
        std::fs::write(&path, &text).map_err(|e| e.to_string())?;
        let events = audit::parse_audit_events_from_str(&text).map_err(|e| format!("{e:?}"))?.leak();
        Ok(Log { bytes: book.bytes(), sheet: sheet.bytes(), broker: Ready::new(sheet)?, path, events, book })
    }

    /// The most orders and positions that the log can leave: the longest list, and one order for each event.
    pub fn most(&self) -> (usize, usize) {
        let longest = self.book.events.iter().flat_map(|e| e.cells).map(|c| if let Cell::List { count, .. } = c { count as usize } else { 0 }).max().unwrap_or(0);
        (longest + self.book.events.len(), longest)
    }
}

/// The logs of an input; a number is a count of events. `desk` says that they are for the desk's reply, whose files are shorter.
pub fn logs(input: &str, folder: &Folder, desk: bool) -> Result<Vec<Log>, String> {
    let number = || input.parse::<usize>().map_err(|_| format!("no input: {input}"));
    match input {
        "reference" => {
            let unit = concat!(env!("CARGO_MANIFEST_DIR"), "/../../crates/desk/data");
            let read = |name: &str| std::fs::read(format!("{unit}/{name}")).map_err(|e| format!("{unit}/{name}: {e}"));
            let (book, sheet) = (Book::parse(&read("book.bin")?), Sheet::parse(&read("sheet.bin")?));
            Ok(vec![Log::new(folder, 0, book.map_err(|n| format!("refused {n}"))?, &sheet.map_err(|n| format!("refused {n}"))?)?])
        }
        "random" => random(folder, RANDOM),
        _ if input.starts_with("random-") => random(folder, input["random-".len()..].parse().map_err(|_| format!("no input: {input}"))?),
        "largest" if desk => {
            let events = (DESK - HEADER - 1_000) / 246;
            Ok(vec![Log::new(folder, 0, padded(intents(events), DESK), &strangers(1_024))?])
        }
        "largest" => Ok(vec![Log::new(folder, 0, padded(intents(4_096), MAX_BYTES), &Sheet::default())?]),
        _ => {
            let events = number()?;
            Ok(vec![Log::new(folder, 0, intents(events), &if desk { strangers(events) } else { Sheet::default() })?])
        }
    }
}

/// Logs of the generator's kind `runs` that are laid out as they must be and that the original can be given.
fn random(folder: &Folder, many: usize) -> Result<Vec<Log>, String> {
    let mut logs = Vec::new();
    for number in 0.. {
        if logs.len() == many {
            break;
        }
        let Some(Case::Log(LogCase { book, sheet, .. })) = case("runs", SEED, number) else { return Err("no runs".into()) };
        if let (Ok(book), Ok(sheet)) = (Book::parse(&book), Sheet::parse(&sheet)) {
            if book.in_domain() {
                logs.push(Log::new(folder, number as usize, book, &sheet)?);
            }
        }
    }
    Ok(logs)
}

fn text(book: &mut Book, text: &str) -> TextRef {
    let first = book.text.len() as u32;
    book.text.extend(text.bytes());
    TextRef { first, length: text.len() as u32 }
}

/// The letters of a symbol that no other number has.
fn letters(number: usize) -> String {
    [number / 676, number / 26 % 26, number % 26].iter().map(|i| (b'A' + *i as u8) as char).collect()
}

/// The five events that begin a run whose diff lists so many rows, one symbol to each; the positions' list is as long as said.
fn begun(orders: usize, positions: usize) -> Book {
    let mut book = Book::default();
    let action = text(&mut book, "BUY");
    rows(&mut book, action, orders);
    rows(&mut book, action, positions);
    for (i, name) in ["run_started", "positions_intent", "positions_result", "diff_computed", "risk_check_passed"].iter().enumerate() {
        let mut cells = [Cell::None; 13];
        if i == 2 && positions > 0 {
            cells[POSITIONS] = Cell::List { first: orders as u32, count: positions as u32 };
        }
        if i == 3 {
            cells[ORDERS] = Cell::List { first: 0, count: orders as u32 };
        }
        let name = text(&mut book, name);
        push(&mut book, name, cells);
    }
    book
}

/// So many rows more, one symbol to each.
fn rows(book: &mut Book, action: TextRef, many: usize) {
    for i in 0..many {
        let symbol = text(book, &letters(i));
        book.rows.push(Row { cells: [Cell::Text(symbol), Cell::Text(action), Cell::Int(100), Cell::Float(101.25)] });
    }
}

fn push(book: &mut Book, name: TextRef, cells: [Cell; 13]) {
    let number = book.events.len() as u64 + 1;
    book.events.push(Event { name, number: Some(number), time: 1_700_000_000_000 + number as i64, cells });
}

fn intent(book: &mut Book, name: TextRef, action: TextRef, i: usize) {
    let symbol = text(book, &letters(i));
    let mut cells = [Cell::None; 13];
    cells[SYMBOL] = Cell::Text(symbol);
    cells[ACTION] = Cell::Text(action);
    cells[CLIENT] = Cell::Text(symbol);
    cells[SHARES] = Cell::Int(i as i64);
    cells[LIMIT] = Cell::Float(101.25);
    push(book, name, cells);
}

/// As many orders as events: five in the diff's list, and each event after the first five is an order_intent of another symbol.
fn intents(events: usize) -> Book {
    let mut book = begun(5, 0);
    let [name, action] = ["order_intent", "SELL"].map(|t| text(&mut book, t));
    (5..events).for_each(|i| intent(&mut book, name, action, i));
    book
}

/// Sixteen orders, over and over intended, submitted and filled.
pub fn sixteen(events: usize, folder: &Folder) -> Result<Vec<Log>, String> {
    let mut book = begun(16, 0);
    let [intended, submitted, filled, action] = ["order_intent", "order_submitted", "order_filled", "SELL"].map(|t| text(&mut book, t));
    for i in 5..events {
        let order = i / 3 % 16;
        match i % 3 {
            0 => intent(&mut book, intended, action, order),
            1 => settled(&mut book, submitted, order),
            _ => settled(&mut book, filled, order),
        }
    }
    Ok(vec![Log::new(folder, 0, book, &Sheet::default())?])
}

/// So many orders of a diff's list, submitted and filled from the last on, as far as a book has bytes and events.
pub fn from_last(orders: usize, folder: &Folder) -> Result<Vec<Log>, String> {
    let mut book = begun(orders, 0);
    let [submitted, filled] = ["order_submitted", "order_filled"].map(|t| text(&mut book, t));
    let bytes = (MAX_BYTES - book.length()) / (EVENT + letters(0).len());
    let events = bytes.min(MAX_COUNT as usize - book.events.len());
    for order in (0..orders).rev().take(events / 2) {
        settled(&mut book, submitted, order);
        settled(&mut book, filled, order);
    }
    Ok(vec![Log::new(folder, 0, book, &Sheet::default())?])
}

fn settled(book: &mut Book, name: TextRef, order: usize) {
    let symbol = text(book, &letters(order));
    let mut cells = [Cell::None; 13];
    cells[SYMBOL] = Cell::Text(symbol);
    cells[IBKR] = Cell::Int(order as i64 + 1);
    push(book, name, cells);
}

/// A legal log of 4,096 events: a run's first six, then events of one name, each with a list of three rows that takes the place of the list before. A book has no
/// bytes for three rows to each of so many events, so the lists go round a table of 510.
pub fn replaced(name: &str, cell: usize, folder: &Folder) -> Result<Vec<Log>, String> {
    const LISTED: usize = 3;
    let mut book = begun(0, 0);
    let [intended, action, listed] = ["order_intent", "SELL", name].map(|t| text(&mut book, t));
    intent(&mut book, intended, action, 0);
    rows(&mut book, action, 510);
    while book.events.len() < MAX_COUNT as usize {
        let mut cells = [Cell::None; 13];
        cells[cell] = Cell::List { first: (LISTED * book.events.len() % book.rows.len()) as u32, count: LISTED as u32 };
        push(&mut book, listed, cells);
    }
    let log = Log::new(folder, 0, book, &Sheet::default())?;
    audit::validate_checkpoints_from_parsed(&log.events).map_err(|e| format!("{e:?}"))?;
    Ok(vec![log])
}

/// For a comparison: so many orders, nearly all submitted, a quarter as many positions, and a sheet of a quarter as many rows in each list, of which
/// every second one is known. The log is longer than a book may be; only its records are lent.
pub fn submitted(orders: usize, folder: &Folder) -> Result<Vec<Log>, String> {
    let rows = orders / 4;
    let mut book = begun(orders, rows);
    let name = text(&mut book, "order_submitted");
    (5..orders).for_each(|i| settled(&mut book, name, i));
    let mut sheet = Sheet::default();
    for i in 0..rows {
        let order = if i % 2 == 0 { orders - i } else { orders + i };
        sheet.orders.push(SheetOrder { id: order as u64, remaining: 5, state: 1 });
        let held = if i % 2 == 0 { rows - 1 - i } else { rows + i };
        sheet.positions.push(SheetPosition { symbol: doc01::Symbol::of(letters(held).as_bytes()).ok_or("no symbol")?, quantity: 100 + (i % 4 / 2) as i64 });
    }
    Ok(vec![Log::new(folder, 0, book, &sheet)?])
}

/// A sheet whose orders and positions no log knows.
fn strangers(rows: usize) -> Sheet {
    let mut sheet = Sheet::default();
    for i in 0..rows {
        sheet.orders.push(SheetOrder { id: 1_000_000 + i as u64, remaining: 5, state: 1 });
        let symbol = doc01::Symbol::of(format!("Z{}", letters(i)).as_bytes());
        sheet.positions.extend(symbol.map(|symbol| SheetPosition { symbol, quantity: 1 }));
    }
    sheet
}

/// The same log in a book of so many bytes: rows that no list holds, then text that nothing refers to.
fn padded(mut book: Book, bytes: usize) -> Book {
    let row = Row { cells: [Cell::None, Cell::None, Cell::Int(100), Cell::Float(101.25)] };
    let rows = (bytes - book.length()) / ROW;
    book.rows.extend(vec![row; rows]);
    let missing = bytes - book.length();
    book.text.extend(vec![b'.'; missing]);
    book
}

/// Lists for drift, as bytes and as the original's.
pub struct Lists {
    pub bytes: Vec<Vec<u8>>,
    pub equity: i64,
    pub held: Vec<CurrentPosition>,
    pub targets: Vec<(Symbol, f64)>,
    pub prices: Vec<(Symbol, i64)>,
}

impl Lists {
    /// None where a list is refused by its layout.
    fn new(bytes: Vec<Vec<u8>>, equity: i64) -> Option<Lists> {
        let held = records::positions(&bytes[0]).ok()?;
        let held = held.iter().map(|p| Some(CurrentPosition { symbol: symbol(&p.symbol).ok()?, quantity: p.quantity, avg_cost_cents: p.cost }));
        let targets = drift::targets(&bytes[1]).ok()?;
        let targets = targets.iter().map(|(s, w)| Some((symbol(s).ok()?, *w)));
        let prices = drift::prices(&bytes[2]).ok()?;
        let prices = prices.iter().map(|(s, p)| Some((symbol(s).ok()?, *p)));
        Some(Lists { held: held.collect::<Option<_>>()?, targets: targets.collect::<Option<_>>()?, prices: prices.collect::<Option<_>>()?, bytes, equity })
    }
}

/// So many rows of each list, a price for each target. All symbols are shared, or none of those held and those aimed at.
pub fn lists(rows: usize, shared: bool) -> Result<Vec<Lists>, String> {
    (0..ARRANGED).map(|order| listed(rows, shared, order)).collect()
}

/// The symbols in no order: each follows the one before by a step that shares no factor with their number; `order` chooses the step.
fn listed(rows: usize, shared: bool, order: usize) -> Result<Lists, String> {
    let name = |i: usize| doc01::Symbol::of(letters(i * (7_919 + 2 * 13 * 6 * order) % 17_576).as_bytes()).ok_or("no symbol");
    let mut bytes = vec![Vec::new(), Vec::new(), Vec::new()];
    for i in 0..rows {
        let aimed = name(if shared { i } else { rows + i })?;
        bytes[0].extend(records::position_bytes(&[doc01::Position { symbol: name(i)?, quantity: 100 + i as i64, cost: 0 }]));
        bytes[1].extend(drift::target_bytes(&[(aimed, i as f64 / 100_000.0)]));
        bytes[2].extend(drift::price_bytes(&[(aimed, 1_000 + i as i64)]));
    }
    Lists::new(bytes, 1_000_000_000).ok_or_else(|| "a list is refused".into())
}

/// Random lists of the generator that are answered, the long ones left out.
pub fn random_lists() -> Result<Vec<Lists>, String> {
    let mut all = Vec::new();
    for number in 0.. {
        let Some(Case::Drift(DriftCase { holdings, targets, prices, equity, .. })) = case("drift", SEED, number) else { return Err("no drift".into()) };
        let short = holdings.len().max(targets.len()).max(prices.len()) < 1_024;
        if short && oracle::judge::drift(&holdings, &targets, &prices, equity, usize::MAX).is_ok() {
            all.extend(Lists::new(vec![holdings, targets, prices], equity));
        }
        if all.len() == RANDOM {
            break;
        }
    }
    Ok(all)
}

/// How many floats a leaf is asked for.
pub const FLOATS: usize = 1_024;

/// Amounts of dollars, with and without a fraction of a cent, of either sign.
pub fn floats() -> Vec<f64> {
    let mut state = SEED;
    (0..FLOATS)
        .map(|i| {
            state = state.wrapping_mul(6_364_136_223_846_793_005).wrapping_add(1_442_695_040_888_963_407);
            let cents = (state >> 32) as f64;
            let sign = if i % 8 == 0 { -1.0 } else { 1.0 };
            sign * if i % 2 == 0 { cents / 100.0 } else { cents / 777.0 }
        })
        .collect()
}
