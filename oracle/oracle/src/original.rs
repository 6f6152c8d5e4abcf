//! The original's own answers. Each function gives the original what document 01's bytes stand for, calls it, and writes
//! down what it said; nothing here decides an answer.

use std::cell::{Cell as Shared, RefCell};
use std::panic::{catch_unwind, resume_unwind, AssertUnwindSafe};
use std::path::{Path, PathBuf};
use std::sync::{Once, OnceLock};

use chrono::{TimeZone, Utc};
use doc01::book::{Cell, ORDERS, POSITIONS};
use doc01::entries::{addendum, Entry};
use doc01::records::{FAILED, FILLED, HAS_ID, HAS_REASON, SUBMITTED};
use doc01::{Book, Discrepancy, Marks, Order, Position, Sheet, State, TextRef, CHECKPOINTS};
use nanobook::Symbol;
use nanobook_broker::{Account, Broker, BrokerError, BrokerOrder, BrokerOrderStatus, OrderId, OrderState, Quote};
use nosleep::fs::{lend, lend_none};
use rebalancer::audit::{self, AuditLog, Checkpoint};
use rebalancer::diff::CurrentPosition;
use rebalancer::error::Error;
use rebalancer::recovery::{self, RecoveredOrder, RecoveredState, RecoveryAction};

use crate::fault;
use crate::json::{self, tag, untag, Texts};

/// The original panicked; its message.
#[derive(Debug, Clone, PartialEq, Eq)]
pub struct Panicked(pub String);

/// What the original said, or that it panicked.
pub type Ran<T> = Result<T, Panicked>;

/// The log file that the original is given, in a folder of its own.
struct File {
    path: PathBuf,
    /// Whether it is known to be empty.
    empty: bool,
    /// The original's log on it, once it is asked for.
    open: Option<AuditLog>,
}

thread_local! {
    static CALLING: Shared<bool> = const { Shared::new(false) };
    static FILE: RefCell<Option<File>> = const { RefCell::new(None) };
}

/// Calls the original; its panic is silent and an answer.
fn ran<T>(call: impl FnOnce() -> T) -> Ran<T> {
    static HOOK: Once = Once::new();
    HOOK.call_once(|| {
        let before = std::panic::take_hook();
        std::panic::set_hook(Box::new(move |info| {
            if !CALLING.with(|c| c.get()) {
                before(info);
            }
        }));
    });
    let outer = CALLING.with(|c| c.replace(true));
    let result = catch_unwind(AssertUnwindSafe(call));
    CALLING.with(|c| c.set(outer));
    result.map_err(|payload| match payload.downcast::<String>() {
        Ok(text) if text.starts_with(crate::FAULT) => resume_unwind(text),
        Ok(text) => Panicked(*text),
        Err(payload) => Panicked(payload.downcast_ref::<&str>().unwrap_or(&"").to_string()),
    })
}

/// This thread's log file, in memory where the system has a folder for that.
fn with_file<T>(put: impl FnOnce(&mut File) -> T) -> T {
    FILE.with(|file| {
        let mut file = file.borrow_mut();
        let file = file.get_or_insert_with(|| {
            let memory = PathBuf::from("/dev/shm");
            let base = if memory.is_dir() { memory } else { std::env::temp_dir() };
            let folder = base.join(format!("oracle-{}-{:?}", std::process::id(), std::thread::current().id()));
            std::fs::create_dir_all(&folder).unwrap_or_else(|e| fault(&format!("{}: {e}", folder.display())));
            File { path: folder.join("audit.jsonl"), empty: false, open: None }
        });
        put(file)
    })
}

/// Removes this thread's log file and its folder.
pub fn clean() {
    lend_none();
    if let Some(File { path, .. }) = FILE.with(|file| file.borrow_mut().take()) {
        let _ = path.parent().map(std::fs::remove_dir_all);
    }
}

/// The log file, where a read gives this text.
fn lent(text: &str) -> PathBuf {
    let path = with_file(|file| file.path.clone());
    lend(&path, text);
    path
}

/// The log file, holding this text, for the original to append to.
fn written(text: &str) -> PathBuf {
    lend_none();
    with_file(|file| {
        if !(file.empty && text.is_empty()) {
            std::fs::write(&file.path, text).unwrap_or_else(|e| fault(&format!("{}: {e}", file.path.display())));
        }
        file.empty = false;
        file.path.clone()
    })
}

/// What was appended to the log file after so many bytes.
fn appended_to(path: &Path, before: usize) -> String {
    let failed = |e: std::io::Error| -> ! { fault(&format!("{}: {e}", path.display())) };
    let length = std::fs::metadata(path).unwrap_or_else(|e| failed(e)).len();
    with_file(|file| file.empty = length == 0);
    if length == before as u64 {
        return String::new();
    }
    std::fs::read_to_string(path).unwrap_or_else(|e| failed(e)).split_off(before)
}

/// The checkpoints 1 to 17, read by their names in the enum.
fn checkpoints() -> &'static [Checkpoint; 17] {
    static ALL: OnceLock<[Checkpoint; 17]> = OnceLock::new();
    let read = |name: &str| serde_json::from_value(serde_json::Value::String(name.into())).unwrap_or_else(|_| fault("a checkpoint"));
    ALL.get_or_init(|| CHECKPOINTS.map(read))
}

/// Checkpoint 1 to 17 by its name in the enum.
fn numbered(checkpoint: &str) -> u32 {
    match CHECKPOINTS.iter().position(|c| *c == checkpoint) {
        Some(place) => place as u32 + 1,
        None => fault(&format!("no checkpoint {checkpoint}")),
    }
}

/// validate_checkpoints_from_parsed: refusal, event counted from 1, checkpoint; 0 where unused.
pub fn verdict(book: &Book) -> Ran<(u32, u32, u32)> {
    verdict_on(&json::lines(book, Texts::of(book), false))
}

/// The same of the book's JSON lines.
pub(crate) fn verdict_on(text: &str) -> Ran<(u32, u32, u32)> {
    let result = ran(|| {
        let events = audit::parse_audit_events_from_str(text)?;
        audit::validate_checkpoints_from_parsed(&events)
    })?;
    Ok(verdict_of(result))
}

/// The numbers of what validation returned, which it gives as a message.
pub fn verdict_of(result: rebalancer::error::Result<()>) -> (u32, u32, u32) {
    let message = match result {
        Ok(()) => return (0, 0, 0),
        Err(Error::AuditValidation(message)) => message,
        Err(other) => fault(&format!("validation: {other:?}")),
    };
    let counted = |text: &str| text.parse().unwrap_or_else(|_| fault(&format!("no event number: {text}")));
    if let Some(line) = message.strip_prefix("Checkpoint at line ").and_then(|m| m.strip_suffix(" missing sequence number")) {
        return (4, counted(line), 0);
    }
    if let Some((line, _)) = message.strip_prefix("Checkpoint sequence not monotonic at line ").and_then(|m| m.split_once(':')) {
        return (5, counted(line), 0);
    }
    if let Some(checkpoint) = message.strip_prefix("Missing checkpoint: expected ") {
        return (6, 0, numbered(checkpoint));
    }
    if let Some(checkpoint) = message.strip_suffix(" must be the first checkpoint") {
        return (7, 0, numbered(checkpoint));
    }
    match message.split_once(" must come after ") {
        Some((checkpoint, _)) => (7, 0, numbered(checkpoint)),
        None => fault(&format!("validation: {message}")),
    }
}

/// What reconstruct_state gave.
pub struct Recovered {
    pub state: State,
    /// 0 Restart, 1 Resume, 2 ManualReview, 3 Rollback.
    pub action: u32,
    /// Whether the original's domain holds the book (UTF-8 text).
    pub in_domain: bool,
    /// Whether an event set the time; otherwise the original took the clock's, and the marks hold the caller's.
    pub time_set: bool,
    /// The state as the original returned it, with the book's own texts.
    pub(crate) plain: RecoveredState,
}

/// reconstruct_state on a file that holds the book's events. A time that no event set is the caller's.
pub fn recover(book: &Book, time: i64) -> Ran<Recovered> {
    let texts = Texts::of(book);
    recover_on(book, texts, &json::lines(book, texts, false), &json::lines(book, texts, true), time)
}

/// The same with the book's JSON lines, as they are and tagged.
pub(crate) fn recover_on(book: &Book, texts: Texts, plain: &str, tagged: &str, time: i64) -> Ran<Recovered> {
    let (plain, action, _) = reconstruct(plain)?;
    let (tagged, _, set) = reconstruct(tagged)?;
    let state = state_of(&tagged, time, set);
    same_texts(book, texts, &plain, &state);
    Ok(Recovered { state, action: action_number(action), in_domain: texts == Texts::Plain, time_set: set, plain })
}

/// The original's state, its action, and whether an event set its time.
fn reconstruct(text: &str) -> Ran<(RecoveredState, RecoveryAction, bool)> {
    let path = lent(text);
    let before = Utc::now();
    let result = ran(|| recovery::reconstruct_state(&path))?;
    let after = Utc::now();
    match result {
        Ok((state, action)) => {
            let set = state.timestamp < before || state.timestamp > after;
            Ok((state, action, set))
        }
        Err(e) => fault(&format!("reconstruct_state: {e:?}")),
    }
}

fn action_number(action: RecoveryAction) -> u32 {
    match action {
        RecoveryAction::Restart => 0,
        RecoveryAction::Resume => 1,
        RecoveryAction::ManualReview => 2,
        RecoveryAction::Rollback => 3,
    }
}

fn symbol_out(symbol: &str) -> doc01::Symbol {
    doc01::Symbol::of(symbol.as_bytes()).unwrap_or_else(|| fault(&format!("no symbol {symbol}")))
}

fn symbol_in(symbol: &doc01::Symbol) -> Symbol {
    let text = std::str::from_utf8(symbol.text()).unwrap_or_else(|_| fault("a symbol is ASCII"));
    Symbol::try_new(text).unwrap_or_else(|| fault(&format!("no symbol {text}")))
}

/// A state of the original whose texts are tags, as document 01's values.
fn state_of(from: &RecoveredState, time: i64, set: bool) -> State {
    let order = |o: &RecoveredOrder| Order {
        symbol: symbol_out(o.symbol.as_str()),
        flags: (if o.submitted { SUBMITTED } else { 0 })
            | (if o.filled { FILLED } else { 0 })
            | (if o.failed { FAILED } else { 0 })
            | (if o.client_order_id.is_some() { HAS_ID } else { 0 })
            | (if o.failure_reason.is_some() { HAS_REASON } else { 0 }),
        ibkr_id: o.ibkr_id,
        shares: o.shares,
        limit: o.limit_price_cents,
        action: untag(&o.action),
        client: o.client_order_id.as_deref().map(untag).unwrap_or_default(),
        reason: o.failure_reason.as_deref().map(untag).unwrap_or_default(),
    };
    State {
        marks: marks_of(from, if set { from.timestamp.timestamp_millis() } else { time }),
        orders: from.orders.iter().map(order).collect(),
        positions: from
            .positions
            .iter()
            .map(|p| Position { symbol: symbol_out(p.symbol.as_str()), quantity: p.quantity, cost: p.avg_cost_cents })
            .collect(),
    }
}

fn marks_of(from: &RecoveredState, time: i64) -> Marks {
    Marks {
        checkpoint: checkpoint_out(from.checkpoint),
        number: from.sequence_number,
        time,
        equity: from.equity_cents,
        completed: from.run_completed,
        cancel_failed: from.cancel_failed,
        logged: [
            from.positions_intent_logged,
            from.positions_result_logged,
            from.quotes_intent_logged,
            from.quotes_result_logged,
            from.account_summary_intent_logged,
            from.account_summary_result_logged,
            from.cancel_intent_logged,
            from.cancel_result_logged,
        ],
        last: [
            from.last_positions_intent_sequence,
            from.last_positions_result_sequence,
            from.last_quotes_intent_sequence,
            from.last_quotes_result_sequence,
            from.last_account_summary_intent_sequence,
            from.last_account_summary_result_sequence,
            from.last_cancel_intent_sequence,
            from.last_cancel_result_sequence,
        ],
    }
}

/// The oracle's own check: the run on tags and the run on the book's texts gave one state.
fn same_texts(book: &Book, texts: Texts, plain: &RecoveredState, state: &State) {
    let text = |at: TextRef| texts.string(book.text_of(at));
    let order = |(o, p): (&RecoveredOrder, &Order)| {
        o.symbol.as_str().as_bytes() == p.symbol.text()
            && o.action == text(p.action)
            && o.client_order_id == (p.flags & HAS_ID != 0).then(|| text(p.client))
            && o.failure_reason == (p.flags & HAS_REASON != 0).then(|| text(p.reason))
            && (o.submitted, o.filled, o.failed) == (p.flags & SUBMITTED != 0, p.flags & FILLED != 0, p.flags & FAILED != 0)
            && (o.shares, o.limit_price_cents, o.ibkr_id) == (p.shares, p.limit, p.ibkr_id)
    };
    let position = |(o, p): (&CurrentPosition, &Position)| {
        o.symbol.as_str().as_bytes() == p.symbol.text() && (o.quantity, o.avg_cost_cents) == (p.quantity, p.cost)
    };
    let same = marks_of(plain, 0) == Marks { time: 0, ..state.marks }
        && plain.orders.len() == state.orders.len()
        && plain.positions.len() == state.positions.len()
        && plain.orders.iter().zip(&state.orders).all(order)
        && plain.positions.iter().zip(&state.positions).all(position);
    if !same {
        fault("the run on tags and the run on texts differ");
    }
}

/// A state of document 01 as the original's, texts as tags.
fn state_in(state: &State) -> RecoveredState {
    let marks = &state.marks;
    let order = |o: &Order| RecoveredOrder {
        symbol: symbol_in(&o.symbol),
        action: tag(o.action),
        shares: o.shares,
        limit_price_cents: o.limit,
        ibkr_id: o.ibkr_id,
        client_order_id: (o.flags & HAS_ID != 0).then(|| tag(o.client)),
        submitted: o.flags & SUBMITTED != 0,
        filled: o.flags & FILLED != 0,
        failed: o.flags & FAILED != 0,
        failure_reason: (o.flags & HAS_REASON != 0).then(|| tag(o.reason)),
    };
    RecoveredState {
        checkpoint: checkpoint_in(marks.checkpoint),
        sequence_number: marks.number,
        timestamp: Utc.timestamp_millis_opt(marks.time).single().unwrap_or_default(),
        positions: state
            .positions
            .iter()
            .map(|p| CurrentPosition { symbol: symbol_in(&p.symbol), quantity: p.quantity, avg_cost_cents: p.cost })
            .collect(),
        orders: state.orders.iter().map(order).collect(),
        equity_cents: marks.equity,
        run_completed: marks.completed,
        positions_intent_logged: marks.logged[0],
        positions_result_logged: marks.logged[1],
        quotes_intent_logged: marks.logged[2],
        quotes_result_logged: marks.logged[3],
        account_summary_intent_logged: marks.logged[4],
        account_summary_result_logged: marks.logged[5],
        cancel_intent_logged: marks.logged[6],
        cancel_result_logged: marks.logged[7],
        last_positions_intent_sequence: marks.last[0],
        last_positions_result_sequence: marks.last[1],
        last_quotes_intent_sequence: marks.last[2],
        last_quotes_result_sequence: marks.last[3],
        last_account_summary_intent_sequence: marks.last[4],
        last_account_summary_result_sequence: marks.last[5],
        last_cancel_intent_sequence: marks.last[6],
        last_cancel_result_sequence: marks.last[7],
        cancel_failed: marks.cancel_failed,
    }
}

fn checkpoint_in(number: u32) -> Checkpoint {
    *checkpoints().get(number.wrapping_sub(1) as usize).unwrap_or_else(|| fault("a checkpoint is 1 to 17"))
}

fn checkpoint_out(checkpoint: Checkpoint) -> u32 {
    match checkpoints().iter().position(|c| *c == checkpoint) {
        Some(place) => place as u32 + 1,
        None => fault(&format!("no checkpoint {checkpoint:?}")),
    }
}

/// The marks after the first `events` events of the book, as the original has them.
pub fn marks_after(book: &Book, time: i64, events: usize) -> Ran<Marks> {
    let part = Book { events: book.events[..events].to_vec(), rows: book.rows.clone(), text: book.text.clone() };
    marks_on(&json::lines(&part, Texts::of(&part), false), time)
}

/// The marks after a log's JSON lines.
pub(crate) fn marks_on(text: &str, time: i64) -> Ran<Marks> {
    let (state, _, set) = reconstruct(text)?;
    Ok(marks_of(&state, if set { state.timestamp.timestamp_millis() } else { time }))
}

/// The largest counts of orders and positions after any event, for refusal 3, by recovering from the book's prefixes.
pub fn peak(book: &Book) -> Ran<(usize, usize)> {
    let text = json::lines(book, Texts::of(book), true);
    peak_on(book, &text, counts_on(&text)?)
}

/// The same with the book's JSON lines and the counts after the last. Only the three events that replace a list can make one shorter, so the prefixes before those and the whole
/// decide; of those, the ones that may hold more records than were found: a list holds no more than its rows, and orders one more for each order_intent after it.
pub(crate) fn peak_on(book: &Book, text: &str, whole: (usize, usize)) -> Ran<(usize, usize)> {
    let mut most = whole;
    let (mut orders, mut positions) = (0, 0);
    for (i, event) in book.events.iter().enumerate() {
        let listed = |cell: usize| if let Cell::List { count, .. } = event.cells[cell] { Some(count as usize) } else { None };
        let mut more = false;
        match book.text_of(event.name) {
            b"diff_computed" => more = listed(ORDERS).is_some_and(|rows| std::mem::replace(&mut orders, rows) > most.0),
            b"positions_fetched" | b"positions_result" => more = listed(POSITIONS).is_some_and(|rows| std::mem::replace(&mut positions, rows) > most.1),
            b"order_intent" => orders += 1,
            _ => {}
        }
        if more {
            let (orders, positions) = counts_on(json::first(text, i))?;
            most = (most.0.max(orders), most.1.max(positions));
        }
    }
    Ok(most)
}

/// The counts of orders and positions after a log's JSON lines.
fn counts_on(text: &str) -> Ran<(usize, usize)> {
    let (state, _, _) = reconstruct(text)?;
    Ok((state.orders.len(), state.positions.len()))
}

/// determine_recovery_action of a state.
pub fn action(state: &State) -> Ran<u32> {
    let state = state_in(state);
    ran(|| action_number(state.determine_recovery_action()))
}

/// max_checkpoint_sequence of a file that holds the book's events.
pub fn max_checkpoint_sequence(book: &Book) -> Ran<u64> {
    max_on(&json::lines(book, Texts::of(book), false))
}

/// The same of a file that holds these JSON lines.
pub(crate) fn max_on(text: &str) -> Ran<u64> {
    let path = lent(text);
    ran(|| audit::max_checkpoint_sequence(&path))?.or_else(|e| fault(&format!("max_checkpoint_sequence: {e:?}")))
}

/// check_window_already_complete of a file that holds the book's events.
pub fn window_complete(book: &Book, id: &[u8]) -> Ran<Option<u64>> {
    let texts = if std::str::from_utf8(id).is_ok() { Texts::of(book) } else { Texts::Bytes };
    window_on(&json::lines(book, texts, false), &texts.string(id))
}

/// The same of a file that holds these JSON lines.
pub(crate) fn window_on(text: &str, id: &str) -> Ran<Option<u64>> {
    let path = lent(text);
    let open = with_file(|file| file.open.take());
    let result = ran(|| {
        let folder = path.parent().unwrap_or_else(|| fault("the log's folder"));
        let mut log = open.map_or_else(|| AuditLog::open_in(&path, folder), Ok)?;
        let said = log.check_window_already_complete(id);
        with_file(|file| file.open = Some(log));
        said
    })?;
    result.or_else(|e| fault(&format!("check_window_already_complete: {e:?}")))
}

/// A broker that shows a sheet. Order queries are answered by the query list, if one is lent.
struct SheetBroker<'a> {
    sheet: &'a Sheet,
    queries: Option<&'a [u8]>,
    asked: Shared<usize>,
}

const STATES: [OrderState; 6] = [
    OrderState::Pending,
    OrderState::Submitted,
    OrderState::PartiallyFilled,
    OrderState::Filled,
    OrderState::Cancelled,
    OrderState::Rejected,
];

/// The states' names, as the report has them.
fn state_names() -> &'static [String; 6] {
    static NAMES: OnceLock<[String; 6]> = OnceLock::new();
    NAMES.get_or_init(|| STATES.map(|state| format!("{state:?}")))
}

impl Broker for SheetBroker<'_> {
    fn open_orders(&self) -> Result<Vec<BrokerOrderStatus>, BrokerError> {
        let asked = self.asked.replace(self.asked.get() + 1);
        let answered = self.queries.is_none_or(|q| q.get(asked) == Some(&0));
        if self.sheet.orders_failed || !answered {
            return Err(BrokerError::NotConnected);
        }
        let status = |o: &doc01::sheet::SheetOrder| BrokerOrderStatus {
            id: OrderId(o.id),
            status: STATES[o.state as usize],
            filled_quantity: 0,
            remaining_quantity: o.remaining,
            avg_fill_price_cents: 0,
        };
        Ok(self.sheet.orders.iter().map(status).collect())
    }

    fn positions(&self) -> Result<Vec<nanobook_broker::Position>, BrokerError> {
        if self.sheet.positions_failed {
            return Err(BrokerError::NotConnected);
        }
        let position = |p: &doc01::sheet::SheetPosition| nanobook_broker::Position {
            symbol: symbol_in(&p.symbol),
            quantity: p.quantity,
            avg_cost_cents: 0,
            market_value_cents: 0,
            unrealized_pnl_cents: 0,
        };
        Ok(self.sheet.positions.iter().map(position).collect())
    }

    fn connect(&mut self) -> Result<(), BrokerError> {
        Ok(())
    }
    fn disconnect(&mut self) -> Result<(), BrokerError> {
        Ok(())
    }
    fn account(&self) -> Result<Account, BrokerError> {
        Err(BrokerError::NotConnected)
    }
    fn submit_order(&self, _: &BrokerOrder) -> Result<OrderId, BrokerError> {
        Err(BrokerError::NotConnected)
    }
    fn order_status(&self, _: OrderId) -> Result<BrokerOrderStatus, BrokerError> {
        Err(BrokerError::NotConnected)
    }
    fn cancel_order(&self, _: OrderId) -> Result<(), BrokerError> {
        Err(BrokerError::NotConnected)
    }
    fn quote(&self, _: &Symbol) -> Result<Quote, BrokerError> {
        Err(BrokerError::NotConnected)
    }
}

/// compare_broker_state of a state and a sheet.
pub fn compare(state: &State, sheet: &Sheet) -> Ran<Vec<Discrepancy>> {
    let report = report(&state_in(state), sheet)?;
    Ok(report.into_iter().map(|(d, id)| with_id(d, id.as_deref().map(untag))).collect())
}

/// The same of a recovered state with the book's own texts; both ways must give one report.
pub fn compare_recovered(book: &Book, recovered: &Recovered, sheet: &Sheet) -> Ran<Vec<Discrepancy>> {
    let texts = if recovered.in_domain { Texts::Plain } else { Texts::Bytes };
    let tagged = report(&state_in(&recovered.state), sheet)?;
    let plain = report(&recovered.plain, sheet)?;
    let text = |id: &Option<String>| id.as_deref().map(|t| texts.string(book.text_of(untag(t))));
    let resolved: Vec<_> = tagged.iter().map(|(d, id)| (*d, text(id))).collect();
    if resolved != plain {
        fault("the report on tags and the report on texts differ");
    }
    Ok(tagged.into_iter().map(|(d, id)| with_id(d, id.as_deref().map(untag))).collect())
}

fn with_id(discrepancy: Discrepancy, id: Option<TextRef>) -> Discrepancy {
    let values = id.map_or(discrepancy.values, |t| [t.first as u64, t.length as u64]);
    Discrepancy { values, ..discrepancy }
}

/// Each discrepancy, with the id's text where it has one.
fn report(state: &RecoveredState, sheet: &Sheet) -> Ran<Vec<(Discrepancy, Option<String>)>> {
    use recovery::Discrepancy as From;
    let broker = SheetBroker { sheet, queries: None, asked: Shared::new(0) };
    let report = match ran(|| recovery::compare_broker_state(&broker, state))? {
        Ok(report) => report,
        Err(e) => fault(&format!("compare_broker_state: {e:?}")),
    };
    if report.has_critical_issues == report.discrepancies.is_empty() {
        fault("critical does not mean non-empty");
    }
    let plain = |kind, symbol: Option<&str>, values| (Discrepancy { kind, symbol: symbol.map(symbol_out), values }, None);
    let state_number = |status: &str| {
        let place = state_names().iter().position(|s| s == status);
        place.unwrap_or_else(|| fault(&format!("no order state {status}"))) as u64
    };
    let one = |d: From| match d {
        From::OrphanOrder { broker_order_id, symbol, status } => {
            plain(1, Some(&symbol), [broker_order_id, state_number(&status)])
        }
        From::MissingOrder { symbol, .. } => plain(2, Some(&symbol), [0, 0]),
        From::OrderStatusMismatch { symbol, .. } => plain(3, Some(&symbol), [0, 0]),
        From::PositionMismatch { symbol, broker_qty, expected_qty } => {
            plain(4, Some(&symbol), [broker_qty as u64, expected_qty as u64])
        }
        From::IncompleteIntent { symbol, client_order_id } => {
            (Discrepancy { kind: 5, symbol: Some(symbol_out(&symbol)), values: [0, 0] }, client_order_id)
        }
        From::IncompletePositionsIntent { target_spec_reference: None } => plain(6, None, [0, 0]),
        From::IncompleteQuotesIntent { target_spec_reference: None } => plain(7, None, [0, 0]),
        From::IncompleteAccountSummaryIntent { target_spec_reference: None } => plain(8, None, [0, 0]),
        From::IncompleteCancelIntent { order_id: None, cancellation_reason: None } => plain(9, None, [0, 0]),
        other => fault(&format!("a discrepancy with a value that no record holds: {other:?}")),
    };
    Ok(report.discrepancies.into_iter().map(one).collect())
}

/// What reconcile_incomplete_intents appended and counted.
#[derive(Debug, Clone, PartialEq)]
pub struct Reconciled {
    /// The appended lines, in order; on a panic those written before it.
    pub entries: Vec<Entry>,
    /// The count in the original's error, 0 without one. A panic leaves no count.
    pub unreached: Ran<u64>,
}

impl Reconciled {
    /// The entries as an addendum book.
    pub fn addendum(&self, time: i64) -> Book {
        addendum(&self.entries, time)
    }
}

/// reconcile_incomplete_intents of a state, appending to an empty log.
pub fn reconcile(state: &State, sheet: &Sheet, queries: &[u8]) -> Reconciled {
    reconcile_on(&written(""), 0, &state_in(state), sheet, queries)
}

/// The same of a recovered state, appending to its own log; also the state that the original then recovers from that
/// log, as JSON without its time.
pub fn reconcile_recovered(book: &Book, recovered: &Recovered, sheet: &Sheet, queries: &[u8]) -> Ran<(Reconciled, serde_json::Value)> {
    let texts = if recovered.in_domain { Texts::Plain } else { Texts::Bytes };
    let text = json::lines(book, texts, false);
    let path = written(&text);
    let reconciled = reconcile_on(&path, text.len(), &recovered.plain, sheet, queries);
    let again = match ran(|| recovery::reconstruct_state(&path))? {
        Ok((state, _)) => state,
        Err(e) => fault(&format!("reconstruct_state after reconciling: {e:?}")),
    };
    Ok((reconciled, timeless(&again)))
}

/// The lines that reconcile_incomplete_intents appends to an empty log, as they are.
pub fn appended(state: &State, sheet: &Sheet, queries: &[u8]) -> Vec<String> {
    let path = written("");
    reconcile_on(&path, 0, &state_in(state), sheet, queries);
    appended_to(&path, 0).lines().map(str::to_string).collect()
}

/// What the original parses out of one JSON line that holds this value under a key of an event's data.
pub fn parsed(value: &serde_json::Value) -> serde_json::Value {
    let line = format!("{{\"event\":\"e\",\"ts\":\"1970-01-01T00:00:00Z\",\"limit\":{value}}}");
    match audit::parse_audit_events_from_str(&line) {
        Ok(events) => events[0].data["limit"].clone(),
        Err(e) => fault(&format!("parse: {e:?}")),
    }
}

/// A state as JSON, without its time.
pub fn timeless(state: &RecoveredState) -> serde_json::Value {
    let mut value = serde_json::to_value(state).unwrap_or_else(|e| fault(&format!("a state as JSON: {e}")));
    value.as_object_mut().and_then(|o| o.remove("timestamp")).unwrap_or_else(|| fault("a state without a time"));
    value
}

fn reconcile_on(path: &Path, before: usize, state: &RecoveredState, sheet: &Sheet, queries: &[u8]) -> Reconciled {
    let broker = SheetBroker { sheet, queries: Some(queries), asked: Shared::new(0) };
    let result = ran(|| recovery::reconcile_incomplete_intents(&broker, state, path));
    let entries = appended_to(path, before).lines().map(json::entry).collect();
    let unreached = result.map(|r| match r {
        Ok(()) => 0,
        Err(Error::Recovery(message)) => {
            let count = message.strip_prefix("Failed to reconcile ").and_then(|m| m.strip_suffix(" incomplete intents"));
            count.and_then(|c| c.parse().ok()).unwrap_or_else(|| fault(&format!("reconciling: {message}")))
        }
        Err(other) => fault(&format!("reconciling: {other:?}")),
    });
    Reconciled { entries, unreached }
}

/// What drift's reconcile gave.
#[derive(Debug, Clone)]
pub struct Drift {
    pub entries: Vec<doc01::drift::Entry>,
    /// tracking_error_pct's bits.
    pub tracking: u64,
}

/// reconcile (drift) of holdings, targets, prices and equity.
pub fn drift(
    holdings: &[Position],
    targets: &[(doc01::Symbol, f64)],
    prices: &[(doc01::Symbol, i64)],
    equity: i64,
) -> Ran<Drift> {
    let holdings: Vec<_> = holdings
        .iter()
        .map(|p| CurrentPosition { symbol: symbol_in(&p.symbol), quantity: p.quantity, avg_cost_cents: p.cost })
        .collect();
    let targets: Vec<_> = targets.iter().map(|(s, w)| (symbol_in(s), *w)).collect();
    let prices: Vec<_> = prices.iter().map(|(s, p)| (symbol_in(s), *p)).collect();
    let report = ran(|| rebalancer::reconcile::reconcile(&holdings, &targets, &prices, equity))?;
    let entry = |e: &rebalancer::reconcile::ReconcileEntry| doc01::drift::Entry {
        symbol: symbol_out(&e.symbol),
        weights: [e.target_weight, e.actual_weight, e.diff_weight],
        shares: [e.target_shares, e.actual_shares, e.diff_shares],
    };
    Ok(Drift { entries: report.entries.iter().map(entry).collect(), tracking: report.tracking_error_pct.to_bits() })
}

fn converted(result: Ran<Result<i64, BrokerError>>) -> Ran<Result<i64, u32>> {
    result.map(|r| {
        r.map_err(|e| match e {
            BrokerError::NonFiniteValue { .. } => 9,
            BrokerError::ValueOutOfRange { .. } => 10,
            other => fault(&format!("conversion: {other:?}")),
        })
    })
}

/// f64_to_fixed_checked of two floats' bits: the value, or refusal 9 or 10.
pub fn fixed(value: u64, scale: u64) -> Ran<Result<i64, u32>> {
    converted(ran(|| nanobook_broker::types::f64_to_fixed_checked(f64::from_bits(value), f64::from_bits(scale), "value")))
}

/// f64_cents_checked of a float's bits.
pub fn cents(value: u64) -> Ran<Result<i64, u32>> {
    converted(ran(|| nanobook_broker::types::f64_cents_checked(f64::from_bits(value), "value")))
}

/// `limit as i64`: the Rust language's cast, which the original applies to an order's limit.
pub fn limit(value: u64) -> i64 {
    f64::from_bits(value) as i64
}

/// The bytes that were compiled, file by file.
pub fn compiled() -> Vec<(&'static str, &'static [u8])> {
    rebalancer::COMPILED.into_iter().chain(nanobook_broker::COMPILED).collect()
}
