//! Cases for single rules: each tells document 01 from the same with a rule changed (`oracle/rules`), where no drawn case does. Its name says what it is.

use doc01::book::CELLS;
use doc01::drift::{price_bytes, target_bytes};
use doc01::records::{order_bytes, position_bytes, FAILED, FILLED, HAS_ID, HAS_REASON, SUBMITTED};
use doc01::sheet::{SheetOrder, SheetPosition};
use doc01::{Marks, Order, Position, Sheet, Symbol, TextRef};
use recorded::{words, Inputs, CONVERSION, DRIFT, JOIN, LENT_STATES, LOG};

use crate::script::book;

type Named = (String, Inputs);

pub fn cases() -> Vec<Named> {
    let logs = [validation(), many_events(), first_places(), first_faults(), windows(), recovery(), actions(), rooms(), reports(), entries()];
    let others = [equality(), lent_states(), broken_marks(), joins(), drifts(), conversions(), two_faults(), broken()];
    [logs.concat(), others.concat()].concat()
}

// ---- logs

/// A log with what is asked about it.
#[derive(Clone)]
struct Log {
    what: String,
    book: Vec<u8>,
    sheet: Vec<u8>,
    queries: Vec<u8>,
    window: &'static str,
    time: i64,
    entry_time: i64,
    k: u64,
    /// Room in bytes for orders, positions, report, addendum and joined book.
    rooms: [u64; 5],
}

fn log(what: &str, script: &str) -> Log {
    Log {
        what: format!("{what}: {script}"),
        book: book(script).bytes(),
        sheet: Sheet::default().bytes(),
        queries: Vec::new(),
        window: "w1",
        time: 0,
        entry_time: 1,
        k: 0,
        rooms: [1 << 16; 5],
    }
}

impl Log {
    fn done(self) -> Named {
        let numbers = [&[self.time as u64, self.entry_time as u64, self.k][..], &self.rooms].concat();
        let sections = vec![self.book, self.sheet, self.queries, self.window.as_bytes().to_vec(), words(&numbers)];
        (self.what, Inputs { kind: LOG, sections })
    }
}

/// Logs that are asked nothing but what every log is.
fn plain(logs: &[(&str, &str)]) -> Vec<Named> {
    logs.iter().map(|(what, script)| log(what, script).done()).collect()
}

fn validation() -> Vec<Named> {
    plain(&[
        ("a cancel result before its intent", "S; diff_computed 4 orders=[]; cancel_result 5; cancel_intent 6"),
        (
            "quotes and account results before their intents",
            "S; diff_computed 4 orders=[]; quotes_result 5; quotes_intent 6; account_summary_result 7; account_summary_intent 8",
        ),
        ("risk before the diff", "S; risk_check_passed 4; diff_computed 5; order_intent 6"),
        ("an intent between diff and risk", "S; diff_computed 4; order_intent 5; risk_check_passed 6"),
        ("RunCompleted before a diff with orders", "S; run_completed 4; diff_computed 5; risk_check_passed 6; order_intent 7"),
        ("RunCompleted between two diffs", "S; diff_computed 4; run_completed 5; diff_computed 6 orders=[]"),
        ("RunCompleted before an empty diff", "S; run_completed 4; diff_computed 5 orders=[]"),
        ("a number that does not rise, then none", "run_started 4; positions_intent 4; positions_result -"),
        ("a name in capitals", "RUN_STARTED 1"),
        ("PositionsFetched without a result", "run_started 1; positions_intent 2; positions_fetched 3; diff_computed 4 orders=[]"),
        ("the diff between the positions' intent and result", "run_started 1; positions_intent 2; diff_computed 3 orders=[]; positions_result 4"),
        ("intent, risk, diff", "S; order_intent 4; risk_check_passed 5; diff_computed 6"),
        ("risk before an empty diff", "S; risk_check_passed 4; diff_computed 5 orders=[]"),
        ("a quotes result before its intent", "S; diff_computed 4 orders=[]; quotes_result 5; quotes_intent 6"),
        (
            "cancel and quotes results before their intents",
            "S; diff_computed 4 orders=[]; cancel_result 5; cancel_intent 6; quotes_result 7; quotes_intent 8",
        ),
        (
            "cancel and account results before their intents",
            "S; diff_computed 4 orders=[]; cancel_result 5; cancel_intent 6; account_summary_result 7; account_summary_intent 8",
        ),
        ("an account result before its intent, and no risk", "S; diff_computed 4; account_summary_result 5; account_summary_intent 6"),
        (
            "a cancel result before its intent, with orders",
            "S; diff_computed 4; risk_check_passed 5; order_intent 6; cancel_result 7; cancel_intent 8",
        ),
        ("diff, result, intent", "run_started 1; diff_computed 2 orders=[]; positions_result 3; positions_intent 4"),
        ("PositionsFetched before the intent", "run_started 1; positions_fetched 2; positions_intent 3; positions_result 4; diff_computed 5 orders=[]"),
        ("PositionsFetched after the diff", "S; diff_computed 4 orders=[]; positions_fetched 5"),
        ("a fill before its order", "S; diff_computed 4 orders=[]; order_filled 5; order_submitted 6"),
        ("a failure before its order", "S; diff_computed 4; risk_check_passed 5; order_failed 6; order_intent 7"),
        ("a diff with empty positions", "S; diff_computed 4 positions=[]"),
        ("a diff with an empty text", "S; diff_computed 4 orders=''"),
    ])
}

/// A verdict that names an event of three digits.
fn many_events() -> Vec<Named> {
    let script = format!("{}run_started -", "x -; ".repeat(100));
    vec![Log { what: "101 events, the last without a number".into(), ..log("", &script) }.done()]
}

/// Each rule is about the first of its checkpoints, not the last.
fn first_places() -> Vec<Named> {
    plain(&[
        ("an intent after the result", "S; positions_intent 4; diff_computed 5 orders=[]"),
        ("a result after the diff", "S; diff_computed 4 orders=[]; positions_result 5"),
        ("risk after the order's intent again", "S; diff_computed 4; risk_check_passed 5; order_intent 6; risk_check_passed 7"),
        ("an order's intent before risk, and again", "S; diff_computed 4; order_intent 5; risk_check_passed 6; order_intent 7"),
        ("a quotes intent again", "S; diff_computed 4 orders=[]; quotes_intent 5; quotes_result 6; quotes_intent 7"),
        ("a quotes result before its intent, and again", "S; diff_computed 4 orders=[]; quotes_result 5; quotes_intent 6; quotes_result 7"),
        ("an account intent again", "S; diff_computed 4 orders=[]; account_summary_intent 5; account_summary_result 6; account_summary_intent 7"),
        (
            "an account result before its intent, and again",
            "S; diff_computed 4 orders=[]; account_summary_result 5; account_summary_intent 6; account_summary_result 7",
        ),
        ("a cancel result before its intent, and again", "S; diff_computed 4 orders=[]; cancel_result 5; cancel_intent 6; cancel_result 7"),
        ("RunCompleted before an empty diff, and again", "S; run_completed 4; diff_computed 5 orders=[]; run_completed 6"),
    ])
}

/// Two faults, of which the first rule's wins.
fn first_faults() -> Vec<Named> {
    let account = "account_summary_result 8; account_summary_intent 9";
    let (quotes, cancel) = (account.replace("account_summary", "quotes"), account.replace("account_summary", "cancel"));
    let pairs = [("account", account), ("quotes", &quotes), ("cancel", &cancel)];
    let beside = |what: &str, script: &str| pairs.map(|(name, pair)| log(&format!("{name} and {what}"), &format!("{script}; {pair}")).done()).to_vec();
    let mut out = plain(&[
        ("RunCompleted and diff", "run_started 1; positions_intent 2; run_completed 3; diff_computed 4 orders=[]; positions_result 5"),
        ("RunCompleted and result", "run_started 1; positions_result 2; positions_intent 3; run_completed 4; diff_computed 5 orders=[]"),
        ("RunStarted and result", "positions_result 1; positions_intent 2; run_started 3; diff_computed 4 orders=[]"),
        ("no diff, and result", "run_started 1; positions_result 2; positions_intent 3"),
    ]);
    out.extend(beside("RunCompleted", "S; run_completed 4; diff_computed 5 orders=[]"));
    out.extend(beside("no risk", "S; diff_computed 4"));
    out.extend(beside("no order's intent", "S; diff_computed 4; risk_check_passed 5"));
    out.extend(beside("risk", "S; risk_check_passed 4; diff_computed 5; order_intent 6"));
    out.extend(beside("an order's intent", "S; diff_computed 4; order_intent 5; risk_check_passed 6"));
    out
}

fn windows() -> Vec<Named> {
    let asked = |window, what, script| Log { window, ..log(what, script) }.done();
    vec![
        asked("w", "a window completed again without a number", "cron_completed 5 window_id='w'; cron_completed - window_id='w'"),
        asked("w", "names around cron_completed", "cron_complete 5 window_id='w'; cron_completed_ 6 window_id='w'"),
        asked("", "the empty window, and one that is none", "cron_completed 5"),
        asked("", "the empty window", "cron_completed 5 window_id=''"),
        asked("W", "a window in small letters", "cron_completed 5 window_id='w'"),
        asked("w", "a window with a blank", "cron_completed 5 window_id='w '"),
        asked("123456789", "a window of the same eight bytes", "cron_completed 5 window_id='123456780'"),
        asked(LONG, "a long window", &format!("cron_completed 5 window_id='{LONG}'")),
        asked("w", "a window completed with the number 0", "cron_completed 0 window_id='w'"),
        asked("w", "a name like cron_completed", "cron_committed 5 window_id='w'"),
        asked("w", "RunCompleted with a window", "run_completed 5 window_id='w'"),
    ]
}

/// A text of 300 bytes.
const LONG: &str = match std::str::from_utf8(&[b'x'; 300]) {
    Ok(text) => text,
    Err(_) => unreachable!(),
};

/// Orders come by `diff_computed`, are submitted, filled and failed by symbol or id.
fn recovery() -> Vec<Named> {
    plain(&[
        ("completed, then started", "run_completed 1; run_started 2"),
        ("a cancel that failed, then started", "cancel_result 1 success=false; run_started 2"),
        ("a cancel result that says nothing", "cancel_result 1"),
        ("a cancel result that says 0", "cancel_result 1 success=0"),
        ("a cancel intent that says no", "cancel_intent 1 success=false"),
        ("an equity that can't be read", "positions_result 1 equity=5.0; account_summary_result 2 equity='x'"),
        ("an unnumbered intent", "quotes_intent 1; quotes_intent -"),
        ("an intent of a lower number", "quotes_intent 5; quotes_intent 3"),
        (
            "open account summary, an unfilled order",
            "diff_computed 1 orders=['A' 'BUY' 1 1.0]; order_submitted 2 symbol='A' ibkr_id=5; account_summary_intent 3",
        ),
        (
            "an order that failed, then an intent",
            "diff_computed 1 orders=['A' 'BUY' 1 1.0]; order_failed 2 symbol='A'; order_intent 3 symbol='A' action='BUY' shares=1 limit=1.0 client_order_id='c'",
        ),
        (
            "an order that failed twice, then without a reason",
            "diff_computed 1 orders=['A' 'BUY' 1 1.0]; order_failed 2 symbol='A' reason='x'; order_failed 3 symbol='A'",
        ),
        (
            "an order submitted, then failed",
            "diff_computed 1 orders=['A' 'BUY' 1 1.0]; order_submitted 2 symbol='A' ibkr_id=5; order_failed 3 symbol='A'",
        ),
        (
            "an order submitted twice",
            "diff_computed 1 orders=['A' 'BUY' 1 1.0]; order_submitted 2 symbol='A' ibkr_id=5; order_submitted 3 symbol='A' ibkr_id=6",
        ),
        (
            "an order that failed, then submitted",
            "diff_computed 1 orders=['A' 'BUY' 1 1.0]; order_failed 2 symbol='A'; order_submitted 3 symbol='A' ibkr_id=5",
        ),
        (
            "an order filled, then submitted",
            "diff_computed 1 orders=['A' 'BUY' 1 1.0]; order_filled 2 ibkr_id=0; order_submitted 3 symbol='A' ibkr_id=5",
        ),
        ("a fill by a float", "diff_computed 1 orders=['A' 'BUY' 1 1.0]; order_filled 2 ibkr_id=0.0"),
        (
            "an order filled, then failed with an empty reason",
            "diff_computed 1 orders=['A' 'BUY' 1 1.0]; order_filled 2 ibkr_id=0; order_failed 3 symbol='A' reason=''",
        ),
        (
            "an order filled and failed, then an intent",
            "diff_computed 1 orders=['A' 'BUY' 1 1.0]; order_filled 2 ibkr_id=0; order_failed 3 symbol='A' reason='x'; order_intent 4 symbol='A' action='BUY' shares=1 limit=1.0 client_order_id='c'",
        ),
        (
            "an order that failed for a reason, then submitted with an id",
            "diff_computed 1 orders=['A' 'BUY' 1 1.0]; order_failed 2 symbol='A' reason='x'; order_submitted 3 symbol='A' ibkr_id=5 client_order_id='c'",
        ),
        (
            "an order that failed, then filled with shares",
            "diff_computed 1 orders=['A' 'BUY' 1 1.0]; order_failed 2 symbol='A'; order_filled 3 ibkr_id=0 shares=9",
        ),
        (
            "a fill by a u64",
            "diff_computed 1 orders=['A' 'BUY' 1 1.0]; order_submitted 2 symbol='A' ibkr_id=-1; order_filled 3 ibkr_id=u18446744073709551615",
        ),
        ("a symbol of nine bytes", "diff_computed 1 orders=['ABCDEFGH' 'BUY' 1 1.0]; order_failed 2 symbol='ABCDEFGHI'"),
        ("a symbol in small letters", "diff_computed 1 orders=['A' 'BUY' 1 1.0]; order_failed 2 symbol='a'"),
        ("a limit of -(2^53 + 1)", "diff_computed 1 orders=['A' 'BUY' 1 -9007199254740993]"),
        ("completed, then started without a number", "run_completed 1; run_started -"),
        ("a cancel that failed, without a number", "cancel_result - success=false"),
        ("equity without a number", "positions_result - equity=5.0"),
        ("equity where it is not read", "run_started 1 equity=5.0; quotes_result 2 equity=6.0"),
        (
            "completed, then every checkpoint but RunStarted",
            "run_completed 1; positions_intent 2; positions_fetched 3; positions_result 4; diff_computed 5; risk_check_passed 6; order_intent 7; order_submitted 8; order_failed 9; order_filled 10; quotes_intent 11; quotes_result 12; account_summary_intent 13; account_summary_result 14; cancel_intent 15; cancel_result 16",
        ),
        (
            "lists where they are not read",
            "positions_intent 1 positions=['A' _ 1 1.0]; account_summary_result 2 positions=['A' _ 1 1.0]; risk_check_passed 3 orders=['A' 'BUY' 1 1.0]; run_completed 4 orders=['A' 'BUY' 1 1.0]",
        ),
        (
            "twelve orders",
            "diff_computed 1 orders=['A' 'BUY' 1 1, 'B' 'BUY' 1 1, 'C' 'BUY' 1 1, 'D' 'BUY' 1 1, 'E' 'BUY' 1 1, 'F' 'BUY' 1 1, 'G' 'BUY' 1 1, 'H' 'BUY' 1 1, 'I' 'BUY' 1 1, 'J' 'BUY' 1 1, 'K' 'BUY' 1 1, 'L' 'BUY' 1 1]",
        ),
    ])
}

/// A query that is open by its last numbers, or closed by them, beside an order that is not filled.
fn actions() -> Vec<Named> {
    let submitted = "diff_computed 1 orders=['A' 'BUY' 1 1.0]; order_submitted 2 symbol='A' ibkr_id=5";
    let query = |name: &str| {
        let reopened = log(&format!("a {name} intent after its result"), &format!("{submitted}; {name}_result 3; {name}_intent 4"));
        let same = log(&format!("a {name} intent and result of one number"), &format!("{submitted}; {name}_intent 3; {name}_result 3"));
        [reopened.done(), same.done()]
    };
    ["positions", "quotes", "account_summary"].map(query).concat()
}

/// A room that is a byte short of a record, or of a record between events.
fn rooms() -> Vec<Named> {
    let room = |place: usize, bytes: u64, of: Log| {
        let mut rooms = of.rooms;
        rooms[place] = bytes;
        Log { rooms, ..of }.done()
    };
    let answered = |what: &str| Log { queries: vec![0], ..log(what, INTENT) };
    let length = (24 + 240 + "order_failed".len() + "A".len() + "not_found_at_broker".len()) as u64;
    vec![
        room(0, 64, log("two orders, then none, in 64 bytes", "diff_computed 1 orders=['A' 'BUY' 1 1.0, 'B' 'BUY' 1 1.0]; diff_computed 2 orders=[]")),
        room(1, 31, log("a position in 31 bytes", "positions_result 1 positions=['A' _ 1 1.0]")),
        room(3, length - 1, answered("an addendum in a byte less")),
        room(3, length, answered("an addendum in its bytes")),
    ]
}

// ---- sheets, symbols

fn symbol(text: &str) -> Symbol {
    Symbol::of(text.as_bytes()).expect("a symbol")
}

/// Orders by id, remaining and state; positions by symbol and quantity.
fn sheet(orders: &[(u64, u64, u32)], positions: &[(&str, i64)]) -> Sheet {
    Sheet {
        orders: orders.iter().map(|(id, remaining, state)| SheetOrder { id: *id, remaining: *remaining, state: *state }).collect(),
        positions: positions.iter().map(|(name, quantity)| SheetPosition { symbol: symbol(name), quantity: *quantity }).collect(),
        ..Sheet::default()
    }
}

/// One open intent.
const INTENT: &str = "order_intent 1 symbol='A' action='BUY' shares=1 limit=1.0 client_order_id='c'";

/// Logs beside a sheet.
fn reports() -> Vec<Named> {
    let submitted = "diff_computed 1 orders=['A' 'BUY' 1 1.0]; order_submitted 2 symbol='A' ibkr_id=5";
    let beside = |what: &str, script: &str, sheet: Sheet| Log { sheet: sheet.bytes(), ..log(what, script) }.done();
    let no_room = Log { rooms: [0; 5], ..log("the highest number, and no room", "run_started 18446744073709551615") };
    let failed = Sheet { orders_failed: true, positions_failed: true, ..Sheet::default() };
    vec![
        beside("order 2^32 + 5 at the broker", submitted, sheet(&[(4_294_967_301, 1, 1)], &[])),
        beside(
            "a missing order, a position that differs",
            "diff_computed 1 orders=['A' 'BUY' 1 1.0]; order_submitted 2 symbol='A' ibkr_id=5; positions_result 3 positions=['B' _ 1 1.0]",
            sheet(&[], &[("B", 2)]),
        ),
        beside("both lists failed, an order", submitted, failed.clone()),
        beside("both lists failed, a position", "positions_result 1 positions=['A' _ 1 1.0]", failed),
        no_room.done(),
        Log { sheet: Sheet::default().bytes()[..23].to_vec(), ..log("a sheet of 23 bytes", "run_started 1") }.done(),
        Log { sheet: sheet(&[(i64::MAX as u64, 1, 1)], &[]).bytes(), queries: vec![0], k: 1, ..log("order 2^63 - 1 at the broker", INTENT) }.done(),
        Log { sheet: sheet(&[(78, 1 << 32, 1)], &[]).bytes(), queries: vec![0], k: 1, ..log("an order of which 2^32 are left", INTENT) }.done(),
        Log { sheet: sheet(&[(78, 1 << 63, 1)], &[]).bytes(), queries: vec![0], k: 1, ..log("an order of which 2^63 are left", INTENT) }.done(),
    ]
}

/// One open intent, answered or not by a sheet.
fn entries() -> Vec<Named> {
    let asked = |what: &str, script: &str, orders: &[(u64, u64, u32)], query| {
        Log { sheet: sheet(orders, &[]).bytes(), queries: vec![query], k: 1, ..log(what, script) }.done()
    };
    let filled = format!("{INTENT}; order_filled 2 ibkr_id=0");
    let unnumbered = INTENT.replace("order_intent 1", "order_intent -");
    vec![
        asked("an intent, and an order of which none is left", INTENT, &[(77, 0, 4)], 0),
        asked("an intent that was filled", &filled, &[(78, 5, 1)], 0),
        asked("an intent without a number", &unnumbered, &[(78, 5, 1)], 0),
        asked("a query of 128", INTENT, &[(78, 5, 1)], 128),
    ]
}

// ---- lent states

/// A lent state. Its book is text alone.
#[derive(Clone)]
struct Side {
    text: &'static str,
    marks: Vec<u8>,
    orders: Vec<Order>,
    positions: Vec<Position>,
}

fn first_marks() -> Marks {
    Marks { number: 9, ..Marks::begin(0) }
}

fn position(name: &str, quantity: i64, cost: i64) -> Position {
    Position { symbol: symbol(name), quantity, cost }
}

/// An order of symbol A with the action BUY.
fn order() -> Order {
    let absent = TextRef::default();
    Order { symbol: symbol("A"), flags: 0, ibkr_id: 1, shares: 2, limit: 3, action: at(0, 3), client: absent, reason: absent }
}

fn at(first: u32, length: u32) -> TextRef {
    TextRef { first, length }
}

/// The text of every lent state's book: an action, an id, a reason, another action.
const TEXT: &str = "BUYc1noSEL";

fn side(orders: &[Order], positions: &[Position]) -> Side {
    Side { text: TEXT, marks: first_marks().bytes(), orders: orders.to_vec(), positions: positions.to_vec() }
}

/// Two lent states, and what the first is compared and reconciled with.
#[derive(Clone)]
struct States {
    what: String,
    first: Side,
    second: Side,
    sheet: Vec<u8>,
    queries: Vec<u8>,
    time: i64,
    rooms: [u64; 2],
}

fn states(what: &str, first: Side, second: Side) -> States {
    States { what: what.into(), first, second, sheet: Sheet::default().bytes(), queries: Vec::new(), time: 0, rooms: [1 << 16; 2] }
}

impl States {
    /// The sections as they are lent, which a case may damage.
    fn sections(self) -> (String, Vec<Vec<u8>>) {
        let side = |s: Side| {
            let text = doc01::Book { text: s.text.as_bytes().to_vec(), ..Default::default() };
            [text.bytes(), s.marks, order_bytes(&s.orders), position_bytes(&s.positions)]
        };
        let numbers = words(&[self.time as u64, self.rooms[0], self.rooms[1]]);
        let sections = [&side(self.first)[..], &side(self.second), &[self.sheet, self.queries, numbers]].concat();
        (self.what, sections)
    }

    fn done(self) -> Named {
        let (what, sections) = self.sections();
        (what, Inputs { kind: LENT_STATES, sections })
    }

    /// With bytes changed: section from 1, place, byte.
    fn damaged(self, bytes: &[(usize, usize, u8)]) -> Named {
        let (what, mut sections) = self.sections();
        bytes.iter().for_each(|(section, at, byte)| sections[section - 1][*at] = *byte);
        (what, Inputs { kind: LENT_STATES, sections })
    }
}

/// A state beside each that differs from it in one place. Those that differ in what equality does not read are equal.
fn equality() -> Vec<Named> {
    let full = Order { flags: HAS_ID | HAS_REASON, client: at(3, 2), reason: at(5, 2), ..order() };
    let (held, other) = (position("B", 4, 5), position("C", 4, 5));
    let state = side(&[full], &[held]);
    let marked = |change: &dyn Fn(&mut Marks)| {
        let mut marks = first_marks();
        change(&mut marks);
        Side { marks: marks.bytes(), ..state.clone() }
    };
    let ordered = |order: Order| side(&[order], &[held]);
    let mut beside: Vec<(String, Side, Side)> = Vec::new();
    let mut put = |what: &str, first: &Side, second: Side| beside.push((what.into(), first.clone(), second));
    put("the time", &state, marked(&|m| m.time = 1));
    put("the checkpoint", &state, marked(&|m| m.checkpoint = 2));
    put("the number", &state, marked(&|m| m.number = 8));
    put("equity", &state, marked(&|m| m.equity = 1));
    put("completed", &state, marked(&|m| m.completed = true));
    put("cancel_failed", &state, marked(&|m| m.cancel_failed = true));
    for i in 0..8 {
        put(&format!("flag {i}"), &state, marked(&|m| m.logged[i] = true));
        put(&format!("last number {i}, none and 0"), &state, marked(&|m| m.last[i] = Some(0)));
    }
    put("an order's symbol", &state, ordered(Order { symbol: symbol("D"), ..full }));
    put("submitted", &state, ordered(Order { flags: full.flags | SUBMITTED, ..full }));
    put("filled", &state, ordered(Order { flags: full.flags | FILLED, ..full }));
    put("failed", &state, ordered(Order { flags: full.flags | FAILED, ..full }));
    put("an ibkr_id", &state, ordered(Order { ibkr_id: 2, ..full }));
    put("shares", &state, ordered(Order { shares: 3, ..full }));
    put("a limit", &state, ordered(Order { limit: 4, ..full }));
    put("an action", &state, ordered(Order { action: at(7, 3), ..full }));
    put("an id", &state, ordered(Order { client: at(5, 2), ..full }));
    put("a reason", &state, ordered(Order { reason: at(3, 2), ..full }));
    put("an absent id and an empty one", &ordered(order()), ordered(Order { flags: HAS_ID, client: at(3, 0), ..order() }));
    put("an absent reason and an empty one", &ordered(order()), ordered(Order { flags: HAS_REASON, reason: at(3, 0), ..order() }));
    put("a position's symbol", &state, side(&[full], &[other]));
    put("a quantity", &state, side(&[full], &[Position { quantity: 6, ..held }]));
    put("a cost", &state, side(&[full], &[Position { cost: 6, ..held }]));
    put("the order of positions", &side(&[], &[held, other]), side(&[], &[other, held]));
    put("a position more", &state, side(&[full], &[held, other]));
    put("a position less", &side(&[full], &[held, other]), state.clone());
    put("the order of orders", &side(&[full, order()], &[]), side(&[order(), full], &[]));
    put("an order more", &state, side(&[full, order()], &[held]));
    put("an order less", &side(&[full, order()], &[held]), state.clone());
    put("shares, by 2^32", &state, ordered(Order { shares: full.shares + (1 << 32), ..full }));
    put("a limit, by 2^32", &state, ordered(Order { limit: full.limit + (1 << 32), ..full }));
    put("an id, by a capital letter", &state, Side { text: "BUYC1noSEL", ..state.clone() });
    beside.into_iter().map(|(what, first, second)| states(&format!("states that differ in {what}"), first, second).done()).collect()
}

fn lent_states() -> Vec<Named> {
    let none = side(&[], &[]);
    let full = Order { flags: HAS_ID | HAS_REASON, client: at(3, 2), reason: at(5, 2), ..order() };
    let alone = |what: &str, order: Order| states(what, side(&[order], &[]), none.clone());
    let missing = [("A", 5), ("A", 6), ("B", 5)].map(|(name, ibkr_id)| Order { symbol: symbol(name), flags: SUBMITTED, ibkr_id, ..order() });
    vec![
        alone("an action that ends a byte past the text", Order { action: at(8, 3), ..full }).done(),
        alone("an id that ends a byte past the text", Order { client: at(9, 2), ..full }).done(),
        alone("a reason that ends a byte past the text", Order { reason: at(9, 2), ..full }).done(),
        states("a second id that ends a byte past the text", none.clone(), side(&[Order { client: at(9, 2), ..full }], &[])).done(),
        alone("a broken order, and a sheet of 1,025 orders", full).damaged(&[(3, 10, 1), (9, 0, 1), (9, 1, 4)]),
        alone("an order with flag 32", order()).damaged(&[(3, 9, 32)]),
        alone("an order with flag 64", order()).damaged(&[(3, 9, 64)]),
        alone("an order with flag 128", order()).damaged(&[(3, 9, 128)]),
        alone("an order with byte 11", full).damaged(&[(3, 11, 1)]),
        alone("an order with byte 56", full).damaged(&[(3, 56, 1)]),
        alone("an order with byte 57", full).damaged(&[(3, 57, 1)]),
        alone("an order with byte 61", full).damaged(&[(3, 61, 1)]),
        alone("an order with byte 62", full).damaged(&[(3, 62, 1)]),
        alone("an order with byte 63", full).damaged(&[(3, 63, 1)]),
        alone("an id whose end is above 4,294,967,295", Order { client: at(4_294_967_295, 2), ..full }).done(),
        alone("an empty id past the text", Order { client: at(11, 0), ..full }).done(),
        states("three missing orders, two of one id and two of one symbol", side(&missing, &[]), none.clone()).done(),
        States { rooms: [0, 1 << 16], ..states("1,025 positions, and no room", side(&[], &[position("B", 4, 5); 1_025]), none.clone()) }.done(),
        states("marks at -1", Side { marks: Marks::begin(-1).bytes(), ..none.clone() }, none.clone()).done(),
        alone("an absent id with a length", Order { client: at(0, 2), ..order() }).done(),
        states("a position of a small letter", side(&[], &[position("B", 4, 5)]), none.clone()).damaged(&[(4, 0, b'b')]),
        states("a position with byte 9", side(&[], &[position("B", 4, 5)]), none.clone()).damaged(&[(4, 9, 1)]),
        states("a broken book, and a second book of 4,097 events", none.clone(), none.clone()).damaged(&[(1, 4, 25), (5, 0, 1), (5, 1, 16)]),
    ]
}

/// Marks that are no record.
fn broken_marks() -> Vec<Named> {
    let none = side(&[], &[]);
    let damaged = |what: &str, bytes: &[(usize, usize, u8)]| states(what, none.clone(), none.clone()).damaged(bytes);
    let all_ones: Vec<(usize, usize, u8)> = (8..16).map(|at| (2, at, 255)).collect();
    let zeros = [5, 6, 7, 43, 44, 45, 46].map(|at| damaged(&format!("marks with byte {at}"), &[(2, at, 1)]));
    let flags = [0, 1, 2, 3, 4, 5, 6].map(|i| damaged(&format!("marks with flag {i} 2"), &[(2, 34 + i, 2)]));
    let numbers = [1, 2, 3, 4, 5, 6, 7].map(|i| {
        let present = damaged(&format!("marks with number {i} present by 2"), &[(2, 48 + 16 * i, 2)]);
        [present, damaged(&format!("marks with number {i} that is not present"), &[(2, 56 + 16 * i, 1)])]
    });
    let mut out = [&zeros[..], &flags, &numbers.concat()].concat();
    out.extend([
        damaged("marks of checkpoint 0", &[(2, 0, 0)]),
        damaged("marks of checkpoint 18", &[(2, 0, 18)]),
        damaged("marks with byte 4", &[(2, 4, 1)]),
        damaged("marks with completed 2", &[(2, 32, 2)]),
        damaged("marks with cancel_failed 2", &[(2, 33, 2)]),
        damaged("marks with the last flag 2", &[(2, 41, 2)]),
        damaged("marks with byte 42", &[(2, 42, 1)]),
        damaged("marks with byte 47", &[(2, 47, 1)]),
        damaged("marks with a number present by 2", &[(2, 48, 2)]),
        damaged("marks with a number that is not present", &[(2, 56, 1)]),
        damaged("second marks of checkpoint 0", &[(6, 0, 0)]),
        damaged("broken marks, a sheet of 1,025 orders, a second book of 4,097 events", &[(2, 0, 0), (9, 0, 1), (9, 1, 4), (5, 0, 1), (5, 1, 16)]),
        damaged("broken marks with the highest number", &[&[(2, 0, 0)][..], &all_ones].concat()),
        damaged("marks of checkpoint 257", &[(2, 1, 1)]),
        damaged("marks with a number present by 2^32", &[(2, 52, 1)]),
    ]);
    out
}

// ---- drift

fn drift(what: &str, held: &[(&str, i64)], targets: &[(&str, f64)], prices: &[(&str, i64)], equity: i64, room: u64) -> Named {
    let holdings: Vec<Position> = held.iter().map(|(name, quantity)| position(name, *quantity, 0)).collect();
    let targets: Vec<_> = targets.iter().map(|(name, weight)| (symbol(name), *weight)).collect();
    let prices: Vec<_> = prices.iter().map(|(name, price)| (symbol(name), *price)).collect();
    let sections = vec![position_bytes(&holdings), target_bytes(&targets), price_bytes(&prices), words(&[equity as u64, room])];
    (what.into(), Inputs { kind: DRIFT, sections })
}

fn drifts() -> Vec<Named> {
    let room = 1 << 16;
    let two62 = 1 << 62;
    vec![
        drift("a weight that is no number", &[], &[("A", f64::NAN)], &[], 1, room),
        drift("a weight of 1,001, then one of 0.5", &[], &[("A", 1001.0), ("A", 0.5)], &[], 1, room),
        drift("2^62 x 4 at equity 0", &[("A", two62)], &[], &[("A", 4)], 0, room),
        drift("2^62 x 1", &[("A", two62)], &[], &[("A", 1)], 1, room),
        drift("nothing held, -2^63 targeted", &[], &[("A", -1000.0)], &[("A", 1)], i64::MAX, room),
        drift("2^53 + 1 held at 3", &[("A", (1 << 53) + 1)], &[], &[("A", 3)], 1, room),
        drift("a weight of 49 at price 49", &[], &[("A", 49.0)], &[("A", 49)], 1, room),
        drift("2^62 x 4, and a weight of 1,001", &[("A", two62)], &[("A", 1001.0)], &[("A", 4)], 1, room),
        drift("2^62 x 4, and no room", &[("A", two62)], &[], &[("A", 4)], 1, 0),
        drift("a weight of 1,001, and no room", &[], &[("A", 1001.0)], &[], 1, 0),
        drift("products of 2^64 and -2^64", &[("A", two62), ("B", -two62)], &[], &[("A", 4), ("B", 4)], 0, room),
        drift("a held value of 2^63", &[("A", two62), ("B", two62)], &[], &[("A", 1), ("B", 1)], 0, room),
        drift("a held value of 2^63 - 1 by way of 2^63", &[("A", two62), ("B", two62), ("C", -1)], &[], &[("A", 1), ("B", 1), ("C", 1)], 0, room),
        drift("a weight of minus infinity", &[], &[("A", f64::NEG_INFINITY)], &[], 1, room),
        drift("2^63 - 1 held, -2^63 targeted, equity -2^63", &[("A", i64::MAX)], &[("A", 1000.0)], &[("A", 1)], i64::MIN, room),
        drift("nothing held, 2^63 - 1 targeted", &[], &[("A", 1000.0)], &[("A", 1)], i64::MAX, room),
        drift("2^62 x 2", &[("A", two62)], &[], &[("A", 2)], 1, room),
        drift("a held value of -2^63", &[("A", -two62), ("B", -two62)], &[], &[("A", 1), ("B", 1)], 0, room),
        drift("-2^62 x 2", &[("A", -two62)], &[], &[("A", 2)], 0, room),
        drift("2^62 x 2, and 1 less", &[("A", two62), ("B", -1)], &[], &[("A", 2), ("B", 1)], 0, room),
        drift("a held value of -2^63 - 1", &[("A", -two62), ("B", -1)], &[], &[("A", 2), ("B", 1)], 0, room),
        long("1,024 holdings and 1,024 targets", 32 * 1_024, 24 * 1_024, 0),
        long("1,024 prices", 0, 0, 24 * 1_024),
        long("1,024 prices and a byte", 0, 0, 24 * 1_024 + 1),
        long("1,025 holdings, and targets of one byte", 32 * 1_025, 1, 0),
        long("1,025 targets, and holdings of one byte", 1, 24 * 1_025, 0),
        long("1,025 prices, and holdings of one byte", 1, 0, 24 * 1_025),
    ]
}

/// Lists of so many bytes, rows of the symbol A and zeros.
fn long(what: &str, holdings: usize, targets: usize, prices: usize) -> Named {
    let (position, row) = (position_bytes(&[position("A", 0, 0)]), price_bytes(&[(symbol("A"), 0)]));
    let list = |row: &[u8], bytes: usize| row.iter().copied().cycle().take(bytes).collect::<Vec<u8>>();
    let sections = vec![list(&position, holdings), list(&row, targets), list(&row, prices), words(&[1, 1 << 16])];
    (what.into(), Inputs { kind: DRIFT, sections })
}

// ---- joins

/// Books with rows, texts and empty references of both kinds.
fn joins() -> Vec<Named> {
    let a = book("positions_result 1 positions=['A' _ 1 1.0] orders=[]").bytes();
    let b = book("diff_computed 2 t=3 symbol='' orders=['BB' 'BUY' 2 2.0, 'C' _ 3 3] positions=[]; order_submitted 3 symbol='BB' ibkr_id=5").bytes();
    let broken = a[..a.len() - 1].to_vec();
    let oversize = oversize();
    // B with a text in each cell of an event and of a row, with a list in each cell that may have one, and with an empty name.
    let texts = CELLS.map(|cell| format!("{cell}='{cell}'")).join(" ");
    let lists = CELLS.map(|cell| if cell == "window_id" { String::new() } else { format!(" {cell}=['A' 'b' 'c' 'd']") }).concat();
    let mut full = book(&format!("x 1 {texts}; y -{lists}; z 2"));
    full.events[2].name.length = 0;
    let mut late = b.clone();
    late[24 + 240 + 8] = 2;
    let rooms = 1 << 16;
    // The length of A with all of B: a header, three events, three rows and both texts.
    let whole = (a.len() + b.len() - 24) as u64;
    vec![
        join("two books with rows, 0 of 2", a.clone(), b.clone(), 0, rooms),
        join("two books with rows, 1 of 2", a.clone(), b.clone(), 1, rooms),
        join("two books with rows, 2 of 2, room a byte short", a.clone(), b.clone(), 2, whole - 1),
        join("two books with rows, 2 of 2, exact room", a.clone(), b.clone(), 2, whole),
        join("two books with rows, 3 of 2, no room", a.clone(), b.clone(), 3, 0),
        join("a broken book, and one of 4,097 events", broken.clone(), oversize, 0, rooms),
        join("a text and a list in each cell", a.clone(), full.bytes(), 3, rooms),
        join("two books with rows, 2^32 of 2", a.clone(), b.clone(), 1 << 32, rooms),
        join("a book, and one whose second event is broken, 1 of 2", a.clone(), late, 1, rooms),
        join("a book, and a broken one, 9 of 2", b, broken, 9, rooms),
    ]
}

/// A header that claims 4,097 events.
fn oversize() -> Vec<u8> {
    [&[1, 16], &[0; 22][..]].concat()
}

fn join(what: &str, a: Vec<u8>, b: Vec<u8>, k: u64, room: u64) -> Named {
    (what.into(), Inputs { kind: JOIN, sections: vec![a, b, words(&[k, room])] })
}

// ---- conversions

fn conversions() -> Vec<Named> {
    let convert = |what: &str, value: f64, scale: f64| {
        (what.into(), Inputs { kind: CONVERSION, sections: vec![words(&[value.to_bits(), scale.to_bits()])] })
    };
    vec![convert("a value and a scale that are no numbers", f64::NAN, f64::NAN), convert("a scale that is no number", 1.0, f64::NAN)]
}

// ---- two faults of one call

fn two_faults() -> Vec<Named> {
    let none = side(&[], &[]);
    let (ordered, held) = (side(&[order()], &[]), side(&[], &[position("B", 4, 5)]));
    let (listed, counted) = ([(9, 0, 1), (9, 1, 4)], [(5, 0, 1), (5, 1, 16)]);
    let with = |bytes: &[(usize, usize, u8)], at: (usize, usize, u8)| [bytes, &[at]].concat();
    let late = |of: States| States { time: -1, ..of };
    let weighted = |what: &str, holdings: Vec<u8>, prices: Vec<u8>| {
        let sections = vec![holdings, target_bytes(&[(symbol("A"), 1001.0)]), prices, words(&[1, 1 << 16])];
        (what.to_string(), Inputs { kind: DRIFT, sections })
    };
    let (held_row, price_row) = (position_bytes(&[position("A", 0, 0)]), price_bytes(&[(symbol("A"), 0)]));
    vec![
        Log { book: oversize(), time: -1, ..log("4,097 events, and the time -1", "run_started 1") }.done(),
        late(states("a sheet of 1,025 orders, and the time -1", none.clone(), none.clone())).damaged(&listed),
        states("a broken position, and a sheet of 1,025 orders", held.clone(), none.clone()).damaged(&with(&listed, (4, 9, 1))),
        states("a broken order, and a second book of 4,097 events", ordered, none.clone()).damaged(&with(&counted, (3, 10, 1))),
        states("a broken position, and a second book of 4,097 events", held, none).damaged(&with(&counted, (4, 9, 1))),
        weighted("a weight of 1,001, and a broken holding", b"a".repeat(32), Vec::new()),
        weighted("a weight of 1,001, and a broken price", Vec::new(), b"a".repeat(24)),
        weighted("a weight of 1,001, and 1,025 holdings", held_row.repeat(1_025), Vec::new()),
        weighted("a weight of 1,001, and 1,025 prices", Vec::new(), price_row.repeat(1_025)),
    ]
}

// ---- one broken input of each kind that no case above breaks alone

fn broken() -> Vec<Named> {
    let none = side(&[], &[]);
    let sound = book("run_started 1").bytes();
    let small = |what: &str, section: usize| {
        let (what, mut inputs) = drift(what, &[], &[("A", 0.5)], &[("A", 1)], 1, 1 << 16);
        inputs.sections[section][0] = b'a';
        (what, inputs)
    };
    vec![
        states("a broken book of a state", none.clone(), none.clone()).damaged(&[(1, 4, 25)]),
        states("a broken book of the second state", none.clone(), none).damaged(&[(5, 4, 25)]),
        join("a broken book, and a sound one", sound[..sound.len() - 1].to_vec(), sound.clone(), 0, 1 << 16),
        small("a target of a small letter", 1),
        small("a price of a small letter", 2),
    ]
}
