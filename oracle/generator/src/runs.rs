//! Runs of the rebalancer with faults: checkpoints dropped, repeated, moved, unnumbered; several orders, fills, cancels;
//! names, symbols and ids that do not fit.

use doc01::{Event, NAMES};

use crate::events::Maker;
use crate::{sheets, LogCase, Rng};

/// The events of one run, in order.
fn script(maker: &mut Maker) -> Vec<&'static str> {
    let mut names = vec!["run_started"];
    let rng = &mut *maker.rng;
    if rng.chance(15) {
        names.push("cron_start");
    }
    let pair = |rng: &mut Rng, names: &mut Vec<&'static str>, intent: &'static str, result: &'static str, percent: u64| {
        if rng.chance(percent) {
            let swapped = rng.chance(12);
            if rng.chance(92) {
                names.push(if swapped { result } else { intent });
            }
            if rng.chance(85) {
                names.push(if swapped { intent } else { result });
            }
        }
    };
    pair(rng, &mut names, "account_summary_intent", "account_summary_result", 30);
    names.extend(["positions_intent", "positions_result"]);
    if rng.chance(15) {
        names.push("positions_fetched");
    }
    pair(rng, &mut names, "account_summary_intent", "account_summary_result", 15);
    pair(rng, &mut names, "quotes_intent", "quotes_result", 40);
    names.push("diff_computed");
    if rng.chance(12) {
        names.push("diff_computed");
    }
    pair(rng, &mut names, "cancel_intent", "cancel_result", 12);
    if rng.chance(75) {
        names.push("risk_check_passed");
    }
    if rng.chance(30) {
        names.push("risk_check");
    }
    for _ in 0..rng.pick(&[0, 1, 1, 2, 3, 4]) {
        names.push("order_intent");
        match rng.below(6) {
            0 => {}
            1 => names.push("order_failed"),
            2 => names.extend(["order_submitted", "order_filled"]),
            3 => names.extend(["order_submitted", "order_failed"]),
            _ => names.push("order_submitted"),
        }
    }
    for _ in 0..rng.pick(&[0, 0, 1, 2]) {
        names.push("order_filled");
    }
    pair(rng, &mut names, "cancel_intent", "cancel_result", 25);
    pair(rng, &mut names, "quotes_intent", "quotes_result", 10);
    if rng.chance(40) {
        names.push("run_completed");
    }
    if rng.chance(25) {
        names.push("cron_completed");
    }
    names
}

/// Faults in the order of the events.
fn disturb(maker: &mut Maker, names: &mut Vec<&'static str>) {
    let faults = maker.rng.pick(&[0, 0, 0, 1, 1, 2, 3, 5]);
    for _ in 0..faults {
        let length = names.len();
        let at = maker.rng.below(length);
        match maker.rng.below(9) {
            0 if length > 0 => {
                names.remove(at);
            }
            1 if length > 0 => names.insert(at, names[at]),
            2 if length > 1 => names.swap(at, (at + 1) % length),
            3 if length > 1 => {
                let name = names.remove(at);
                names.insert(maker.rng.below(length), name);
            }
            4 => names.insert(at, maker.other_name()),
            5 => names.truncate(maker.rng.within(0, length)),
            6 if length > 0 => {
                // All events of one name go.
                let name = names[at];
                names.retain(|n| *n != name);
            }
            7 => names.insert(maker.rng.within(0, length), "cron_completed"),
            _ => names.insert(maker.rng.within(0, length), maker.rng.pick(&NAMES)),
        }
    }
}

/// Numbers: rising, with a gap or a fault here and there.
fn number(maker: &mut Maker, events: &mut [Event]) {
    let rng = &mut *maker.rng;
    let mut next = rng.pick(&[1, 1, 1, 1, 0, 100, 1 << 53, 1 << 63, u64::MAX - 20, (1 << 53) + 1]);
    let faults = rng.pick(&[0, 0, 0, 0, 2, 8]);
    let gaps = rng.pick(&[0, 0, 20]);
    let others = rng.pick(&[0, 50, 100]);
    for event in events {
        let checkpoint = NAMES.iter().any(|n| {
            let (first, length) = (event.name.first as usize, event.name.length as usize);
            maker.book.text[first..first + length] == *n.as_bytes()
        });
        event.number = if checkpoint { Some(next) } else { rng.chance(others).then_some(next.wrapping_add(rng.next() % 5)) };
        if checkpoint {
            let step = if rng.chance(gaps) { rng.within(2, 9) as u64 } else { 1 };
            next = next.saturating_add(step);
        }
        if rng.chance(faults) {
            event.number = match rng.below(6) {
                0 | 1 => None,
                2 => event.number.map(|n| n.saturating_sub(1)),
                3 => Some(0),
                4 => Some(u64::MAX),
                _ => event.number.map(|n| n.saturating_sub(rng.below(3) as u64)),
            };
        }
    }
}

fn log(maker: &mut Maker) {
    let mut names = script(maker);
    if maker.rng.chance(12) {
        names.extend(script(maker));
    }
    disturb(maker, &mut names);
    finish(maker, &names);
}

fn finish(maker: &mut Maker, names: &[&'static str]) {
    let mut events: Vec<Event> = names.iter().map(|n| maker.event(n)).collect();
    number(maker, &mut events);
    maker.book.events = events;
}

pub fn run(rng: &mut Rng) -> LogCase {
    let mut maker = Maker::new(rng);
    log(&mut maker);
    sheets::ordinary(&mut maker)
}

/// A short log against a fuller sheet, which now and then is damaged.
pub fn sheet(rng: &mut Rng) -> LogCase {
    let mut maker = Maker::new(rng);
    let mut names = vec!["run_started", "positions_intent", "positions_result", "diff_computed"];
    for _ in 0..maker.rng.below(4) {
        names.push("order_intent");
        if maker.rng.chance(70) {
            names.push("order_submitted");
        }
    }
    if maker.rng.chance(30) {
        names.push(maker.rng.pick(&["order_filled", "quotes_intent", "cancel_intent", "account_summary_intent", "order_failed"]));
    }
    finish(&mut maker, &names);
    let (orders, positions) = (maker.rng.below(9), maker.rng.below(9));
    let mut sheet = sheets::sheet(&mut maker, orders, positions).bytes();
    if maker.rng.chance(35) {
        crate::damaged::damage_sheet(maker.rng, &mut sheet);
    }
    let queries = sheets::queries(maker.rng);
    sheets::case(&mut maker, sheet, queries)
}

/// A log with several open intents, and query lists that cut between them.
pub fn queries(rng: &mut Rng) -> LogCase {
    let mut maker = Maker::new(rng);
    maker.corrupt = maker.rng.pick(&[0, 0, 3]);
    let mut names = vec!["run_started", "positions_intent", "positions_result", "diff_computed", "risk_check_passed"];
    let intents = maker.rng.within(1, 8);
    names.extend(vec!["order_intent"; intents]);
    for _ in 0..maker.rng.below(3) {
        names.push(maker.rng.pick(&["order_submitted", "order_failed", "order_filled"]));
    }
    finish(&mut maker, &names);
    let orders = maker.rng.pick(&[0, 1, 2, 2, 3, 5]);
    let sheet = sheets::sheet(&mut maker, orders, 0).bytes();
    let length = maker.rng.within(0, 5 * intents + 2);
    let answered = maker.rng.pick(&[0, 10, 20, 40, 70, 100]);
    let queries = (0..length).map(|_| if maker.rng.chance(answered) { 0 } else { 1 }).collect();
    sheets::case(&mut maker, sheet, queries)
}
