//! A log that many questions are about: its JSON lines are written once, and the original is asked each thing once.

use std::cell::{OnceCell, RefCell};
use std::rc::Rc;

use doc01::{Book, Marks, Refusal, State};

use crate::json::{self, Texts};
use crate::original::{self, Ran, Recovered};

pub struct Log {
    bytes: Vec<u8>,
    pub book: Book,
    texts: OnceCell<Texts>,
    plain: OnceCell<String>,
    tagged: OnceCell<String>,
    verdict: OnceCell<Ran<(u32, u32, u32)>>,
    max: OnceCell<Ran<u64>>,
    recovered: OnceCell<Ran<Recovered>>,
    peak: OnceCell<Ran<(usize, usize)>>,
    /// Marks by the caller's time and the count of events before them.
    marks: RefCell<Vec<(i64, usize, Ran<Marks>)>>,
}

/// How many logs are kept.
const KEPT: usize = 4;

thread_local! {
    /// The logs asked for last, the latest first.
    static LAST: RefCell<Vec<Rc<Log>>> = const { RefCell::new(Vec::new()) };
}

impl Log {
    /// The log of a book's bytes.
    pub fn of(bytes: &[u8]) -> Result<Rc<Log>, Refusal> {
        LAST.with(|last| {
            let mut last = last.borrow_mut();
            match last.iter().position(|log| log.bytes == bytes) {
                Some(place) => last[..=place].rotate_right(1),
                None => {
                    last.insert(0, Rc::new(Log::new(bytes)?));
                    last.truncate(KEPT);
                }
            }
            Ok(last[0].clone())
        })
    }

    fn new(bytes: &[u8]) -> Result<Log, Refusal> {
        let book = Book::parse(bytes)?;
        let (texts, plain, tagged, verdict, max, recovered, peak, marks) = Default::default();
        Ok(Log { bytes: bytes.to_vec(), book, texts, plain, tagged, verdict, max, recovered, peak, marks })
    }

    fn texts(&self) -> Texts {
        *self.texts.get_or_init(|| Texts::of(&self.book))
    }

    fn plain(&self) -> &str {
        self.plain.get_or_init(|| json::lines(&self.book, self.texts(), false))
    }

    fn tagged(&self) -> &str {
        self.tagged.get_or_init(|| json::lines(&self.book, self.texts(), true))
    }

    pub fn verdict(&self) -> Ran<(u32, u32, u32)> {
        self.verdict.get_or_init(|| original::verdict_on(self.plain())).clone()
    }

    pub fn max_checkpoint_sequence(&self) -> Ran<u64> {
        self.max.get_or_init(|| original::max_on(self.plain())).clone()
    }

    pub fn window_complete(&self, id: &[u8]) -> Ran<Option<u64>> {
        match std::str::from_utf8(id) {
            Ok(_) => original::window_on(self.plain(), &self.texts().string(id)),
            Err(_) => original::window_complete(&self.book, id),
        }
    }

    /// What the original recovers; a time that no event set is 0.
    pub fn recovered(&self) -> &Ran<Recovered> {
        self.recovered.get_or_init(|| original::recover_on(&self.book, self.texts(), self.plain(), self.tagged(), 0))
    }

    /// The recovered state and the action, at the caller's time.
    pub fn state(&self, time: i64) -> Ran<(State, u32)> {
        let recovered = self.recovered().as_ref().map_err(Clone::clone)?;
        let mut state = recovered.state.clone();
        if !recovered.time_set {
            state.marks.time = time;
        }
        Ok((state, recovered.action))
    }

    /// The largest counts of orders and positions after any event.
    pub fn peak(&self) -> Ran<(usize, usize)> {
        let asked = || {
            let state = &self.recovered().as_ref().map_err(Clone::clone)?.state;
            original::peak_on(&self.book, self.tagged(), (state.orders.len(), state.positions.len()))
        };
        self.peak.get_or_init(asked).clone()
    }

    /// The marks after the first `events` events.
    pub fn marks_after(&self, time: i64, events: usize) -> Ran<Marks> {
        if events == self.book.events.len() {
            return Ok(self.state(time)?.0.marks);
        }
        let mut known = self.marks.borrow_mut();
        if let Some((_, _, marks)) = known.iter().find(|(t, e, _)| (*t, *e) == (time, events)) {
            return marks.clone();
        }
        let marks = match self.texts() {
            Texts::Plain => original::marks_on(json::first(self.plain(), events), time),
            Texts::Bytes => original::marks_after(&self.book, time, events),
        };
        known.push((time, events, marks.clone()));
        marks
    }
}
