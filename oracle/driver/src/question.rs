//! One question put to both: the library through its boundary, and the judge.

use std::cell::RefCell;
use std::ops::Deref;

use crate::entries::{Bytes, Due, Entry, UNJUDGED};
use crate::library::{Arguments, Lent};

/// Room enough for every output of a case.
const AMPLE: usize = 1 << 20;

/// The most outputs of an entry, its answer among them.
const MOST: usize = 5;

/// The most room beyond an exact one.
const BEHIND: usize = 4_096;

#[derive(Clone)]
pub struct Question {
    pub entry: &'static Entry,
    pub inputs: Vec<Bytes>,
    pub numbers: Vec<u64>,
    /// Rooms to try beside those around the exact one.
    pub rooms: Vec<Vec<usize>>,
}

/// The rooms of an entry's outputs and of its answer.
#[derive(Debug, Clone, Copy, PartialEq, Eq)]
pub struct Rooms {
    of: [usize; MOST],
    many: usize,
}

impl Rooms {
    fn new(outputs: &[usize], answer: usize) -> Rooms {
        let mut of = [0; MOST];
        of[..outputs.len()].copy_from_slice(outputs);
        of[outputs.len()..][..(answer > 0) as usize].fill(answer);
        Rooms { of, many: outputs.len() + (answer > 0) as usize }
    }

    /// The same but for one room.
    fn but(mut self, place: usize, room: usize) -> Rooms {
        self.of[place] = room;
        self
    }
}

impl Deref for Rooms {
    type Target = [usize];

    fn deref(&self) -> &[usize] {
        &self.of[..self.many]
    }
}

thread_local! {
    /// The bytes that are lent, again and again.
    static LENT: RefCell<[Lent; MOST]> = RefCell::new([0; MOST].map(Lent::new));
}

/// What an entry returned and left in the lent bytes, and whether it wrote beside them.
#[derive(Debug, Clone, PartialEq, Eq)]
pub struct Answer {
    pub number: u32,
    pub outputs: Vec<Vec<u8>>,
    pub beside: bool,
}

/// A wrong library, to show that the comparison sees it: the answer altered after the call.
#[derive(Debug, Clone, Copy, PartialEq, Eq)]
pub enum Fault {
    BrokenIsSound,
    OversizeIsBroken,
    RoomUntested,
    LastByteKept,
    FirstBitOther,
    RefusedNotCleared,
}

pub const FAULTS: [Fault; 6] = [
    Fault::BrokenIsSound,
    Fault::OversizeIsBroken,
    Fault::RoomUntested,
    Fault::LastByteKept,
    Fault::FirstBitOther,
    Fault::RefusedNotCleared,
];

/// What is counted: calls of the library, bytes of outputs compared.
#[derive(Default, Clone, Copy)]
pub struct Tally {
    pub calls: u64,
    pub bytes: u64,
}

impl Question {
    pub fn new(entry: &'static Entry, inputs: Vec<Bytes>, numbers: Vec<u64>) -> Question {
        Question { entry, inputs, numbers, rooms: Vec::new() }
    }

    pub fn with_rooms(mut self, rooms: Vec<usize>) -> Question {
        self.rooms.push(rooms);
        self
    }

    /// The judge's answer in given rooms of the outputs.
    pub fn due(&self, rooms: &[usize]) -> Due {
        self.ample().within(rooms)
    }

    /// The judge's answer with ample room.
    pub fn ample(&self) -> Due {
        (self.entry.due)(&self.inputs, &self.numbers)
    }

    /// The bytes that are altered in place.
    fn held(&self) -> Option<&Bytes> {
        self.inputs.last().filter(|_| self.entry.held)
    }

    /// Lends bytes in these rooms and calls the entry; what it returned.
    fn call(&self, rooms: &[usize], lent: &mut [Lent]) -> u32 {
        lent.iter_mut().zip(rooms).for_each(|(lent, room)| lent.again(*room));
        let mut inputs = &self.inputs[..];
        if let Some(held) = self.held() {
            lent[0].holding(held);
            inputs = &inputs[..inputs.len() - 1];
        }
        (self.entry.call)(&Arguments::new(self.entry, inputs, &self.numbers, lent))
    }

    /// The rooms of the outputs and of the answer: each around the exact one, the others exact; then those that were asked for.
    pub fn all_rooms(&self, due: &Due) -> Vec<Rooms> {
        let (outputs, answer) = (self.entry.outputs, self.entry.answer);
        let mut of = [0; MOST];
        of.iter_mut().zip(&due.outputs).for_each(|(room, output)| *room = output.len());
        if let Some(held) = self.held() {
            of[0] = held.len();
        }
        let exact = Rooms::new(&of[..outputs], answer);
        let mut out = vec![exact];
        for i in (0..outputs).filter(|_| !self.entry.held) {
            let room = exact[i];
            let others = [0, room / 2, room.wrapping_sub(1), room + 1, room + 64].into_iter().filter(|n| *n <= AMPLE && *n != room);
            out.extend(others.map(|other| exact.but(i, other)));
        }
        if answer > 0 {
            out.extend([0, answer / 2, answer - 1, answer + 1, answer + 48].map(|last| exact.but(outputs, last)));
        }
        for rooms in &self.rooms {
            let near = |all: Rooms, i: usize| all.but(i, rooms[i].min(exact[i] + BEHIND));
            out.push(if self.entry.held { exact } else { (0..outputs).fold(exact, near) });
        }
        out
    }

    /// The first rooms in which the library's answer is another, with the due answer and the library's.
    pub fn differs(&self, ample: &Due, fault: Option<Fault>, tally: &mut Tally) -> Option<(Rooms, Answer, Answer)> {
        self.differs_in(&self.all_rooms(ample), ample, fault, tally)
    }

    /// The same in given rooms.
    pub fn differs_in(&self, all: &[Rooms], ample: &Due, fault: Option<Fault>, tally: &mut Tally) -> Option<(Rooms, Answer, Answer)> {
        if ample.refusal == UNJUDGED {
            return None;
        }
        LENT.with(|lent| all.iter().find_map(|rooms| self.differs_at(rooms, ample, fault, tally, &mut lent.borrow_mut()[..rooms.len()])))
    }

    fn differs_at(&self, rooms: &Rooms, ample: &Due, fault: Option<Fault>, tally: &mut Tally, lent: &mut [Lent]) -> Option<(Rooms, Answer, Answer)> {
        tally.calls += 1;
        tally.bytes += rooms.iter().sum::<usize>() as u64;
        let (due, said) = self.due_at(rooms, ample);
        let number = self.call(rooms, lent);
        let number = fault.map_or(number, |fault| faulty(fault, number, lent, due));
        if self.agrees(due, said, number, lent) {
            return None;
        }
        let answer = Answer { number, beside: lent.iter().any(Lent::beside), outputs: lent.iter().map(|l| l.bytes().to_vec()).collect() };
        Some((*rooms, self.due_in(rooms, ample), answer))
    }

    /// The due number, and what stands at the start of the outputs and of the answer. An answer that does not fit is 3, after every other refusal.
    fn due_at<'a>(&self, rooms: &[usize], ample: &'a Due) -> (u32, impl Fn(usize) -> &'a [u8]) {
        let outputs = self.entry.outputs;
        let fits = ample.fits(&rooms[..outputs]);
        let short = self.entry.answer > 0 && rooms[outputs] < self.entry.answer;
        let number = match ample.refusal {
            _ if !fits => 3,
            0 if short => 3,
            refusal => refusal,
        };
        let said = move |i: usize| match i {
            _ if !fits || short => &[][..],
            _ if i == outputs => &ample.answer,
            _ => ample.outputs.get(i).map_or(&[][..], |output| output),
        };
        (number, said)
    }

    /// What stands where the judge says nothing: zeros, and in held bytes what they were.
    fn unsaid(&self, output: usize) -> &[u8] {
        self.held().filter(|_| output == 0).map_or(&[], |held| held)
    }

    /// Whether number and bytes are the due ones, and none beside them was written.
    fn agrees<'a>(&self, due: u32, said: impl Fn(usize) -> &'a [u8], number: u32, lent: &[Lent]) -> bool {
        let same = |(i, lent): (usize, &Lent)| {
            let (start, rest) = (said(i), self.unsaid(i));
            let (front, after) = lent.bytes().split_at(start.len());
            let (kept, zero) = after.split_at(rest.len().saturating_sub(start.len()));
            !lent.beside() && front == start && kept == &rest[rest.len() - kept.len()..] && zeros(zero)
        };
        number == due && lent.iter().enumerate().all(same)
    }

    fn due_in(&self, rooms: &[usize], ample: &Due) -> Answer {
        let (number, said) = self.due_at(rooms, ample);
        let output = |(i, room): (usize, &usize)| {
            let mut bytes = vec![0; *room];
            bytes[..self.unsaid(i).len()].copy_from_slice(self.unsaid(i));
            bytes[..said(i).len()].copy_from_slice(said(i));
            bytes
        };
        Answer { number, outputs: rooms.iter().enumerate().map(output).collect(), beside: false }
    }
}

fn zeros(bytes: &[u8]) -> bool {
    const ZEROS: [u8; 1 << 12] = [0; 1 << 12];
    bytes.chunks(ZEROS.len()).all(|part| part == &ZEROS[..part.len()])
}

/// The number of a wrong library, its bytes altered in place.
fn faulty(fault: Fault, number: u32, lent: &mut [Lent], due: u32) -> u32 {
    let last = lent.iter_mut().rev().map(Lent::bytes_mut).find(|bytes| !bytes.is_empty());
    match (fault, last) {
        (Fault::BrokenIsSound, _) if number == 2 => return 0,
        (Fault::OversizeIsBroken, _) if number == 1 => return 2,
        (Fault::RoomUntested, _) if number == 3 => return 0,
        (Fault::LastByteKept, Some(last)) => *last.last_mut().expect("not empty") = 0xa5,
        (Fault::FirstBitOther, Some(last)) if due == 0 => last[0] ^= 1,
        (Fault::RefusedNotCleared, Some(last)) if due != 0 => last[0] = 0xa5,
        _ => {}
    }
    number
}
