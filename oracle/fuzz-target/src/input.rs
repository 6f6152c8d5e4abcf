//! A fuzzed input: the entry, the rooms to try, the numbers and the lent slices.

use driver::entries::{Bytes, Entry};
use driver::question::Question;

#[derive(Clone)]
pub struct Input {
    pub entry: usize,
    /// Which of the rooms around the exact one is tried beside it.
    pub pick: u8,
    /// A room in bytes that is tried for every output.
    pub room: u16,
    pub numbers: Vec<u64>,
    pub slices: Vec<Vec<u8>>,
}

/// The first `count` bytes, zeros where there are fewer.
fn taken(data: &mut &[u8], count: usize) -> Vec<u8> {
    let (front, rest) = data.split_at(count.min(data.len()));
    *data = rest;
    let mut out = front.to_vec();
    out.resize(count, 0);
    out
}

impl Input {
    /// One byte each of entry and pick, two of room; eight for each number; four of length for each slice but the last;
    /// the slices. Any bytes are an input: what is missing is zero, a length is cut to the bytes that are left.
    pub fn decode(entries: &[Entry], mut data: &[u8]) -> Input {
        let data = &mut data;
        let head = taken(data, 4);
        let entry = head[0] as usize % entries.len();
        let numbers = entries[entry].numbers.iter().map(|_| taken(data, 8)).map(|n| u64::from_le_bytes(n.try_into().expect("eight bytes")));
        let numbers = numbers.collect();
        let count = entries[entry].inputs.len();
        let lengths: Vec<_> = (1..count).map(|_| taken(data, 4)).map(|n| u32::from_le_bytes(n.try_into().expect("four bytes"))).collect();
        let mut slices: Vec<_> = lengths.into_iter().map(|length| taken(data, (length as usize).min(data.len()))).collect();
        if count > 0 {
            slices.push(data.to_vec());
        }
        Input { entry, pick: head[1], room: u16::from_le_bytes([head[2], head[3]]), numbers, slices }
    }

    pub fn encode(&self) -> Vec<u8> {
        let mut out = vec![self.entry as u8, self.pick];
        out.extend(self.room.to_le_bytes());
        self.numbers.iter().for_each(|n| out.extend(n.to_le_bytes()));
        let (_, front) = self.slices.split_last().map_or((None, &[][..]), |(last, front)| (Some(last), front));
        front.iter().for_each(|slice| out.extend((slice.len() as u32).to_le_bytes()));
        self.slices.iter().for_each(|slice| out.extend(slice));
        out
    }

    pub fn question(&self, entries: &'static [Entry]) -> Question {
        let entry = &entries[self.entry];
        let question = Question::new(entry, self.slices.iter().cloned().map(Bytes::new).collect(), self.numbers.clone());
        if entry.outputs == 0 {
            return question;
        }
        question.with_rooms(vec![self.room as usize; entry.outputs])
    }
}
