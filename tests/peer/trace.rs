// The bench trace of document 01, with the `--` of document 02, No. 2: house fields in, lines out.
use crate::board::{Answer, Board};
use crate::parts::{Backup, Number, Phase, Record, Sizes, BLOCK};
use crate::wrong::Trap;

pub const MOST_BLOCKS: usize = 64;
pub const MOST_SLOTS: usize = 16;
const MEMORY: usize = 8 * (8 * MOST_BLOCKS + 10 * MOST_SLOTS + 17);
const CACHE: usize = BLOCK * MOST_SLOTS;

/// The trace program's board, in its own arrays, and the allowance not yet used.
#[derive(Clone)]
pub struct Bench {
    memory: [u8; MEMORY],
    cache: [u8; CACHE],
    table: [u64; MOST_SLOTS],
    record: Record,
    allowance: Option<usize>,
    trap: Option<Trap>,
}

/// A field's answer and what its line shows after the numbers.
pub struct Reply {
    pub answer: Answer,
    shown: String,
}

impl Reply {
    fn plain(answer: Answer) -> Reply {
        Reply { answer, shown: String::new() }
    }

    fn showing(answer: Answer, shown: String) -> Reply {
        let accepted = answer.number == Number::Done;
        Reply { answer, shown: if accepted { shown } else { String::new() } }
    }

    fn line(&self, number: u64) -> String {
        let line = format!("{number} {} {}", self.answer.number as u8, self.answer.words);
        if self.shown.is_empty() {
            line
        } else {
            line + " " + &self.shown
        }
    }
}

impl Bench {
    pub fn new(trap: Option<Trap>) -> Bench {
        let sizes = Sizes { blocks: 0, slots: 0 };
        let record = Record { sizes, registers: [0; BLOCK], finished: Backup::A, phase: Phase::Running };
        Bench { memory: [0; MEMORY], cache: [0; CACHE], table: [0; MOST_SLOTS], record, allowance: None, trap }
    }

    pub fn sizes(&self) -> Sizes {
        self.record.sizes
    }

    pub fn phase(&self) -> Phase {
        self.record.phase
    }

    /// Takes one field; none for an unknown tag or a wrong length.
    pub fn field(&mut self, tag: u8, value: &[u8]) -> Option<Reply> {
        let sizes = self.record.sizes;
        Some(match (tag, value) {
            (1, &[n1, n0, b1, b0, fill]) => {
                let p = self.take_allowance();
                let given = Sizes { blocks: pair(n1, n0), slots: pair(b1, b0) };
                Reply::plain(self.lend(given).format(given, fill, p))
            }
            (2, &[k1, k0, offset, ref bytes @ ..]) if (1..=BLOCK).contains(&bytes.len()) => {
                let p = self.take_allowance();
                Reply::plain(self.lend(sizes).store(pair(k1, k0), usize::from(offset), bytes, p))
            }
            (3, &[k1, k0, offset, length]) => {
                let mut bytes = vec![0; usize::from(length)];
                let answer = self.lend(sizes).load(pair(k1, k0), usize::from(offset), &mut bytes);
                Reply::showing(answer, hex(&bytes))
            }
            (4, &[byte]) => {
                let p = self.take_allowance();
                Reply::plain(self.lend(sizes).begin(&[byte; BLOCK], p))
            }
            (5, &[n1, n0]) => {
                let p = self.take_allowance();
                Reply::plain(self.lend(sizes).step(pair(n1, n0), p))
            }
            (6, &[p1, p0]) => {
                self.allowance = Some(pair(p1, p0));
                Reply::plain(Answer { number: Number::Done, words: 0 })
            }
            (7, &[]) => {
                let (answer, registers) = self.lend(sizes).recover(sizes);
                Reply::showing(answer, registers.map_or("--".into(), |bytes| hex(&bytes[..1])))
            }
            _ => return None,
        })
    }

    fn take_allowance(&mut self) -> usize {
        self.allowance.take().unwrap_or(usize::MAX)
    }

    /// The front of the arrays, exact for the sizes; the whole arrays for larger sizes, which they never fit.
    fn lend(&mut self, sizes: Sizes) -> Board<'_> {
        let larger = sizes.blocks > MOST_BLOCKS || sizes.slots > MOST_SLOTS;
        let most = Sizes { blocks: MOST_BLOCKS, slots: MOST_SLOTS };
        let lent = if larger { most } else { sizes };
        Board {
            memory: &mut self.memory[..8 * lent.memory_words()],
            cache: &mut self.cache[..BLOCK * lent.slots],
            table: &mut self.table[..lent.slots],
            record: &mut self.record,
            trap: self.trap,
        }
    }
}

fn pair(high: u8, low: u8) -> usize {
    usize::from(u16::from_be_bytes([high, low]))
}

/// A number as two bytes, big-endian.
pub fn two(number: usize) -> [u8; 2] {
    (number as u16).to_be_bytes()
}

/// A house field.
pub fn field(tag: u8, value: &[u8]) -> Vec<u8> {
    [&[tag], &two(value.len())[..], value].concat()
}

pub fn hex(bytes: &[u8]) -> String {
    bytes.iter().map(|byte| format!("{byte:02x}")).collect()
}

/// The first field's tag and value, and what follows it; none if it is cut short.
pub fn split(input: &[u8]) -> Option<(u8, &[u8], &[u8])> {
    let &[tag, high, low, ref rest @ ..] = input else { return None };
    let length = pair(high, low);
    if rest.len() < length {
        return None;
    }
    let (value, after) = rest.split_at(length);
    Some((tag, value, after))
}

/// The lines of a whole trace.
pub fn run(trace: &[u8], trap: Option<Trap>) -> String {
    let mut bench = Bench::new(trap);
    let mut lines = String::new();
    let mut input = trace;
    let mut number = 0;
    while !input.is_empty() {
        number += 1;
        let Some((tag, value, after)) = split(input) else {
            return lines + &format!("bad {number}\n");
        };
        let Some(reply) = bench.field(tag, value) else {
            return lines + &format!("bad {number}\n");
        };
        lines += &reply.line(number);
        lines.push('\n');
        input = after;
    }
    lines
}

/// A trace in hex, with `/` between its fields.
pub fn hex_fields(trace: &[u8]) -> String {
    let mut parts = Vec::new();
    let mut input = trace;
    while let Some((_, _, after)) = split(input) {
        parts.push(hex(&input[..input.len() - after.len()]));
        input = after;
    }
    if !input.is_empty() {
        parts.push(hex(input));
    }
    parts.join(" / ")
}
