// The door of document 02, No. 4: the calls on plain numbers and byte slices, the record and the table as bytes. A fault makes it a wrong door.
use crate::board::Board;
use crate::parts::{Backup, Number, Phase, Record, Sizes, BLOCK, WORD};
use crate::trace::{field, split, two};
use crate::wrong::Fault;

/// The length of a record's bytes, and where three of its values start.
pub const RECORD: usize = 90;
pub const BACKUP: usize = 80;
pub const PHASE: usize = 84;
pub const COUNT: usize = 88;

/// The buffers of a call. The last is load's destination, store's bytes or begin's registers; the other calls do not take it.
#[derive(Clone, Default, PartialEq, Eq, Debug)]
pub struct Lent {
    pub memory: Vec<u8>,
    pub cache: Vec<u8>,
    pub table: Vec<u8>,
    pub record: Vec<u8>,
    pub last: Vec<u8>,
}

impl Lent {
    pub fn parts(&self) -> [&Vec<u8>; 5] {
        [&self.memory, &self.cache, &self.table, &self.record, &self.last]
    }

    pub fn parts_mut(&mut self) -> [&mut Vec<u8>; 5] {
        [&mut self.memory, &mut self.cache, &mut self.table, &mut self.record, &mut self.last]
    }
}

#[derive(Clone, Copy, PartialEq, Eq, Debug)]
pub enum Kind {
    Load,
    Store,
    Begin,
    Step,
    Format,
    Recover,
}

/// A call with its numbers: block and offset, n, or blocks and slots; the third is p. What a call does not take is 0.
#[derive(Clone, Copy, PartialEq, Eq, Debug)]
pub struct Call {
    pub kind: Kind,
    pub numbers: [u64; 3],
    pub fill: u8,
}

#[derive(Clone, Copy, PartialEq, Eq, Debug)]
pub struct Reply {
    pub number: u64,
    pub words: u64,
    /// Of a recovery: 1 if the record has registers. Else 0.
    pub registers: u64,
}

impl Reply {
    fn refused(number: Number) -> Reply {
        Reply { number: number as u64, words: 0, registers: 0 }
    }
}

/// The record of a new host.
pub fn new_record() -> Record {
    let sizes = Sizes { blocks: 0, slots: 0 };
    Record { sizes, registers: [0; BLOCK], finished: Backup::A, phase: Phase::Off }
}

/// The one encoding of a record.
pub fn encoded(record: &Record) -> Vec<u8> {
    let (phase, count) = match record.phase {
        Phase::Running => (0, 0),
        Phase::Writing(count) => (1, count),
        Phase::Off => (2, 0),
    };
    [
        field(1, &two(record.sizes.blocks)),
        field(2, &two(record.sizes.slots)),
        field(3, &record.registers),
        field(4, &[record.finished.mark() as u8]),
        field(5, &[phase]),
        field(6, &two(count)),
    ]
    .concat()
}

/// The record that the bytes encode, if they encode one.
pub fn decoded(bytes: &[u8]) -> Option<Record> {
    let mut rest = bytes;
    let mut values = Vec::new();
    for expected in 1..=6 {
        let (tag, value, after) = split(rest)?;
        if tag != expected {
            return None;
        }
        values.push(value);
        rest = after;
    }
    let (&[n1, n0], &[b1, b0], &[finished], &[phase], &[c1, c0], []) =
        (values[0], values[1], values[3], values[4], values[5], rest)
    else {
        return None;
    };
    let number = |high, low| usize::from(u16::from_be_bytes([high, low]));
    Some(Record {
        sizes: Sizes { blocks: number(n1, n0), slots: number(b1, b0) },
        registers: values[2].try_into().ok()?,
        finished: match finished {
            1 => Backup::A,
            2 => Backup::B,
            _ => return None,
        },
        phase: match (phase, number(c1, c0)) {
            (0, 0) => Phase::Running,
            (1, count) => Phase::Writing(count),
            (2, 0) => Phase::Off,
            _ => return None,
        },
    })
}

/// A door, right or with a fault.
pub struct Door {
    pub fault: Option<Fault>,
}

impl Door {
    pub fn call(&self, call: Call, lent: &mut Lent) -> Reply {
        let [first, second, p] = call.numbers.map(|number| self.narrowed(number) as usize);
        let sizes = Sizes { blocks: first, slots: second };
        let Some(mut record) = self.record_of(call.kind, &lent.record) else {
            let early = call.kind == Kind::Format && self.has(Fault::SizesFirst) && sizes.outside();
            return Reply::refused(if early { Number::Geometry } else { Number::RecordBytes });
        };
        let mut table = self.words_of(&lent.table);
        let mut board = Board {
            memory: &mut lent.memory,
            cache: &mut lent.cache,
            table: &mut table,
            record: &mut record,
            trap: None,
        };
        let mut registers = None;
        let answer = match call.kind {
            Kind::Load => board.load(first, second, &mut lent.last),
            Kind::Store => board.store(first, second, &lent.last, p),
            Kind::Begin => board.begin(&lent.last, p),
            Kind::Step => board.step(first, p),
            Kind::Format => board.format(sizes, call.fill, p),
            Kind::Recover => {
                let answer;
                (answer, registers) = board.recover(sizes);
                answer
            }
        };
        let (done, cut) = (answer.number == Number::Done, answer.number == Number::Cut);
        if done {
            self.lay_table(&table, &mut lent.table);
        }
        if (done || cut && !self.has(Fault::CutLeavesRecord)) && call.kind != Kind::Load {
            self.lay_record(&record, &mut lent.record);
        }
        if !done && !cut && self.has(Fault::RefusedLays) {
            self.lay_record(&record, &mut lent.record);
        }
        let exist = registers.is_some() || done && call.kind == Kind::Recover && self.has(Fault::AlwaysRegisters);
        Reply { number: answer.number as u64, words: answer.words as u64, registers: u64::from(exist) }
    }

    fn has(&self, fault: Fault) -> bool {
        self.fault == Some(fault)
    }

    fn narrowed(&self, number: u64) -> u64 {
        match self.fault {
            Some(Fault::Narrow16) => number % (1 << 16),
            Some(Fault::Narrow32) => number % (1 << 32),
            _ => number,
        }
    }

    /// The record that a call starts from; none is RECORD BYTES. Recovery asks only for the length.
    fn record_of(&self, kind: Kind, bytes: &[u8]) -> Option<Record> {
        let length = if self.has(Fault::Longer) { RECORD + 1 } else { RECORD };
        let any_length = kind == Kind::Recover && self.has(Fault::RecoveryAnyLength);
        if bytes.len() != length && !any_length {
            return None;
        }
        let unread = match kind {
            Kind::Recover => !self.has(Fault::RecoveryReads),
            Kind::Format => self.has(Fault::FormatUnread),
            _ => false,
        };
        if unread {
            return Some(new_record());
        }
        decoded(&self.mended(&bytes[..RECORD]))
    }

    /// The bytes that a wrong door takes the given ones for.
    fn mended(&self, bytes: &[u8]) -> Vec<u8> {
        let mut bytes = bytes.to_vec();
        let (finished, phase) = (bytes[BACKUP], bytes[PHASE]);
        match self.fault {
            Some(Fault::PhasesExchanged) if phase == 1 || phase == 2 => bytes[PHASE] = 3 - phase,
            Some(Fault::RecordLittleEndian) => exchange_numbers(&mut bytes),
            Some(Fault::CountWhileOff) if phase == 2 => bytes[COUNT..].fill(0),
            Some(Fault::CountWhileRunning) if phase == 0 => bytes[COUNT..].fill(0),
            Some(Fault::AnyPhase) => bytes[PHASE] = phase.min(2),
            Some(Fault::AnyBackup) if finished != 1 => bytes[BACKUP] = 2,
            Some(Fault::TagsUnread) => lay_tags(&mut bytes, &encoded(&new_record())),
            _ => {}
        }
        bytes
    }

    /// The table's words. Bytes that are no whole words get more words than any board has, so that their length is never exact.
    fn words_of(&self, bytes: &[u8]) -> Vec<u64> {
        if bytes.len() % WORD != 0 && !self.has(Fault::TableRoundedDown) {
            return vec![0; 513];
        }
        let big = self.has(Fault::TableBigEndian);
        let words = bytes.chunks_exact(WORD).map(number_in);
        words.map(|word| if big { word.swap_bytes() } else { word }).collect()
    }

    fn lay_table(&self, table: &[u64], bytes: &mut [u8]) {
        for (chunk, &word) in bytes.chunks_exact_mut(WORD).zip(table) {
            let big = self.has(Fault::TableBigEndian);
            chunk.copy_from_slice(&if big { word.to_be_bytes() } else { word.to_le_bytes() });
        }
    }

    fn lay_record(&self, record: &Record, bytes: &mut Vec<u8>) {
        let mut new = encoded(record);
        match self.fault {
            Some(Fault::PhasesExchanged | Fault::RecordLittleEndian) => new = self.mended(&new),
            Some(Fault::Longer) => new.extend(bytes.get(RECORD)),
            Some(Fault::TagsLeft) => lay_tags(&mut new, bytes),
            _ => {}
        }
        *bytes = new;
    }
}

/// The number of a little-endian word.
pub fn number_in(word: &[u8]) -> u64 {
    word.iter().rev().fold(0, |number, &byte| number << 8 | u64::from(byte))
}

fn exchange_numbers(bytes: &mut [u8]) {
    for at in [3, 8, COUNT] {
        bytes.swap(at, at + 1);
    }
}

/// The tags and lengths of one record's bytes over another's.
fn lay_tags(bytes: &mut [u8], from: &[u8]) {
    for start in [0, 5, 10, 77, 81, 85] {
        bytes[start..start + 3].copy_from_slice(&from[start..start + 3]);
    }
}
