// Spoiled cases for the door: other lengths, other bytes and other numbers than a board would get.
use crate::calls::{fit, resize, small, TWO_16, TWO_32};
use crate::door::{decoded, encoded, new_record, number_in, Call, Kind, Lent, BACKUP, COUNT, PHASE, RECORD};
use crate::parts::{Backup, Phase, Sizes, State, BLOCK, WORD};
use crate::random::Random;

/// N and B at and beyond the bounds.
#[rustfmt::skip]
const BEYOND: [(usize, usize); 12] = [
    (0, 1), (1, 0), (0, 0), (4097, 1), (1, 513), (4097, 513), (4096, 513), (4097, 512), (2, 65535), (65535, 2), (256, 0), (0, 256),
];

/// Places in a record: tags, lengths, and the values that are not registers.
const PLACES: [usize; 17] = [0, 1, 2, 5, 7, 10, 12, 77, 79, 80, 81, 83, 84, 85, 87, 88, 89];

/// Changes one thing of a case. The sizes are the board's.
pub struct Spoiler<'a> {
    pub random: &'a mut Random,
    pub sizes: Sizes,
}

impl Spoiler<'_> {
    pub fn spoil(&mut self, call: &mut Call, lent: &mut Lent) {
        match self.random.below(16) {
            0..=2 => self.length(lent),
            3 => self.byte(&mut lent.record),
            4 | 5 => self.encoding(&mut lent.record),
            6..=8 => self.record(lent),
            9 | 10 => self.table(&mut lent.table),
            11 => self.memory(&mut lent.memory),
            12..=14 => self.number(call),
            _ => self.everything(lent),
        }
    }

    fn length(&mut self, lent: &mut Lent) {
        let Some(buffer) = lent.parts_mut().into_iter().nth(self.random.below(5)) else { return };
        let (length, any) = (buffer.len(), self.random.below(200));
        let (more, less) = (self.random.pick(1, &[1, 8, 64]), self.random.pick(1, &[1, 8, 64]));
        let fixed = self.random.pick(0, &[65, RECORD, RECORD + 1, WORD * 513, BLOCK * 513]);
        let (more, less) = (length + more, length.saturating_sub(less));
        let other = self.random.pick(any, &[more, more, less, less, 2 * length, length / 2, fixed]);
        resize(self.random, buffer, other);
    }

    fn byte(&mut self, record: &mut [u8]) {
        let any = self.random.below(record.len());
        let Some(byte) = record.get_mut(self.random.pick(any, &PLACES)) else { return };
        *byte = self.random.pick(byte.wrapping_add(1), &[byte.wrapping_sub(1), 0, 1, 2, 3, 255]);
    }

    /// Bytes that mostly encode no record.
    fn encoding(&mut self, record: &mut Vec<u8>) {
        resize(self.random, record, RECORD);
        let any = self.random.byte();
        match self.random.below(11) {
            0 => *record = self.random.bytes(RECORD),
            1 => record.fill(any),
            2 => record.truncate(self.random.below(RECORD)),
            3 => record.push(any),
            4 => record[PHASE] = self.random.pick(any, &[3, 4, 255]),
            5 => record[BACKUP] = self.random.pick(any, &[0, 3, 255]),
            // a count while Running or Off
            6..=8 => {
                record[PHASE] = self.random.pick(0, &[2]);
                record[COUNT + self.random.below(2)] = any.max(1);
            }
            // N and B in the other order
            9 => record[..10].rotate_left(5),
            // a length more for N, one less for the registers
            _ => (record[2], record[12]) = (3, 63),
        }
    }

    /// Another record; for other sizes mostly with the lengths that they ask for.
    fn record(&mut self, lent: &mut Lent) {
        let mut record = decoded(&lent.record).unwrap_or_else(new_record);
        let slots = record.sizes.slots;
        let within = self.random.below(slots + 9);
        match self.random.below(10) {
            0 | 1 => record.phase = Phase::Off,
            2 => record.phase = Phase::Running,
            3 => record.phase = Phase::Writing(self.random.pick(within, &[0, slots + 8])),
            4 | 5 => record.phase = Phase::Writing(self.random.pick(slots + 9, &[slots + 10, slots + 265, 65535])),
            6 => record.finished = record.finished.other(),
            _ => {
                let near = small(self.random);
                let sizes = self.random.pick(near, &BEYOND);
                record.sizes = Sizes { blocks: sizes.0, slots: sizes.1 };
                // the most take time
                let percent = match sizes.0.max(sizes.1) {
                    0..=999 => 70,
                    1000..=9999 => 7,
                    _ => 0,
                };
                if self.random.chance(percent) {
                    fit(self.random, lent, sizes);
                }
            }
        }
        lent.record = encoded(&record);
    }

    fn table(&mut self, table: &mut [u8]) {
        let slot = self.random.below(table.len() / WORD);
        let Some(word) = table.get_mut(WORD * slot..WORD * (slot + 1)) else { return };
        let old = number_in(word);
        let (block, limit) = (self.random.below(self.sizes.blocks) as u64, self.sizes.blocks as u64);
        let (state, code) = (1 + self.random.below(5) as u64, u64::from(self.random.byte()));
        let entry = 256 * block + self.random.pick(state, &[state, code, 0, 6]);
        let far = self.random.pick(limit, &[limit, 65536, TWO_32, 1 << 54]);
        let new =
            self.random.pick(entry, &[entry, 256 * far + state, 256 * far, old.swap_bytes(), old | 1 << 63, u64::MAX]);
        word.copy_from_slice(&new.to_le_bytes());
    }

    /// Another mark, another word of a backup's table, or any other word.
    fn memory(&mut self, memory: &mut [u8]) {
        let sizes = self.sizes;
        if sizes.outside() || memory.len() != WORD * sizes.memory_words() {
            return;
        }
        let backup = self.random.pick(Backup::A, &[Backup::B]);
        let table = sizes.registers(backup) + 8;
        let (slot, other) = (table + self.random.below(sizes.slots), table + self.random.below(sizes.slots));
        let twice = number_in(&memory[WORD * other..WORD * (other + 1)]);
        let (block, any) = (self.random.below(sizes.blocks), self.random.below(sizes.memory_words()));
        let (place, word) = match self.random.below(8) {
            0 | 1 => (sizes.mark(), self.random.pick(0, &[4, 255, 256, 257, 258, 259, TWO_32 + 1, 1 << 63 | 3])),
            2 => (sizes.mark(), self.random.pick(1, &[2, 3])),
            3 => (slot, self.random.pick(State::Clean.word(block), &[twice])),
            4 => (slot, State::Clean.word(sizes.blocks)),
            5 => (slot, self.random.pick(2, &[3, 4, 5, 6, 256, TWO_32 + 1, 1 << 63 | 257, u64::MAX])),
            _ => (any, self.random.next()),
        };
        memory[WORD * place..WORD * (place + 1)].copy_from_slice(&word.to_le_bytes());
        // so that a recovery reads that table
        if place == slot && self.random.chance(70) {
            memory[WORD * sizes.mark()..].copy_from_slice(&backup.mark().to_le_bytes());
        }
    }

    /// One of the call's numbers becomes any, one near a bound, or one that a shorter number would take for it.
    fn number(&mut self, call: &mut Call) {
        let which = match call.kind {
            Kind::Load | Kind::Recover => self.random.below(2),
            Kind::Store | Kind::Format => self.random.below(3),
            Kind::Begin => 2,
            Kind::Step => self.random.pick(0, &[2]),
        };
        let number = call.numbers[which];
        let near = [number.wrapping_add(1), number.wrapping_sub(1), number | 256];
        let longer = [TWO_16, TWO_32, 1 << 63].map(|high| high + number % TWO_16);
        let last = [u64::MAX, u64::MAX - self.random.below(70) as u64, 1 << 63, TWO_32 - 1, TWO_32];
        let bounds = [0, 1, 63, 64, 65, 511, 512, 513, 4095, 4096, 4097, 65535, 65536];
        call.numbers[which] = match self.random.below(5) {
            0 => self.random.next(),
            1 => self.random.pick(number, &near),
            2 => self.random.pick(number, &longer),
            3 => self.random.pick(number, &last),
            _ => self.random.pick(number, &bounds),
        };
    }

    /// Any bytes, of any lengths or of those that were there.
    fn everything(&mut self, lent: &mut Lent) {
        for buffer in lent.parts_mut() {
            let (same, any) = (buffer.len(), self.random.below(400));
            let length = self.random.pick(same, &[same, same, any]);
            *buffer = self.random.bytes(length);
        }
    }
}
