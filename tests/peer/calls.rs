// Seeded cases for the door: runs of calls on boards of all sizes, each call as the board would get it and spoiled.
use crate::door::{decoded, encoded, new_record, Call, Door, Kind, Lent};
use crate::parts::{Phase, Record, State, BLOCK, WORD};
use crate::random::Random;
use crate::spoil::Spoiler;

/// A call and what is lent to it.
pub struct Case {
    pub call: Call,
    pub lent: Lent,
    /// Where its buffers start, and the byte around them.
    pub shift: u8,
    pub guard: u8,
}

const RIGHT: Door = Door { fault: None };

/// 2 to the 16 and to the 32: a shorter number would lose them.
pub const TWO_16: u64 = 1 << 16;
pub const TWO_32: u64 = 1 << 32;

/// N and B at the bounds, and between.
const LARGE: [(usize, usize); 7] = [(4096, 1), (1, 512), (4096, 512), (4095, 511), (300, 100), (256, 256), (1, 256)];

/// The cases of run number `index` of a seed.
pub fn run(seed: u64, index: u64) -> Vec<Case> {
    let mut random = Random::of(seed, index);
    let (sizes, turns) =
        if random.chance(2) { (random.pick((4096, 512), &LARGE), 6) } else { (small(&mut random), 25) };
    let record = encoded(&new_record());
    let mut lent = Lent { record, ..Lent::default() };
    fit(&mut random, &mut lent, sizes);
    let mut maker = Maker { random, lent, cases: Vec::new() };
    let (format, last) = maker.call_of(Kind::Format, &new_record());
    maker.make(format, last);
    for _ in 0..turns {
        maker.turn();
    }
    maker.cases
}

/// Sizes of which most boards are.
pub fn small(random: &mut Random) -> (usize, usize) {
    let (blocks, slots) = random.pick((4, 3), &[(4, 3), (4, 3), (4, 3), (6, 4), (6, 4), (24, 10), (64, 16)]);
    (1 + random.below(blocks), 1 + random.below(slots))
}

/// Memory, CACHE and table of the lengths that the sizes ask for.
pub fn fit(random: &mut Random, lent: &mut Lent, (blocks, slots): (usize, usize)) {
    resize(random, &mut lent.memory, WORD * (8 * blocks + 10 * slots + 17));
    resize(random, &mut lent.cache, BLOCK * slots);
    resize(random, &mut lent.table, WORD * slots);
}

/// Another length, with any bytes behind those that were there.
pub fn resize(random: &mut Random, buffer: &mut Vec<u8>, length: usize) {
    buffer.truncate(length);
    buffer.extend(random.bytes(length - buffer.len()));
}

fn fits(lent: &Lent) -> bool {
    decoded(&lent.record).is_some_and(|Record { sizes, .. }| {
        !sizes.outside()
            && lent.memory.len() == WORD * sizes.memory_words()
            && lent.cache.len() == BLOCK * sizes.slots
            && lent.table.len() == WORD * sizes.slots
    })
}

/// What the right door leads from call to call.
struct Maker {
    random: Random,
    lent: Lent,
    cases: Vec<Case>,
}

impl Maker {
    fn turn(&mut self) {
        match self.random.below(20) {
            0 => self.lose_supply(),
            1 | 2 => self.fill_table(),
            _ => {}
        }
        let (call, last) = self.call();
        for _ in 0..self.random.below(3) {
            self.make_spoiled(call, &last);
        }
        let call = self.limited(call, &last);
        self.make(call, last);
    }

    /// The volatile parts become anything.
    fn lose_supply(&mut self) {
        for part in [&mut self.lent.cache, &mut self.lent.table, &mut self.lent.record] {
            *part = self.random.bytes(part.len());
        }
    }

    /// A table as after many stores.
    fn fill_table(&mut self) {
        let Record { sizes, phase, .. } = self.record();
        let first = self.random.below(sizes.blocks);
        for (slot, word) in self.lent.table.chunks_exact_mut(WORD).take(sizes.blocks).enumerate() {
            let before = self.random.pick(State::Clean, &[State::PreHidden, State::PreDirty]);
            let state = match phase {
                Phase::Writing(_) => before,
                Phase::Running | Phase::Off => self.random.pick(before, &[before, State::Dirty, State::Hidden]),
            };
            let entry = state.word((first + slot) % sizes.blocks);
            word.copy_from_slice(&self.random.pick(entry, &[entry, entry, 0]).to_le_bytes());
        }
    }

    /// A case; the board goes on from what it leaves.
    fn make(&mut self, call: Call, last: Vec<u8>) {
        self.lent.last = last;
        self.push(call, self.lent.clone());
        RIGHT.call(call, &mut self.lent);
    }

    /// A spoiled case; now and then the board goes on from there.
    fn make_spoiled(&mut self, call: Call, last: &[u8]) {
        let mut call = self.limited(call, last);
        let mut lent = Lent { last: last.to_vec(), ..self.lent.clone() };
        let sizes = self.record().sizes;
        for _ in 0..self.random.pick(1, &[1, 1, 1, 2, 3]) {
            Spoiler { random: &mut self.random, sizes }.spoil(&mut call, &mut lent);
        }
        self.push(call, lent.clone());
        if self.random.chance(10) {
            RIGHT.call(call, &mut lent);
            if fits(&lent) {
                self.lent = lent;
            }
        }
    }

    fn push(&mut self, call: Call, lent: Lent) {
        let (shift, guard) = (self.random.byte(), self.random.byte());
        self.cases.push(Case { call, lent, shift, guard });
    }

    fn record(&self) -> Record {
        decoded(&self.lent.record).unwrap_or_else(new_record)
    }

    /// A call that suits the phase, its bytes, and an allowance that does not stop it.
    fn call(&mut self) -> (Call, Vec<u8>) {
        let record = self.record();
        // how many in a hundred are load, store, begin, step and format; the rest are recoveries
        let odds = match record.phase {
            Phase::Running => [14, 50, 22, 4, 3],
            Phase::Writing(_) => [14, 30, 5, 42, 2],
            Phase::Off => [5, 5, 5, 5, 20],
        };
        let mut roll = self.random.below(100);
        for (kind, odds) in [Kind::Load, Kind::Store, Kind::Begin, Kind::Step, Kind::Format].into_iter().zip(odds) {
            if roll < odds {
                return self.call_of(kind, &record);
            }
            roll -= odds;
        }
        self.call_of(Kind::Recover, &record)
    }

    fn call_of(&mut self, kind: Kind, record: &Record) -> (Call, Vec<u8>) {
        let p = u64::MAX;
        let (blocks, slots) = self.known_sizes();
        let (offset, length) = self.range();
        let (first, second, p, length) = match kind {
            Kind::Load => (self.block(record.sizes.blocks), offset, 0, length),
            Kind::Store => (self.block(record.sizes.blocks), offset, p, length),
            Kind::Begin => (0, 0, p, BLOCK),
            Kind::Step => (self.step(record), 0, p, 0),
            Kind::Format => (blocks, slots, p, 0),
            Kind::Recover => (blocks, slots, 0, 0),
        };
        (Call { kind, numbers: [first, second, p], fill: self.random.byte() }, self.random.bytes(length))
    }

    /// The sizes that the lengths are exact for.
    fn known_sizes(&self) -> (u64, u64) {
        let slots = self.lent.table.len() / WORD;
        let blocks = (self.lent.memory.len() / WORD).saturating_sub(10 * slots + 17) / 8;
        (blocks as u64, slots as u64)
    }

    fn block(&mut self, blocks: usize) -> u64 {
        let (near, any) = (self.random.below(blocks.min(4)), self.random.below(blocks));
        self.random.pick(near, &[near, any, blocks.saturating_sub(1)]) as u64
    }

    fn range(&mut self) -> (u64, usize) {
        let offset = self.random.below(BLOCK);
        let length = 1 + self.random.below(BLOCK - offset);
        self.random.pick((0, BLOCK), &[(63, 1), (offset as u64, length), (offset as u64, 1)])
    }

    fn step(&mut self, record: &Record) -> u64 {
        let whole = record.sizes.checkpoint_words();
        let rest = match record.phase {
            Phase::Writing(count) => whole.saturating_sub(count),
            Phase::Running | Phase::Off => whole,
        };
        let any = self.random.below(rest + 1) as u64;
        let rest = rest as u64;
        let long = self.random.pick(u64::MAX, &[TWO_16 + any, TWO_32 + any]);
        self.random.pick(rest, &[rest, 0, 1, 2, any, any, rest + 1, rest.saturating_sub(1), long])
    }

    /// The call, now and then with an allowance about as long as its list.
    fn limited(&mut self, call: Call, last: &[u8]) -> Call {
        // few begins have words to store
        if !self.random.chance(if call.kind == Kind::Begin { 90 } else { 35 }) {
            return call;
        }
        let words = RIGHT.call(call, &mut Lent { last: last.to_vec(), ..self.lent.clone() }).words;
        let any = self.random.below(words as usize + 1) as u64;
        let short = self.random.pick(any, &[0, any, words.saturating_sub(1)]);
        let enough = self.random.pick(words, &[words + 1, TWO_16 + any, TWO_32 + any, TWO_32, u64::MAX - 1, 1 << 63]);
        let [first, second, _] = call.numbers;
        Call { numbers: [first, second, self.random.pick(short, &[enough])], ..call }
    }
}
