// Seeded traces: plays of calls on all sizes of board, rereadings under other sizes, forged backups.
use crate::damage;
use crate::parts::{Phase, Sizes};
use crate::random::Random;
use crate::trace::{field, two, Bench};

/// N and B at the limits of the bench's arrays.
const WITHIN: [(usize, usize); 6] = [(1, 1), (64, 16), (64, 1), (1, 16), (63, 15), (2, 1)];

/// Out of bounds, or too large for the arrays: also where a length is that of (64, 16), whole, modulo 256 or 65,536.
#[rustfmt::skip]
const BEYOND: [(usize, usize); 20] = [
    (0, 1), (1, 0), (0, 0), (65, 16), (64, 17), (65, 1), (1, 17), (74, 8), (69, 12), (79, 4), (59, 20), (320, 16),
    (64, 272), (1088, 16), (4096, 512), (4097, 1), (1, 513), (4097, 513), (65535, 65535), (65, 0),
];

/// An offset and a length outside a block.
const ODD_RANGES: [(usize, usize); 8] = [(64, 1), (1, 64), (0, 65), (255, 255), (0, 255), (9, 0), (64, 0), (32, 33)];

/// Trace number `index` of a seed.
pub fn trace(seed: u64, index: u64) -> Vec<u8> {
    let mut random = Random::of(seed, index);
    match index % 1000 {
        7 => return many_fields(),
        8 => return Vec::new(),
        _ => {}
    }
    let kind = random.below(26);
    let mut maker = Maker::new(random);
    match kind {
        0 => return damage::garbage(&mut maker.random),
        1 => maker.play(20),
        2..=9 => maker.ordinary(50),
        10..=12 => maker.ordinary(200),
        13 => maker.ordinary(1000),
        14 | 15 => maker.reread(),
        16..=19 => maker.nested(),
        20..=22 => maker.forged(),
        _ => {
            maker.ordinary(15);
            damage::spoil(&mut maker.random, &mut maker.trace);
        }
    }
    maker.trace
}

/// More fields than 16 bits count.
fn many_fields() -> Vec<u8> {
    let mut trace = field(1, &[0, 1, 0, 1, 9]);
    for _ in 0..66_000 {
        trace.extend(field(7, &[]));
    }
    trace.push(7);
    trace
}

/// Runs the fields that it makes, so that it can aim at the board's limits.
struct Maker {
    random: Random,
    bench: Bench,
    trace: Vec<u8>,
    /// How many calls in a hundred get an allowance, if they have words to store.
    allowed: usize,
    short_steps: bool,
}

impl Maker {
    fn new(mut random: Random) -> Maker {
        let allowed = random.pick(0, &[5, 15, 40]);
        let short_steps = random.chance(70);
        Maker { random, bench: Bench::new(None), trace: Vec::new(), allowed, short_steps }
    }

    fn ordinary(&mut self, turns: usize) {
        let sizes = self.sizes();
        self.format(sizes);
        let turns = 1 + self.random.below(turns);
        self.play(turns);
    }

    /// Plays on one board and reads its bytes under other sizes of the same length, where they show as blocks.
    fn reread(&mut self) {
        let sizes = self.random.pick((6, 1), &[(1, 5), (1, 13), (2, 9), (3, 16), (4, 6), (11, 5), (40, 16)]);
        self.format(sizes);
        for _ in 0..3 {
            let turns = self.random.below(40);
            self.play(turns);
            if self.random.chance(50) {
                self.cut_begin();
            }
            let sizes = self.twin();
            self.resize(sizes);
        }
        let sizes = self.sizes();
        self.resize(sizes);
        self.play(10);
    }

    /// Plays on a small board at the front of a large one's HOME, where all its words show as blocks.
    fn nested(&mut self) {
        self.format_now((64, 16));
        let small = (1 + self.random.below(6), 1 + self.random.below(6));
        self.format(small);
        for _ in 0..4 {
            let turns = self.random.below(25);
            self.play(turns);
            if self.random.chance(30) {
                self.cut_begin();
            }
            self.resize((64, 16));
            self.resize(small);
        }
    }

    /// A begin cut short, mostly with blocks in CACHE to copy.
    fn cut_begin(&mut self) {
        self.field(4, &[0]);
        for _ in 0..8 {
            self.store();
        }
        self.field(5, &two(65535));
        let p = self.random.below(24);
        self.field(6, &two(p));
        self.field(4, &[0]);
    }

    /// Blocks of a larger board that read as the backups and the mark of a smaller one, whole or with a fault.
    fn forged(&mut self) {
        let slots = self.random.pick(1, &[2, 3, 4, 16]);
        let blocks = slots + 2 + self.random.below(3);
        let (a, b, mark) = (8, 16 + slots, 16 + 2 * slots);
        let length = (mark / 8 + 1) * 8;
        let mut words: Vec<u64> = (0..length).map(|i| (i % blocks) as u64 * 256 + 1).collect();
        for word in &mut words {
            *word = self.random.pick(*word, &[0]);
        }
        words[mark] = self.random.pick(1, &[2, 3]);
        match self.random.below(10) {
            0..=3 => {}
            4 | 5 => words[mark] = self.random.pick(0, &[4, 256, 257, 258, 259, 1 << 32 | 1, 1 << 32 | 3, 1 << 63 | 2]),
            _ => {
                let (any, other) = (self.random.below(slots), self.random.below(slots));
                let slot = self.random.pick(any, &[0, slots - 1]);
                let table = self.random.pick(a, &[b]);
                let (twice, limit) = (words[table + other], 256 * blocks as u64 + 1);
                let odd = self.random.pick(2, &[1, 3, 4, 5, 256, 257, 513, limit - 256]);
                let far = self.random.pick(1 << 32 | 1, &[1 << 40 | 257, 1 << 63 | 1]);
                words[table + slot] = self.random.pick(twice, &[twice, limit, odd, far]);
            }
        }
        // The larger board's CHECKPOINT starts where the smaller one's backups do.
        let larger = (blocks + slots, length / 8 + self.random.below(4));
        self.format_now(larger);
        for (block, part) in words.chunks(8).enumerate() {
            let bytes: Vec<u8> = part.iter().flat_map(|word| word.to_le_bytes()).collect();
            self.field(2, &[&two(block)[..], &[0], &bytes].concat());
        }
        self.resize((blocks, slots));
        self.play(30);
    }

    fn play(&mut self, turns: usize) {
        for _ in 0..turns {
            let (step, begin, recover, format) = match self.bench.phase() {
                Phase::Running => (3, 17, 3, 1),
                Phase::Writing(_) => (35, 3, 3, 1),
                Phase::Off => (5, 5, 50, 15),
            };
            match self.random.below(100) {
                roll if roll < step => self.step(),
                roll if roll < step + begin => self.begin(),
                roll if roll < step + begin + recover => self.recover(),
                roll if roll < step + begin + recover + format => self.sized(Maker::format),
                _ => match self.random.below(60) {
                    0 => self.sized(Maker::resize),
                    1..=3 => self.sweep(),
                    4..=18 => self.load(),
                    _ => self.store(),
                },
            }
        }
    }

    fn field(&mut self, tag: u8, value: &[u8]) {
        self.trace.extend(field(tag, value));
        self.bench.field(tag, value);
    }

    /// A call that can store words, now and then with an allowance about as long as its list.
    fn call(&mut self, tag: u8, value: &[u8]) {
        let mut ahead = self.bench.clone();
        ahead.field(6, &two(usize::MAX));
        let words = ahead.field(tag, value).map_or(0, |reply| reply.answer.words);
        let percent = match (tag, words) {
            (_, 0) => self.allowed / 4,
            (4, _) => 2 * self.allowed,
            _ => self.allowed,
        };
        if self.random.chance(percent) {
            let (any, wide) = (self.random.below(words + 1), self.random.below(65536));
            let p = self.random.pick(0, &[words, words.saturating_sub(1), words + 1, any, any, wide, 256, 65535]);
            match self.random.below(12) {
                0 => self.field(6, &two(wide)),
                1 => self.load(),
                _ => {}
            }
            self.field(6, &two(p));
            match self.random.below(12) {
                0 => self.load(),
                1 => self.recover(),
                _ => {}
            }
        }
        self.field(tag, value);
    }

    fn format(&mut self, sizes: (usize, usize)) {
        let value = self.format_value(sizes);
        self.call(1, &value);
    }

    fn format_now(&mut self, sizes: (usize, usize)) {
        let value = self.format_value(sizes);
        self.field(1, &value);
    }

    /// A format cut before its first word: the old bytes under other sizes.
    fn resize(&mut self, sizes: (usize, usize)) {
        self.field(6, &two(0));
        self.format_now(sizes);
        self.field(7, &[]);
        self.sweep();
    }

    fn format_value(&mut self, sizes: (usize, usize)) -> Vec<u8> {
        let any = self.random.byte();
        let fill = self.random.pick(any, &[0, 1, 0xee]);
        [&two(sizes.0)[..], &two(sizes.1), &[fill]].concat()
    }

    fn sized(&mut self, call: fn(&mut Maker, (usize, usize))) {
        let (any, twin, same) = (self.sizes(), self.twin(), self.bench.sizes());
        let sizes = self.random.pick(any, &[twin, (same.blocks, same.slots)]);
        call(self, sizes);
    }

    /// Sizes with the memory length of the board's: 5 blocks are as long as 4 slots.
    fn twin(&mut self) -> (usize, usize) {
        let Sizes { blocks, slots } = self.bench.sizes();
        let (most, least) = (slots.saturating_sub(1) / 4, blocks.saturating_sub(1) / 5);
        let any = self.random.below(most + least + 1);
        let fewer = self.random.pick(any, &[0]);
        (blocks + 5 * most - 5 * fewer, slots - 4 * most + 4 * fewer)
    }

    fn sizes(&mut self) -> (usize, usize) {
        let (blocks, slots) = match self.random.below(12) {
            0..=5 => (4, 3),
            6..=8 => (12, 6),
            9 => (64, 16),
            10 => return self.random.pick((2, 2), &WITHIN),
            _ => return self.random.pick((2, 2), &BEYOND),
        };
        (1 + self.random.below(blocks), 1 + self.random.below(slots))
    }

    fn store(&mut self) {
        let block = self.block();
        let (offset, length) = self.range();
        let mut bytes = self.random.bytes(length.clamp(1, 64));
        if self.random.chance(10) {
            bytes.fill(0);
            bytes[0] = self.random.pick(0, &[1, 2]);
        }
        self.call(2, &[&two(block)[..], &[offset as u8], &bytes].concat());
    }

    fn load(&mut self) {
        let block = self.block();
        let (offset, length) = self.range();
        self.field(3, &[&two(block)[..], &[offset as u8, length as u8]].concat());
    }

    /// Loads whole blocks: all of a small board, the ends of a large one, and one while Off.
    fn sweep(&mut self) {
        if self.bench.phase() == Phase::Off {
            return self.load();
        }
        let blocks = self.bench.sizes().blocks;
        for block in (0..blocks).filter(|&block| block < 16 || block + 8 > blocks) {
            self.field(3, &[&two(block)[..], &[0, 64]].concat());
        }
    }

    fn block(&mut self) -> usize {
        let blocks = self.bench.sizes().blocks;
        if self.random.chance(4) {
            return self.random.pick(blocks, &[blocks + 1, 63, 64, 255, 256, 4096, 65535]);
        }
        let (near, any) = (self.random.below(blocks.min(5)), self.random.below(blocks));
        self.random.pick(near, &[near, near, any, blocks.saturating_sub(1)])
    }

    /// An offset and a length, mostly inside a block.
    fn range(&mut self) -> (usize, usize) {
        if self.random.chance(5) {
            return self.random.pick((63, 2), &ODD_RANGES);
        }
        let offset = self.random.below(64);
        let length = 1 + self.random.below(64 - offset);
        self.random.pick((0, 64), &[(63, 1), (0, 1), (offset, 64 - offset), (offset, length), (offset, length)])
    }

    fn begin(&mut self) {
        let any = self.random.byte();
        let byte = self.random.pick(any, &[0, any, 0]);
        self.call(4, &[byte]);
    }

    fn step(&mut self) {
        let whole = self.bench.sizes().slots + 9;
        let rest = match self.bench.phase() {
            Phase::Writing(count) => whole.saturating_sub(count),
            Phase::Running | Phase::Off => whole,
        };
        let any = self.random.below(rest + 1);
        let n = if self.short_steps {
            self.random.pick(1, &[0, 1, 2, 3, any, rest.saturating_sub(1), 256])
        } else {
            self.random.pick(rest, &[rest.saturating_sub(1), rest + 1, whole, any, 9, 65535])
        };
        self.call(5, &two(n));
    }

    fn recover(&mut self) {
        self.field(7, &[]);
        if self.random.chance(40) {
            self.sweep();
        }
    }
}
