// The peer's own tests: document 01's example, its lettered cases, the registers or none and the short stores of document 02, and the numbers that
// no trace can reach.
use crate::board::{Answer, Board};
use crate::parts::{Backup, Number, Phase, Record, Sizes, BLOCK};
use crate::{make, trace};

const DOCUMENT: &str = include_str!("../../docs/01-scope.md");
const EXAMPLE: &str = include_str!("../../docs/example.trace");
const UNLIMITED: usize = usize::MAX;

/// Lent parts of any lengths.
#[derive(Clone, PartialEq, Debug)]
struct Lent {
    memory: Vec<u8>,
    cache: Vec<u8>,
    table: Vec<u64>,
    record: Record,
}

impl Lent {
    /// Zero bytes, exact for the sizes, and a record of sizes 0.
    fn exact(blocks: usize, slots: usize) -> Lent {
        let sizes = Sizes { blocks: 0, slots: 0 };
        Lent {
            memory: vec![0; 8 * (8 * blocks + 10 * slots + 17)],
            cache: vec![0; BLOCK * slots],
            table: vec![0; slots],
            record: Record { sizes, registers: [0; BLOCK], finished: Backup::A, phase: Phase::Running },
        }
    }

    fn formatted(blocks: usize, slots: usize) -> Lent {
        let mut lent = Lent::exact(blocks, slots);
        lent.board().format(Sizes { blocks, slots }, 0xee, UNLIMITED);
        lent
    }

    fn board(&mut self) -> Board<'_> {
        Board {
            memory: &mut self.memory,
            cache: &mut self.cache,
            table: &mut self.table,
            record: &mut self.record,
            trap: None,
        }
    }

    fn store(&mut self, block: usize, offset: usize, length: usize) -> Answer {
        self.board().store(block, offset, &vec![7; length], UNLIMITED)
    }

    fn load_number(&mut self) -> Number {
        self.board().load(0, 0, &mut [0]).number
    }

    fn lay(&mut self, word: usize, number: u64) {
        self.memory[8 * word..8 * word + 8].copy_from_slice(&number.to_le_bytes());
    }
}

const SIZES: Sizes = Sizes { blocks: 2, slots: 1 };

fn done(words: usize) -> Answer {
    Answer { number: Number::Done, words }
}

fn refused(number: Number) -> Answer {
    Answer { number, words: 0 }
}

fn bytes_of(text: &str) -> Vec<u8> {
    let lines = text.lines().map(|line| line.split('#').next().unwrap_or(""));
    let digits: Vec<u32> = lines.flat_map(str::chars).filter_map(|digit| digit.to_digit(16)).collect();
    digits.chunks(2).map(|pair| pair.iter().fold(0, |byte, digit| 16 * byte + *digit as u8)).collect()
}

#[test]
fn the_documents_example() {
    let (_, input) = DOCUMENT.split_once("Input:\n\n").unwrap();
    let (input, output) = input.split_once("\n\nWhole output:\n\n```\n").unwrap();
    let (output, _) = output.split_once("```").unwrap();
    let input = bytes_of(input);
    assert_eq!(input.len(), 65);
    // document 02, No. 2: "In the bench trace line 10 ends in `--`"
    let (before, after) = output.split_once("\n10 0 0 00\n").unwrap();
    assert_eq!(trace::run(&input, None), format!("{before}\n10 0 0 --\n{after}"));
    assert_eq!(bytes_of(EXAMPLE), input);
}

#[test]
fn a_memory_length() {
    for (words, number) in [(42, Number::Buffer), (43, Number::Done), (44, Number::Buffer)] {
        let mut lent = Lent::exact(2, 1);
        lent.memory.resize(8 * words, 0);
        assert_eq!(lent.board().format(SIZES, 0, UNLIMITED).number, number);
    }
}

#[test]
fn b_sizes() {
    let all = [(0, 1), (1, 1), (4096, 1), (4097, 1), (1, 0), (1, 512), (1, 513)];
    let passes = [false, true, true, false, false, true, false];
    for ((blocks, slots), passes) in all.into_iter().zip(passes) {
        let answer = Lent::exact(blocks, slots).board().format(Sizes { blocks, slots }, 0, UNLIMITED);
        let expected = if passes { done(8 * blocks + slots + 10) } else { refused(Number::Geometry) };
        assert_eq!(answer, expected);
    }
}

#[test]
fn c_offset_and_length() {
    let cases =
        [(63, 1, true), (63, 2, false), (0, 64, true), (0, 65, false), (1, 64, false), (64, 1, false), (9, 0, false)];
    for (offset, length, passes) in cases {
        let expected = if passes { done(8) } else { refused(Number::Range) };
        assert_eq!(Lent::formatted(2, 1).store(0, offset, length), expected);
    }
}

#[test]
fn d_block() {
    assert_eq!(Lent::formatted(2, 1).store(1, 0, 1), done(8));
    assert_eq!(Lent::formatted(2, 1).store(2, 0, 1), refused(Number::Range));
}

#[test]
fn e_to_j_a_format_and_two_checkpoints() {
    let mut lent = Lent::exact(2, 1);
    assert_eq!(lent.board().format(SIZES, 0xee, UNLIMITED), done(27));
    assert_eq!((lent.store(1, 0, 1), lent.table[0]), (done(8), 258));
    assert_eq!((lent.board().begin(&[7; BLOCK], UNLIMITED), lent.table[0]), (done(0), 257));
    assert_eq!(lent.store(0, 0, 1), refused(Number::Full));
    assert_eq!((lent.store(1, 1, 1), lent.table[0]), (done(0), 260));
    assert_eq!(lent.board().begin(&[7; BLOCK], UNLIMITED), refused(Number::Busy));
    assert_eq!((lent.board().step(9, UNLIMITED), lent.record.phase), (done(9), Phase::Writing(9)));
    assert_eq!((lent.board().step(1, UNLIMITED), lent.record.phase), (done(1), Phase::Running));
    assert_eq!(lent.record.finished, Backup::B);
    assert_eq!(lent.board().step(1, UNLIMITED), refused(Number::Idle));
    assert_eq!((lent.board().begin(&[8; BLOCK], UNLIMITED), lent.table[0]), (done(8), 0));
    let home: Vec<u8> = [&[7, 7][..], &[0xee; 62]].concat();
    assert_eq!(lent.memory[64..128], home);
}

#[test]
fn checks_in_their_order() {
    let mut lent = Lent::formatted(2, 1);
    lent.table[0] = 256 * 2 + 1;
    assert_eq!(lent.load_number(), Number::Table);
    lent.record.phase = Phase::Off;
    assert_eq!(lent.load_number(), Number::Off);
    lent.record.phase = Phase::Writing(10);
    assert_eq!(lent.load_number(), Number::Record);
    lent.cache.push(0);
    assert_eq!(lent.load_number(), Number::Buffer);
    lent.record.sizes.blocks = 0;
    assert_eq!(lent.load_number(), Number::Geometry);
}

#[test]
fn table_words() {
    let well_formed = [0, 1, 2, 3, 4, 5, 257, 261];
    for word in [0, 1, 2, 3, 4, 5, 6, 256, 257, 261, 262, 513, 1 << 40 | 1] {
        let passes = well_formed.contains(&word);
        let mut lent = Lent::formatted(2, 1);
        lent.table[0] = word;
        assert_eq!(lent.load_number() == Number::Done, passes);
        lent.record.phase = Phase::Writing(9);
        assert_eq!(lent.load_number() == Number::Done, passes && word % 256 != 2 && word % 256 != 3);
    }
}

#[test]
fn the_lowest_slot_that_names_a_block() {
    let mut lent = Lent::formatted(2, 3);
    lent.table = vec![0, 4, 5];
    lent.cache[64..192].copy_from_slice(&[[1; 64], [2; 64]].concat());
    let mut byte = [0];
    assert_eq!((lent.board().load(0, 0, &mut byte), byte), (done(0), [1]));
}

#[test]
fn lent_lengths() {
    assert_eq!(Lent::formatted(2, 1).board().begin(&[0; 63], UNLIMITED), refused(Number::Buffer));
    let mut lent = Lent::formatted(2, 1);
    lent.table.push(0);
    assert_eq!(lent.store(2, 0, 1), refused(Number::Buffer));
    assert_eq!(lent.board().recover(SIZES), (refused(Number::Buffer), None));
}

#[test]
fn marks_and_backups() {
    // With N = 2 and B = 2: table words of A at 40 and 41, the mark at 52.
    #[rustfmt::skip]
    let cases = [
        (1, 0, 0, Number::Done), (1, 1, 257, Number::Done), (1, 1, 1, Number::Backup), (1, 513, 0, Number::Backup),
        (1, 0, 2, Number::Backup), (1, 256, 0, Number::Backup), (0, 0, 0, Number::NoCheckpoint),
        (3, 1, 257, Number::Done), (3, 1, 1, Number::Backup), (4, 1, 1, Number::NoCheckpoint),
        (257, 0, 0, Number::NoCheckpoint), (259, 0, 0, Number::NoCheckpoint), (2, 1, 1, Number::Done),
    ];
    for (mark, first, second, number) in cases {
        let mut lent = Lent::formatted(2, 2);
        for (word, value) in [(40, first), (41, second), (52, mark)] {
            lent.lay(word, value);
        }
        assert_eq!(lent.board().recover(Sizes { blocks: 2, slots: 2 }).0.number, number);
    }
}

#[test]
fn registers_or_none() {
    // With N = 2 and B = 1: the registers of A from word 24 on, those of B from 33 on, the mark at 42.
    let mut lent = Lent::formatted(2, 1);
    for (mark, finished, registers) in [(3, Backup::A, None), (1, Backup::A, Some(7)), (2, Backup::B, Some(9))] {
        lent.memory[8 * 24..8 * 32].fill(7);
        lent.memory[8 * 33..8 * 41].fill(9);
        lent.lay(41, 0);
        lent.lay(42, mark);
        let (answer, given) = lent.board().recover(SIZES);
        assert_eq!((answer.number, given), (Number::Done, registers.map(|byte| [byte; BLOCK])));
        assert_eq!((lent.record.finished, lent.record.registers), (finished, [registers.unwrap_or(0); BLOCK]));
    }
}

#[test]
fn the_checkpoint_after_a_format_goes_to_b() {
    let mut lent = Lent::formatted(2, 1);
    assert_eq!(lent.board().recover(SIZES).1, None);
    lent.board().begin(&[5; BLOCK], UNLIMITED);
    let before = lent.memory.clone();
    lent.board().step(9, UNLIMITED);
    assert_eq!((&lent.memory[..8 * 33], lent.memory[8 * 42]), (&before[..8 * 33], 3));
    lent.board().step(1, UNLIMITED);
    assert_eq!((lent.memory[8 * 42], lent.board().recover(SIZES).1), (2, Some([5; BLOCK])));
}

#[test]
fn a_cut_stores_the_front_of_the_list() {
    let mut lent = Lent::formatted(2, 1);
    let before = lent.clone();
    let answer = lent.board().store(1, 0, &[5; 64], 3);
    assert_eq!(answer, Answer { number: Number::Cut, words: 3 });
    let mut after = before;
    after.memory[128..152].fill(5);
    after.record.phase = Phase::Off;
    assert_eq!(lent, after);
}

#[test]
fn a_store_that_finds_dirty_or_hidden_stores_the_words_that_its_bytes_touch() {
    let mut lent = Lent::formatted(2, 1);
    assert_eq!(lent.store(1, 7, 2), done(8));
    let ranges = [((0, 1), 1), ((7, 1), 1), ((7, 2), 2), ((8, 8), 1), ((8, 9), 2), ((0, 64), 8), ((63, 1), 1)];
    for ((offset, length), words) in ranges {
        assert_eq!(lent.store(1, offset, length), done(words));
    }
    // clean keeps its 8 words, and so does pre-hidden; the hidden entry after each has fewer
    lent.board().begin(&[0; BLOCK], UNLIMITED);
    lent.board().step(10, UNLIMITED);
    assert_eq!((lent.store(1, 0, 1), lent.store(1, 0, 1)), (done(8), done(1)));
    let mut lent = Lent::formatted(2, 1);
    lent.store(1, 0, 1);
    lent.board().begin(&[0; BLOCK], UNLIMITED);
    assert_eq!(lent.store(1, 0, 1), done(0));
    lent.board().step(10, UNLIMITED);
    assert_eq!((lent.store(1, 0, 1), lent.store(1, 63, 1)), (done(8), done(1)));
}

#[test]
fn a_cut_short_store() {
    let mut lent = Lent::formatted(2, 1);
    lent.store(1, 0, 1);
    let mut after = lent.clone();
    assert_eq!(lent.board().store(1, 14, &[5; 20], 2), Answer { number: Number::Cut, words: 2 });
    after.memory[128 + 14..128 + 24].fill(5);
    after.record.phase = Phase::Off;
    assert_eq!(lent, after);
}

#[test]
fn a_cut_format() {
    for (p, mark) in [(0, 3), (1, 0), (26, 0)] {
        let mut lent = Lent::formatted(2, 1);
        assert_eq!(lent.board().format(SIZES, 9, p), Answer { number: Number::Cut, words: p });
        assert_eq!((lent.memory[8 * 42], lent.record.phase), (mark, Phase::Off));
    }
    let mut lent = Lent::formatted(6, 1);
    lent.cache.resize(5 * BLOCK, 0);
    lent.table.resize(5, 0);
    lent.board().format(Sizes { blocks: 1, slots: 5 }, 9, 0);
    assert_eq!(lent.record.sizes, Sizes { blocks: 1, slots: 5 });
}

#[test]
fn a_short_field_or_a_wrong_length_ends_the_run() {
    #[rustfmt::skip]
    let cases: [(&[u8], &str); 9] = [
        (&[], ""), (&[7], "bad 1\n"), (&[7, 0], "bad 1\n"), (&[7, 0, 0], "1 1 0\n"), (&[7, 0, 1, 0], "bad 1\n"),
        (&[6, 0, 2, 0, 0, 8, 0, 0], "1 0 0\nbad 2\n"), (&[2, 0, 3, 0, 0, 0], "bad 1\n"), (&[0, 0, 0], "bad 1\n"),
        (&[7, 0, 0, 5, 0, 2, 0], "1 1 0\nbad 2\n"),
    ];
    for (bytes, lines) in cases {
        assert_eq!(trace::run(bytes, None), lines);
    }
}

#[test]
fn larger_sizes_than_the_arrays() {
    #[rustfmt::skip]
    let cases: [(u16, u16, &str); 6] = [
        (64, 16, "1 0 538\n"), (65, 16, "1 2 0\n"), (64, 17, "1 2 0\n"), (74, 8, "1 2 0\n"), (65, 0, "1 1 0\n"), (4097, 16, "1 1 0\n"),
    ];
    for (blocks, slots, line) in cases {
        let value = [&[1, 0, 5][..], &blocks.to_be_bytes(), &slots.to_be_bytes(), &[0]].concat();
        assert_eq!(trace::run(&value, None), line);
    }
}

#[test]
fn a_seed_always_makes_the_same_traces() {
    assert_eq!(make::trace(5, 70), make::trace(5, 70));
    assert_ne!(make::trace(5, 70), make::trace(6, 70));
}
