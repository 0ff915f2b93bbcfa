// The door's own tests: the encoding of document 02, No. 4, and the number that comes before all others.
use crate::calls;
use crate::door::{decoded, encoded, new_record, Call, Door, Kind, Lent, Reply};
use crate::parts::{Backup, Phase, Record, Sizes};

const UNLIMITED: u64 = u64::MAX;

/// The bytes of a record, by the sentence of the document.
fn bytes_of(blocks: [u8; 2], slots: [u8; 2], registers: u8, backup: u8, phase: u8, count: [u8; 2]) -> Vec<u8> {
    let mut bytes = vec![1, 0, 2, blocks[0], blocks[1], 2, 0, 2, slots[0], slots[1], 3, 0, 64];
    bytes.extend([registers; 64]);
    bytes.extend([4, 0, 1, backup, 5, 0, 1, phase, 6, 0, 2, count[0], count[1]]);
    bytes
}

fn call(kind: Kind, numbers: [u64; 3], lent: &mut Lent) -> Reply {
    Door { fault: None }.call(Call { kind, numbers, fill: 0xee }, lent)
}

fn number(kind: Kind, numbers: [u64; 3], lent: &mut Lent) -> u64 {
    call(kind, numbers, lent).number
}

/// Zero bytes for N = 2 and B = 1, and a new host's record.
fn lent() -> Lent {
    let record = bytes_of([0, 0], [0, 0], 0, 1, 2, [0, 0]);
    Lent { memory: vec![0; 8 * 43], cache: vec![0; 64], table: vec![0; 8], record, last: vec![7] }
}

fn formatted() -> Lent {
    let mut lent = lent();
    assert_eq!(call(Kind::Format, [2, 1, UNLIMITED], &mut lent), Reply { number: 0, words: 27, registers: 0 });
    lent
}

#[test]
fn a_new_host() {
    let bytes = lent().record;
    assert_eq!((bytes.len(), &bytes), (90, &encoded(&new_record())));
    assert_eq!(decoded(&bytes), Some(new_record()));
    assert_eq!(number(Kind::Load, [0, 0, 0], &mut lent()), 1);
    assert_eq!(formatted().record, bytes_of([0, 2], [0, 1], 0, 1, 0, [0, 0]));
}

#[test]
fn numbers_of_a_record_are_big_endian() {
    let sizes = Sizes { blocks: 0x1234, slots: 0x5678 };
    let record = Record { sizes, registers: [9; 64], finished: Backup::B, phase: Phase::Writing(0x9abc) };
    let bytes = bytes_of([0x12, 0x34], [0x56, 0x78], 9, 2, 1, [0x9a, 0xbc]);
    assert_eq!((encoded(&record), decoded(&bytes)), (bytes, Some(record)));
}

#[test]
fn bytes_that_encode_no_record() {
    let good = bytes_of([0, 2], [0, 1], 0, 1, 0, [0, 0]);
    assert!(decoded(&good).is_some());
    for at in (0..13).chain(77..90) {
        let value = [3, 4, 8, 9].contains(&at);
        let mut bytes = good.clone();
        bytes[at] = 77;
        assert_eq!(decoded(&bytes).is_some(), value, "byte {at}");
    }
    for (backup, phase, count, encodes) in [
        (0, 0, 0, false),
        (3, 0, 0, false),
        (2, 3, 0, false),
        (2, 0, 1, false),
        (2, 2, 1, false),
        (2, 1, 1, true),
        (2, 2, 0, true),
    ] {
        let bytes = bytes_of([0, 2], [0, 1], 0, backup, phase, [0, count]);
        assert_eq!(decoded(&bytes).is_some(), encodes);
    }
    assert_eq!(decoded(&good[..89]), None);
    assert_eq!(decoded(&[&good[..], &[0]].concat()), None);
}

#[test]
fn each_record_has_one_encoding() {
    for case in (0..200).flat_map(|index| calls::run(3, index)) {
        if let Some(record) = decoded(&case.lent.record) {
            assert_eq!(encoded(&record), case.lent.record);
        }
    }
}

#[test]
fn record_bytes_come_first() {
    let mut lent = Lent { record: vec![0; 89], memory: Vec::new(), ..lent() };
    for kind in [Kind::Load, Kind::Store, Kind::Begin, Kind::Step, Kind::Format, Kind::Recover] {
        assert_eq!(call(kind, [u64::MAX; 3], &mut lent), Reply { number: 12, words: 0, registers: 0 });
    }
    lent.record = vec![0; 90];
    assert_eq!(number(Kind::Format, [0; 3], &mut lent), 12);
    assert_eq!(number(Kind::Recover, [0; 3], &mut lent), 1);
}

#[test]
fn recovery_takes_any_90_bytes() {
    let mut lent = formatted();
    lent.record = vec![0xa5; 90];
    lent.table = vec![0xa5; 8];
    assert_eq!(call(Kind::Recover, [2, 1, 0], &mut lent), Reply { number: 0, words: 0, registers: 0 });
    assert_eq!((lent.record, lent.table), (bytes_of([0, 2], [0, 1], 0, 1, 0, [0, 0]), vec![0; 8]));
}

#[test]
fn table_words_are_little_endian() {
    let mut lent = formatted();
    assert_eq!(number(Kind::Store, [1, 0, UNLIMITED], &mut lent), 0);
    assert_eq!(lent.table, [2, 1, 0, 0, 0, 0, 0, 0]);
    for length in [0, 1, 7, 9, 15, 16] {
        lent.table.resize(length, 0);
        assert_eq!(number(Kind::Store, [1, 0, UNLIMITED], &mut lent), 2);
    }
}

#[test]
fn numbers_are_compared_whole() {
    let mut lent = formatted();
    for far in [1 << 16, 1 << 32, 1 << 63] {
        assert_eq!(number(Kind::Load, [far, 0, 0], &mut lent), 6);
        assert_eq!(number(Kind::Load, [0, far, 0], &mut lent), 6);
        assert_eq!(number(Kind::Recover, [far + 2, 1, 0], &mut lent), 1);
        assert_eq!(number(Kind::Format, [2, far + 1, UNLIMITED], &mut lent), 1);
        assert_eq!(number(Kind::Store, [0, 0, far], &mut lent), 0);
    }
}

#[test]
fn a_cut_shows_in_the_record() {
    let mut lent = formatted();
    let before = lent.clone();
    assert_eq!(call(Kind::Store, [1, 0, 3], &mut lent), Reply { number: 20, words: 3, registers: 0 });
    assert_eq!(lent.record, bytes_of([0, 2], [0, 1], 0, 1, 2, [0, 0]));
    assert_eq!((lent.table, lent.cache), (before.table, before.cache));
}
