// Wrong peers. The six traps of document 01, "Traps on this road", four of document 02, No. 2, and four of its No. 5 each make a wrong board, which
// the traces must find out. The faults make a wrong door (document 02, No. 4), which the cases must find out.
use crate::calls;
use crate::door::Door;
use crate::make;
use crate::trace;

#[derive(Clone, Copy, PartialEq, Eq, Debug)]
pub enum Trap {
    /// A full table loses its lowest hidden entry to the next fresh block.
    HiddenRemoved,
    /// A full table while Writing loses its lowest clean entry, whose block changes places with HOME.
    Exchanged,
    /// A fresh block while Writing goes straight to CHECKPOINT, dirty.
    FreshToCheckpoint,
    /// A pre-hidden entry is saved in the backup as free.
    PreHiddenSavedFree,
    /// A store into a new place leaves zeros around its bytes.
    RestLeftZero,
    /// The mark is stored before the last table word.
    MarkEarly,
    /// A format ends with mark 1, so that its zeros come back as registers.
    FormatMarksOne,
    /// Mark 3 is read as a finished B without registers.
    ThreeIsB,
    /// At mark 3 the register words of A are handed out.
    RegistersAtThree,
    /// The checkpoint after mark 3 goes to A, the finished backup.
    ThreeThenA,
    /// A short store whose bytes end with a word stores the next word too.
    OneWordMore,
    /// A store that finds pre-hidden stores only the words that its bytes touch.
    PreHiddenShort,
    /// The state after the store decides which words it stores.
    StateAfter,
    /// Every store while Running stores 8 words.
    AlwaysEight,
}

const TRAPS: [(Trap, &str); 14] = [
    (Trap::HiddenRemoved, "hidden entry removed early"),
    (Trap::Exchanged, "two blocks exchanged while Writing"),
    (Trap::FreshToCheckpoint, "fresh block straight to CHECKPOINT"),
    (Trap::PreHiddenSavedFree, "pre-hidden entry saved as free"),
    (Trap::RestLeftZero, "rest of the block left zero"),
    (Trap::MarkEarly, "mark before the last table word"),
    (Trap::FormatMarksOne, "format still ends with mark 1"),
    (Trap::ThreeIsB, "mark 3 read as B"),
    (Trap::RegistersAtThree, "registers handed out at mark 3"),
    (Trap::ThreeThenA, "checkpoint after mark 3 goes to A"),
    (Trap::OneWordMore, "a word more where the bytes end with a word"),
    (Trap::PreHiddenShort, "pre-hidden stored short"),
    (Trap::StateAfter, "the state after decides the words"),
    (Trap::AlwaysEight, "still 8 words for each store"),
];

/// Runs each wrong peer against the right one; a line for each, and whether all were found out.
pub fn report(seed: u64, count: u64) -> (String, bool) {
    let mut lines = String::new();
    let mut all = true;
    for (trap, name) in TRAPS {
        match (0..count).find(|&index| disagrees(trap, &make::trace(seed, index))) {
            Some(index) => lines += &format!("{name}: disagrees at trace {index}\n"),
            None => {
                lines += &format!("{name}: never disagrees in {count} traces\n");
                all = false;
            }
        }
    }
    (lines, all)
}

fn disagrees(trap: Trap, bytes: &[u8]) -> bool {
    trace::run(bytes, Some(trap)) != trace::run(bytes, None)
}

/// What is wrong with a wrong door.
#[derive(Clone, Copy, PartialEq, Eq, Debug)]
pub enum Fault {
    /// The phase's bytes 1 and 2 are exchanged.
    PhasesExchanged,
    /// A record is 91 bytes long.
    Longer,
    /// The words of the table are big-endian.
    TableBigEndian,
    /// The record's numbers are little-endian.
    RecordLittleEndian,
    /// A count other than 0 is accepted for Off.
    CountWhileOff,
    /// A count other than 0 is accepted for Running.
    CountWhileRunning,
    /// A phase above 2 is taken for Off.
    AnyPhase,
    /// A finished backup other than 1 is taken for 2.
    AnyBackup,
    /// The tags and lengths of the fields are not looked at.
    TagsUnread,
    /// Numbers are cut to 16 bits before they are compared.
    Narrow16,
    /// Numbers are cut to 32 bits before they are compared.
    Narrow32,
    /// GEOMETRY of format comes before RECORD BYTES.
    SizesFirst,
    /// Recovery checks the record's bytes.
    RecoveryReads,
    /// Recovery does not check the record's length.
    RecoveryAnyLength,
    /// Format checks only the record's length, as recovery does.
    FormatUnread,
    /// Recovery leaves the tags and lengths that it finds.
    TagsLeft,
    /// A refused call lays the record all the same: recovery a new host's over any bytes.
    RefusedLays,
    /// A table of 8B + 1 to 8B + 7 bytes passes for one of 8B.
    TableRoundedDown,
    /// A cut call leaves the record as it was.
    CutLeavesRecord,
    /// A recovery always says that there are registers.
    AlwaysRegisters,
}

const FAULTS: [(Fault, &str); 20] = [
    (Fault::PhasesExchanged, "phases 1 and 2 exchanged"),
    (Fault::Longer, "91 bytes for 90"),
    (Fault::TableBigEndian, "table big-endian"),
    (Fault::RecordLittleEndian, "record little-endian"),
    (Fault::CountWhileOff, "count other than 0 while Off"),
    (Fault::CountWhileRunning, "count other than 0 while Running"),
    (Fault::AnyPhase, "phase above 2 is Off"),
    (Fault::AnyBackup, "backup 0 or above 2 is 2"),
    (Fault::TagsUnread, "tags and lengths not looked at"),
    (Fault::Narrow16, "numbers cut to 16 bits"),
    (Fault::Narrow32, "numbers cut to 32 bits"),
    (Fault::SizesFirst, "GEOMETRY before RECORD BYTES"),
    (Fault::RecoveryReads, "recovery checks the record's bytes"),
    (Fault::RecoveryAnyLength, "recovery takes any length of record"),
    (Fault::FormatUnread, "format checks only the record's length"),
    (Fault::TagsLeft, "recovery leaves the tags it finds"),
    (Fault::RefusedLays, "refused, the record is laid all the same"),
    (Fault::TableRoundedDown, "odd bytes of the table left out"),
    (Fault::CutLeavesRecord, "cut, the record stays"),
    (Fault::AlwaysRegisters, "registers always said to exist"),
];

/// Runs each wrong door against the right one; a line for each, and whether all were found out.
pub fn report_doors(seed: u64, runs: u64) -> (String, bool) {
    let mut lines = String::new();
    let mut all = true;
    for (fault, name) in FAULTS {
        let mut cases = (0..runs).flat_map(|index| calls::run(seed, index)).enumerate();
        match cases.find(|(_, case)| parts_company(fault, case)) {
            Some((index, case)) => lines += &format!("{name}: disagrees at case {index}, {:?}\n", case.call.kind),
            None => {
                lines += &format!("{name}: never disagrees in {runs} runs\n");
                all = false;
            }
        }
    }
    (lines, all)
}

fn parts_company(fault: Fault, case: &calls::Case) -> bool {
    let [right, wrong] = [None, Some(fault)].map(|fault| {
        let mut lent = case.lent.clone();
        (Door { fault }.call(case.call, &mut lent), lent)
    });
    right != wrong
}
