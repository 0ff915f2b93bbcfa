// The board of document 01, with the mark 3 of document 02, No. 2: its checks in their order, and its calls with their allowance.
use crate::parts::{entry, moves, shows, Backup, Number, Phase, Place, Record, Sizes, State, BLOCK, WORD};
use crate::wrong::Trap;

#[derive(Clone, Copy, PartialEq, Eq, Debug)]
pub struct Answer {
    pub number: Number,
    pub words: usize,
}

/// The mark of a finished A that has no registers.
const NO_REGISTERS: u64 = 3;

/// A word to store: its place in the memory and its bytes.
type Word = (usize, [u8; WORD]);

fn number_word(place: usize, number: u64) -> Word {
    (place, number.to_le_bytes())
}

/// Words from bytes, at ascending places.
fn words_at(start: usize, bytes: &[u8]) -> impl Iterator<Item = Word> + '_ {
    bytes.chunks_exact(WORD).enumerate().map(move |(i, chunk)| {
        let mut word = [0; WORD];
        word.copy_from_slice(chunk);
        (start + i, word)
    })
}

/// What an accepted call does: its list, and CACHE, table and record once the list is stored.
struct Plan {
    list: Vec<Word>,
    cache: Vec<u8>,
    table: Vec<u64>,
    record: Record,
}

/// What is lent to a call. A trap makes it a wrong board.
pub struct Board<'a> {
    pub memory: &'a mut [u8],
    pub cache: &'a mut [u8],
    pub table: &'a mut [u64],
    pub record: &'a mut Record,
    pub trap: Option<Trap>,
}

impl Board<'_> {
    pub fn format(&mut self, sizes: Sizes, fill: u8, allowance: usize) -> Answer {
        let plan = self.plan_format(sizes, fill);
        self.supply(plan, allowance)
    }

    /// The answer, and the registers where they exist.
    pub fn recover(&mut self, sizes: Sizes) -> (Answer, Option<[u8; BLOCK]>) {
        let plan = self.plan_recover(sizes);
        let answer = self.supply(plan, usize::MAX);
        let exist = answer.number == Number::Done && self.has_registers(sizes);
        (answer, exist.then_some(self.record.registers))
    }

    pub fn store(&mut self, block: usize, offset: usize, bytes: &[u8], allowance: usize) -> Answer {
        let plan = self.plan_store(block, offset, bytes);
        self.supply(plan, allowance)
    }

    pub fn begin(&mut self, registers: &[u8], allowance: usize) -> Answer {
        let plan = self.plan_begin(registers);
        self.supply(plan, allowance)
    }

    pub fn step(&mut self, n: usize, allowance: usize) -> Answer {
        let plan = self.plan_step(n);
        self.supply(plan, allowance)
    }

    pub fn load(&self, block: usize, offset: usize, destination: &mut [u8]) -> Answer {
        let number = match self.seen(block, offset, destination.len()) {
            Ok(visible) => {
                destination.copy_from_slice(&visible[offset..offset + destination.len()]);
                Number::Done
            }
            Err(refusal) => refusal,
        };
        Answer { number, words: 0 }
    }

    /// "Power": stores the list as far as the allowance goes. A refusal changes nothing.
    fn supply(&mut self, plan: Result<Plan, Number>, allowance: usize) -> Answer {
        let plan = match plan {
            Ok(plan) => plan,
            Err(number) => return Answer { number, words: 0 },
        };
        let words = plan.list.len().min(allowance);
        for (place, word) in plan.list.iter().take(words) {
            self.memory[WORD * place..WORD * (place + 1)].copy_from_slice(word);
        }
        if words < plan.list.len() {
            // Only a format's plan holds other sizes than the record.
            self.record.sizes = plan.record.sizes;
            self.record.phase = Phase::Off;
            return Answer { number: Number::Cut, words };
        }
        self.cache.copy_from_slice(&plan.cache);
        self.table.copy_from_slice(&plan.table);
        *self.record = plan.record;
        Answer { number: Number::Done, words }
    }

    fn plan_format(&self, sizes: Sizes, fill: u8) -> Result<Plan, Number> {
        self.check_lent(sizes, BLOCK)?;
        let a = sizes.registers(Backup::A);
        let mut plan = self.unchanged();
        plan.list.push(number_word(sizes.mark(), 0));
        plan.list.extend(words_at(0, &vec![fill; BLOCK * sizes.blocks]));
        plan.list.extend((a..a + 8 + sizes.slots).map(|place| number_word(place, 0)));
        let last = if self.falls(Trap::FormatMarksOne) { Backup::A.mark() } else { NO_REGISTERS };
        plan.list.push(number_word(sizes.mark(), last));
        plan.table.fill(0);
        plan.record = Record { sizes, registers: [0; BLOCK], finished: Backup::A, phase: Phase::Running };
        Ok(plan)
    }

    fn plan_recover(&self, sizes: Sizes) -> Result<Plan, Number> {
        self.check_lent(sizes, BLOCK)?;
        let finished = match self.number_at(sizes.mark()) {
            NO_REGISTERS if self.falls(Trap::ThreeIsB) => Backup::B,
            1 | NO_REGISTERS => Backup::A,
            2 => Backup::B,
            _ => return Err(Number::NoCheckpoint),
        };
        let start = sizes.registers(finished);
        let table: Vec<u64> = (0..sizes.slots).map(|slot| self.number_at(start + 8 + slot)).collect();
        for (slot, &word) in table.iter().enumerate() {
            let clean = word % 256 == 1 && word / 256 < sizes.blocks as u64;
            let twice = word != 0 && table[..slot].contains(&word);
            if word != 0 && !clean || twice {
                return Err(Number::Backup);
            }
        }
        let registers = if self.has_registers(sizes) { self.block_at(start) } else { [0; BLOCK] };
        let unmarked = self.number_at(sizes.mark()) == NO_REGISTERS && self.falls(Trap::ThreeThenA);
        let finished = if unmarked { Backup::B } else { finished };
        let record = Record { sizes, registers, finished, phase: Phase::Running };
        Ok(Plan { table, record, ..self.unchanged() })
    }

    fn has_registers(&self, sizes: Sizes) -> bool {
        self.number_at(sizes.mark()) != NO_REGISTERS || self.falls(Trap::RegistersAtThree)
    }

    fn plan_store(&self, block: usize, offset: usize, bytes: &[u8]) -> Result<Plan, Number> {
        let mut new = self.seen(block, offset, bytes.len())?;
        let mut plan = self.unchanged();
        let found = self.lookup(block);
        let state = found.map(|(_, state)| state);
        let slot = match found {
            Some((slot, _)) => slot,
            None => match self.table.iter().position(|&word| word == 0) {
                Some(slot) => slot,
                None => self.evicted(&mut plan.list).ok_or(Number::Full)?,
            },
        };
        let (mut place, mut next) = moves(state, self.writing());
        if self.falls(Trap::FreshToCheckpoint) && state.is_none() {
            (place, next) = moves(None, false);
        }
        if self.falls(Trap::RestLeftZero) && place != shows(state) {
            new = [0; BLOCK];
        }
        new[offset..offset + bytes.len()].copy_from_slice(bytes);
        let start = match place {
            Place::Home => self.record.sizes.home(block),
            Place::Checkpoint => self.record.sizes.checkpoint(slot),
            Place::Cache => {
                plan.cache[BLOCK * slot..BLOCK * (slot + 1)].copy_from_slice(&new);
                plan.table[slot] = next.word(block);
                return Ok(plan);
            }
        };
        let short = self.stores_short(state, next);
        let end = offset + bytes.len() + usize::from(self.falls(Trap::OneWordMore));
        let touched = |place: usize| offset < WORD * (place - start + 1) && WORD * (place - start) < end;
        plan.list.extend(words_at(start, &new).filter(|&(place, _)| !short || touched(place)));
        plan.table[slot] = next.word(block);
        Ok(plan)
    }

    /// Whether a store to the nonvolatile memory stores only the words that its bytes touch (document 02, No. 5).
    fn stores_short(&self, found: Option<State>, next: State) -> bool {
        if self.falls(Trap::AlwaysEight) {
            return false;
        }
        let decides = if self.falls(Trap::StateAfter) { Some(next) } else { found };
        match decides {
            Some(State::Dirty | State::Hidden) => true,
            Some(State::PreHidden) => self.falls(Trap::PreHiddenShort),
            _ => false,
        }
    }

    fn plan_begin(&self, registers: &[u8]) -> Result<Plan, Number> {
        self.check(registers.len())?;
        if self.writing() {
            return Err(Number::Busy);
        }
        let sizes = self.record.sizes;
        let mut plan = self.unchanged();
        for (slot, word) in plan.table.iter_mut().enumerate() {
            let Some((block, state)) = entry(*word) else { continue };
            match state {
                State::PreHidden => plan.list.extend(words_at(sizes.home(block), &self.cached(slot))),
                State::PreDirty => plan.list.extend(words_at(sizes.checkpoint(slot), &self.cached(slot))),
                State::Clean | State::Dirty | State::Hidden => {}
            }
            *word = match state {
                State::PreDirty | State::Dirty | State::Clean => State::Clean.word(block),
                State::PreHidden | State::Hidden => 0,
            };
        }
        plan.record.registers.copy_from_slice(registers);
        plan.record.phase = Phase::Writing(0);
        Ok(plan)
    }

    fn plan_step(&self, n: usize) -> Result<Plan, Number> {
        self.check(BLOCK)?;
        let Phase::Writing(count) = self.record.phase else {
            return Err(Number::Idle);
        };
        let sizes = self.record.sizes;
        let backup = self.record.finished.other();
        let start = sizes.registers(backup);
        let mut whole: Vec<Word> = words_at(start, &self.record.registers).collect();
        whole.extend((0..sizes.slots).map(|slot| number_word(start + 8 + slot, self.saved(self.table[slot]))));
        whole.push(number_word(sizes.mark(), backup.mark()));
        if self.falls(Trap::MarkEarly) {
            whole.swap(sizes.slots + 7, sizes.slots + 8);
        }
        let mut plan = self.unchanged();
        plan.list = whole.into_iter().skip(count).take(n).collect();
        let count = count + plan.list.len();
        if count == sizes.checkpoint_words() {
            plan.record.phase = Phase::Running;
            plan.record.finished = backup;
        } else {
            plan.record.phase = Phase::Writing(count);
        }
        Ok(plan)
    }

    /// A backup's table word for a word of the table.
    fn saved(&self, word: u64) -> u64 {
        match entry(word) {
            Some((_, State::PreHidden)) if self.falls(Trap::PreHiddenSavedFree) => 0,
            Some((block, State::Clean | State::PreHidden)) => State::Clean.word(block),
            _ => 0,
        }
    }

    /// GEOMETRY and BUFFER.
    fn check_lent(&self, sizes: Sizes, registers: usize) -> Result<(), Number> {
        if sizes.outside() {
            return Err(Number::Geometry);
        }
        let exact = self.memory.len() == WORD * sizes.memory_words()
            && self.cache.len() == BLOCK * sizes.slots
            && self.table.len() == sizes.slots
            && registers == BLOCK;
        if exact {
            Ok(())
        } else {
            Err(Number::Buffer)
        }
    }

    /// Numbers 1 to 5.
    fn check(&self, registers: usize) -> Result<(), Number> {
        let sizes = self.record.sizes;
        self.check_lent(sizes, registers)?;
        match self.record.phase {
            Phase::Writing(count) if count >= sizes.checkpoint_words() => return Err(Number::Record),
            Phase::Off => return Err(Number::Off),
            Phase::Writing(_) | Phase::Running => {}
        }
        if self.table.iter().all(|&word| self.well_formed(word)) {
            Ok(())
        } else {
            Err(Number::Table)
        }
    }

    fn well_formed(&self, word: u64) -> bool {
        let allowed = |state| match state {
            State::Clean | State::PreHidden | State::PreDirty => true,
            State::Dirty if self.falls(Trap::FreshToCheckpoint) => true,
            State::Dirty | State::Hidden => !self.writing(),
        };
        word == 0 || entry(word).is_some_and(|(block, state)| block < self.record.sizes.blocks && allowed(state))
    }

    /// The visible block, after the checks 1 to 6 for a range of it.
    fn seen(&self, block: usize, offset: usize, length: usize) -> Result<[u8; BLOCK], Number> {
        self.check(BLOCK)?;
        let sizes = self.record.sizes;
        if block >= sizes.blocks || offset > 63 || length == 0 || offset + length > BLOCK {
            return Err(Number::Range);
        }
        let found = self.lookup(block);
        let slot = found.map_or(0, |(slot, _)| slot);
        Ok(match shows(found.map(|(_, state)| state)) {
            Place::Home => self.block_at(sizes.home(block)),
            Place::Checkpoint => self.block_at(sizes.checkpoint(slot)),
            Place::Cache => self.cached(slot),
        })
    }

    /// The lowest slot that names the block, and its state.
    fn lookup(&self, block: usize) -> Option<(usize, State)> {
        self.table.iter().enumerate().find_map(|(slot, &word)| match entry(word) {
            Some((named, state)) if named == block => Some((slot, state)),
            _ => None,
        })
    }

    /// A wrong board's way out of FULL (document 001, section 4); the right board has none.
    fn evicted(&self, list: &mut Vec<Word>) -> Option<usize> {
        let lowest = |wanted| self.table.iter().position(|&word| entry(word).is_some_and(|(_, state)| state == wanted));
        if self.falls(Trap::HiddenRemoved) {
            return lowest(State::Hidden);
        }
        if self.falls(Trap::Exchanged) && self.writing() {
            let slot = lowest(State::Clean)?;
            let (block, _) = entry(self.table[slot])?;
            let (home, checkpoint) = (self.record.sizes.home(block), self.record.sizes.checkpoint(slot));
            list.extend(words_at(home, &self.block_at(checkpoint)));
            list.extend(words_at(checkpoint, &self.block_at(home)));
            return Some(slot);
        }
        None
    }

    fn falls(&self, trap: Trap) -> bool {
        self.trap == Some(trap)
    }

    fn writing(&self) -> bool {
        matches!(self.record.phase, Phase::Writing(_))
    }

    fn unchanged(&self) -> Plan {
        Plan { list: Vec::new(), cache: self.cache.to_vec(), table: self.table.to_vec(), record: self.record.clone() }
    }

    fn number_at(&self, place: usize) -> u64 {
        let mut word = [0; WORD];
        word.copy_from_slice(&self.memory[WORD * place..WORD * (place + 1)]);
        u64::from_le_bytes(word)
    }

    /// 64 bytes of the memory, from a place in words.
    fn block_at(&self, place: usize) -> [u8; BLOCK] {
        let mut block = [0; BLOCK];
        block.copy_from_slice(&self.memory[WORD * place..WORD * place + BLOCK]);
        block
    }

    fn cached(&self, slot: usize) -> [u8; BLOCK] {
        let mut block = [0; BLOCK];
        block.copy_from_slice(&self.cache[BLOCK * slot..BLOCK * (slot + 1)]);
        block
    }
}
