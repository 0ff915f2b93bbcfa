// Document 01's plain things: numbers, sizes and where each part starts, the record, table words and the store table.
pub const BLOCK: usize = 64;
pub const WORD: usize = 8;

/// The numbers returned.
#[derive(Clone, Copy, PartialEq, Eq, Debug)]
pub enum Number {
    Done = 0,
    Geometry = 1,
    Buffer = 2,
    Record = 3,
    Off = 4,
    Table = 5,
    Range = 6,
    Full = 7,
    Busy = 8,
    Idle = 9,
    NoCheckpoint = 10,
    Backup = 11,
    /// The door's (document 02, No. 4).
    RecordBytes = 12,
    Cut = 20,
}

/// N blocks and B slots; the start of each part of the memory, in words.
#[derive(Clone, Copy, PartialEq, Eq, Debug)]
pub struct Sizes {
    pub blocks: usize,
    pub slots: usize,
}

impl Sizes {
    pub fn outside(self) -> bool {
        !(1..=4096).contains(&self.blocks) || !(1..=512).contains(&self.slots)
    }

    pub fn memory_words(self) -> usize {
        8 * self.blocks + 10 * self.slots + 17
    }

    pub fn home(self, block: usize) -> usize {
        8 * block
    }

    pub fn checkpoint(self, slot: usize) -> usize {
        8 * self.blocks + 8 * slot
    }

    /// A backup's registers; its table words follow them.
    pub fn registers(self, backup: Backup) -> usize {
        let a = 8 * self.blocks + 8 * self.slots;
        match backup {
            Backup::A => a,
            Backup::B => a + 8 + self.slots,
        }
    }

    pub fn mark(self) -> usize {
        self.memory_words() - 1
    }

    /// The length of a checkpoint's list: registers, table, mark.
    pub fn checkpoint_words(self) -> usize {
        self.slots + 9
    }
}

#[derive(Clone, Copy, PartialEq, Eq, Debug)]
pub enum Backup {
    A,
    B,
}

impl Backup {
    pub fn other(self) -> Backup {
        match self {
            Backup::A => Backup::B,
            Backup::B => Backup::A,
        }
    }

    pub fn mark(self) -> u64 {
        match self {
            Backup::A => 1,
            Backup::B => 2,
        }
    }
}

#[derive(Clone, Copy, PartialEq, Eq, Debug)]
pub enum Phase {
    Running,
    /// The count of words already stored.
    Writing(usize),
    Off,
}

#[derive(Clone, PartialEq, Eq, Debug)]
pub struct Record {
    pub sizes: Sizes,
    pub registers: [u8; BLOCK],
    pub finished: Backup,
    pub phase: Phase,
}

#[derive(Clone, Copy, PartialEq, Eq, Debug)]
pub enum State {
    Clean = 1,
    Dirty = 2,
    Hidden = 3,
    PreHidden = 4,
    PreDirty = 5,
}

impl State {
    fn of_code(code: u64) -> Option<State> {
        match code {
            1 => Some(State::Clean),
            2 => Some(State::Dirty),
            3 => Some(State::Hidden),
            4 => Some(State::PreHidden),
            5 => Some(State::PreDirty),
            _ => None,
        }
    }

    pub fn word(self, block: usize) -> u64 {
        256 * block as u64 + self as u64
    }
}

/// The block and the state of a table word with a known code.
pub fn entry(word: u64) -> Option<(usize, State)> {
    Some(((word / 256) as usize, State::of_code(word % 256)?))
}

#[derive(Clone, Copy, PartialEq, Eq)]
pub enum Place {
    Home,
    Checkpoint,
    Cache,
}

/// "Where a block shows".
pub fn shows(state: Option<State>) -> Place {
    match state {
        None | Some(State::Hidden) => Place::Home,
        Some(State::Clean | State::Dirty) => Place::Checkpoint,
        Some(State::PreHidden | State::PreDirty) => Place::Cache,
    }
}

/// The table under "Stores". Dirty and hidden are not well formed while Writing: TABLE comes first.
pub fn moves(state: Option<State>, writing: bool) -> (Place, State) {
    match (state, writing) {
        (None, false) => (Place::Checkpoint, State::Dirty),
        (None, true) => (Place::Cache, State::PreDirty),
        (Some(State::Clean), true) => (Place::Cache, State::PreHidden),
        (Some(State::Clean), false) => (Place::Home, State::Hidden),
        (Some(State::PreHidden), true) => (Place::Cache, State::PreHidden),
        (Some(State::PreDirty), true) => (Place::Cache, State::PreDirty),
        (Some(State::Hidden | State::PreHidden), _) => (Place::Home, State::Hidden),
        (Some(State::Dirty | State::PreDirty), _) => (Place::Checkpoint, State::Dirty),
    }
}
