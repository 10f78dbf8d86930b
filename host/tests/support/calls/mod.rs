//! One request, asked of the C layer and of `paper`. Both answer in the C layer's form,
//! refusal + 256 × slot + 2^24 × value + 2^48 × free.

mod by_paper;
mod c_layer;
mod packed;

pub use by_paper::{PaperAnswer, ask_paper};
pub use c_layer::{NOTHING, RawSlice, ask_c};
pub use packed::{free, refusal, slot, value};

/// The next piece where nothing comes and no byte follows: the place behind all sectors.
pub const NOTHING_COMES: u64 = 1_600 << 8;

#[derive(Clone, Copy, Debug, PartialEq, Eq)]
pub enum Call {
    Check,
    CheckRelease,
    List,
    Read,
    Open,
    Next,
    Tree,
    Start,
    Sector,
    Save,
    Erase,
    EraseMany,
    Rename,
    Hide,
    Show,
    Protect,
    Release,
    Gather,
    RecordOpen,
    RecordAdd,
    RecordClose,
    ReportAdd,
    ReportJoin,
}

pub const CALLS: [Call; 23] = [
    Call::Check,
    Call::CheckRelease,
    Call::List,
    Call::Read,
    Call::Open,
    Call::Next,
    Call::Tree,
    Call::Start,
    Call::Sector,
    Call::Save,
    Call::Erase,
    Call::EraseMany,
    Call::Rename,
    Call::Hide,
    Call::Show,
    Call::Protect,
    Call::Release,
    Call::Gather,
    Call::RecordOpen,
    Call::RecordAdd,
    Call::RecordClose,
    Call::ReportAdd,
    Call::ReportJoin,
];

/// The changes that count as one, whole or not at all, and that stand alone. Of many files that are erased at once each sector does, and a
/// recording takes several calls.
pub const CHANGES: [Call; 8] = [
    Call::Save,
    Call::Erase,
    Call::Rename,
    Call::Hide,
    Call::Show,
    Call::Protect,
    Call::Release,
    Call::Gather,
];

/// The slices that calls lend, as places in the arrays below.
pub const IMAGE: usize = 0;
/// The image of drive 2, or the other report of a join.
pub const TWO: usize = 1;
pub const NAME: usize = 2;
pub const NEW: usize = 3;
pub const EXEC: usize = 4;
pub const INFO: usize = 5;
/// The body of a save, or a piece of a recording.
pub const BODY: usize = 6;
/// The output buffer of list, read, next and tree, the list of sector numbers of a change, the report that is added or joined to.
pub const OUT: usize = 7;
/// The names of many files that are erased at once, and the answers to them.
pub const NAMES: usize = 8;
pub const ANSWERS: usize = 9;
/// The record of a recording.
pub const RECORD: usize = 10;
/// How many slices there are.
pub const SLICES: usize = 11;
pub const ROLES: [&str; SLICES] = [
    "image",
    "second image or report",
    "name",
    "new name",
    "execution bytes",
    "information",
    "body",
    "output",
    "names",
    "answers",
    "record",
];

impl Call {
    pub fn is_change(self) -> bool {
        CHANGES.contains(&self) || matches!(self, Call::EraseMany | Call::RecordAdd | Call::RecordClose)
    }

    /// Whether this call refuses no directory: what a damaged one holds makes no difference to its refusal.
    pub fn is_raw(self) -> bool {
        matches!(self, Call::Sector | Call::Next) || self.is_report()
    }

    /// Whether this call is on reports.
    pub fn is_report(self) -> bool {
        matches!(self, Call::ReportAdd | Call::ReportJoin)
    }

    /// Whether this call takes a name and refuses an empty one. To a tree that is the root.
    pub fn needs_name(self) -> bool {
        self.takes().contains(&NAME) && self != Call::Tree
    }

    /// What this call answers to an image of another length than a disk's.
    pub fn answer_to_no_image(self) -> u64 {
        if self == Call::Next { NOTHING_COMES } else { 1 }
    }

    /// The slices that this call takes.
    pub fn takes(self) -> &'static [usize] {
        match self {
            Call::Check | Call::CheckRelease => &[IMAGE],
            Call::List => &[IMAGE, OUT],
            Call::Read => &[IMAGE, NAME, OUT],
            Call::Next => &[IMAGE, OUT],
            Call::Open | Call::Start => &[IMAGE, NAME],
            Call::Sector => &[IMAGE, TWO],
            Call::Save => &[IMAGE, NAME, EXEC, INFO, BODY, OUT],
            Call::Rename => &[IMAGE, NAME, NEW, OUT],
            Call::EraseMany => &[IMAGE, NAMES, ANSWERS, OUT],
            Call::RecordOpen => &[IMAGE, NAME, EXEC, INFO, RECORD],
            Call::RecordAdd => &[IMAGE, BODY, RECORD, OUT],
            Call::RecordClose => &[IMAGE, RECORD, OUT],
            Call::ReportAdd => &[IMAGE, OUT],
            Call::ReportJoin => &[TWO, OUT],
            _ => &[IMAGE, NAME, OUT],
        }
    }

    /// Whether this call may change that slice.
    pub fn changes(self, role: usize) -> bool {
        match role {
            OUT | ANSWERS => true,
            IMAGE => self.is_change(),
            RECORD => self != Call::RecordClose,
            _ => false,
        }
    }
}

/// All that a call is given. What a call does not take stays empty.
#[derive(Clone, Copy)]
pub struct Request<'a> {
    pub call: Call,
    /// Save and record open: kind, start page, offset. Sector: drive, track, sector. Next: sector, offset, left.
    pub numbers: [u32; 3],
    pub slices: [&'a [u8]; SLICES],
}

impl<'a> Request<'a> {
    pub fn new(call: Call, image: &'a [u8]) -> Request<'a> {
        let mut slices: [&[u8]; SLICES] = [&[]; SLICES];
        slices[IMAGE] = image;
        Request {
            call,
            numbers: [0; 3],
            slices,
        }
    }

    pub fn with(mut self, role: usize, bytes: &'a [u8]) -> Request<'a> {
        assert!(self.call.takes().contains(&role), "{:?} takes no {}", self.call, ROLES[role]);
        self.slices[role] = bytes;
        self
    }

    pub fn numbers(mut self, numbers: [u32; 3]) -> Request<'a> {
        self.numbers = numbers;
        self
    }
}
