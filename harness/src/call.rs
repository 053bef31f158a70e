//! The calls of document 01 as data: a machine, the calls on its engine, views and text requests.

use crate::capability::{PipelineInstructionClass as Class, PipelineStageRole as Role};

pub type Text = Vec<u8>;

#[derive(Clone, Debug)]
pub struct Kind {
    pub name: Text,
    pub classes: Vec<Class>,
    pub latency_class: Class,
    pub capacity: u64,
}

#[derive(Clone, Debug)]
pub struct Machine {
    pub stages: Vec<Role>,
    pub instruction_bytes: Option<u64>,
    /// alu, mul, div, load, store, system, fp
    pub extras: [u64; 7],
    pub kinds: Vec<Kind>,
    pub history: u64,
    pub entry: u64,
    /// The length of the cell memory lent to making.
    pub lent: u64,
}

impl Machine {
    /// The cell memory that a call needs: 200 bytes a row, and a history of 0 reads as 1.
    pub fn memory(&self) -> u64 {
        self.history.max(1).saturating_mul(200)
    }
}

/// What a fetch is given.
#[derive(Clone, Debug)]
pub struct Given {
    pub address: u64,
    pub size: u64,
    pub class: Class,
    pub branch: bool,
    pub atomic: bool,
    pub text: Text,
    pub fault: Option<Text>,
    pub destination: Option<Text>,
    pub sources: Vec<Text>,
    pub writes: Vec<Text>,
    pub payload: u64,
}

#[derive(Clone, Copy, Debug)]
pub enum View {
    Status,
    Stats,
    Enabled,
    FetchPc,
    ResumePc,
    StageCount,
    Edges,
    EntryStages,
    StageOrder,
    UnitCount,
    TraceCount,
    TimelineLen,
    StationCount,
    RenameCount,
    QueueCount,
    BufferCount,
    BufferCapacity,
    InFlightBefore(u64),
    Stage(u64),
    Unit(u64),
    Trace(u64),
    TimelineRow(u64),
    Station(u64),
    Rename(u64),
    Queued(u64),
    BufferEntry(u64),
}

/// Where an operation is shown.
#[derive(Clone, Copy, Debug)]
pub enum Place {
    Queue(u64),
    Station(u64),
    Stage(u64),
    Unit(u64),
    Offer,
}

/// A text of an operation.
#[derive(Clone, Copy, Debug)]
pub enum Field {
    Disassembly,
    Destination,
    Fault,
    Source(u64),
    Write(u64),
}

#[derive(Clone, Copy, Debug)]
pub enum Request {
    StatusMessage,
    Slot(Place, Field),
    TraceDetail(u64),
    RowDisassembly(u64),
    StageName(u64),
    UnitName(u64),
    StationLabel(u64),
    RenameRegister(u64),
    CellLabel(u64),
    OperandRegister(u64, u64),
}

/// A call carries the length of the memory that is lent with it.
#[derive(Clone, Debug)]
pub enum Call {
    Start,
    Retire,
    Retry(Text),
    Resolve(u64),
    Advance(Option<u64>, u64),
    Fetch(Given, u64),
    Capacity(u64, u64),
    Overlap(bool),
    Halt,
    Fault(Text),
    Reset(u64, u64),
    Redirect(u64),
    View(View),
    Cell(u64, u64, u64),
    Text(Request, u64),
}

impl Call {
    pub fn name(&self) -> &'static str {
        match self {
            Call::Start => "start",
            Call::Retire => "retire",
            Call::Retry(..) => "retry",
            Call::Resolve(..) => "resolve",
            Call::Advance(..) => "advance",
            Call::Fetch(..) => "fetch",
            Call::Capacity(..) => "capacity",
            Call::Overlap(..) => "overlap",
            Call::Halt => "halt",
            Call::Fault(..) => "fault",
            Call::Reset(..) => "reset",
            Call::Redirect(..) => "redirect",
            Call::View(..) => "view",
            Call::Cell(..) => "cell",
            Call::Text(..) => "text",
        }
    }
}

impl Call {
    /// May it change the engine?
    pub fn changes(&self) -> bool {
        !matches!(self, Call::View(_) | Call::Cell(..) | Call::Text(..))
    }
}

/// A step of a list. Each has one number.
#[derive(Clone, Debug)]
pub enum Step {
    /// A call: its answer, and all that the engine shows after it.
    Shown(Call),
    /// A call: its answer alone.
    Quiet(Call),
    /// So many times start and advance, lent so much: each answer, and all that the engine shows after
    /// the last.
    Idle(u64, u64),
    /// All that the engine shows, what no call changes, and every byte of the cell memory.
    Rest,
}
