//! Bytes read as a machine and calls, by docs/CALLS.md. None: not of its form.

use crate::call::{Call, Field, Given, Kind, Machine, Place, Request, Text, View};
use crate::capability::{PipelineInstructionClass as Class, PipelineStageRole as Role};
use crate::layout::{HEAD, LIST, MACHINE, ROOM, answer_size, lent};
use crate::machines::ROLES;
use crate::refuse::{KIND_NAME, KINDS, NAME, SOURCES, STAGES, TEXT, WRITES};

/// What a list of its form asks for.
pub struct Totals {
    pub calls: u64,
    /// The most that it lends.
    pub lent: u64,
    /// The bytes of all the answers.
    pub size: usize,
}

/// None where the list is not of its form.
pub fn totals(list: &[u8]) -> Option<Totals> {
    if list.len() > LIST {
        return None;
    }
    let mut reader = Reader::new(list);
    let mut totals = Totals {
        calls: 0,
        lent: reader.machine()?.lent,
        size: HEAD,
    };
    while !reader.at_end() {
        let call = reader.call()?;
        totals.calls += 1;
        totals.lent = totals.lent.max(lent(&call).unwrap_or(0));
        totals.size += answer_size(&call);
    }
    Some(totals)
}

#[derive(Clone)]
pub struct Reader<'a> {
    list: &'a [u8],
    pub at: usize,
}

impl<'a> Reader<'a> {
    pub fn new(list: &'a [u8]) -> Self {
        Self { list, at: 0 }
    }

    /// Past the machine.
    pub fn calls(list: &'a [u8]) -> Self {
        Self { list, at: MACHINE }
    }

    pub fn at_end(&self) -> bool {
        self.at >= self.list.len()
    }

    fn take(&mut self, count: usize) -> Option<&'a [u8]> {
        let bytes = self.list.get(self.at..self.at + count)?;
        self.at += count;
        Some(bytes)
    }

    fn byte(&mut self) -> Option<u8> {
        self.take(1).map(|bytes| bytes[0])
    }

    fn number(&mut self) -> Option<u64> {
        let bytes = self.take(8)?;
        Some(u64::from_le_bytes(bytes.try_into().expect("eight")))
    }

    fn flag(&mut self) -> Option<bool> {
        match self.byte()? {
            0 => Some(false),
            1 => Some(true),
            _ => None,
        }
    }

    fn class(&mut self) -> Option<Class> {
        let byte = self.byte()?;
        Class::ALL.get(byte as usize).copied()
    }

    fn role(&mut self) -> Option<Role> {
        let byte = self.byte()?;
        ROLES.get(byte as usize).copied()
    }

    /// A length over the limit stands for so many bytes of 0.
    fn text(&mut self, most: usize) -> Option<Text> {
        let length = self.byte()? as usize;
        let bytes = self.take(most)?;
        Some(match bytes.get(..length) {
            Some(text) => text.to_vec(),
            None => vec![0; length],
        })
    }

    fn optional<T>(&mut self, read: impl FnOnce(&mut Self) -> Option<T>) -> Option<Option<T>> {
        let there = self.flag()?;
        let value = read(self)?;
        Some(there.then_some(value))
    }

    /// How many, and `most` names; those past the limit are empty here.
    fn names(&mut self, most: usize) -> Option<Vec<Text>> {
        let count = self.byte()? as usize;
        let mut names = Vec::with_capacity(most);
        for _ in 0..most {
            names.push(self.text(NAME)?);
        }
        names.resize(count, Vec::new());
        Some(names)
    }

    pub fn machine(&mut self) -> Option<Machine> {
        let mut extras = [0; 7];
        for extra in &mut extras {
            *extra = self.number()?;
        }
        let instruction_bytes = self.optional(Self::number)?;
        let entry = self.number()?;
        let history = self.number()?;
        let lent = self.number()?;
        let count = self.byte()? as usize;
        let mut stages = Vec::new();
        for _ in 0..STAGES {
            stages.push(self.role()?);
        }
        stages.resize(count, Role::Other);
        let count = self.byte()? as usize;
        let mut kinds = Vec::new();
        for _ in 0..KINDS {
            kinds.push(self.kind()?);
        }
        let last = kinds[KINDS - 1].clone();
        kinds.resize(count, last);
        Some(Machine {
            stages,
            instruction_bytes,
            extras,
            kinds,
            history,
            entry,
            lent,
        })
    }

    fn kind(&mut self) -> Option<Kind> {
        let name = self.text(KIND_NAME)?;
        let mut classes = Vec::new();
        for class in Class::ALL {
            if self.flag()? {
                classes.push(class);
            }
        }
        Some(Kind {
            name,
            classes,
            latency_class: self.class()?,
            capacity: self.number()?,
        })
    }

    pub fn call(&mut self) -> Option<Call> {
        Some(match self.byte()? {
            0 => Call::Start,
            1 => Call::Retire,
            2 => Call::Retry(self.text(TEXT)?),
            3 => Call::Resolve(self.number()?),
            4 => Call::Advance(self.optional(Self::number)?, self.number()?),
            5 => Call::Fetch(self.operation()?, self.number()?),
            6 => Call::Capacity(self.number()?, self.number()?),
            7 => Call::Overlap(self.flag()?),
            8 => Call::Halt,
            9 => Call::Fault(self.text(TEXT)?),
            10 => Call::Reset(self.number()?, self.number()?),
            11 => Call::Redirect(self.number()?),
            38 => Call::Cell(self.number()?, self.number()?, self.number()?),
            byte @ 12..38 => Call::View(self.view(byte)?),
            byte => {
                let request = self.request(byte)?;
                let room = self.number()?;
                (room <= ROOM).then_some(Call::Text(request, room))?
            }
        })
    }

    fn view(&mut self, byte: u8) -> Option<View> {
        Some(match byte {
            12 => View::Status,
            13 => View::Stats,
            14 => View::Enabled,
            15 => View::FetchPc,
            16 => View::ResumePc,
            17 => View::StageCount,
            18 => View::Edges,
            19 => View::EntryStages,
            20 => View::StageOrder,
            21 => View::UnitCount,
            22 => View::TraceCount,
            23 => View::TimelineLen,
            24 => View::StationCount,
            25 => View::RenameCount,
            26 => View::QueueCount,
            27 => View::BufferCount,
            28 => View::BufferCapacity,
            29 => View::InFlightBefore(self.number()?),
            30 => View::Stage(self.number()?),
            31 => View::Unit(self.number()?),
            32 => View::Trace(self.number()?),
            33 => View::TimelineRow(self.number()?),
            34 => View::Station(self.number()?),
            35 => View::Rename(self.number()?),
            36 => View::Queued(self.number()?),
            37 => View::BufferEntry(self.number()?),
            _ => return None,
        })
    }

    fn request(&mut self, byte: u8) -> Option<Request> {
        Some(match byte {
            39 => Request::StatusMessage,
            40 => Request::Slot(self.place()?, self.field()?),
            41 => Request::TraceDetail(self.number()?),
            42 => Request::RowDisassembly(self.number()?),
            43 => Request::StageName(self.number()?),
            44 => Request::UnitName(self.number()?),
            45 => Request::StationLabel(self.number()?),
            46 => Request::RenameRegister(self.number()?),
            47 => Request::CellLabel(self.number()?),
            48 => Request::OperandRegister(self.number()?, self.number()?),
            _ => return None,
        })
    }

    fn place(&mut self) -> Option<Place> {
        let byte = self.byte()?;
        let at = self.number()?;
        Some(match byte {
            0 => Place::Queue(at),
            1 => Place::Station(at),
            2 => Place::Stage(at),
            3 => Place::Unit(at),
            4 => Place::Offer,
            _ => return None,
        })
    }

    fn field(&mut self) -> Option<Field> {
        let byte = self.byte()?;
        let at = self.number()?;
        Some(match byte {
            0 => Field::Disassembly,
            1 => Field::Destination,
            2 => Field::Fault,
            3 => Field::Source(at),
            4 => Field::Write(at),
            _ => return None,
        })
    }

    fn operation(&mut self) -> Option<Given> {
        Some(Given {
            address: self.number()?,
            size: self.number()?,
            class: self.class()?,
            branch: self.flag()?,
            atomic: self.flag()?,
            payload: self.number()?,
            text: self.text(TEXT)?,
            fault: self.optional(|reader| reader.text(TEXT))?,
            destination: self.optional(|reader| reader.text(NAME))?,
            sources: self.names(SOURCES)?,
            writes: self.names(WRITES)?,
        })
    }
}
