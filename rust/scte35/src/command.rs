//! Splice commands.
use crate::flags::{NetworkIndicator, ReturnMode};
use crate::header::SpliceTime;
use crate::raw;
use crate::refusal::Refusal;
use crate::view;

/// A splice command. More may come.
#[derive(Debug, Clone, PartialEq, Eq, Hash)]
#[non_exhaustive]
pub enum SpliceCommand<'a> {
    /// splice_null
    SpliceNull,
    /// splice_insert
    SpliceInsert(SpliceInsert),
    /// time_signal
    TimeSignal(SpliceTime),
    /// bandwidth_reservation
    BandwidthReservation,
    /// private_command
    PrivateCommand {
        /// four bytes as one number, the first highest
        identifier: u32,
        /// all that follows them
        private_bytes: &'a [u8],
    },
}

/// A splice_insert.
#[derive(Debug, Clone, PartialEq, Eq, Hash)]
pub struct SpliceInsert {
    /// the event's number
    pub splice_event_id: u32,
    /// the seven bits after the cancel indicator; a writer takes 127 only
    pub reserved: u8,
    /// none: the event is cancelled
    pub detail: Option<InsertDetail>,
}

/// What an insert says that is not cancelled.
#[derive(Debug, Clone, PartialEq, Eq, Hash)]
pub struct InsertDetail {
    /// out of the network or back to it
    pub network_indicator: NetworkIndicator,
    /// the whole program, or component by component; and when
    pub splice_mode: SpliceMode,
    /// the break's duration, where it is given
    pub duration: Option<SpliceDuration>,
    /// unique_program_id
    pub unique_program_id: u16,
    /// avail_num
    pub avail_num: u8,
    /// avails_expected
    pub avails_expected: u8,
}

/// What is spliced, and when.
#[derive(Debug, Clone, PartialEq, Eq, Hash)]
pub enum SpliceMode {
    /// the whole program
    Program(SpliceTime),
    /// these components; 255 at most, all immediate or none
    Components(Vec<InsertComponent>),
}

/// A component of an insert.
#[derive(Debug, Clone, Copy, PartialEq, Eq, Hash)]
pub struct InsertComponent {
    /// which component
    pub component_tag: u8,
    /// its time
    pub splice_time: SpliceTime,
}

/// A break_duration.
#[derive(Debug, Clone, Copy, PartialEq, Eq, Hash)]
pub struct SpliceDuration {
    /// whether the break ends by itself
    pub return_mode: ReturnMode,
    /// 33 bits, in ticks of 90 kHz
    pub duration: u64,
}

impl<'a> SpliceCommand<'a> {
    /// The time of a time signal, or of an insert by program; none of any other command. (Each component of an insert has a time of its own.)
    pub fn splice_time(&self) -> Option<SpliceTime> {
        match self {
            SpliceCommand::TimeSignal(t) => Some(*t),
            SpliceCommand::SpliceInsert(SpliceInsert { detail: Some(InsertDetail { splice_mode: SpliceMode::Program(t), .. }), .. }) => Some(*t),
            _ => None,
        }
    }

    /// What `c` says of the command whose payload begins at `at` of `lent`; its views count from `from`.
    pub(crate) fn of(c: &raw::Command, lent: &'a [u8], at: usize, from: usize) -> Self {
        match c.splice_command_type {
            0 => SpliceCommand::SpliceNull,
            5 => SpliceCommand::SpliceInsert(insert(&c.insert, lent, at)),
            6 => SpliceCommand::TimeSignal(SpliceTime::of(&c.splice_time)),
            7 => SpliceCommand::BandwidthReservation,
            255 => SpliceCommand::PrivateCommand { identifier: c.identifier as u32, private_bytes: view(&lent[from..], &c.private_bytes) },
            n => unreachable!("no command has type {n}"),
        }
    }
}

fn insert(i: &raw::Insert, lent: &[u8], at: usize) -> SpliceInsert {
    SpliceInsert {
        splice_event_id: i.splice_event_id as u32,
        reserved: i.reserved as u8,
        detail: (i.splice_event_cancel_indicator == 0).then(|| InsertDetail {
            network_indicator: if i.out_of_network_indicator == 1 { NetworkIndicator::Out } else { NetworkIndicator::In },
            splice_mode: mode(&i.mode, lent, at),
            duration: (i.break_duration.duration_flag == 1).then_some(SpliceDuration {
                return_mode: if i.break_duration.auto_return == 1 { ReturnMode::Automatic } else { ReturnMode::Manual },
                duration: i.break_duration.duration,
            }),
            unique_program_id: i.unique_program_id as u16,
            avail_num: i.avail_num as u8,
            avails_expected: i.avails_expected as u8,
        }),
    }
}

fn mode(m: &raw::Mode, lent: &[u8], at: usize) -> SpliceMode {
    if m.program_splice_flag == 1 {
        return SpliceMode::Program(SpliceTime::of(&m.splice_time));
    }
    if m.component_count == 0 {
        return SpliceMode::Components(vec![]);
    }
    let list = raw::read_insert_components(lent, at);
    let component = |c: &raw::InsertComponent| InsertComponent { component_tag: c.component_tag as u8, splice_time: SpliceTime::of(&c.splice_time) };
    SpliceMode::Components(list.components[..list.count as usize].iter().map(component).collect())
}

/// Reads a command of that type from its payload alone. Refused with `Refusal::UnknownCommand` or `Refusal::MalformedCommand`.
pub fn read_command(command_type: crate::SpliceCommandType, payload: &[u8]) -> Result<SpliceCommand<'_>, Refusal> {
    let c = raw::read_command(command_type.id(), payload, 0);
    match c.refusal {
        0 => Ok(SpliceCommand::of(&c, payload, 0, 0)),
        n => Err(Refusal::answered(n, [0; 3])),
    }
}
