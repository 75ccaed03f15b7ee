//! The outcome of a call, and how it is printed.

use std::fmt;

use pocket_kernel::gdi::GdiObject;

use super::call::Call;
use super::line;
use super::lines::{Line, Point};
use crate::crc::crc32;
use crate::overflow::Overflow;

/// The outcome of a call. `Display` prints its line.
pub struct Outcome {
    /// The number of the refusal, 0 if the call is accepted.
    pub refusal: u8,
    pub answer: Answer,
    /// Whether a pixel has changed.
    pub changed: bool,
    /// The panel's sides before the call.
    pub panel: [u32; 2],
}

pub enum Answer {
    /// A handle, COLORREF or alignment.
    Number(u32),
    Flag(bool),
    /// A removed object, with its position if it is a DC and the script prints
    /// positions.
    Object(Option<GdiObject>, Option<Point>),
    /// The advance of a text.
    Advance(i32),
    /// The old position.
    Position(Point),
    /// The length of a saved table, and the CRC-32 of the whole output.
    Saved {
        len: usize,
        crc: u32,
    },
    /// No answer is printed; this is the line that was drawn.
    Line(Line),
    /// No answer.
    Nothing,
}

/// Why a call has no answer.
pub enum Stop {
    Refused(u8),
    Overflow,
}

impl From<u8> for Stop {
    fn from(number: u8) -> Self {
        Stop::Refused(number)
    }
}

impl From<Overflow> for Stop {
    fn from(_: Overflow) -> Self {
        Stop::Overflow
    }
}

impl fmt::Display for Outcome {
    fn fmt(&self, f: &mut fmt::Formatter<'_>) -> fmt::Result {
        write!(f, "{}", self.refusal)?;
        match &self.answer {
            Answer::Number(number) => write!(f, " {number:08x}"),
            Answer::Flag(flag) => write!(f, " {}", u8::from(*flag)),
            Answer::Object(Some(object), position) => {
                write!(f, " {}", line::object(object, *position))
            }
            Answer::Object(None, _) => f.write_str(" none"),
            Answer::Advance(advance) => write!(f, " {advance}"),
            Answer::Position(position) => write!(f, " {position}"),
            Answer::Saved { len, crc } => write!(f, " {len} {crc:08x}"),
            Answer::Line(_) | Answer::Nothing => Ok(()),
        }
    }
}

impl Answer {
    /// The answer of a refused call, with the byte that fills the output of a save.
    pub fn refused(call: &Call, fill: u8) -> Self {
        match call {
            Call::Delete { .. } | Call::SetBkMode { .. } => Answer::Flag(false),
            Call::Remove { .. } => Answer::Object(None, None),
            Call::Move { .. } => Answer::Position(Point::default()),
            Call::Text { .. } => Answer::Advance(0),
            Call::Save { room } => {
                Answer::Saved { len: 0, crc: crc32(&vec![fill; *room as usize]) }
            }
            Call::Load { .. } => Answer::Nothing,
            _ if call.draws() => Answer::Nothing,
            _ => Answer::Number(0),
        }
    }
}
