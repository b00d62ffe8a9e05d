//! Why a call did not do what was asked.

use std::fmt;

/// Why a batch is refused, or a trace does not read whole: the numbers of docs/DOORS.md, "Errors", by name.
#[derive(Clone, Copy, Debug, PartialEq, Eq)]
#[non_exhaustive]
pub enum Cause {
    OutOfMemory,
    NoRecord,
    UnknownSchema,
    Conflict,
    ValueCount,
    Misfit,
    TooLong,
    IdsUsedUp,
    ByteCount,
    TruncatedEvent,
    UnknownType,
    TruncatedDelta,
    TimeOverflow,
    TruncatedPrefix,
    TruncatedOptional,
    TruncatedValue,
    TruncatedReset,
    NoFrame,
    SchemaConflict,
    NoHeader,
    NoState,
    /// A number that these calls do not answer.
    Other(u32),
}

impl Cause {
    pub(crate) fn of(code: u32) -> Cause {
        match code {
            2 => Cause::OutOfMemory,
            16 => Cause::NoRecord,
            17 => Cause::UnknownSchema,
            32 => Cause::Conflict,
            33 => Cause::ValueCount,
            34 => Cause::Misfit,
            35 => Cause::TooLong,
            36 => Cause::IdsUsedUp,
            39 => Cause::ByteCount,
            48 => Cause::TruncatedEvent,
            49 => Cause::UnknownType,
            50 => Cause::TruncatedDelta,
            51 => Cause::TimeOverflow,
            52 => Cause::TruncatedPrefix,
            53 => Cause::TruncatedOptional,
            54 => Cause::TruncatedValue,
            55 => Cause::TruncatedReset,
            56 => Cause::NoFrame,
            57 => Cause::SchemaConflict,
            58 => Cause::NoHeader,
            60 => Cause::NoState,
            other => Cause::Other(other),
        }
    }
}

impl fmt::Display for Cause {
    fn fmt(&self, f: &mut fmt::Formatter<'_>) -> fmt::Result {
        f.write_str(match self {
            Cause::OutOfMemory => "out of memory",
            Cause::NoRecord => "no record of a batch stands there",
            Cause::UnknownSchema => "no schema has this number",
            Cause::Conflict => "a schema of this name has other fields or annotations",
            Cause::ValueCount => "not as many values as fields",
            Cause::Misfit => "a value does not fit its type",
            Cause::TooLong => "a length is past its width",
            Cause::IdsUsedUp => "no id is left",
            Cause::ByteCount => "too many bytes",
            Cause::TruncatedEvent => "an event is cut",
            Cause::UnknownType => "a wire id has no schema",
            Cause::TruncatedDelta => "a delta is cut",
            Cause::TimeOverflow => "a time is past 64 bits",
            Cause::TruncatedPrefix => "the presence byte of a field is cut",
            Cause::TruncatedOptional => "an optional field is no value of its type",
            Cause::TruncatedValue => "a field is no value of its type",
            Cause::TruncatedReset => "a reset is cut",
            Cause::NoFrame => "no frame stands there",
            Cause::SchemaConflict => "a wire id stands for another schema",
            Cause::NoHeader => "no header stands there",
            Cause::NoState => "no state stands there",
            Cause::Other(code) => return write!(f, "number {code}"),
        })
    }
}

/// Why a call did not do what was asked.
#[derive(Debug)]
pub enum Error {
    /// A batch is refused at this record, from 0; nothing was written. Of a misfit `detail` is the field.
    Batch { cause: Cause, record: usize, detail: usize },
    /// A trace reads whole up to `length` bytes. `place` is where the cause shows, and `detail` the wire id or byte
    /// of which it speaks.
    Trace { cause: Cause, length: usize, place: usize, detail: usize },
    /// The writer failed.
    Write(std::io::Error),
}

impl Error {
    // The same, of a trace that begins so many bytes before.
    pub(crate) fn moved(self, begin: usize) -> Error {
        match self {
            Error::Trace { cause, length, place, detail } => {
                Error::Trace { cause, length: begin + length, place: begin + place, detail }
            }
            other => other,
        }
    }
}

impl fmt::Display for Error {
    fn fmt(&self, f: &mut fmt::Formatter<'_>) -> fmt::Result {
        match self {
            Error::Batch { cause: Cause::Misfit, record, detail } => {
                write!(f, "record {record}: the value of field {detail} does not fit its type")
            }
            Error::Batch { cause, record, .. } => write!(f, "record {record}: {cause}"),
            Error::Trace { cause, place, .. } => write!(f, "stops at byte {place}: {cause}"),
            Error::Write(error) => write!(f, "the writer failed: {error}"),
        }
    }
}

impl std::error::Error for Error {}

impl From<std::io::Error> for Error {
    fn from(error: std::io::Error) -> Error {
        Error::Write(error)
    }
}
