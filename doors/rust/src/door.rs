//! The calls of the library.

use crate::error::{Cause, Error};

#[repr(C)]
#[derive(Clone, Copy, Default)]
struct Report {
    length: usize,
    state: usize,
    read: usize,
    place: usize,
    detail: usize,
    events: u64,
    version: u8,
}

extern "C" {
    fn trace_record(batch: *const u8, batch_len: usize, out: *mut u8, out_len: usize, report: *mut Report) -> u32;
    fn trace_check(trace: *const u8, trace_len: usize, report: *mut Report) -> u32;
    fn trace_read(
        state: *const u8,
        state_len: usize,
        trace: *const u8,
        trace_len: usize,
        most: u64,
        out: *mut u8,
        out_len: usize,
        report: *mut Report,
    ) -> u32;
    fn trace_dump(
        trace: *const u8,
        trace_len: usize,
        resolve: bool,
        out: *mut u8,
        out_len: usize,
        report: *mut Report,
    ) -> u32;
}

const DONE: u32 = 0;
const SHORT_ROOM: u32 = 1;

/// What a call puts into room, with its number: `guess` bytes are tried, and then as many as it needs.
fn in_room(guess: usize, call: impl Fn(&mut [u8], &mut Report) -> u32) -> (u32, Vec<u8>, Report) {
    let mut report = Report::default();
    let mut room = vec![0; guess];
    let mut code = call(&mut room, &mut report);
    if code == SHORT_ROOM {
        room.resize(report.length + report.state, 0);
        code = call(&mut room, &mut report);
    }
    room.truncate(report.length + report.state);
    (code, room, report)
}

/// The trace of a batch of bytes (docs/DOORS.md, "Batches"), with a header of its own.
pub fn record_batch(batch: &[u8]) -> Result<Vec<u8>, Error> {
    // SAFETY: each pointer goes with the length of what it points to, and the call keeps none.
    let call = |room: &mut [u8], report: &mut Report| unsafe {
        trace_record(batch.as_ptr(), batch.len(), room.as_mut_ptr(), room.len(), report)
    };
    match in_room(batch.len() + 64, call) {
        (DONE, trace, _) => Ok(trace),
        (code, _, report) => {
            Err(Error::Batch { cause: Cause::of(code), record: report.place, detail: report.detail })
        }
    }
}

/// How many events a trace holds, which reads whole; else how far it does, and why no further.
pub fn check(trace: &[u8]) -> Result<u64, Error> {
    let mut report = Report::default();
    // SAFETY: as above.
    match unsafe { trace_check(trace.as_ptr(), trace.len(), &mut report) } {
        DONE => Ok(report.events),
        code => Err(stopped(code, report.length, &report)),
    }
}

fn stopped(code: u32, length: usize, report: &Report) -> Error {
    Error::Trace { cause: Cause::of(code), length, place: report.place, detail: report.detail }
}

/// What was read of a trace (docs/DOORS.md, "trace_read").
#[derive(Debug)]
pub struct ReadBatch {
    /// The version of the trace.
    pub version: u8,
    /// What is known and what was read, as a batch.
    pub batch: Vec<u8>,
    /// What to hand back with the bytes that are left.
    pub state: Vec<u8>,
    /// How many bytes of the trace were read.
    pub length: usize,
    /// How many events were.
    pub events: u64,
    /// Why no frame stands after them, where none does.
    pub stop: Option<Error>,
}

// The numbers that tell why no frame stands after what was read.
const FIRST_CAUSE: u32 = 48;
const LAST_CAUSE: u32 = 57;

/// What comes next in a trace, with at most so many events: of the whole trace with an empty state, and then of what is
/// left with the state that was handed out.
pub fn read_batch(state: &[u8], trace: &[u8], most: u64) -> Result<ReadBatch, Error> {
    // SAFETY: as above.
    let call = |room: &mut [u8], report: &mut Report| unsafe {
        trace_read(
            state.as_ptr(),
            state.len(),
            trace.as_ptr(),
            trace.len(),
            most,
            room.as_mut_ptr(),
            room.len(),
            report,
        )
    };
    let guess = 1_024 + 2 * state.len() + 64 * usize::try_from(most).unwrap_or(1_000).min(1_000);
    let (code, mut batch, report) = in_room(guess, call);
    let stop = match code {
        DONE => None,
        FIRST_CAUSE..=LAST_CAUSE => Some(stopped(code, report.read, &report)),
        code => return Err(stopped(code, 0, &report)),
    };
    let state = batch.split_off(report.length);
    Ok(ReadBatch { version: report.version, batch, state, length: report.read, events: report.events, stop })
}

/// The lines of a trace, and the status that `tracedump` would end with.
pub struct Dump {
    /// The lines (docs/FORMAT.md, "Dumps").
    pub lines: String,
    /// 0 of a trace that reads whole.
    pub status: usize,
}

/// The lines of a trace: all frames as they are, or, with `resolve`, the events alone, texts and stacks in place of
/// the ids of the pools.
pub fn dump(trace: &[u8], resolve: bool) -> Result<Dump, Error> {
    // SAFETY: as above.
    let call = |room: &mut [u8], report: &mut Report| unsafe {
        trace_dump(trace.as_ptr(), trace.len(), resolve, room.as_mut_ptr(), room.len(), report)
    };
    match in_room(16 * trace.len() + 256, call) {
        (DONE, lines, report) => {
            Ok(Dump { lines: String::from_utf8_lossy(&lines).into_owned(), status: report.detail })
        }
        (code, _, _) => Err(Error::Trace { cause: Cause::of(code), length: 0, place: 0, detail: 0 }),
    }
}
