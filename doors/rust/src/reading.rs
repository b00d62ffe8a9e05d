//! The events of a trace, read batch by batch (docs/DOORS.md, "Batches").

use crate::batch::Schema;
use crate::door::{read_batch, ReadBatch};
use crate::error::Error;
use std::collections::HashMap;
use std::rc::Rc;

/// A value that was read. Texts and stacks of the pools stand in place of their ids.
#[derive(Clone, Debug, PartialEq)]
pub enum ReadValue {
    /// A signed number.
    Integer(i64),
    /// An unsigned number.
    Number(u64),
    /// A float.
    Float(f64),
    /// A truth value.
    Bool(bool),
    /// A text.
    Text(String),
    /// Bytes.
    Bytes(Vec<u8>),
    /// The addresses of a stack.
    Stack(Vec<u64>),
    /// Pairs of a key and a value, all those before the first that is not UTF-8.
    Texts(Vec<(String, String)>),
    /// Items.
    List(Vec<ReadValue>),
    /// Pairs of a key and a value.
    Map(Vec<(ReadValue, ReadValue)>),
    /// The value of an optional field that is absent.
    Absent,
}

/// An event that was read.
#[derive(Clone, Debug, PartialEq)]
pub struct Event {
    /// Its schema, with the annotations that were read.
    pub schema: Rc<Schema>,
    /// Its time in nanoseconds.
    pub time: u64,
    /// Its values, one for each field, in order; none where an id is in no pool.
    pub values: Vec<ReadValue>,
    /// The first id that is in no pool, as `pool#7` or `stack#7`, where there is one.
    pub unresolved: Option<String>,
}

impl Event {
    /// The name of its schema.
    pub fn name(&self) -> &str {
        self.schema.name()
    }

    /// The value of the first field with this name.
    pub fn get(&self, name: &str) -> Option<&ReadValue> {
        let index = self.schema.field_names().position(|field| field == name)?;
        self.values.get(index)
    }
}

// How many events a batch has at most, where little is known before it.
const MOST: u64 = 1_000;

// How many of them more: each batch tells again what is known, which costs little beside so many events.
fn most_after(state: &[u8]) -> u64 {
    MOST.max(state.len() as u64 / 32)
}

/// The events of a trace, in order. They are read a batch at a time: about a thousand, or more where the schemas and
/// pools before them are large.
#[derive(Debug)]
pub struct Events<'a> {
    trace: &'a [u8],
    place: usize,
    read: ReadBatch,
    at: usize,
    known: Known,
    ended: bool,
    end: Option<Error>,
}

impl Events<'_> {
    /// Why the trace does not read whole, if it does not: known once all events before that place were given.
    pub fn stop(&self) -> Option<&Error> {
        self.end.as_ref()
    }

    /// The version of the trace.
    pub fn version(&self) -> u8 {
        self.read.version
    }

    // Reads the next batch, where there is one.
    fn go_on(&mut self) -> bool {
        if self.ended {
            return false;
        }
        match read_batch(&self.read.state, &self.trace[self.place..], most_after(&self.read.state)) {
            Ok(read) => {
                self.put(read);
                true
            }
            Err(error) => {
                self.ended = true;
                self.end = Some(error.moved(self.place));
                false
            }
        }
    }

    fn put(&mut self, mut read: ReadBatch) {
        let begin = self.place;
        self.place += read.length;
        self.ended = self.place == self.trace.len() || read.stop.is_some();
        self.end = read.stop.take().map(|error| error.moved(begin));
        self.read = read;
        self.at = 0;
        self.known = Known::default();
    }
}

impl Iterator for Events<'_> {
    type Item = Event;

    fn next(&mut self) -> Option<Event> {
        loop {
            let mut bytes = Bytes { rest: self.read.batch.get(self.at..)? };
            if bytes.rest.is_empty() {
                if !self.go_on() {
                    return None;
                }
                continue;
            }
            let event = self.known.record(&mut bytes);
            self.at = self.read.batch.len() - bytes.rest.len();
            if event.is_some() {
                return event;
            }
        }
    }
}

/// The events of a trace. Where it does not read whole, those before that place: `stop` tells why. An error where
/// nothing can be read.
pub fn events(trace: &[u8]) -> Result<Events<'_>, Error> {
    let read = read_batch(&[], trace, MOST)?;
    let empty = ReadBatch { version: 0, batch: Vec::new(), state: Vec::new(), length: 0, events: 0, stop: None };
    let mut events =
        Events { trace, place: 0, read: empty, at: 0, known: Known::default(), ended: false, end: None };
    events.put(read);
    Ok(events)
}

// What the records of a batch have said so far.
#[derive(Debug, Default)]
struct Known {
    schemas: HashMap<u16, Rc<Schema>>,
    texts: HashMap<u32, String>,
    stacks: HashMap<u32, Vec<u64>>,
}

impl Known {
    // The event of the next record, if it is one. A batch is the library's: nothing of a record is missing.
    fn record(&mut self, bytes: &mut Bytes<'_>) -> Option<Event> {
        match bytes.byte() {
            1 => {
                let number = bytes.short();
                self.schemas.insert(number, Rc::new(bytes.schema()));
                None
            }
            2 => Some(self.event(bytes)),
            3 => {
                let id = bytes.word();
                // (of bytes that are not UTF-8 no reader knows)
                if let Ok(text) = std::str::from_utf8(bytes.counted()) {
                    self.texts.insert(id, text.to_owned());
                }
                None
            }
            _ => {
                let id = bytes.word();
                let stack = bytes.addresses();
                self.stacks.insert(id, stack);
                None
            }
        }
    }

    fn event(&self, bytes: &mut Bytes<'_>) -> Event {
        let schema = Rc::clone(&self.schemas[&bytes.short()]);
        let time = bytes.long();
        let mut unresolved = None;
        let values = (0..bytes.short()).map(|_| self.field(bytes, &mut unresolved)).collect();
        match unresolved {
            None => Event { schema, time, values, unresolved },
            Some(_) => Event { schema, time, values: Vec::new(), unresolved },
        }
    }

    fn field(&self, bytes: &mut Bytes<'_>, unresolved: &mut Option<String>) -> ReadValue {
        let tag = bytes.byte();
        if tag & 0x80 != 0 && bytes.byte() == 0 {
            return ReadValue::Absent;
        }
        self.value(tag & 0x7f, bytes, unresolved)
    }

    fn item(&self, bytes: &mut Bytes<'_>, unresolved: &mut Option<String>) -> ReadValue {
        let tag = bytes.byte();
        self.value(tag & 0x7f, bytes, unresolved)
    }

    fn value(&self, tag: u8, bytes: &mut Bytes<'_>, unresolved: &mut Option<String>) -> ReadValue {
        match tag {
            1 => ReadValue::Integer(bytes.long() as i64),
            2 => ReadValue::Float(f64::from_bits(bytes.long())),
            3 => ReadValue::Bool(bytes.byte() != 0),
            4 => ReadValue::Text(String::from_utf8_lossy(bytes.counted()).into_owned()),
            5 => ReadValue::Bytes(bytes.counted().to_vec()),
            6 => {
                let id = bytes.word();
                ReadValue::Stack(pooled(&self.stacks, id, "stack", unresolved))
            }
            7 => {
                let id = bytes.word();
                ReadValue::Text(pooled(&self.texts, id, "pool", unresolved))
            }
            8 => ReadValue::Stack(bytes.addresses()),
            9 => ReadValue::Number(bytes.leb128()),
            10 => ReadValue::Texts(bytes.texts()),
            11 => ReadValue::Number(bytes.byte().into()),
            12 => ReadValue::Number(bytes.short().into()),
            13 => ReadValue::Number(bytes.word().into()),
            14 => ReadValue::List((0..bytes.word()).map(|_| self.item(bytes, unresolved)).collect()),
            _ => ReadValue::Map(
                (0..bytes.word()).map(|_| (self.item(bytes, unresolved), self.item(bytes, unresolved))).collect(),
            ),
        }
    }
}

// What an id stands for; the first that stands for nothing is told.
fn pooled<T: Clone + Default>(pool: &HashMap<u32, T>, id: u32, kind: &str, unresolved: &mut Option<String>) -> T {
    pool.get(&id).cloned().unwrap_or_else(|| {
        unresolved.get_or_insert_with(|| format!("{kind}#{id}"));
        T::default()
    })
}

// What is left of a batch.
struct Bytes<'a> {
    rest: &'a [u8],
}

impl<'a> Bytes<'a> {
    fn take(&mut self, length: usize) -> &'a [u8] {
        let (front, rest) = self.rest.split_at(length);
        self.rest = rest;
        front
    }

    fn array<const N: usize>(&mut self) -> [u8; N] {
        self.take(N).try_into().expect("as many bytes")
    }

    fn byte(&mut self) -> u8 {
        self.take(1)[0]
    }

    fn short(&mut self) -> u16 {
        u16::from_le_bytes(self.array())
    }

    fn word(&mut self) -> u32 {
        u32::from_le_bytes(self.array())
    }

    fn long(&mut self) -> u64 {
        u64::from_le_bytes(self.array())
    }

    fn leb128(&mut self) -> u64 {
        let mut number = 0;
        let mut shift = 0;
        loop {
            let byte = self.byte();
            if shift < 64 {
                number |= u64::from(byte & 0x7f) << shift;
            }
            shift += 7;
            if byte < 0x80 {
                return number;
            }
        }
    }

    fn counted(&mut self) -> &'a [u8] {
        let length = self.word() as usize;
        self.take(length)
    }

    fn name(&mut self) -> String {
        let length = self.short().into();
        String::from_utf8_lossy(self.take(length)).into_owned()
    }

    fn addresses(&mut self) -> Vec<u64> {
        (0..self.word()).map(|_| self.long()).collect()
    }

    // All pairs are stepped over, and those before the first that is not UTF-8 are given.
    fn texts(&mut self) -> Vec<(String, String)> {
        let raw: Vec<_> = (0..self.word()).map(|_| (self.counted(), self.counted())).collect();
        raw.into_iter()
            .map_while(|(key, text)| {
                Some((std::str::from_utf8(key).ok()?.to_owned(), std::str::from_utf8(text).ok()?.to_owned()))
            })
            .collect()
    }

    fn schema(&mut self) -> Schema {
        let name = self.name();
        let fields = (0..self.short()).map(|_| (self.name(), self.byte())).collect();
        let annotations = (0..self.short())
            .map(|_| {
                let field = self.short();
                let key = self.name();
                (field, key, String::from_utf8_lossy(self.counted()).into_owned())
            })
            .collect();
        Schema::from_parts(name, fields, annotations)
    }
}
