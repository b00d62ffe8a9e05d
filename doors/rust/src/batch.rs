//! Batches, and a recorder that gathers and sends them.

use crate::door::record_batch;
use crate::error::Error;
use std::collections::{HashMap, HashSet};
use std::io::{self, ErrorKind, Write};

/// The types of fields (docs/FORMAT.md, "Field types").
#[derive(Clone, Copy, Debug, PartialEq, Eq, Hash)]
#[repr(u8)]
pub enum FieldType {
    I64 = 1,
    F64,
    Bool,
    String,
    Bytes,
    PooledStackFrames,
    PooledString,
    StackFrames,
    Varint,
    StringMap,
    U8,
    U16,
    U32,
    DynamicList,
    DynamicMap,
}

const OPTIONAL: u8 = 0x80;

// How many schemas a batch has at most: as many wire ids does an encoder give to them.
const MOST_SCHEMAS: usize = 65_280;

/// A schema: a name, fields in the order in which events hold them, and annotations of the fields.
#[derive(Clone, Debug, PartialEq, Eq, Hash)]
pub struct Schema {
    name: String,
    fields: Vec<(String, u8)>,
    annotations: Vec<(u16, String, String)>,
}

impl Schema {
    /// A schema without fields.
    pub fn new(name: &str) -> Schema {
        Schema { name: name.to_owned(), fields: Vec::new(), annotations: Vec::new() }
    }

    /// With one field more.
    pub fn field(mut self, name: &str, field_type: FieldType) -> Schema {
        self.fields.push((name.to_owned(), field_type as u8));
        self
    }

    /// With one field more, which may be absent.
    pub fn optional(mut self, name: &str, field_type: FieldType) -> Schema {
        self.fields.push((name.to_owned(), field_type as u8 | OPTIONAL));
        self
    }

    /// With an annotation of the last field.
    pub fn annotated(mut self, key: &str, value: &str) -> Schema {
        let last = u16::try_from(self.fields.len().saturating_sub(1)).unwrap_or(u16::MAX);
        self.annotations.push((last, key.to_owned(), value.to_owned()));
        self
    }

    /// With an annotation of the schema itself, which has the index 65,535 (docs/ROLES.md).
    pub fn noted(mut self, key: &str, value: &str) -> Schema {
        self.annotations.push((u16::MAX, key.to_owned(), value.to_owned()));
        self
    }

    // A schema that was read.
    pub(crate) fn from_parts(
        name: String,
        fields: Vec<(String, u8)>,
        annotations: Vec<(u16, String, String)>,
    ) -> Schema {
        Schema { name, fields, annotations }
    }

    /// Its name.
    pub fn name(&self) -> &str {
        &self.name
    }

    /// The names of its fields, in order.
    pub fn field_names(&self) -> impl Iterator<Item = &str> {
        self.fields.iter().map(|(name, _)| name.as_str())
    }

    /// The tags of the types of its fields, in order (docs/FORMAT.md, "Field types").
    pub fn field_tags(&self) -> impl Iterator<Item = u8> + '_ {
        self.fields.iter().map(|(_, tag)| *tag)
    }

    /// Its annotations, in order: the index of a field, a key and a value.
    pub fn annotations(&self) -> impl Iterator<Item = (u16, &str, &str)> {
        self.annotations.iter().map(|(field, key, value)| (*field, key.as_str(), value.as_str()))
    }

    fn put(&self, number: u16, out: &mut Vec<u8>) {
        out.push(1);
        out.extend_from_slice(&number.to_le_bytes());
        put_name(&self.name, out);
        put_short_count(self.fields.len(), out);
        for (name, tag) in &self.fields {
            put_name(name, out);
            out.push(*tag);
        }
        put_short_count(self.annotations.len(), out);
        for (field, key, value) in &self.annotations {
            out.extend_from_slice(&field.to_le_bytes());
            put_name(key, out);
            put_counted(value.as_bytes(), out);
        }
    }
}

/// A value of a field.
#[derive(Clone, Copy, Debug, PartialEq)]
pub enum Value<'a> {
    /// A signed number, of the type `I64`.
    Integer(i64),
    /// An unsigned number, of a type `Varint`, `U8`, `U16` or `U32`.
    Number(u64),
    /// A float.
    Float(f64),
    /// A truth value.
    Bool(bool),
    /// A text in the event itself.
    Text(&'a str),
    /// Bytes.
    Bytes(&'a [u8]),
    /// A text in the string pool, where it stands once for each batch.
    Pooled(&'a str),
    /// The addresses of a stack in the event itself.
    Stack(&'a [u64]),
    /// The addresses of a stack in the stack pool, where it stands once for each batch.
    PooledStack(&'a [u64]),
    /// Pairs of a key and a value.
    Texts(&'a [(&'a str, &'a str)]),
    /// Items, none of them pooled or absent.
    List(&'a [Value<'a>]),
    /// Pairs of a key and a value, none of them pooled or absent.
    Map(&'a [(Value<'a>, Value<'a>)]),
    /// The value of an optional field that is absent.
    Absent,
}

/// A batch that is gathered (docs/DOORS.md, "Batches"). All schemas of a name are alike in one batch
/// ([`Batch::takes`]).
#[derive(Debug, Default)]
pub struct Batch {
    bytes: Vec<u8>,
    schemas: HashMap<Schema, u16>,
    names: HashSet<String>,
    texts: HashMap<String, u32>,
    stacks: HashMap<Vec<u64>, u32>,
    events: usize,
}

impl Batch {
    /// A batch without records.
    pub fn new() -> Batch {
        Batch::default()
    }

    /// The records.
    pub fn as_bytes(&self) -> &[u8] {
        &self.bytes
    }

    /// How many events were put in.
    pub fn events(&self) -> usize {
        self.events
    }

    /// Drops all records. The memory is kept.
    pub fn clear(&mut self) {
        self.bytes.clear();
        self.schemas.clear();
        self.names.clear();
        self.texts.clear();
        self.stacks.clear();
        self.events = 0;
    }

    /// Whether no other schema of its name stands in the batch (else the batch with it is refused,
    /// [`Cause::Conflict`](crate::Cause::Conflict)), and it is one of at most 65,280 (else
    /// [`Cause::IdsUsedUp`](crate::Cause::IdsUsedUp)).
    pub fn takes(&self, schema: &Schema) -> bool {
        self.schemas.contains_key(schema)
            || !self.names.contains(schema.name()) && self.schemas.len() < MOST_SCHEMAS
    }

    /// Puts an event of the schema in, at a time in nanoseconds. Whether the values fit is told when the batch is
    /// recorded.
    ///
    /// # Panics
    ///
    /// At more than 65,536 schemas, 65,535 values, or 4,294,967,296 texts or stacks in one batch; at a schema with more
    /// than 65,535 fields, annotations, or bytes of a name; and at a text, stack, list or map that four bytes do not
    /// count.
    pub fn event(&mut self, schema: &Schema, time: u64, values: &[Value<'_>]) {
        let number = match self.schemas.get(schema) {
            Some(number) => *number,
            None => self.define(schema),
        };
        self.put_event(number, time, values);
    }

    // The record of a schema that is new, and its number.
    fn define(&mut self, schema: &Schema) -> u16 {
        let number = u16::try_from(self.schemas.len()).expect("at most 65,536 schemas in a batch");
        schema.put(number, &mut self.bytes);
        self.schemas.insert(schema.clone(), number);
        self.names.insert(schema.name().to_owned());
        number
    }

    fn put_event(&mut self, number: u16, time: u64, values: &[Value<'_>]) {
        for value in values {
            self.pool(value);
        }
        self.bytes.push(2);
        self.bytes.extend_from_slice(&number.to_le_bytes());
        self.bytes.extend_from_slice(&time.to_le_bytes());
        let count = u16::try_from(values.len()).expect("at most 65,535 values");
        self.bytes.extend_from_slice(&count.to_le_bytes());
        for value in values {
            match value {
                Value::Pooled(text) => put_tagged(FieldType::PooledString, self.texts[*text], &mut self.bytes),
                Value::PooledStack(stack) => {
                    put_tagged(FieldType::PooledStackFrames, self.stacks[*stack], &mut self.bytes)
                }
                other => put_value(other, &mut self.bytes),
            }
        }
        self.events += 1;
    }

    // The record of a text or a stack that is new.
    fn pool(&mut self, value: &Value<'_>) {
        match value {
            Value::Pooled(text) if !self.texts.contains_key(*text) => {
                let id = u32::try_from(self.texts.len()).expect("at most 4,294,967,296 texts");
                self.bytes.push(3);
                self.bytes.extend_from_slice(&id.to_le_bytes());
                put_counted(text.as_bytes(), &mut self.bytes);
                self.texts.insert((*text).to_owned(), id);
            }
            Value::PooledStack(stack) if !self.stacks.contains_key(*stack) => {
                let id = u32::try_from(self.stacks.len()).expect("at most 4,294,967,296 stacks");
                self.bytes.push(4);
                self.bytes.extend_from_slice(&id.to_le_bytes());
                put_addresses(stack, &mut self.bytes);
                self.stacks.insert(stack.to_vec(), id);
            }
            _ => {}
        }
    }
}

/// A recorder over any writer: it gathers events, and sends each full batch as a trace of its own. What it wrote is one
/// trace after another, which readers take for one. A second schema of a name begins another batch, and so does a
/// schema for which a trace has no wire id left. Where nothing is recorded, nothing is written, not even a header.
///
/// Events that were gathered and not sent are lost where the recorder is dropped: call [`Recorder::finish`]. Where the
/// writer fails, the last trace may be cut, and a reader would take what stands after it for its rest. So nothing more
/// is written then, and each later call that would write is an [`Error::Write`] of the same kind.
#[derive(Debug)]
pub struct Recorder<W: Write> {
    out: W,
    batch: Batch,
    most: usize,
    failed: Option<ErrorKind>,
}

impl<W: Write> Recorder<W> {
    /// A recorder that sends about 64 KiB at a time.
    pub fn new(out: W) -> Recorder<W> {
        Recorder::with_batches(out, 65_536)
    }

    /// A recorder that sends a batch once it has so many bytes.
    pub fn with_batches(out: W, most: usize) -> Recorder<W> {
        Recorder { out, batch: Batch::new(), most, failed: None }
    }

    /// Records an event of the schema, at a time in nanoseconds. Where a batch is sent with it, or before it, and
    /// refused, the error names the record, and nothing of the batch was written; it is dropped, with the event.
    ///
    /// # Panics
    ///
    /// Where [`Batch::event`] does.
    pub fn event(&mut self, schema: &Schema, time: u64, values: &[Value<'_>]) -> Result<(), Error> {
        let number = match self.batch.schemas.get(schema) {
            Some(number) => *number,
            None => {
                if !self.batch.takes(schema) {
                    self.send()?;
                }
                self.batch.define(schema)
            }
        };
        self.batch.put_event(number, time, values);
        if self.batch.as_bytes().len() >= self.most {
            return self.send();
        }
        Ok(())
    }

    /// Sends what was gathered, and flushes the writer.
    pub fn flush(&mut self) -> Result<(), Error> {
        self.send()?;
        let flushed = self.works().and_then(|()| self.out.flush());
        self.written(flushed)
    }

    /// Sends what was gathered, and answers the writer.
    pub fn finish(mut self) -> Result<W, Error> {
        self.flush()?;
        Ok(self.out)
    }

    fn send(&mut self) -> Result<(), Error> {
        if self.batch.as_bytes().is_empty() {
            return Ok(());
        }
        let trace = record_batch(self.batch.as_bytes());
        self.batch.clear();
        let trace = trace?;
        let written = self.works().and_then(|()| self.out.write_all(&trace));
        self.written(written)
    }

    // The error of a writer that failed before.
    fn works(&self) -> io::Result<()> {
        match self.failed {
            Some(kind) => Err(io::Error::new(kind, "it failed before")),
            None => Ok(()),
        }
    }

    fn written(&mut self, done: io::Result<()>) -> Result<(), Error> {
        self.failed = done.as_ref().err().map(io::Error::kind);
        Ok(done?)
    }
}

fn put_name(name: &str, out: &mut Vec<u8>) {
    put_short_count(name.len(), out);
    out.extend_from_slice(name.as_bytes());
}

fn put_short_count(count: usize, out: &mut Vec<u8>) {
    let count = u16::try_from(count).expect("names, fields and annotations that two bytes count");
    out.extend_from_slice(&count.to_le_bytes());
}

fn put_counted(bytes: &[u8], out: &mut Vec<u8>) {
    put_count(bytes.len(), out);
    out.extend_from_slice(bytes);
}

fn put_count(count: usize, out: &mut Vec<u8>) {
    let count = u32::try_from(count).expect("lengths and counts of four bytes");
    out.extend_from_slice(&count.to_le_bytes());
}

fn put_addresses(addresses: &[u64], out: &mut Vec<u8>) {
    put_count(addresses.len(), out);
    for address in addresses {
        out.extend_from_slice(&address.to_le_bytes());
    }
}

fn put_tagged(field_type: FieldType, id: u32, out: &mut Vec<u8>) {
    out.push(field_type as u8);
    out.extend_from_slice(&id.to_le_bytes());
}

fn put_leb128(mut number: u64, out: &mut Vec<u8>) {
    while number >= 0x80 {
        out.push(number as u8 | 0x80);
        number >>= 7;
    }
    out.push(number as u8);
}

// A value after its tag. A text or stack that is to be pooled stands in the value itself here.
fn put_value(value: &Value<'_>, out: &mut Vec<u8>) {
    let tag = match value {
        Value::Integer(_) => FieldType::I64,
        Value::Number(_) => FieldType::Varint,
        Value::Float(_) => FieldType::F64,
        Value::Bool(_) => FieldType::Bool,
        Value::Text(_) | Value::Pooled(_) => FieldType::String,
        Value::Bytes(_) => FieldType::Bytes,
        Value::Stack(_) | Value::PooledStack(_) => FieldType::StackFrames,
        Value::Texts(_) => FieldType::StringMap,
        Value::List(_) => FieldType::DynamicList,
        Value::Map(_) => FieldType::DynamicMap,
        Value::Absent => return out.extend_from_slice(&[FieldType::I64 as u8 | OPTIONAL, 0]),
    };
    out.push(tag as u8);
    match value {
        Value::Integer(number) => out.extend_from_slice(&number.to_le_bytes()),
        Value::Number(number) => put_leb128(*number, out),
        Value::Float(number) => out.extend_from_slice(&number.to_bits().to_le_bytes()),
        Value::Bool(truth) => out.push(u8::from(*truth)),
        Value::Text(text) | Value::Pooled(text) => put_counted(text.as_bytes(), out),
        Value::Bytes(bytes) => put_counted(bytes, out),
        Value::Stack(addresses) | Value::PooledStack(addresses) => put_addresses(addresses, out),
        Value::Texts(pairs) => {
            put_count(pairs.len(), out);
            for (key, text) in *pairs {
                put_counted(key.as_bytes(), out);
                put_counted(text.as_bytes(), out);
            }
        }
        Value::List(items) => {
            put_count(items.len(), out);
            for item in *items {
                put_value(item, out);
            }
        }
        Value::Map(pairs) => {
            put_count(pairs.len(), out);
            for (key, item) in *pairs {
                put_value(key, out);
                put_value(item, out);
            }
        }
        Value::Absent => {}
    }
}
