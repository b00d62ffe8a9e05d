//! Further workloads, over the original. `library/bench_x` has the same over the library: wide events, long texts,
//! stacks, lists and maps of texts, small traces, other writers, pools, copies, equality, iterators, resolved events.
use crate::extra::{numbers, repeated, step};
use crate::writing::slot_polls;
use dial9_trace_format::codec::PoolEntry;
use dial9_trace_format::decoder::{DecodedFrame, DecodedFrameRef, Decoder, RawEvent};
use dial9_trace_format::encoder::{Encoder, Schema};
use dial9_trace_format::schema::FieldDef;
use dial9_trace_format::types::{FieldType as T, FieldValue as V, FieldValueRef as R};
use dial9_trace_format::types::{InternedStackFrames, InternedString, StackFrames};
use dial9_trace_format::{EventEncoder, TraceEvent, TraceField};
use std::hint::black_box;
use std::io::{self, BufWriter, Write};

/// The names of the workloads of writing, in the order of their numbers. The first ten are traces, and read too. From
/// `KNOWN` on they are those of `parts`.
pub const WORKS: [&str; 44] = [
    "f1", "f8", "f16", "f64", "text1k", "text64k", "stack1", "stack128", "list100", "smap", "small10", "reset10",
    "bufwriter", "plainvec", "spool64", "encode-num", "encode-text", "encode-list", "known-stack", "new-stack",
    "slot-wide", "f0", "known-event", "known-slot", "slot-sample", "name-sample", "name-wide", "known-wide",
    "known-sample", "known-f1", "known-f8", "known-f16", "known-f64", "known-text1k", "known-text64k", "known-stack1",
    "known-stack128", "known-list100", "known-smap", "known-f0", "known-stacks", "known-nested", "known-pooled",
    "known-fixed",
];
const KNOWN: u32 = 29;
/// The names of the ways of reading, in the order of their numbers.
pub const READS: [&str; 11] = [
    "iterate", "to_owned", "resolve", "clone", "eq", "ref_clone", "ref_eq", "into_encoder", "open+sink",
    "next_event_into", "next_event_ref_into",
];
/// The names of what is done with one value by itself, and of the values, in the order of their numbers.
pub const FORMS: [&str; 9] =
    ["encode", "decode", "clone", "eq", "ref_decode", "ref_clone", "ref_eq", "to_owned", "iterate"];
pub const KINDS: [&str; 13] = [
    "num", "i64", "bool", "pooled", "text", "bytes16", "text1k", "stack32", "stack128", "smap", "list", "map",
    "list100",
];

fn define<W: Write>(e: &mut Encoder<W>, name: &str, fields: &[(&'static str, T)]) -> Schema {
    e.register_schema(name, fields.iter().map(|f| FieldDef::new(f.0, f.1)).collect()).unwrap()
}
fn addresses(n: u64) -> Vec<u64> {
    (0..n).map(|i| 0x7f00_0000_1000 + i * 4093).collect()
}
fn stack(n: u64) -> V {
    V::StackFrames(StackFrames(addresses(n)))
}
fn pairs() -> V {
    let pair = |k: &str, v: &str| (k.as_bytes().to_vec(), v.as_bytes().to_vec());
    V::StringMap(vec![
        pair("method", "GET"),
        pair("path", "/index/of/things.html"),
        pair("status", "200"),
        pair("host", "example.org"),
    ])
}
const THREE: [(&str, T); 3] = [("worker", T::Varint), ("task", T::Varint), ("spent", T::Varint)];
#[inline(always)]
fn three(i: u64) -> [V; 3] {
    [V::Varint(i & 7), V::Varint(i.wrapping_mul(2654435761) & 0xffff), V::Varint(i.wrapping_mul(40503) & 0xf_ffff)]
}
#[inline(always)]
fn threes<W: Write>(e: &mut Encoder<W>, s: &Schema, count: u64) {
    let mut time = 0;
    for i in 0..count {
        time = step(time, i);
        e.write_event(s, time, &three(i)).unwrap();
    }
}
fn small10(count: u64) -> Vec<u8> {
    let mut last = Vec::new();
    for _ in 0..count {
        let mut e = Encoder::new();
        let s = define(&mut e, "PollStart", &THREE);
        threes(&mut e, &s, 10);
        last = e.finish();
    }
    last
}
fn reset10(count: u64) -> Vec<u8> {
    let mut e = Encoder::new();
    let s = define(&mut e, "PollStart", &THREE);
    let mut last = Vec::new();
    for _ in 0..count {
        threes(&mut e, &s, 10);
        last = e.reset_to(Vec::new()).unwrap();
    }
    last
}
fn buffered(count: u64) -> Vec<u8> {
    let mut e = Encoder::new_to(BufWriter::new(Vec::new())).unwrap();
    let s = define(&mut e, "PollStart", &THREE);
    threes(&mut e, &s, count);
    e.flush().unwrap();
    e.into_inner().into_inner().unwrap()
}
/// A writer that is no `Vec`.
struct Plain(Vec<u8>);
impl Write for Plain {
    fn write(&mut self, b: &[u8]) -> io::Result<usize> {
        self.0.write(b)
    }
    fn flush(&mut self) -> io::Result<()> {
        Ok(())
    }
}
fn plain(count: u64) -> Vec<u8> {
    let mut e = Encoder::new_to(Plain(Vec::new())).unwrap();
    let s = define(&mut e, "PollStart", &THREE);
    threes(&mut e, &s, count);
    e.into_inner().0
}
fn string_pools(count: u64) -> Vec<u8> {
    let mut e = Encoder::new();
    let name = |i: u64| format!("module::task::{}", 10_000_000_000 + i).into_bytes();
    let entries: Vec<PoolEntry> = (0..64u64).map(|i| PoolEntry { pool_id: i as u32, data: name(i) }).collect();
    for _ in 0..count {
        e.write_string_pool(&entries).unwrap();
    }
    e.finish()
}
fn encodes(v: &V, count: u64) -> Vec<u8> {
    let mut out = Vec::new();
    for _ in 0..count {
        v.encode(&mut out).unwrap();
    }
    out
}
fn known_stacks(count: u64) -> Vec<u8> {
    let mut e = Encoder::new();
    let a = addresses(32);
    for _ in 0..count {
        e.intern_stack_frames(&a).unwrap();
    }
    e.finish()
}
fn new_stacks(count: u64) -> Vec<u8> {
    let mut e = Encoder::new();
    let mut a = addresses(32);
    for i in 0..count {
        a[0] = i;
        e.intern_stack_frames(&a).unwrap();
    }
    e.finish()
}
/// Of slot 0 it has none, and is known by its name.
struct Wide<const SLOT: u16> {
    time: u64,
    worker: u8,
    name: InternedString,
    spent: u64,
}
impl<const SLOT: u16> TraceEvent for Wide<SLOT> {
    fn type_slot() -> u16 {
        SLOT
    }
    fn event_name() -> &'static str {
        if SLOT == 0 { "NameWide" } else { "Wide" }
    }
    fn field_defs() -> Vec<FieldDef> {
        vec![FieldDef::new("worker", T::U8), FieldDef::new("name", T::PooledString), FieldDef::new("spent", T::Varint)]
    }
    fn timestamp(&self) -> u64 {
        self.time
    }
    fn encode_fields<W: io::Write>(&self, enc: &mut EventEncoder<'_, W>) -> io::Result<()> {
        self.worker.encode(enc)?;
        self.name.encode(enc)?;
        self.spent.encode(enc)
    }
}
fn wides<const SLOT: u16>(count: u64) -> Vec<u8> {
    let mut e = Encoder::new();
    let mut time = 0;
    for i in 0..count {
        time = step(time, i);
        let name = InternedString::from_raw((i & 63) as u32);
        let spent = i.wrapping_mul(40503) & 0xf_ffff;
        e.write(&Wide::<SLOT> { time, worker: (i & 7) as u8, name, spent }).unwrap();
    }
    e.finish()
}
/// A stack and a text.
struct Sample<const SLOT: u16> {
    time: u64,
    frames: StackFrames,
    text: String,
}
impl<const SLOT: u16> TraceEvent for Sample<SLOT> {
    fn type_slot() -> u16 {
        SLOT
    }
    fn event_name() -> &'static str {
        if SLOT == 0 { "NameSample" } else { "SlotSample" }
    }
    fn field_defs() -> Vec<FieldDef> {
        vec![FieldDef::new("stack", T::StackFrames), FieldDef::new("text", T::String)]
    }
    fn timestamp(&self) -> u64 {
        self.time
    }
    fn encode_fields<W: io::Write>(&self, enc: &mut EventEncoder<'_, W>) -> io::Result<()> {
        self.frames.encode(enc)?;
        self.text.encode(enc)
    }
}
fn samples<const SLOT: u16>(count: u64) -> Vec<u8> {
    let mut e = Encoder::new();
    let frames = StackFrames(addresses(32));
    let mut event = Sample::<SLOT> { time: 0, frames, text: "some::module::task_number".to_string() };
    for i in 0..count {
        event.time = step(event.time, i);
        e.write(&event).unwrap();
    }
    e.finish()
}
// (the original has no call by a known id: its plain calls stand beside the library's)
fn known_events(count: u64) -> Vec<u8> {
    let mut e = Encoder::new();
    let s = define(&mut e, "PollStart", &THREE);
    threes(&mut e, &s, count);
    e.finish()
}
fn nested_value() -> V {
    V::List(vec![V::Varint(1), V::Bool(true), V::string("inner text"), V::List(vec![V::Varint(300), V::Varint(7)])])
}
fn map_value() -> V {
    V::Map(vec![
        (V::string("first"), V::Varint(5)),
        (V::string("second"), V::Varint(70000)),
        (V::string("third"), V::Bool(true)),
    ])
}
/// The fields and values of an event that is written again and again.
fn parts(of: u32) -> Vec<(&'static str, T, V)> {
    let many = |n| numbers(n).into_iter().map(|v| ("field", T::Varint, v)).collect();
    match of {
        0 => many(1),
        1 => many(8),
        2 => many(16),
        3 => many(64),
        4 => vec![("text", T::String, V::String("x".repeat(1024)))],
        5 => vec![("text", T::String, V::String("x".repeat(65536)))],
        6 => vec![("stack", T::StackFrames, stack(1))],
        7 => vec![("stack", T::StackFrames, stack(128))],
        8 => vec![("list", T::DynamicList, V::List(numbers(100)))],
        9 => vec![("map", T::StringMap, pairs())],
        10 => many(0),
        11 => vec![
            ("stack", T::StackFrames, stack(32)),
            ("text", T::String, V::string("some::module::task_number")),
        ],
        12 => vec![("list", T::DynamicList, nested_value()), ("map", T::DynamicMap, map_value())],
        13 => vec![
            ("worker", T::Varint, V::Varint(7)),
            ("name", T::PooledString, V::PooledString(InternedString::from_raw(63))),
            ("stack", T::PooledStackFrames, V::PooledStackFrames(InternedStackFrames::from_raw(40503))),
            ("wait", T::OptionalVarint, V::Varint(40503)),
        ],
        _ => vec![
            ("a", T::I64, V::I64(-5)),
            ("b", T::F64, V::F64(1.0)),
            ("c", T::Bool, V::Bool(true)),
            ("d", T::PooledString, V::PooledString(InternedString::from_raw(77))),
            ("e", T::Bytes, V::Bytes(b"0123456789abcdef".to_vec())),
        ],
    }
}
fn repeats(of: u32, count: u64) -> Vec<u8> {
    let parts = parts(of);
    let fields: Vec<_> = parts.iter().map(|part| (part.0, part.1)).collect();
    let values: Vec<_> = parts.into_iter().map(|part| part.2).collect();
    repeated(&fields, &values, count)
}
/// What a workload writes.
pub fn written(work: u32, count: u64) -> Vec<u8> {
    match work {
        0..=9 => repeats(work, count),
        10 => small10(count),
        11 => reset10(count),
        12 => buffered(count),
        13 => plain(count),
        14 => string_pools(count),
        15 => encodes(&V::Varint(300), count),
        16 => encodes(&V::string("some::module::task_number"), count),
        17 => encodes(&nested_value(), count),
        18 => known_stacks(count),
        19 => new_stacks(count),
        20 | 27 => wides::<9>(count),
        21 => repeats(10, count),
        22 => known_events(count),
        23 => slot_polls(count),
        24 | 28 => samples::<8>(count),
        25 => samples::<0>(count),
        26 => wides::<0>(count),
        _ => repeats(work - KNOWN, count),
    }
}

fn parts_of(v: &R) -> u64 {
    let number = |t: u64, v: &R| if let R::Varint(n) = v { t.wrapping_add(*n) } else { t };
    match v {
        R::Varint(n) => *n,
        R::StackFrames(f) => f.iter().fold(0u64, |t, a| t.wrapping_add(a)),
        R::StringMap(m) => m.iter().fold(0u64, |t, (k, v)| t + k.len() as u64 + v.len() as u64),
        R::List(l) => l.iter().fold(0u64, number),
        R::Map(m) => m.iter().fold(0u64, |t, (_, v)| number(t, v)),
        _ => 1,
    }
}
fn weight(v: &V) -> u64 {
    match v {
        V::Varint(n) => *n,
        V::String(t) => t.len() as u64,
        V::StackFrames(f) => f.0.len() as u64,
        V::StringMap(p) => p.len() as u64,
        V::List(l) => l.len() as u64,
        V::Map(m) => m.len() as u64,
        _ => 1,
    }
}
fn frame_weight(f: &DecodedFrame) -> u64 {
    if let DecodedFrame::Event { timestamp_ns, values, .. } = f {
        values.iter().fold(*timestamp_ns, |t, v| t.wrapping_add(weight(v)))
    } else {
        0
    }
}
/// An event resolved by hand: the entries that `RawEvent::resolve` of the library makes, by the same lookups.
fn resolved(e: &RawEvent) -> Vec<(String, V)> {
    let mut entries =
        vec![("event".to_string(), V::string(e.name)), ("timestamp_ns".to_string(), V::Varint(e.timestamp_ns))];
    for (name, value) in e.field_names().zip(e.fields) {
        let value = match value {
            R::PooledString(id) => V::string(e.string_pool.get(*id).unwrap()),
            R::PooledStackFrames(id) => V::StackFrames(StackFrames(e.stack_pool.get(*id).unwrap().to_vec())),
            other => other.to_owned(),
        };
        entries.push((name.to_string(), value));
    }
    entries
}
fn sunk(data: &[u8], mut each: impl FnMut(&RawEvent) -> u64) -> u64 {
    let mut t = 0u64;
    let _ = Decoder::new(data).unwrap().for_each_event(|e| t = t.wrapping_add(each(&e)));
    t
}
fn parts_of_all(e: &RawEvent) -> u64 {
    e.fields.iter().fold(0, |t, f| t.wrapping_add(parts_of(f)))
}
fn in_turns(turns: u64, mut each: impl FnMut() -> u64) -> u64 {
    (0..turns).fold(0u64, |t, _| t.wrapping_add(each()))
}
fn same<X: PartialEq>(a: &[X], b: &[X]) -> u64 {
    black_box(a).iter().zip(b).filter(|(x, y)| x == y).count() as u64
}
/// A sum over what a trace holds, in turns where the way of reading has turns of its own.
pub fn read(form: u32, turns: u64, data: &[u8]) -> u64 {
    match form {
        0 => sunk(data, parts_of_all),
        1 => sunk(data, |e| e.fields.iter().fold(0, |t, f| t.wrapping_add(weight(&f.to_owned())))),
        2 => sunk(data, |e| black_box(resolved(e)).len() as u64),
        3 => {
            let frames = Decoder::new(data).unwrap().decode_all();
            in_turns(turns, || frames.iter().fold(0, |t, f| t.wrapping_add(frame_weight(&f.clone()))))
        }
        4 => {
            let (a, b) = (Decoder::new(data).unwrap().decode_all(), Decoder::new(data).unwrap().decode_all());
            in_turns(turns, || same(&a, &b))
        }
        5 => {
            let frames = Decoder::new(data).unwrap().decode_all_ref();
            let time =
                |f: DecodedFrameRef| if let DecodedFrameRef::Event { timestamp_ns, .. } = f { timestamp_ns } else { 0 };
            in_turns(turns, || frames.iter().fold(0, |t, f| t.wrapping_add(time(black_box(f.clone())))))
        }
        6 => {
            let (a, b) = (Decoder::new(data).unwrap().decode_all_ref(), Decoder::new(data).unwrap().decode_all_ref());
            in_turns(turns, || same(&a, &b))
        }
        7 => in_turns(turns, || {
            let mut d = Decoder::new(data).unwrap();
            let _ = d.for_each_event(|e| {
                black_box(parts_of_all(&e));
            });
            1 + d.into_encoder(Vec::new()).bytes_written()
        }),
        8 => in_turns(turns, || {
            black_box(sunk(data, parts_of_all));
            1
        }),
        // (the original has no list that the caller keeps)
        9 => in_turns(turns, || crate::reading::decoded(0, data)),
        _ => in_turns(turns, || crate::reading::decoded(2, data)),
    }
}

fn value_of(kind: u32) -> (T, V) {
    match kind {
        0 => (T::Varint, V::Varint(300)),
        1 => (T::I64, V::I64(-5)),
        2 => (T::Bool, V::Bool(true)),
        3 => (T::PooledString, V::PooledString(InternedString::from_raw(77))),
        4 => (T::String, V::string("some::module::task_number")),
        5 => (T::Bytes, V::Bytes(b"0123456789abcdef".to_vec())),
        6 => (T::String, V::String("x".repeat(1024))),
        7 => (T::StackFrames, stack(32)),
        8 => (T::StackFrames, stack(128)),
        9 => (T::StringMap, pairs()),
        10 => (T::DynamicList, nested_value()),
        11 => (T::DynamicMap, map_value()),
        _ => (T::DynamicList, V::List(numbers(100))),
    }
}
/// How many times the value stands in the list that `alone` goes over.
pub const COPIES: u64 = 64;
/// Encodes, decodes, copies, compares or goes over equal values in turns; a sum.
pub fn alone(form: u32, kind: u32, turns: u64) -> u64 {
    let field_type = value_of(kind).0;
    let make = || (0..COPIES).map(|_| value_of(kind).1).collect::<Vec<V>>();
    let (values, others) = (make(), make());
    let mut bytes = Vec::new();
    for value in &values {
        value.encode(&mut bytes).unwrap();
    }
    let len = bytes.len() / COPIES as usize;
    let refs = || (0..COPIES as usize).map(|i| R::decode(field_type, &bytes, i * len).unwrap().0).collect::<Vec<R>>();
    let (a, b) = (refs(), refs());
    let tag = |v: V| black_box(&v).field_type_tag() as u64;
    let mut out = Vec::new();
    match form {
        0 => in_turns(turns, || {
            out.clear();
            for value in &values {
                value.encode(&mut out).unwrap();
            }
            out.len() as u64
        }),
        1 => in_turns(turns, || {
            let (mut rest, mut total) = (&bytes[..], 0);
            while let Some((value, after)) = V::decode(field_type, rest) {
                total += tag(value);
                rest = after;
            }
            total
        }),
        2 => in_turns(turns, || values.iter().fold(0, |t, v| t + tag(v.clone()))),
        3 => in_turns(turns, || same(&values, &others)),
        4 => in_turns(turns, || {
            let (mut at, mut total) = (0, 0);
            while let Some((value, len)) = R::decode(field_type, &bytes, at) {
                black_box(&value);
                at += len;
                total += len as u64;
            }
            total
        }),
        5 => in_turns(turns, || a.iter().fold(0, |t, v| t + matches!(black_box(&v.clone()), R::None) as u64 + 1)),
        6 => in_turns(turns, || same(&a, &b)),
        7 => in_turns(turns, || a.iter().fold(0, |t, v| t + tag(v.to_owned()))),
        _ => in_turns(turns, || a.iter().fold(0, |t, v| t.wrapping_add(parts_of(v)))),
    }
}
