//! The Rust door: events of each type, refusals, recorded traces.

use gotymbe_door::{
    check, dump, events, read_batch, record_batch, Batch, Cause, Error, Event, FieldType, ReadValue, Recorder, Schema,
    Value,
};
use std::io::Write;
use std::path::Path;

fn all_types() -> Schema {
    Schema::new("All")
        .field("i", FieldType::I64)
        .annotated("unit", "ns")
        .field("f", FieldType::F64)
        .field("b", FieldType::Bool)
        .field("s", FieldType::String)
        .field("y", FieldType::Bytes)
        .field("p", FieldType::PooledString)
        .field("k", FieldType::PooledStackFrames)
        .field("a", FieldType::StackFrames)
        .field("v", FieldType::Varint)
        .field("m", FieldType::StringMap)
        .field("u", FieldType::U8)
        .field("w", FieldType::U16)
        .field("x", FieldType::U32)
        .field("l", FieldType::DynamicList)
        .field("d", FieldType::DynamicMap)
        .optional("o", FieldType::DynamicMap)
        .optional("q", FieldType::U8)
}

#[test]
fn each_type() -> Result<(), Error> {
    let mut recorder = Recorder::new(Vec::new());
    let values = [
        Value::Integer(-3),
        Value::Float(1.5),
        Value::Bool(true),
        Value::Text("a\"b"),
        Value::Bytes(&[0, 255]),
        Value::Pooled("GET /"),
        Value::PooledStack(&[16, 255]),
        Value::Stack(&[1]),
        Value::Number(u64::MAX),
        Value::Texts(&[("k", "v")]),
        Value::Number(255),
        Value::Number(65535),
        Value::Number(4_294_967_295),
        Value::List(&[Value::Number(1), Value::Text("x")]),
        Value::Map(&[(Value::Bool(false), Value::List(&[]))]),
        Value::Absent,
        Value::Number(7),
    ];
    recorder.event(&all_types(), 5, &values)?;
    let trace = recorder.finish()?;
    assert_eq!(check(&trace)?, 1);
    let lines = dump(&trace, true)?.lines;
    let wanted = "trace version 1\nevent \"All\" timestamp_ns=5 \"i\"=I64:-3 \"f\"=F64:0x3ff8000000000000 \
        \"b\"=Bool:true \"s\"=String:\"a\\x22b\" \"y\"=Bytes:\"\\x00\\xFF\" \"p\"=String:\"GET /\" \
        \"k\"=StackFrames:[0x10,0xff] \"a\"=StackFrames:[0x1] \"v\"=Varint:18446744073709551615 \
        \"m\"=StringMap:{\"k\"=\"v\"} \"u\"=Varint:255 \"w\"=Varint:65535 \"x\"=Varint:4294967295 \
        \"l\"=List:[Varint:1,String:\"x\"] \"d\"=Map:{Bool:false=List:[]} \"o\"=None \"q\"=Varint:7\nend whole\n";
    assert_eq!(lines, wanted);
    let read: Vec<_> = events(&trace)?.collect();
    assert_eq!(read.len(), 1);
    assert_eq!(read[0].time, 5);
    assert_eq!(read[0].get("i"), Some(&ReadValue::Integer(-3)));
    assert_eq!(read[0].get("s"), Some(&ReadValue::Text("a\"b".to_owned())));
    assert_eq!(read[0].get("k"), Some(&ReadValue::Stack(vec![16, 255])));
    assert_eq!(read[0].get("d"), Some(&ReadValue::Map(vec![(ReadValue::Bool(false), ReadValue::List(vec![]))])));
    assert_eq!(read[0].get("o"), Some(&ReadValue::Absent));
    assert_eq!(*read[0].schema, all_types());
    let tags: Vec<_> = read[0].schema.field_tags().collect();
    assert_eq!(tags, [1, 2, 3, 4, 5, 7, 6, 8, 9, 10, 11, 12, 13, 14, 15, 0x8f, 0x8b]);
    // what was read, recorded again: the annotations too
    assert!(dump(&trace, false)?.lines.contains("\"unit\"") && dump(&trace, false)?.lines.contains("\"ns\""));
    assert_eq!(record_batch(&read_batch(&[], &trace, 1)?.batch)?, trace);
    Ok(())
}

// A schema without fields, with annotations of itself: the lines are worked out by hand from docs/FORMAT.md.
#[test]
fn annotations_of_a_schema() -> Result<(), Error> {
    let begun = Schema::new("Begun").noted("begin", "request").noted("clock", "unix");
    let mut recorder = Recorder::new(Vec::new());
    recorder.event(&begun, 5, &[])?;
    let trace = recorder.finish()?;
    let wanted = "trace version 1\nschema \"Begun\"\nannotations 256 65535:\"begin\"=\"request\" \
        65535:\"clock\"=\"unix\"\nevent 256 5\nend whole\n";
    assert_eq!(dump(&trace, false)?.lines, wanted);
    let read: Vec<_> = events(&trace)?.collect();
    let notes: Vec<_> = read[0].schema.annotations().collect();
    assert_eq!(notes, [(65_535, "begin", "request"), (65_535, "clock", "unix")]);
    Ok(())
}

#[test]
fn batches_join() -> Result<(), Error> {
    let tick = Schema::new("Tick").field("n", FieldType::Varint);
    let mut recorder = Recorder::with_batches(Vec::new(), 100);
    for n in 0..1000 {
        recorder.event(&tick, n * 1_000_000, &[Value::Number(n)])?;
    }
    let trace = recorder.finish()?;
    let mut read = events(&trace)?;
    for n in 0..1000 {
        assert_eq!(read.next().unwrap().get("n"), Some(&ReadValue::Number(n)));
    }
    assert!(read.next().is_none() && read.stop().is_none());
    let torn = &trace[..trace.len() - 1];
    let mut read = events(torn)?;
    assert_eq!(read.by_ref().count(), 999);
    let Some(Error::Trace { cause: Cause::TruncatedValue, place, .. }) = read.stop() else {
        panic!("a torn value is told as {:?}", read.stop());
    };
    assert!(*place < torn.len());
    assert_eq!(read.version(), 1);
    Ok(())
}

// Texts and stacks of one length are told apart, and told again in the next batch.
#[test]
fn pools_of_batches() -> Result<(), Error> {
    let sample =
        Schema::new("Sample").field("at", FieldType::PooledString).field("stack", FieldType::PooledStackFrames);
    let rows: [(&str, &[u64]); 5] = [("ab", &[1, 2]), ("cd", &[3, 4]), ("ab", &[3, 4]), ("cd", &[1, 2]), ("", &[])];
    for most in [1, 100, 1_000_000] {
        let mut recorder = Recorder::with_batches(Vec::new(), most);
        for (text, stack) in rows.iter().cycle().take(20) {
            recorder.event(&sample, 7, &[Value::Pooled(text), Value::PooledStack(stack)])?;
        }
        let trace = recorder.finish()?;
        let read: Vec<_> = events(&trace)?.map(|event| event.values).collect();
        let wanted: Vec<_> = rows
            .iter()
            .cycle()
            .take(20)
            .map(|(text, stack)| vec![ReadValue::Text(text.to_string()), ReadValue::Stack(stack.to_vec())])
            .collect();
        assert_eq!(read, wanted);
    }
    Ok(())
}

// The place counts from the beginning of the trace, also after batches of events that were read.
#[test]
fn where_a_trace_is_torn() -> Result<(), Error> {
    let tick = Schema::new("Tick").field("n", FieldType::Varint);
    let mut recorder = Recorder::new(Vec::new());
    for n in 0..2_500 {
        recorder.event(&tick, n, &[Value::Number(n)])?;
    }
    let mut torn = recorder.finish()?;
    torn.extend_from_slice(&[2, 0, 1, 0]);
    let wanted = check(&torn).unwrap_err();
    let mut read = events(&torn)?;
    assert_eq!(read.by_ref().count(), 2_500);
    assert_eq!(format!("{:?}", read.stop().unwrap()), format!("{wanted:?}"));
    Ok(())
}

// An error that comes after the first batch tells the place where that batch ended: before the annotations that are
// more than a record counts.
#[test]
fn an_error_in_a_later_batch() -> Result<(), Error> {
    let mut recorder = Recorder::new(Vec::new());
    recorder.event(&Schema::new("A"), 1, &[])?;
    recorder.event(&Schema::new("A"), 2, &[])?;
    let mut trace = recorder.finish()?;
    let mut before = 0;
    for count in [65_535_u16, 1] {
        before = trace.len();
        trace.extend_from_slice(&[6, 0x80, 2]);
        trace.extend_from_slice(&count.to_le_bytes());
        trace.extend_from_slice(&b"\0\0\x01\0k\0\0\0\0".repeat(count.into()));
    }
    trace.extend_from_slice(&[2, 0, 1, 0, 0, 0]);
    let mut read = events(&trace)?;
    assert_eq!(read.by_ref().map(|event| event.time).collect::<Vec<_>>(), [1, 2]);
    match read.stop() {
        Some(Error::Trace { cause: Cause::TooLong, length, place, detail: 0 }) => {
            assert_eq!((*length, *place), (before, before));
        }
        other => panic!("{other:?}"),
    }
    assert!(read.next().is_none() && read.stop().is_some());
    Ok(())
}

// What an error speaks of: the wire id 257, which has no schema, and a byte 9, with which no frame begins.
#[test]
fn details_of_errors() -> Result<(), Error> {
    let mut recorder = Recorder::new(Vec::new());
    recorder.event(&Schema::new("A"), 1, &[])?;
    let whole = recorder.finish()?;
    for (rest, cause, detail) in [(&[2, 1, 1, 0, 0, 0][..], Cause::UnknownType, 257), (&[9], Cause::NoFrame, 9)] {
        let trace = [&whole, rest].concat();
        let mut read = events(&trace)?;
        assert_eq!(read.by_ref().count(), 1);
        for error in [&check(&trace).unwrap_err(), read.stop().expect("a cause")] {
            match error {
                Error::Trace { cause: told, length, detail: about, .. } => {
                    assert_eq!((*told, *length, *about), (cause, whole.len(), detail));
                }
                other => panic!("{other:?}"),
            }
        }
    }
    Ok(())
}

// A writer that counts how often it was flushed.
#[derive(Default)]
struct Flushed {
    bytes: Vec<u8>,
    flushes: usize,
}

impl Write for Flushed {
    fn write(&mut self, bytes: &[u8]) -> std::io::Result<usize> {
        self.bytes.write(bytes)
    }

    fn flush(&mut self) -> std::io::Result<()> {
        self.flushes += 1;
        Ok(())
    }
}

#[test]
fn flushed_and_refused_batches() -> Result<(), Error> {
    let tick = Schema::new("Tick").field("n", FieldType::Varint);
    let mut recorder = Recorder::new(Flushed::default());
    recorder.event(&tick, 1, &[Value::Number(1)])?;
    recorder.flush()?;
    recorder.event(&tick, 2, &[Value::Bool(true)])?;
    assert!(matches!(recorder.flush(), Err(Error::Batch { cause: Cause::Misfit, record: 1, detail: 0 })));
    // the batch that was refused is dropped
    recorder.event(&tick, 3, &[Value::Number(3)])?;
    let written = recorder.finish()?;
    assert_eq!(written.flushes, 2);
    assert_eq!(events(&written.bytes)?.map(|event| event.time).collect::<Vec<_>>(), [1, 3]);
    Ok(())
}

// The writer is flushed also where nothing was gathered: what was sent before may wait in it.
#[test]
fn flushed_without_events() -> Result<(), Error> {
    let tick = Schema::new("Tick");
    let mut recorder = Recorder::with_batches(Flushed::default(), 1);
    recorder.event(&tick, 1, &[])?;
    recorder.flush()?;
    recorder.flush()?;
    assert_eq!(recorder.finish()?.flushes, 3);
    Ok(())
}

// A writer that takes so many bytes, then fails once, and then takes all.
struct Failing<'a> {
    bytes: &'a mut Vec<u8>,
    room: Option<usize>,
    flushes: Option<usize>,
}

fn failed<T>(it: &mut Option<T>) -> std::io::Result<usize> {
    it.take();
    Err(std::io::ErrorKind::StorageFull.into())
}

impl Write for Failing<'_> {
    fn write(&mut self, bytes: &[u8]) -> std::io::Result<usize> {
        match &mut self.room {
            Some(0) => failed(&mut self.room),
            Some(room) => {
                let taken = bytes.len().min(*room);
                *room -= taken;
                self.bytes.write(&bytes[..taken])
            }
            None => self.bytes.write(bytes),
        }
    }

    fn flush(&mut self) -> std::io::Result<()> {
        match &mut self.flushes {
            Some(0) => failed(&mut self.flushes).map(|_| ()),
            Some(left) => {
                *left -= 1;
                Ok(())
            }
            None => Ok(()),
        }
    }
}

fn is_full(done: Result<(), Error>) -> bool {
    matches!(done, Err(Error::Write(error)) if error.kind() == std::io::ErrorKind::StorageFull)
}

// A writer that fails at each byte is told, and nothing is written after what it took: that is a front of the traces.
#[test]
fn writers_that_fail() -> Result<(), Error> {
    let tick = Schema::new("Tick").field("n", FieldType::Varint);
    let mut whole = Recorder::with_batches(Vec::new(), 1);
    for n in 0..3 {
        whole.event(&tick, n, &[Value::Number(n)])?;
    }
    let whole = whole.finish()?;
    let one = whole.len() / 3;
    for room in 0..whole.len() {
        let mut bytes = Vec::new();
        let out = Failing { bytes: &mut bytes, room: Some(room), flushes: None };
        let mut recorder = Recorder::with_batches(out, 1);
        for n in 0..3 {
            let done = recorder.event(&tick, n, &[Value::Number(n)]);
            assert!(if room < one * (n as usize + 1) { is_full(done) } else { done.is_ok() });
        }
        assert!(is_full(recorder.flush()) && is_full(recorder.finish().map(|_| ())));
        assert_eq!(bytes, whole[..room]);
    }
    for left in 0..3 {
        let mut bytes = Vec::new();
        let mut recorder = Recorder::new(Failing { bytes: &mut bytes, room: None, flushes: Some(left) });
        for at in 0..3 {
            recorder.event(&tick, 1, &[Value::Number(7)])?;
            assert_eq!(is_full(recorder.flush()), at >= left);
        }
        assert!(is_full(recorder.finish().map(|_| ())));
        assert_eq!(events(&bytes)?.count(), left + 1);
    }
    Ok(())
}

// A batch that is cleared is as a new one.
#[test]
fn batches_that_are_cleared() -> Result<(), Error> {
    let (first, second) = (Schema::new("A").field("a", FieldType::U8), Schema::new("A"));
    let mut batch = Batch::new();
    for _ in 0..2 {
        batch.event(&first, 1, &[Value::Number(7)]);
        assert_eq!((batch.events(), batch.takes(&first), batch.takes(&second)), (1, true, false));
        batch.clear();
        assert_eq!((batch.events(), batch.takes(&second), batch.as_bytes()), (0, true, &[][..]));
    }
    Ok(())
}

// Annotations of each field of many, and of fields of one name the first.
#[test]
fn many_fields() -> Result<(), Error> {
    let mut many = Schema::new("Many");
    for at in 0..300 {
        many = many.field(if at < 2 { "it" } else { "other" }, FieldType::Varint).annotated("at", &at.to_string());
    }
    let values: Vec<_> = (0..300).map(Value::Number).collect();
    let mut recorder = Recorder::new(Vec::new());
    recorder.event(&many, 1, &values)?;
    let trace = recorder.finish()?;
    let read = events(&trace)?.next().expect("an event");
    assert_eq!(read.get("it"), Some(&ReadValue::Number(0)));
    assert_eq!(read.get("none"), None);
    for (at, (field, key, value)) in read.schema.annotations().enumerate() {
        assert_eq!((usize::from(field), key, value), (at, "at", at.to_string().as_str()));
    }
    assert_eq!(read.schema.annotations().count(), 300);
    Ok(())
}

// The status of a dump is that of `tracedump` (docs/FORMAT.md, "Dumps").
#[test]
fn statuses_of_dumps() -> Result<(), Error> {
    let trace = Recorder::new(Vec::new()).finish()?;
    assert_eq!((trace.len(), dump(&trace, false)?.status), (0, 1));
    let mut recorder = Recorder::new(Vec::new());
    recorder.event(&Schema::new("Tick"), 1, &[])?;
    let trace = recorder.finish()?;
    assert_eq!(dump(&trace, true)?.status, 0);
    assert_eq!(dump(&trace[..trace.len() - 1], true)?.status, 2);
    // the schema `A` without fields under the wire id 256, and then `B`
    let conflict = b"TRC\0\x01\x01\0\x01\x01\0A\x01\0\0\x01\0\x01\x01\0B\x01\0\0";
    assert_eq!(dump(conflict, false)?.status, 3);
    Ok(())
}

// Two schemas of one name, in turn: the lines are worked out by hand from docs/FORMAT.md.
#[test]
fn schemas_of_one_name() -> Result<(), Error> {
    let (first, second) = (Schema::new("A").field("a", FieldType::U8), Schema::new("A").field("b", FieldType::Bool));
    let noted = Schema::new("A").field("a", FieldType::U8).annotated("unit", "ns");
    let other = Schema::new("B");
    let (seven, truth) = ([Value::Number(7)], [Value::Bool(true)]);
    let events: [(&Schema, u64, &[Value<'_>]); 6] = [
        (&first, 1, &seven),
        (&other, 2, &[]),
        (&second, 3, &truth),
        (&first, 4, &seven),
        (&first, 5, &seven),
        (&noted, 6, &seven),
    ];
    let mut recorder = Recorder::new(Vec::new());
    for (schema, time, values) in events {
        recorder.event(schema, time, values)?;
    }
    let trace = recorder.finish()?;
    let shown = [
        "trace version 1",
        "event \"A\" timestamp_ns=1 \"a\"=Varint:7",
        "event \"B\" timestamp_ns=2",
        "event \"A\" timestamp_ns=3 \"b\"=Bool:true",
        "event \"A\" timestamp_ns=4 \"a\"=Varint:7",
        "event \"A\" timestamp_ns=5 \"a\"=Varint:7",
        "event \"A\" timestamp_ns=6 \"a\"=Varint:7",
        "end whole",
        "",
    ];
    assert_eq!(dump(&trace, true)?.lines, shown.join("\n"));
    // (a header for each turn to another schema of the name)
    assert_eq!(trace.windows(4).filter(|it| it == b"TRC\0").count(), 4);
    let mut batch = Batch::new();
    for (schema, time, values) in &events[..3] {
        assert_eq!(batch.takes(schema), *schema != &second);
        batch.event(schema, *time, values);
    }
    match record_batch(batch.as_bytes()) {
        Err(Error::Batch { cause: Cause::Conflict, record: 4, .. }) => Ok(()),
        other => panic!("{other:?}"),
    }
}

#[test]
fn refusals() {
    let one = Schema::new("A").field("a", FieldType::U8);
    let mut recorder = Recorder::new(Vec::new());
    recorder.event(&one, 1, &[Value::Number(256)]).expect("gathered");
    match recorder.finish() {
        Err(Error::Batch { cause: Cause::Misfit, record: 1, detail: 0 }) => {}
        other => panic!("{other:?}"),
    }
    match check(b"nothing") {
        Err(Error::Trace { cause: Cause::NoHeader, .. }) => {}
        other => panic!("{other:?}"),
    }
    match events(b"nothing") {
        Err(Error::Trace { cause: Cause::NoHeader, .. }) => {}
        other => panic!("{other:?}"),
    }
    match read_batch(b"nothing", b"nothing", 1) {
        Err(Error::Trace { cause: Cause::NoState, .. }) => {}
        other => panic!("{other:?}"),
    }
}

#[test]
fn errors_as_texts() {
    for (error, text) in [
        (Error::Batch { cause: Cause::ValueCount, record: 3, detail: 0 }, "record 3: not as many values as fields"),
        (
            Error::Batch { cause: Cause::Misfit, record: 3, detail: 7 },
            "record 3: the value of field 7 does not fit its type",
        ),
        (
            Error::Trace { cause: Cause::NoFrame, length: 5, place: 8, detail: 9 },
            "stops at byte 8: no frame stands there",
        ),
        (Error::from(std::io::Error::new(std::io::ErrorKind::Other, "no room")), "the writer failed: no room"),
    ] {
        assert_eq!(error.to_string(), text);
    }
}

// A schema for which a trace has no wire id left begins another: ids from 256 on are given to schemas.
#[test]
fn more_schemas_than_wire_ids() -> Result<(), Error> {
    let (most, ids) = (usize::MAX, 65_536 - 256);
    let mut recorder = Recorder::with_batches(Vec::new(), most);
    let mut batch = Batch::new();
    for n in 0..ids {
        let schema = Schema::new(&n.to_string());
        recorder.event(&schema, 1, &[])?;
        batch.event(&schema, 1, &[]);
    }
    let (known, new) = (Schema::new("7"), Schema::new("new"));
    assert_eq!((batch.takes(&known), batch.takes(&new)), (true, false));
    assert_eq!(check(&record_batch(batch.as_bytes())?)?, ids);
    batch.event(&new, 1, &[]);
    match record_batch(batch.as_bytes()) {
        Err(Error::Batch { cause: Cause::IdsUsedUp, record, .. }) => assert_eq!(record as u64, 2 * ids),
        other => panic!("{other:?}"),
    }
    recorder.event(&known, 2, &[])?;
    recorder.event(&new, 3, &[])?;
    let trace = recorder.finish()?;
    assert_eq!(check(&trace)?, ids + 2);
    assert_eq!(trace.windows(4).filter(|it| it == b"TRC\0").count(), 2);
    let last: Vec<_> = events(&trace)?.skip(ids as usize).map(|event| (event.name().to_owned(), event.time)).collect();
    assert_eq!(last, [("7".to_owned(), 2), ("new".to_owned(), 3)]);
    Ok(())
}

// What is known before a batch is told again by it: so many texts take time with their number, and not with its square
// (which is a minute).
#[test]
fn many_texts_in_time() -> Result<(), Error> {
    let one = Schema::new("One").field("it", FieldType::PooledString);
    let mut batch = Batch::new();
    for n in 0..160_000 {
        batch.event(&one, n, &[Value::Pooled(&n.to_string())]);
    }
    let trace = record_batch(batch.as_bytes())?;
    let begun = std::time::Instant::now();
    let times = events(&trace)?.map(|event| (event.time, event.values));
    assert!(times.eq((0..160_000).map(|n| (n, vec![ReadValue::Text(n.to_string())]))));
    assert!(begun.elapsed().as_secs() < 15, "{:?}", begun.elapsed());
    Ok(())
}

// The recordings (docs/RECORDINGS.md): what each holds under its titles.
fn parts(recording: &str) -> Vec<(&str, Vec<&str>)> {
    recording
        .split("\n# ")
        .skip(1)
        .map(|part| {
            let mut lines = part.split('\n');
            (lines.next().unwrap_or(""), lines.collect())
        })
        .collect()
}

// A text as lines of dumps show it (docs/FORMAT.md, "Dumps").
fn quoted(bytes: &[u8]) -> String {
    let shown = |byte: &u8| match byte {
        b'"' | b'\\' => format!("\\x{byte:02X}"),
        0x20..=0x7e => char::from(*byte).to_string(),
        _ => format!("\\x{byte:02X}"),
    };
    format!("\"{}\"", bytes.iter().map(shown).collect::<String>())
}

fn joined(parts: impl Iterator<Item = String>) -> String {
    parts.collect::<Vec<_>>().join(",")
}

fn shown(value: &ReadValue) -> String {
    match value {
        ReadValue::Integer(number) => format!("I64:{number}"),
        ReadValue::Number(number) => format!("Varint:{number}"),
        ReadValue::Float(number) => format!("F64:0x{:016x}", number.to_bits()),
        ReadValue::Bool(truth) => format!("Bool:{truth}"),
        ReadValue::Text(text) => format!("String:{}", quoted(text.as_bytes())),
        ReadValue::Bytes(bytes) => format!("Bytes:{}", quoted(bytes)),
        ReadValue::Stack(addresses) => {
            format!("StackFrames:[{}]", joined(addresses.iter().map(|address| format!("0x{address:x}"))))
        }
        ReadValue::Texts(pairs) => {
            let text = |it: &String| quoted(it.as_bytes());
            format!("StringMap:{{{}}}", joined(pairs.iter().map(|it| format!("{}={}", text(&it.0), text(&it.1)))))
        }
        ReadValue::List(items) => format!("List:[{}]", joined(items.iter().map(shown))),
        ReadValue::Map(pairs) => {
            format!("Map:{{{}}}", joined(pairs.iter().map(|(key, value)| format!("{}={}", shown(key), shown(value)))))
        }
        ReadValue::Absent => "None".to_owned(),
    }
}

fn line(event: &Event) -> String {
    let name = quoted(event.name().as_bytes());
    match &event.unresolved {
        Some(id) => format!("event {name} unresolved {id}"),
        None => {
            let field = |(name, value): (&str, &ReadValue)| format!(" {}={}", quoted(name.as_bytes()), shown(value));
            let fields: String = event.schema.field_names().zip(&event.values).map(field).collect();
            format!("event {name} timestamp_ns={}{fields}", event.time)
        }
    }
}

// A value that was read, to be written into a field of a type with this tag; none inside of a list or a map. What it
// borrows is leaked: the test ends.
fn written(value: &ReadValue, tag: Option<u8>) -> Value<'_> {
    match value {
        ReadValue::Integer(number) => Value::Integer(*number),
        ReadValue::Number(number) => Value::Number(*number),
        ReadValue::Float(number) => Value::Float(*number),
        ReadValue::Bool(truth) => Value::Bool(*truth),
        ReadValue::Text(text) if tag == Some(7) => Value::Pooled(text),
        ReadValue::Text(text) => Value::Text(text),
        ReadValue::Bytes(bytes) => Value::Bytes(bytes),
        ReadValue::Stack(addresses) if tag == Some(6) => Value::PooledStack(addresses),
        ReadValue::Stack(addresses) => Value::Stack(addresses),
        ReadValue::Texts(pairs) => {
            Value::Texts(pairs.iter().map(|(key, text)| (key.as_str(), text.as_str())).collect::<Vec<_>>().leak())
        }
        ReadValue::List(items) => {
            Value::List(items.iter().map(|item| written(item, None)).collect::<Vec<_>>().leak())
        }
        ReadValue::Map(pairs) => Value::Map(
            pairs.iter().map(|(key, value)| (written(key, None), written(value, None))).collect::<Vec<_>>().leak(),
        ),
        ReadValue::Absent => Value::Absent,
    }
}

// The lines of the events, as they were read or written again by a recorder.
fn recorded_again(recorded: &[Event]) -> Result<Vec<String>, Error> {
    let mut recorder = Recorder::with_batches(Vec::new(), 4_096);
    for event in recorded {
        let values: Vec<_> = event
            .values
            .iter()
            .zip(event.schema.field_tags())
            .map(|(value, tag)| written(value, Some(tag & 0x7f)))
            .collect();
        recorder.event(&event.schema, event.time, &values)?;
    }
    let trace = recorder.finish()?;
    if trace.is_empty() {
        return Ok(Vec::new());
    }
    Ok(events(&trace)?.map(|event| line(&event)).collect())
}

// The events of a trace, read with so many to a batch.
fn read_by(trace: &[u8], most: u64) -> Result<u64, Error> {
    let (mut place, mut events, mut state) = (0, 0, Vec::new());
    loop {
        let read = read_batch(&state, &trace[place..], most)?;
        place += read.length;
        events += read.events;
        if read.stop.is_some() || place == trace.len() {
            return Ok(events);
        }
        state = read.state;
    }
}

#[test]
fn recorded_traces() -> Result<(), Error> {
    let folder = Path::new(env!("CARGO_MANIFEST_DIR")).join("../../crates/trace_replay/data");
    let (mut seen, mut again) = (0, 0);
    for file in ["public.txt", "malformed.txt", "model.txt", "types.txt"] {
        let text = std::fs::read_to_string(folder.join(file))?;
        for recording in text.split("== ").skip(1) {
            let parts = parts(recording);
            let lines = |title| parts.iter().find(|(name, _)| *name == title).map(|(_, lines)| lines);
            let Some(bytes) = lines("bytes") else { continue };
            let digits = bytes[0].as_bytes();
            let trace: Vec<u8> = digits
                .chunks(2)
                .map(|pair| u8::from_str_radix(std::str::from_utf8(pair).unwrap(), 16).unwrap())
                .collect();
            for (title, resolve) in [("dump", false), ("resolve", true)] {
                if let Some(wanted) = lines(title) {
                    assert_eq!(dump(&trace, resolve)?.lines.trim_end_matches('\n'), wanted.join("\n"), "{recording}");
                    seen += 1;
                }
            }
            let Some(wanted) = lines("resolve") else { continue };
            if wanted[0] == "no header" {
                assert!(matches!(events(&trace), Err(Error::Trace { cause: Cause::NoHeader, .. })), "{recording}");
                continue;
            }
            let mut all = events(&trace)?;
            assert_eq!(format!("trace version {}", all.version()), wanted[0], "{recording}");
            let read: Vec<_> = all.by_ref().collect();
            let shown: Vec<_> = read.iter().map(line).collect();
            let last = wanted.iter().position(|line| line.starts_with("end ")).unwrap();
            assert_eq!(shown, wanted[1..last], "{recording}");
            match (all.stop(), &wanted[last].split(' ').collect::<Vec<_>>()[1..]) {
                (None, ["whole"]) => {}
                (Some(Error::Trace { length, .. }), ["stopped", "at", place]) => {
                    assert_eq!(length.to_string(), *place, "{recording}")
                }
                (Some(Error::Trace { cause: Cause::SchemaConflict, .. }), ["conflict", ..]) => {}
                other => panic!("{other:?}: {recording}"),
            }
            for most in [1, 2, 7] {
                assert_eq!(read_by(&trace, most)?, read.len() as u64, "{recording}");
            }
            // written again, but for events whose ids stand for nothing
            let resolved: Vec<_> = read.into_iter().filter(|event| event.unresolved.is_none()).collect();
            match recorded_again(&resolved) {
                Ok(lines) => assert_eq!(lines, resolved.iter().map(line).collect::<Vec<_>>(), "{recording}"),
                Err(error) => panic!("{error}: {recording}"),
            }
            again += 1;
        }
    }
    assert!(seen > 1000 && again > 500, "{seen} {again}");
    Ok(())
}
