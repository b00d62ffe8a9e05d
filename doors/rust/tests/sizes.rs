//! The Rust door with ample memory: texts, stacks, batches and rooms of each size, events of each count, without a gap,
//! and large ones.
//! How many bytes a trace has is told after docs/FORMAT.md.

use gotymbe_door::{check, dump, events, read_batch, record_batch, Error, FieldType, ReadValue, Recorder, Schema, Value};

// A header, a schema `One` with a field `it`, an event after that before its value, and a pool of one entry before
// that.
const HEADER: usize = 5;
const SCHEMA: usize = 16;
const EVENT: usize = 6;
const POOL: usize = 13;

fn one(field_type: FieldType) -> Schema {
    Schema::new("One").field("it", field_type)
}

// The trace of one event, of this length, which each call takes, alone and joined.
fn recorded(field_type: FieldType, value: Value<'_>, length: usize) -> Result<Vec<ReadValue>, Error> {
    let mut recorder = Recorder::new(Vec::new());
    recorder.event(&one(field_type), 9, &[value])?;
    let trace = recorder.finish()?;
    assert_eq!(trace.len(), length);
    assert_eq!(check(&trace)?, 1);
    for resolve in [false, true] {
        let lines = dump(&trace, resolve)?;
        assert!(lines.status == 0 && lines.lines.ends_with("\nend whole\n"));
    }
    let read = read_batch(&[], &trace, 1)?;
    assert_eq!((read.events, read.length, read.stop.is_none()), (1, length, true));
    assert_eq!(record_batch(&read.batch)?, trace);
    assert_eq!(check(&read.state)?, 0);
    let both = [trace.as_slice(), trace.as_slice()].concat();
    assert_eq!((check(&both)?, events(&both)?.count()), (2, 2));
    Ok(events(&trace)?.next().expect("an event").values)
}

#[test]
fn texts_of_each_size() -> Result<(), Error> {
    for size in 0..=4_300 {
        let text = "x".repeat(size);
        let wanted = vec![ReadValue::Text(text.clone())];
        let length = HEADER + SCHEMA + EVENT + 4;
        assert_eq!(recorded(FieldType::String, Value::Text(&text), length + size)?, wanted);
        assert_eq!(recorded(FieldType::PooledString, Value::Pooled(&text), length + POOL + size)?, wanted);
        let wanted = vec![ReadValue::Bytes(text.clone().into_bytes())];
        assert_eq!(recorded(FieldType::Bytes, Value::Bytes(text.as_bytes()), length + size)?, wanted);
    }
    Ok(())
}

#[test]
fn stacks_and_lists_of_each_size() -> Result<(), Error> {
    for size in 0..=600 {
        let (stack, items) = (vec![7; size], vec![Value::Number(7); size]);
        let length = HEADER + SCHEMA + EVENT + 4;
        let wanted = vec![ReadValue::Stack(stack.clone())];
        assert_eq!(recorded(FieldType::StackFrames, Value::Stack(&stack), length + 8 * size)?, wanted);
        let pooled = Value::PooledStack(&stack);
        assert_eq!(recorded(FieldType::PooledStackFrames, pooled, length + POOL + 8 * size)?, wanted);
        let wanted = vec![ReadValue::List(vec![ReadValue::Number(7); size])];
        assert_eq!(recorded(FieldType::DynamicList, Value::List(&items), length + 2 * size)?, wanted);
    }
    Ok(())
}

#[test]
fn large_values() -> Result<(), Error> {
    let length = HEADER + SCHEMA + EVENT + 4;
    for size in [4_096, 4_097, 65_535, 65_536, 1_000_000] {
        let (text, stack) = ("x".repeat(size), vec![7; size]);
        let wanted = vec![ReadValue::Text(text.clone())];
        assert_eq!(recorded(FieldType::String, Value::Text(&text), length + size)?, wanted);
        assert_eq!(recorded(FieldType::PooledString, Value::Pooled(&text), length + POOL + size)?, wanted);
        let wanted = vec![ReadValue::Bytes(text.clone().into_bytes())];
        assert_eq!(recorded(FieldType::Bytes, Value::Bytes(text.as_bytes()), length + size)?, wanted);
        let wanted = vec![ReadValue::Stack(stack.clone())];
        assert_eq!(recorded(FieldType::StackFrames, Value::Stack(&stack), length + 8 * size)?, wanted);
        let pooled = Value::PooledStack(&stack);
        assert_eq!(recorded(FieldType::PooledStackFrames, pooled, length + POOL + 8 * size)?, wanted);
        let items = vec![Value::Number(7); size];
        let wanted = vec![ReadValue::List(vec![ReadValue::Number(7); size])];
        assert_eq!(recorded(FieldType::DynamicList, Value::List(&items), length + 2 * size)?, wanted);
    }
    counted(100_000, usize::MAX)
}

// So many events, in batches that are sent once they have so many bytes, are read by so many at a time.
fn counted(count: u64, most: usize) -> Result<(), Error> {
    let tick = one(FieldType::Varint);
    let mut recorder = Recorder::with_batches(Vec::new(), most);
    for n in 0..count {
        recorder.event(&tick, n, &[Value::Number(n)])?;
    }
    let trace = recorder.finish()?;
    if count == 0 {
        assert!(trace.is_empty());
        return Ok(());
    }
    assert_eq!(check(&trace)?, count);
    let numbers = events(&trace)?.map(|event| event.get("it").cloned());
    assert!(numbers.eq((0..count).map(|n| Some(ReadValue::Number(n)))));
    Ok(())
}

#[test]
fn events_and_batches_of_each_count() -> Result<(), Error> {
    for count in 0..=1_100 {
        counted(count, usize::MAX)?;
    }
    for most in 0..=4_300 {
        counted(100, most)?;
    }
    Ok(())
}
