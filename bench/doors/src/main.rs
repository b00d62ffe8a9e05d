//! Batches by the Rust door, and the same events by the original. See ../../README.md, "Doors".
//!
//!     bench_doors write|read orig|door numbers|pooled EVENTS TURNS
//!
//! A turn writes a trace of so many events, or reads one. It prints the bytes of the trace.
use dial9_trace_format::decoder::Decoder;
use dial9_trace_format::encoder::Encoder;
use dial9_trace_format::schema::FieldDef;
use dial9_trace_format::types::{FieldType as T, FieldValue as V};
use gotymbe_door::{Batch, FieldType, Schema, Value, read_batch, record_batch};
use std::hint::black_box;

fn time(i: u64) -> u64 {
    i * 1000
}

fn three(i: u64) -> [u64; 3] {
    [i & 7, i.wrapping_mul(2654435761) & 0xffff, i.wrapping_mul(40503) & 0xf_ffff]
}

const TEXTS: [&str; 4] = ["GET /users", "GET /users/7", "POST /login", "DELETE /users/7"];
const STACK: [u64; 16] = [0x7f00_0000_1000; 16];

fn original(pooled: bool, events: u64) -> Vec<u8> {
    let mut encoder = Encoder::new();
    if pooled {
        let fields = vec![
            FieldDef::new("n", T::Varint),
            FieldDef::new("text", T::PooledString),
            FieldDef::new("stack", T::PooledStackFrames),
        ];
        let schema = encoder.register_schema("Sample", fields).unwrap();
        for i in 0..events {
            let text = encoder.intern_string(TEXTS[(i & 3) as usize]).unwrap();
            let stack = encoder.intern_stack_frames(&STACK).unwrap();
            let values = [V::Varint(i & 7), V::PooledString(text), V::PooledStackFrames(stack)];
            encoder.write_event(&schema, time(i), &values).unwrap();
        }
    } else {
        let fields = ["worker", "task", "spent"].map(|name| FieldDef::new(name, T::Varint)).to_vec();
        let schema = encoder.register_schema("PollStart", fields).unwrap();
        for i in 0..events {
            encoder.write_event(&schema, time(i), &three(i).map(V::Varint)).unwrap();
        }
    }
    encoder.finish()
}

fn batch(pooled: bool, events: u64) -> Batch {
    let mut batch = Batch::new();
    if pooled {
        let schema = Schema::new("Sample")
            .field("n", FieldType::Varint)
            .field("text", FieldType::PooledString)
            .field("stack", FieldType::PooledStackFrames);
        for i in 0..events {
            let values = [Value::Number(i & 7), Value::Pooled(TEXTS[(i & 3) as usize]), Value::PooledStack(&STACK)];
            batch.event(&schema, time(i), &values);
        }
    } else {
        let schema = ["worker", "task", "spent"]
            .iter()
            .fold(Schema::new("PollStart"), |schema, name| schema.field(name, FieldType::Varint));
        for i in 0..events {
            batch.event(&schema, time(i), &three(i).map(Value::Number));
        }
    }
    batch
}

fn main() {
    let words: Vec<String> = std::env::args().skip(1).collect();
    let (writes, by_door, pooled) = (words[0] == "write", words[1] == "door", words[2] == "pooled");
    let (events, turns): (u64, u64) = (words[3].parse().unwrap(), words[4].parse().unwrap());
    let gathered = batch(pooled, events);
    let trace = if by_door { record_batch(gathered.as_bytes()).unwrap() } else { original(pooled, events) };
    let mut sum = 0;
    for _ in 0..turns {
        sum += match (writes, by_door) {
            (true, true) => record_batch(black_box(gathered.as_bytes())).unwrap().len() as u64,
            (true, false) => original(pooled, events).len() as u64,
            (false, true) => read_batch(&[], black_box(&trace), events).unwrap().events,
            (false, false) => {
                let mut seen = 0;
                Decoder::new(black_box(&trace))
                    .unwrap()
                    .for_each_event(|event| seen += black_box(event.fields.len()) as u64 / 3)
                    .unwrap();
                seen
            }
        };
    }
    println!("{} {} {}", trace.len(), gathered.as_bytes().len(), black_box(sum));
}
