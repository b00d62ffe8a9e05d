//! Further traces, as the original writes them: wide events, long texts, stacks, lists and maps of texts.
use dial9_trace_format::encoder::Encoder;
use dial9_trace_format::schema::FieldDef;
use dial9_trace_format::types::{FieldType as T, FieldValue as V, StackFrames};

/// Their names, in the order of their numbers.
pub const TRACES: [&str; 10] =
    ["f1", "f8", "f16", "f64", "text1k", "stack1", "stack128", "list100", "smap", "text64k"];

pub fn step(time: u64, i: u64) -> u64 {
    time.wrapping_add(1000 + (i & 0xff))
}
pub fn repeated(fields: &[(&'static str, T)], values: &[V], count: u64) -> Vec<u8> {
    let mut e = Encoder::new();
    let s = e.register_schema("Repeated", fields.iter().map(|f| FieldDef::new(f.0, f.1)).collect()).unwrap();
    let mut time = 0;
    for i in 0..count {
        time = step(time, i);
        e.write_event(&s, time, values).unwrap();
    }
    e.finish()
}
pub fn numbers(n: u64) -> Vec<V> {
    (0..n).map(|i| V::Varint(i.wrapping_mul(40503) & 0xffff)).collect()
}
pub fn many(n: u64, count: u64) -> Vec<u8> {
    repeated(&vec![("field", T::Varint); n as usize], &numbers(n), count)
}
pub fn texts(len: usize, count: u64) -> Vec<u8> {
    repeated(&[("text", T::String)], &[V::String("x".repeat(len))], count)
}
fn stacks(n: u64, count: u64) -> Vec<u8> {
    let addresses = (0..n).map(|i| 0x7f00_0000_1000 + i * 4093).collect();
    repeated(&[("stack", T::StackFrames)], &[V::StackFrames(StackFrames(addresses))], count)
}
fn maps(count: u64) -> Vec<u8> {
    let pair = |k: &str, v: &str| (k.as_bytes().to_vec(), v.as_bytes().to_vec());
    let pairs = vec![
        pair("method", "GET"),
        pair("path", "/index/of/things.html"),
        pair("status", "200"),
        pair("host", "example.org"),
    ];
    repeated(&[("map", T::StringMap)], &[V::StringMap(pairs)], count)
}
/// A trace of so many events.
pub fn written(trace: u32, count: u64) -> Vec<u8> {
    match trace {
        0 => many(1, count),
        1 => many(8, count),
        2 => many(16, count),
        3 => many(64, count),
        4 => texts(1024, count),
        5 => stacks(1, count),
        6 => stacks(128, count),
        7 => repeated(&[("list", T::DynamicList)], &[V::List(numbers(100))], count),
        8 => maps(count),
        _ => texts(65536, count),
    }
}
