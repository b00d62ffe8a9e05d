//! Further workloads of the original and the library side by side, in a program of their own, so that how the other
//! program's workloads are inlined does not hang on them. See ../../../../README.md.
#[allow(dead_code)]
#[path = "../../extra.rs"]
mod extra;
mod more;
#[path = "../../polls.rs"]
mod polls;
#[allow(dead_code)]
#[path = "../../reading.rs"]
mod reading;
#[path = "../../timing.rs"]
mod timing;
#[allow(dead_code)]
#[path = "../../writing.rs"]
mod writing;

use crate::timing::both;
use crate::writing::{WORKS, hash_of, written};
use std::hint::black_box;

// The library's side, as a static library.
unsafe extern "C" {
    fn port_x_write(work: u32, count: u64, hash: u32) -> u64;
    fn port_x_read(form: u32, turns: u64, data: *const u8, len: usize) -> u64;
    fn port_x_alone(form: u32, kind: u32, turns: u64) -> u64;
}

/// The traces that are read in all ways, and those that are read only into a list that the caller keeps.
const ALL_WAYS: [&str; 9] = ["varint3", "stacks", "nested", "pooled", "fixed", "smap", "list100", "stack128", "f16"];
const INTO_ALONE: [&str; 8] = ["f1", "f8", "f64", "text1k", "text64k", "stack1", "two", "robin1000"];

/// Whether this trace is read in this way.
fn is_read(name: &str, way: &str) -> bool {
    // (the ids of these traces are not in their pools)
    let resolves = way != "resolve" || !["fixed", "pooled"].contains(&name);
    if ALL_WAYS.contains(&name) { resolves } else { way.starts_with("next_event") }
}
fn place(names: &[&str], name: &str) -> u32 {
    names.iter().position(|x| *x == name).unwrap_or_else(|| panic!("no {name}")) as u32
}
/// The trace of a workload of either program.
fn any(name: &str, n: u64) -> Vec<u8> {
    if more::WORKS.contains(&name) {
        more::written(place(&more::WORKS, name), n)
    } else {
        written(place(&WORKS, name), n)
    }
}

fn main() {
    let a: Vec<String> = std::env::args().skip(1).collect();
    match a[0].as_str() {
        // xwrite IMPL WORK COUNT
        "xwrite" => {
            let (work, n) = (place(&more::WORKS, &a[2]), a[3].parse().unwrap());
            let v =
                if a[1] == "orig" { more::written(work, n).len() as u64 } else { unsafe { port_x_write(work, n, 0) } };
            println!("{}", black_box(v));
        }
        // xread IMPL TRACE COUNT WAY TURNS: the ways that have no turns of their own are called in turns
        "xread" => {
            let data = any(&a[2], a[3].parse().unwrap());
            let (form, turns): (u32, u64) = (place(&more::READS, &a[4]), a[5].parse().unwrap());
            let (outer, inner) = if form < 3 { (turns, 1) } else { (1, turns) };
            let mut t = 0u64;
            for _ in 0..outer {
                t = t.wrapping_add(if a[1] == "orig" {
                    more::read(form, inner, &data)
                } else {
                    unsafe { port_x_read(form, inner, data.as_ptr(), data.len()) }
                });
            }
            println!("{}", black_box(t));
        }
        // alone IMPL FORM KIND TURNS
        "alone" => {
            let (form, kind, turns) = (place(&more::FORMS, &a[2]), place(&more::KINDS, &a[3]), a[4].parse().unwrap());
            let v = if a[1] == "orig" {
                more::alone(form, kind, turns)
            } else {
                unsafe { port_x_alone(form, kind, turns) }
            };
            println!("{}", black_box(v));
        }
        "check" => {
            for (work, name) in more::WORKS.iter().enumerate() {
                let o = more::written(work as u32, 50);
                // (an event type and a schema have other names where they are known)
                let same = hash_of(&o) == unsafe { port_x_write(work as u32, 50, 1) };
                println!("{name:16} bytes {} {}", o.len(), if same { "same" } else { "DIFFER" });
            }
            for name in ALL_WAYS.iter().chain(&INTO_ALONE) {
                let data = any(name, 200);
                for (form, way) in more::READS.iter().enumerate().filter(|(_, way)| is_read(name, way)) {
                    let (o, p) = (more::read(form as u32, 2, &data), unsafe {
                        port_x_read(form as u32, 2, data.as_ptr(), data.len())
                    });
                    if o != p {
                        println!("{way} {name} DIFFER");
                    }
                }
            }
            for (form, f) in more::FORMS.iter().enumerate() {
                for (kind, k) in more::KINDS.iter().enumerate() {
                    let (form, kind) = (form as u32, kind as u32);
                    if more::alone(form, kind, 3) != unsafe { port_x_alone(form, kind, 3) } {
                        println!("{f} {k} DIFFER");
                    }
                }
            }
        }
        // time K EVENTS [WORD]
        _ => {
            let (k, n): (usize, u64) = (a[1].parse().unwrap(), a[2].parse().unwrap());
            let only = a.get(3).cloned().unwrap_or_default();
            time_writing(k, n, &only);
            for name in ALL_WAYS.iter().chain(&INTO_ALONE) {
                time_ways(k, n / if *name == "text64k" { 400 } else { 20 } + 1, name, &only);
            }
            for (form, f) in more::FORMS.iter().enumerate() {
                for (kind, name) in more::KINDS.iter().enumerate() {
                    let (form, kind, label) = (form as u32, kind as u32, format!("{f} alone {name}"));
                    if label.contains(&only) {
                        let turns = n / 640 + 1;
                        let ways = |turns: u64| {
                            both(k, || more::alone(form, kind, turns), || unsafe { port_x_alone(form, kind, turns) })
                        };
                        // (what it takes to make the values is taken off)
                        ways(5 * turns).beyond(ways(turns)).told(&label, (4 * turns * more::COPIES) as f64);
                    }
                }
            }
        }
    }
}

/// Times the workloads of writing that have the word in their name.
fn time_writing(k: usize, n: u64, only: &str) {
    for (w, name) in more::WORKS.iter().enumerate() {
        let w = w as u32;
        let of = name.trim_start_matches("known-");
        let m = if of == "text64k" {
            n / 400 + 1
        } else if ["f64", "text1k", "stack128", "list100", "small10", "reset10", "spool64"].contains(&of) {
            n / 20 + 1
        } else {
            n / 2
        };
        let label = format!("write {name}");
        if label.contains(only) {
            both(k, || more::written(w, m).len() as u64, || unsafe { port_x_write(w, m, 0) })
                .told(&label, m as f64 * if *name == "spool64" { 64.0 } else { 1.0 });
        }
    }
}

/// Times the ways of reading a trace of so many events that have the word in their name.
fn time_ways(k: usize, events: u64, name: &str, only: &str) {
    let data = any(name, events);
    for (form, way) in more::READS.iter().enumerate() {
        let label = format!("{way} {name}");
        if !label.contains(only) || ["into_encoder", "open+sink"].contains(way) || !is_read(name, way) {
            continue;
        }
        let form = form as u32;
        let ways = |turns: u64| {
            both(
                k,
                || more::read(form, turns, &data),
                || unsafe { port_x_read(form, turns, data.as_ptr(), data.len()) },
            )
        };
        if (3..7).contains(&form) {
            // (what decoding takes is taken off where frames are decoded first)
            ways(5).beyond(ways(1)).told(&label, 4.0 * events as f64);
        } else {
            ways(1).told(&label, events as f64);
        }
    }
}
