//! The original and the library side by side. See ../../README.md.
mod extra;
mod numbers;
mod polls;
mod reading;
#[allow(dead_code)]
mod timing;
mod writing;

use crate::numbers::{numbers, spelled};
use crate::reading::FORMS;
use crate::timing::both;
use crate::writing::{READ, REGISTERS, WORKS, hash_of, written};
use std::hint::black_box;

// The library's side, as static libraries.
unsafe extern "C" {
    fn port_write(work: u32, count: u64, hash: u32) -> u64;
    fn port_decode(form: u32, data: *const u8, len: usize) -> u64;
    fn port_put(form: u32, numbers: *const u64, len: usize, turns: u64) -> u64;
    fn port_take(data: *const u8, len: usize) -> u64;
}

fn peak_kib() -> u64 {
    let s = std::fs::read_to_string("/proc/self/status").unwrap();
    s.lines().find(|l| l.starts_with("VmHWM")).unwrap().split_whitespace().nth(1).unwrap().parse().unwrap()
}
fn work_of(name: &str) -> u32 {
    WORKS.iter().position(|w| *w == name).unwrap_or_else(|| panic!("no workload {name}")) as u32
}

fn main() {
    let a: Vec<String> = std::env::args().skip(1).collect();
    match a[0].as_str() {
        // write IMPL WORK COUNT
        "write" => {
            let (work, n) = (work_of(&a[2]), a[3].parse().unwrap());
            let v = if a[1] == "orig" { written(work, n).len() as u64 } else { unsafe { port_write(work, n, 0) } };
            println!("{} peak {} KiB", black_box(v), peak_kib());
        }
        // decode IMPL WORK EVENTS FORM TURNS
        "decode" => {
            let (work, n, form, turns): (u32, u64, u32, u64) =
                (work_of(&a[2]), a[3].parse().unwrap(), a[4].parse().unwrap(), a[5].parse().unwrap());
            let data = written(work, n);
            let before = peak_kib();
            let mut t = 0u64;
            for _ in 0..turns {
                t = t.wrapping_add(if a[1] == "orig" {
                    reading::decoded(form, &data)
                } else {
                    unsafe { port_decode(form, data.as_ptr(), data.len()) }
                });
            }
            println!("{} bytes {} peak before {before} after {} KiB", black_box(t), data.len(), peak_kib());
        }
        // put IMPL FORM small|mixed TURNS
        "put" => {
            let xs = numbers(a[3] == "small");
            let turns = a[4].parse().unwrap();
            let v = if a[1] == "orig" {
                numbers::put(&xs, turns)
            } else {
                unsafe { port_put(a[2].parse().unwrap(), xs.as_ptr(), xs.len(), turns) }
            };
            println!("{}", black_box(v));
        }
        "take" => {
            let data = spelled(&numbers(a[3] == "small"));
            let turns: u64 = a[4].parse().unwrap();
            let mut t = 0u64;
            for _ in 0..turns {
                let d = black_box(&data);
                t = t.wrapping_add(if a[1] == "orig" {
                    numbers::take(d)
                } else {
                    unsafe { port_take(d.as_ptr(), d.len()) }
                });
            }
            println!("{}", black_box(t));
        }
        // xdecode IMPL TRACE EVENTS FORM TURNS: `decode` over a further trace
        "xdecode" => {
            let trace =
                extra::TRACES.iter().position(|x| *x == a[2]).unwrap_or_else(|| panic!("no trace {}", a[2])) as u32;
            let (n, form, turns): (u64, u32, u64) =
                (a[3].parse().unwrap(), a[4].parse().unwrap(), a[5].parse().unwrap());
            let data = extra::written(trace, n);
            let mut t = 0u64;
            for _ in 0..turns {
                t = t.wrapping_add(if a[1] == "orig" {
                    reading::decoded(form, &data)
                } else {
                    unsafe { port_decode(form, data.as_ptr(), data.len()) }
                });
            }
            println!("{}", black_box(t));
        }
        "gen" => {
            use std::io::Write;
            std::io::stdout().write_all(&written(work_of(&a[1]), a[2].parse().unwrap())).unwrap();
        }
        "check" => {
            for (w, name) in WORKS.iter().enumerate() {
                let n = if w as u32 == REGISTERS { 1 } else { 3000 };
                let o = written(w as u32, n);
                let same = hash_of(&o) == unsafe { port_write(w as u32, n, 1) };
                // (the texts alone are no trace)
                let sums = *name == "texts-made"
                    || (0..FORMS.len() as u32)
                        .all(|f| reading::decoded(f, &o) == unsafe { port_decode(f, o.as_ptr(), o.len()) });
                println!(
                    "{name:16} bytes {} {} sums {}",
                    o.len(),
                    if same { "same" } else { "DIFFER" },
                    if sums { "same" } else { "DIFFER" }
                );
            }
            for (trace, name) in extra::TRACES.iter().enumerate() {
                let o = extra::written(trace as u32, 50);
                let sums = (0..FORMS.len() as u32)
                    .all(|f| reading::decoded(f, &o) == unsafe { port_decode(f, o.as_ptr(), o.len()) });
                println!("{name:16} bytes {} sums {}", o.len(), if sums { "same" } else { "DIFFER" });
            }
        }
        // time K EVENTS [WORD]
        _ => {
            let (k, n): (usize, u64) = (a[1].parse().unwrap(), a[2].parse().unwrap());
            let only = a.get(3).cloned().unwrap_or_default();
            for (w, name) in WORKS.iter().enumerate().filter(|work| work.1.contains(&only)) {
                let w = w as u32;
                let m = if w == REGISTERS { n / 10000 + 1 } else { n };
                let per = if w == REGISTERS { m as f64 * 1000.0 } else { m as f64 };
                both(k, || written(w, m).len() as u64, || unsafe { port_write(w, m, 0) })
                    .told(&format!("write {name}"), per);
                if READ.contains(name) {
                    time_reading(k, name, &written(w, m), m);
                }
            }
            for (trace, name) in extra::TRACES.iter().enumerate().filter(|trace| trace.1.contains(&only)) {
                let share = match *name {
                    "f1" | "stack1" | "smap" => 2,
                    "text64k" => 2000,
                    _ => 20,
                };
                let m = n / share + 1;
                time_reading(k, name, &extra::written(trace as u32, m), m);
            }
        }
    }
}

/// Times the ways of reading a trace of so many events.
fn time_reading(k: usize, name: &str, data: &[u8], events: u64) {
    for (form, f) in FORMS.iter().enumerate() {
        let form = form as u32;
        both(k, || reading::decoded(form, data), || unsafe { port_decode(form, data.as_ptr(), data.len()) })
            .told(&format!("{f} {name}"), events as f64);
    }
}
