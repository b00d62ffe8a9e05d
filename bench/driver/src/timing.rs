//! Processor time, the least of some runs.
use std::hint::black_box;

/// The processor time of the program, in seconds.
fn cpu() -> f64 {
    #[repr(C)]
    struct Ts(i64, i64);
    unsafe extern "C" {
        fn clock_gettime(id: i32, t: *mut Ts) -> i32;
    }
    let mut t = Ts(0, 0);
    unsafe { clock_gettime(3, &mut t) };
    t.0 as f64 + t.1 as f64 / 1e9
}

/// The processor time of a run, in seconds.
fn spent(f: &mut impl FnMut() -> u64) -> f64 {
    let start = cpu();
    black_box(f());
    cpu() - start
}

/// The least times of both sides, in seconds, and of the original's once more: how far these two differ is noise.
#[derive(Clone, Copy)]
pub struct Times {
    original: f64,
    library: f64,
    again: f64,
}

impl Times {
    /// What these take more than others.
    pub fn beyond(self, other: Times) -> Times {
        Times {
            original: self.original - other.original,
            library: self.library - other.library,
            again: self.again - other.again,
        }
    }
    /// Prints nanoseconds for one of so many operations.
    pub fn told(self, name: &str, operations: f64) {
        println!(
            "{name:34} original {:8.1} ns  library {:8.1} ns  ratio {:5.2}  noise {:5.3}",
            self.original / operations * 1e9,
            self.library / operations * 1e9,
            self.library / self.original,
            self.again / self.original
        );
    }
}

/// The least times of both sides, run in turn, so that a loaded moment meets both.
pub fn both(k: usize, mut original: impl FnMut() -> u64, mut library: impl FnMut() -> u64) -> Times {
    let mut least = Times { original: f64::MAX, library: f64::MAX, again: f64::MAX };
    for _ in 0..k {
        least.original = least.original.min(spent(&mut original));
        least.library = least.library.min(spent(&mut library));
        least.again = least.again.min(spent(&mut original));
    }
    least
}
