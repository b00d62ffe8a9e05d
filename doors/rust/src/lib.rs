//! Traces of timestamped events, from Rust: a recorder and a reader over the proved library `libgotymbe`
//! (docs/DOORS.md).
//!
//! ```
//! use gotymbe_door::{events, FieldType, Recorder, Schema, Value};
//!
//! let poll = Schema::new("Poll")
//!     .field("worker", FieldType::Varint)
//!     .field("site", FieldType::PooledString);
//! let mut recorder = Recorder::new(Vec::new());
//! recorder.event(&poll, 1000, &[Value::Number(3), Value::Pooled("GET /")])?;
//! recorder.event(&poll, 2500, &[Value::Number(4), Value::Pooled("GET /")])?;
//! let trace = recorder.finish()?;
//! let times: Vec<u64> = events(&trace)?.map(|event| event.time).collect();
//! assert_eq!(times, [1000, 2500]);
//! # Ok::<(), gotymbe_door::Error>(())
//! ```

mod batch;
mod door;
mod error;
mod reading;

pub use batch::{Batch, FieldType, Recorder, Schema, Value};
pub use door::{check, dump, read_batch, record_batch, Dump, ReadBatch};
pub use error::{Cause, Error};
pub use reading::{events, Event, Events, ReadValue};
