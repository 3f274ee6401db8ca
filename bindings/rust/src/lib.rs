//! Files and snapshots of a world in memory, for one caller.
//!
//! A [`Nova`] calls the exports of a library that is proved: `bindings/nova.h` has them, and `docs/api.md` tells what
//! each does. Types keep what that header names as checked by nothing:
//!
//! - A world is made by [`Nova::new`] and ended once, by its drop.
//! - Each call takes `&mut Nova`, and a `Nova` is neither [`Send`] nor [`Sync`]. So calls are made one after another,
//!   on one thread.
//! - Slices are pointers with their lengths, which are never null. What a call may write overlaps nothing else.
//! - A call in a signal handler, or in the forked child of a process with threads, takes `unsafe` of the caller's own.
//!
//! Two things are left to the program. Its `malloc`, `realloc` and `free` come from one allocator, and a thread that
//! makes calls has 64 KB of its stack left.
//!
//! ```
//! use novacore::{Geometry, Nova, ROOT};
//!
//! let geometry = Geometry { blocks: 64, cpus: 1, block: 16, page: 8, inodes: 8, snaps: 4 };
//! let mut files = Nova::new(geometry)?;
//! let file = files.create(ROOT, b"first", 0o644)?;
//! files.write(file, 0, b"Dear reader")?;
//! let mut place = [0; 64];
//! let count = files.read(file, 5, &mut place)?;
//! assert_eq!(&place[..count], b"reader");
//! # Ok::<(), novacore::Fault>(())
//! ```
//!
//! A `Nova` stays on its thread:
//!
//! ```compile_fail,E0277
//! fn send<T: Send>(_: T) {}
//! send(novacore::Nova::new(novacore::Geometry::default()));
//! ```
#![deny(missing_docs, unsafe_code)]

mod exports;
mod fault;
mod nova;
mod values;

pub use fault::Fault;
pub use nova::Nova;
pub use values::{Cleaned, Geometry, Handle, Kind, Shown, Snapshot, Space, Stat, ROOT};
