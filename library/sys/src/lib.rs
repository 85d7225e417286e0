//! The functions of the archive `liblumintayag.a`, as `library/lumintayag.h` declares them; what each one does is said there.
//!
//! The crate `lumintayag` has a safe interface over them. `build.rs` finds the archive in the folder that `LUMINTAYAG_DIR` names, and builds nothing with an
//! archive of another version.
#![no_std]

mod functions;

pub use functions::*;
