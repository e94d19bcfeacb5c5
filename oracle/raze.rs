//! The crate `raze` as far as the oracle needs it: the floppy controller, the
//! disk, and the byte readers of its `lib.rs`. `oracle/build` puts the three
//! texts beside a copy of this file.

#![allow(dead_code, unused_variables)]

pub mod disk;
pub mod floppy;

include!("readers.rs");
