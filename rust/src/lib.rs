//! A floppy controller (uPD765A) with its disks, for a host that emulates a machine.
//!
//! The work is done by a static library, `libhost.a`, which is written in Rattle and proved. This crate gives its
//! calls a safe form: [`Controller`] and [`Disk`] own the bytes that the library is lent. A call that the library
//! refuses answers a [`Refusal`] and has changed nothing.
//!
//! ```
//! use kafondiye::{Controller, Disk, Refusal};
//!
//! fn main() -> Result<(), Refusal> {
//!     let mut controller = Controller::new();
//!     controller.set_disk(Some(Disk::new_formatted()));
//!
//!     // Read Data: drive 0, cylinder 0, head 0, sector 1 of size 2, and none behind it.
//!     for byte in [0x46, 0x00, 0x00, 0x00, 0x01, 0x02, 0x01, 0x2a, 0xff] {
//!         controller.write_cmd(byte)?;
//!     }
//!     assert_eq!(controller.read_status()?, 0xf0); // there are data to read
//!     for _ in 0..512 {
//!         assert_eq!(controller.read_cmd()?, 0xe5);
//!     }
//!     assert_eq!(controller.read_status()?, 0xd0); // and now a reply
//!     let mut reply = [0; 7];
//!     for byte in &mut reply {
//!         *byte = controller.read_cmd()?;
//!     }
//!     assert_eq!(reply, [0x40, 0x80, 0x00, 0x00, 0x00, 0x01, 0x02]);
//!     Ok(())
//! }
//! ```
//!
//! A byte that is taken answers a [`Report`]: beside what the ports show, it says which sector of its track was served,
//! where an ID may stand more than once.
//!
//! A controller is one of two [machines](Machine): as raze has it, or as the data sheet has Format and what is invalid.
//!
//! A session starts with a new controller, or with one that is taken up from its [sheet](Controller::to_sheet);
//! nothing else is carried over from one controller to another, because the library keeps nothing between calls.

#![deny(missing_docs)]
#![deny(unsafe_code)]
#![deny(unsafe_op_in_unsafe_fn)]

mod calls;
mod controller;
mod disk;
#[allow(unsafe_code)]
mod ffi;
mod machine;
mod refusal;
mod report;
#[allow(unsafe_code)]
mod words;

pub use controller::Controller;
pub use disk::{Disk, SectorId};
pub use machine::Machine;
pub use refusal::Refusal;
pub use report::{Match, Report};
