//! An IPv4 host with TCP and UDP sockets, over the C library `libhostc.a` (`embed/host.h` has each call at length).
//!
//! Frames, socket calls and moments go in; frames, answers and deadlines come out. The library opens no device, reads no clock, has no threads and
//! waits for nothing: each call returns at once. Moments are milliseconds of a clock that never goes back. It wants `malloc`, `realloc`, `free` and the
//! four routines on memory (`docs/PORTING.md`), and nothing else: this crate is `no_std`.
//!
//! One turn of a program, with its link as a [`Device`]:
//!
//! ```ignore
//! host.hear(now, &mut link, || fresh_isn())?; // lets time pass, and takes the frames that arrived
//! calls(&mut host, now);                      // the program's socket calls
//! host.speak(now, &mut link)?;                // sends each frame that is due
//! wait_for(&mut link, host.next_deadline());  // until a frame arrives, or that moment comes
//! ```

#![no_std]
#![warn(missing_docs)]

mod c;
mod counters;
mod device;
mod error;
mod host;
mod info;
mod ready;

pub use counters::Counters;
pub use device::{Device, Heard};
pub use error::{DropCause, Error};
pub use host::{Config, Host, Kind, Pair, Recovery, Route, Sizes, SocketId, State};
pub use info::Info;
pub use ready::Ready;

/// The most octets of a frame, in and out.
pub const FRAME_SIZE: usize = 1514;
/// The most octets of a datagram's data.
pub const DATAGRAM_SIZE: usize = 65_507;
/// The most routes of a host.
pub const ROUTES: usize = 32;

/// The version of the library, as a number: 65,536 for the first part of it, 256 for the second and 1 for the third.
pub fn version() -> u32 {
    unsafe { c::host_version() }
}
