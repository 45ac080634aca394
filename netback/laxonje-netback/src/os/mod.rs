//! What the program asks of Linux beyond std: waiting, signals, sockets, TAP devices, and giving up privileges.
mod batch;
mod clock;
mod lock;
mod memory;
mod privileges;
mod socket;
mod tap;
mod wait;

pub use clock::{monotonic_time, thread_time};
pub use lock::lock;
pub use memory::{limit_memory, look_for_memory};
pub use privileges::{
    allow_priority, close_inherited, keep_capabilities, restrict_to_guest, restrict_to_packets, restrict_to_service, set_name,
    set_priority, Keeps,
};
pub use socket::Socket;
pub use tap::{Interface, Tap, TapKind, HEADER_BYTES};
pub use wait::{end_by_faults, wait, wait_for_all, Signals, Wanted, FROM_USERS};

use std::io;

/// What a call came to that answers 0, or else leaves an error's number.
pub fn done(status: i32) -> io::Result<()> {
    match status {
        0 => Ok(()),
        _ => Err(io::Error::last_os_error()),
    }
}
