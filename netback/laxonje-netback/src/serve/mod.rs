//! Serving a queue: the guest's rings and pages, packets both ways, and the thread that does it.
mod arena;
mod counting;
mod guest;
mod noting;
mod rests;
mod running;
mod stall;
mod worker;

pub use counting::SharedCounters;
pub use guest::{Way, XenGuest};
pub use worker::{make_queue, queue_bytes, Ended, Handle, Order, Place, Report, Reports, Told, Worker};
