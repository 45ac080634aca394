//! Xen's libraries, without `unsafe` for the rest of the program: XenStore, grants and event channels.
mod events;
mod grants;
mod memory;
mod store;

pub use events::Events;
pub use grants::{Grants, PageCopy, Pages};
pub use memory::{Memory, Places};
pub use store::Store;
