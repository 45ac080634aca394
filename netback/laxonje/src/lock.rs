//! One call at a time, of a handle that threads share.
#[cfg(feature = "std")]
pub(crate) use blocking::Lock;
#[cfg(not(feature = "std"))]
pub(crate) use spinning::Lock;

#[cfg(feature = "std")]
mod blocking {
    use std::sync::{Mutex, MutexGuard, PoisonError};

    #[derive(Default)]
    pub(crate) struct Lock(Mutex<()>);

    impl Lock {
        /// Waits until nobody has it, and has it until what it returns is dropped.
        pub fn hold(&self) -> MutexGuard<'_, ()> {
            self.0.lock().unwrap_or_else(PoisonError::into_inner)
        }
    }
}

/// Without threads to put to sleep. The lock is had for a call of the library's, which waits for nothing.
#[cfg(not(feature = "std"))]
mod spinning {
    use core::sync::atomic::{AtomicBool, Ordering::SeqCst};

    #[derive(Default)]
    pub(crate) struct Lock(AtomicBool);

    pub(crate) struct Held<'a>(&'a AtomicBool);

    impl Lock {
        pub fn hold(&self) -> Held<'_> {
            while self.0.swap(true, SeqCst) {
                core::hint::spin_loop();
            }
            Held(&self.0)
        }
    }

    impl Drop for Held<'_> {
        fn drop(&mut self) {
            self.0.store(false, SeqCst);
        }
    }
}
