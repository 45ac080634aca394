//! Several reads and writes of a descriptor in one system call: `io_submit(2)`.
//!
//! A process of a PV domain pays more for a system call than for most packets. The kernel makes these in their order, and those of a TAP
//! device that isn't waited for are through when the call returns. How they ended is read where the kernel shows it: a call for that is made
//! only if it shows it otherwise, or later.
//!
//! What makes each `unsafe` block sound: a context is one that `io_setup` answered, until `io_destroy`, and one thread has it. It is the
//! address of an `aio_ring` and its events. Buffers are borrowed until all that was submitted is through, since `run` waits for that.
use crate::ffi;
use std::io;
use std::mem::size_of;
use std::os::raw::{c_long, c_ulong};
use std::os::unix::io::RawFd;
use std::ptr;
use std::sync::atomic::Ordering;

/// A context of the kernel's for a number of reads and writes at once.
#[derive(Debug)]
pub struct Batch {
    /// 0: the kernel no longer says what is through, and the context is given up.
    context: c_ulong,
    /// The kernel shows what is through in the way that is known here.
    shows: bool,
    most: usize,
    blocks: Vec<ffi::iocb>,
    /// The address of each block.
    pointers: Vec<usize>,
    events: Vec<ffi::io_event>,
    /// How each ended: how many bytes, or an error's number below 0.
    results: Vec<i64>,
}

/// How many bytes each write or read moved: `None` for one that wasn't taken, or that found nothing.
pub type Moved = Vec<Option<usize>>;

const NOT_MADE: i64 = -5; // EIO

impl Batch {
    pub fn open(most: usize) -> io::Result<Batch> {
        let mut context: c_ulong = 0;
        // SAFETY: the kernel writes the context's address there.
        let status = unsafe { ffi::syscall(ffi::SYS_IO_SETUP, most as c_long, &mut context as *mut c_ulong) };
        if status != 0 {
            return Err(io::Error::last_os_error());
        }
        let (blocks, pointers, events, results) = (Vec::new(), Vec::new(), Vec::new(), Vec::new());
        let mut batch = Batch { context, shows: false, most, blocks, pointers, events, results };
        let ring = batch.ring();
        let known = (ffi::AIO_RING_MAGIC, 0, size_of::<ffi::aio_ring>() as u32);
        batch.shows = (ring.magic, ring.incompatible, ring.header_bytes) == known && ring.count > 0;
        Ok(batch)
    }

    pub fn is_open(&self) -> bool {
        self.context != 0
    }

    /// Writes and then reads, each whole or not at all, and says what each moved.
    pub fn run<'bytes>(
        &mut self, fd: RawFd, writes: impl Iterator<Item = &'bytes [u8]>, reads: impl Iterator<Item = &'bytes mut [u8]>, moved: &mut Moved,
    ) {
        let block =
            |opcode, at: u64, bytes: usize| ffi::iocb { opcode, fd: fd as u32, buffer: at, bytes: bytes as u64, ..ffi::iocb::default() };
        self.blocks.clear();
        self.blocks.extend(writes.map(|bytes| block(ffi::IOCB_CMD_PWRITE, bytes.as_ptr() as u64, bytes.len())));
        self.blocks.extend(reads.map(|bytes| block(ffi::IOCB_CMD_PREAD, bytes.as_mut_ptr() as u64, bytes.len())));
        self.pointers.clear();
        for (number, block) in self.blocks.iter_mut().enumerate() {
            block.data = number as u64;
            self.pointers.push(block as *mut _ as usize);
        }
        self.results.clear();
        self.results.resize(self.blocks.len(), NOT_MADE);
        let mut start = 0;
        while start < self.blocks.len() && self.is_open() {
            start += self.submit(start, (self.blocks.len() - start).min(self.most));
        }
        moved.extend(self.results.iter().map(|result| usize::try_from(*result).ok()));
    }

    /// Submits blocks and waits until they are through. Returns how many were dealt with: one that the kernel doesn't take isn't made.
    fn submit(&mut self, start: usize, count: usize) -> usize {
        let pointers = self.pointers[start..start + count].as_mut_ptr();
        // SAFETY: `count` pointers to blocks, whose buffers the module's reason speaks of.
        let taken = unsafe { ffi::syscall(ffi::SYS_IO_SUBMIT, self.context, count as c_long, pointers) };
        match usize::try_from(taken) {
            Ok(taken) if taken > 0 => {
                self.collect(taken);
                taken
            }
            _ => 1,
        }
    }

    /// Takes what the kernel shows of what was submitted, and waits for the rest.
    fn collect(&mut self, count: usize) {
        let shown = (0..count).map_while(|_| self.take_shown()).count();
        self.wait_for(count - shown);
    }

    /// Takes how one ended, if the kernel shows that of one.
    fn take_shown(&mut self) -> Option<()> {
        let event = if self.shows { self.next_shown()? } else { return None };
        self.results[event.data as usize] = event.result;
        Some(())
    }

    fn next_shown(&self) -> Option<ffi::io_event> {
        let ring = self.ring();
        let (head, tail) = (ring.head.load(Ordering::Relaxed), ring.tail.load(Ordering::Acquire));
        if head == tail || head >= ring.count {
            return None;
        }
        let first = (self.context as *const ffi::aio_ring).wrapping_add(1).cast::<ffi::io_event>();
        // SAFETY: the module's reason: there are `count` events, and the kernel doesn't write this one before `head` is past it.
        let event = unsafe { first.wrapping_add(head as usize).read() };
        ring.head.store((head + 1) % ring.count, Ordering::Release);
        Some(event)
    }

    fn ring(&self) -> &ffi::aio_ring {
        // SAFETY: the module's reason; but for its atomic words it doesn't change.
        unsafe { &*(self.context as *const ffi::aio_ring) }
    }

    /// Waits for so many. If the kernel no longer says what is through, the context is given up.
    fn wait_for(&mut self, count: usize) {
        self.events.resize(count, ffi::io_event::default());
        let mut left = count;
        while left > 0 {
            let (least, room) = (left as c_long, left as c_long);
            let no_time: *const u8 = ptr::null();
            // SAFETY: there is room for that many events.
            let came = unsafe { ffi::syscall(ffi::SYS_IO_GETEVENTS, self.context, least, room, self.events.as_mut_ptr(), no_time) };
            let came = match usize::try_from(came) {
                Ok(came) => came,
                Err(_) if io::Error::last_os_error().kind() == io::ErrorKind::Interrupted => 0,
                Err(_) => return self.give_up(),
            };
            for event in &self.events[..came] {
                self.results[event.data as usize] = event.result;
            }
            left -= came;
        }
    }

    /// The kernel returns once nothing is under way.
    fn give_up(&mut self) {
        // SAFETY: the module's reason: the context isn't used again.
        unsafe { ffi::syscall(ffi::SYS_IO_DESTROY, self.context) };
        self.context = 0;
    }
}

impl Drop for Batch {
    fn drop(&mut self) {
        if self.is_open() {
            self.give_up();
        }
    }
}

#[cfg(test)]
mod tests {
    use super::*;
    use std::os::unix::io::AsRawFd;
    use std::os::unix::net::UnixDatagram;

    fn run<const WRITES: usize, const READS: usize>(
        batch: &mut Batch, fd: RawFd, writes: [&[u8]; WRITES], reads: [&mut [u8]; READS],
    ) -> Moved {
        let mut moved = Moved::new();
        batch.run(fd, writes.into_iter(), reads.into_iter(), &mut moved);
        moved
    }

    #[test]
    fn packets_go_and_come_in_one_call() {
        let (near, far) = UnixDatagram::pair().unwrap();
        near.set_nonblocking(true).unwrap();
        for is_shown in [true, false] {
            far.send(b"one").unwrap();
            far.send(b"two and").unwrap();
            let mut batch = Batch::open(4).unwrap();
            batch.shows &= is_shown;
            let (mut first, mut second, mut third) = ([0; 8], [0; 8], [0; 8]);
            let (writes, reads) = ([&b"a"[..], b"bc", b"def"], [&mut first[..], &mut second, &mut third]);
            assert_eq!(run(&mut batch, near.as_raw_fd(), writes, reads), [Some(1), Some(2), Some(3), Some(3), Some(7), None]);
            assert_eq!((&first[..3], &second[..7]), (&b"one"[..], &b"two and"[..]));
            let mut room = [0; 8];
            assert_eq!((far.recv(&mut room).unwrap(), far.recv(&mut room).unwrap(), far.recv(&mut room).unwrap()), (1, 2, 3));
            assert_eq!(run(&mut batch, near.as_raw_fd(), [], []), []);
            assert_eq!(run(&mut batch, -1, [b"x", b"y"], []), [None, None]);
        }
    }

    #[test]
    fn what_is_shown_takes_no_call() {
        let (near, far) = UnixDatagram::pair().unwrap();
        let mut batch = Batch::open(2).unwrap();
        // more than the kernel has places for, so that they are used again
        for byte in 0..=255 {
            assert_eq!(run(&mut batch, near.as_raw_fd(), [&[byte][..], &[byte, byte]], []), [Some(1), Some(2)]);
            let mut room = [0; 2];
            assert_eq!((far.recv(&mut room).unwrap(), far.recv(&mut room).unwrap(), room), (1, 2, [byte, byte]));
            assert!(!batch.shows || (batch.events.is_empty() && batch.next_shown().is_none()));
        }
    }

    #[test]
    fn a_context_that_no_longer_answers_is_given_up() {
        let (near, _far) = UnixDatagram::pair().unwrap();
        let mut batch = Batch::open(4).unwrap();
        // SAFETY: as that of `give_up`: the context isn't used again but to be refused.
        unsafe { ffi::syscall(ffi::SYS_IO_DESTROY, batch.context) };
        batch.wait_for(1);
        assert!(!batch.is_open());
        assert_eq!(run(&mut batch, near.as_raw_fd(), [b"x"], []), [None]);
    }
}
