//! The library's handles. All calls of the library that take one stand here and in `drive`.
//!
//! What makes each `unsafe` block sound is said once, by the header's rules: a handle is all zeros or what the library left in it
//! (made in `none` alone), its address doesn't change (it is boxed), and one call is made at a time (no call of the library calls back; the
//! types aren't `Sync`, but for a program's, whose calls by `&` wait for each other). A slice's pointer and length are memory that nobody else
//! changes during the call.
use crate::lock::Lock;
use crate::offload::Offload;
use crate::program::{Outcome, Packet};
use alloc::boxed::Box;
use alloc::string::String;
use alloc::vec::Vec;
use core::cell::UnsafeCell;
use core::{slice, str};
use laxonje_sys as sys;

/// The most bytes of a map's name.
const MOST_NAME_BYTES: usize = 32;

/// An accepted program, or none. Threads may have a `&` of it: `lent` has one call made at a time.
pub(crate) struct ProgramHandle {
    handle: Box<UnsafeCell<sys::laxonje_program>>,
    lock: Lock,
}

/// A queue, or none.
pub(crate) struct QueueHandle(Box<UnsafeCell<sys::laxonje_queue>>);

/// Counters that queues share, or none.
pub(crate) struct SharedHandle(Box<UnsafeCell<sys::laxonje_shared>>);

// SAFETY: the library's rule 3 lets a handle go to another thread by a lock, a start, a join or a channel, which are the ways that
// Rust's threads have.
unsafe impl Send for ProgramHandle {}
// SAFETY: what a `&` of it can do is `lent`, whose calls wait for each other.
unsafe impl Sync for ProgramHandle {}
// SAFETY: as for a program.
unsafe impl Send for QueueHandle {}
// SAFETY: as for a program.
unsafe impl Send for SharedHandle {}

impl ProgramHandle {
    pub fn none() -> Self {
        ProgramHandle { handle: Box::default(), lock: Lock::default() }
    }

    /// The handle, for a call while nobody else can make one.
    fn own(&mut self) -> *mut sys::laxonje_program {
        self.handle.get()
    }

    /// Makes a call with the handle once no other thread makes one.
    fn lent<Answer>(&self, call: impl FnOnce(*mut sys::laxonje_program) -> Answer) -> Answer {
        let _held = self.lock.hold();
        call(self.handle.get())
    }

    pub fn load(&mut self, program: &[u8], maps: &[sys::laxonje_map]) -> sys::laxonje_verdict {
        // SAFETY: the module's reason.
        unsafe { sys::laxonje_load(program.as_ptr(), program.len(), maps.as_ptr(), maps.len(), self.own()) }
    }

    pub fn load_settings(&mut self, text: &[u8]) -> sys::laxonje_verdict {
        // SAFETY: the module's reason.
        unsafe { sys::laxonje_load_settings(text.as_ptr(), text.len(), self.own()) }
    }

    pub fn load_object(&mut self, object: &[u8], function: &[u8]) -> sys::laxonje_verdict {
        let (bytes, length) = (object.as_ptr(), object.len());
        // SAFETY: the module's reason.
        unsafe { sys::laxonje_load_object(bytes, length, function.as_ptr(), function.len(), self.own()) }
    }

    /// Takes the lists of a settings text.
    pub fn relist(&mut self, text: &[u8]) -> sys::laxonje_verdict {
        // SAFETY: the module's reason.
        unsafe { sys::laxonje_relist(self.own(), text.as_ptr(), text.len()) }
    }

    /// Makes this handle the same program as another.
    pub fn again(&mut self, of: &ProgramHandle) -> sys::laxonje_verdict {
        // SAFETY: the module's reason; the two handles are different values, since this one is borrowed for writing.
        of.lent(|of| unsafe { sys::laxonje_again(of, self.own()) })
    }

    pub fn run(&mut self, counters: &mut [u64], packet: &mut [u8], ifindex: u32, queue: u32) -> sys::laxonje_result {
        let (words, bytes, mut out) = (counters.len(), packet.len(), sys::laxonje_result::default());
        // SAFETY: the module's reason.
        unsafe { sys::laxonje_run_into(self.own(), counters.as_mut_ptr(), words, packet.as_mut_ptr(), bytes, ifindex, queue, &mut out) };
        out
    }

    /// Runs the packets of a batch. Returns the number of outcomes.
    pub fn run_batch(
        &mut self, counters: &mut [u64], bytes: &mut [u8], packets: &[Packet], outcomes: &mut [Outcome], ifindex: u32, queue: u32,
    ) -> usize {
        let (counted, length, count, room) = (counters.len(), bytes.len(), packets.len(), outcomes.len());
        let (counters, bytes) = (counters.as_mut_ptr(), bytes.as_mut_ptr());
        let (packets, results) = (packets.as_ptr().cast(), outcomes.as_mut_ptr().cast());
        // SAFETY: the module's reason. A `Packet` and an `Outcome` are transparent: they are laid out as the header's structs.
        unsafe { sys::laxonje_run_batch(self.own(), counters, counted, bytes, length, packets, count, results, room, ifindex, queue) }
    }

    pub fn counters(&self) -> usize {
        // SAFETY: the module's reason.
        self.lent(|program| unsafe { sys::laxonje_counters(program) })
    }

    pub fn place(&self, map: u32, entry: u32, counter: u32) -> usize {
        // SAFETY: the module's reason.
        self.lent(|program| unsafe { sys::laxonje_place(program, map, entry, counter) })
    }

    pub fn maps(&mut self) -> Vec<sys::laxonje_map> {
        let program = self.own();
        // SAFETY: the module's reason.
        let count = unsafe { sys::laxonje_map_count(program) };
        // SAFETY: the module's reason. A number that is out of range is answered too.
        (0..count as u32).map(|number| unsafe { sys::laxonje_map_size(program, number) }).collect()
    }

    pub fn map_named(&self, name: &[u8]) -> usize {
        // SAFETY: the module's reason.
        self.lent(|program| unsafe { sys::laxonje_map_named(program, name.as_ptr(), name.len()) })
    }

    /// The name of a map; empty if it has none.
    pub fn map_name(&mut self, number: u32) -> String {
        let mut name = [0; MOST_NAME_BYTES];
        // SAFETY: the module's reason. The answer is how long the name is.
        let length = unsafe { sys::laxonje_map_name(self.own(), number, name.as_mut_ptr(), name.len()) };
        String::from_utf8_lossy(&name[..length.min(name.len())]).into_owned()
    }
}

impl Drop for ProgramHandle {
    fn drop(&mut self) {
        // SAFETY: the module's reason. Nothing uses the handle after it is dropped.
        unsafe { sys::laxonje_free(self.own()) }
    }
}

impl QueueHandle {
    pub fn none() -> Self {
        QueueHandle(Box::default())
    }

    pub fn get(&self) -> *mut sys::laxonje_queue {
        self.0.get()
    }

    pub fn make(&mut self, program: &ProgramHandle, frames: &[sys::laxonje_extent], table: &[u32], desc: &sys::laxonje_queue_desc) -> u32 {
        let (extents, frames, table, length) = (frames.as_ptr(), frames.len(), table.as_ptr(), table.len());
        // SAFETY: the module's reason.
        program.lent(|program| unsafe { sys::laxonje_queue_make_extents(program, extents, frames, table, length, desc, self.get()) })
    }

    /// Takes the lists of a program.
    pub fn relist(&mut self, program: &ProgramHandle) -> u32 {
        // SAFETY: the module's reason.
        program.lent(|program| unsafe { sys::laxonje_queue_relist(self.get(), program) })
    }

    /// The first op of a turn.
    pub fn turn(&mut self, producer: u32, ops: &mut [sys::laxonje_op]) -> usize {
        // SAFETY: the module's reason.
        unsafe { sys::laxonje_queue_turn(self.get(), producer, ops.as_mut_ptr(), ops.len()) }
    }

    pub fn deliver(&mut self, producer: u32, packet: &[u8], offload: Offload) -> u32 {
        let (number, segment_size) = offload.numbers();
        // SAFETY: the module's reason.
        unsafe { sys::laxonje_queue_deliver_as(self.get(), producer, packet.as_ptr(), packet.len(), number, segment_size) }
    }

    pub fn wait_for(&mut self, pages: u32) -> u32 {
        // SAFETY: the module's reason.
        unsafe { sys::laxonje_queue_await(self.get(), pages) }
    }

    pub fn step(&mut self, words: &mut [u32], counters: &mut [u64], ops: &mut [sys::laxonje_op]) -> usize {
        let (lent, counted, room) = (words.len(), counters.len(), ops.len());
        // SAFETY: the module's reason.
        unsafe { sys::laxonje_queue_step(self.get(), words.as_mut_ptr(), lent, counters.as_mut_ptr(), counted, ops.as_mut_ptr(), room) }
    }

    /// The first ops of a turn of several packets.
    pub fn turns(&mut self, producer: u32, most: u32, ops: &mut [sys::laxonje_op]) -> usize {
        // SAFETY: the module's reason.
        unsafe { sys::laxonje_queue_turns(self.get(), producer, most, ops.as_mut_ptr(), ops.len()) }
    }

    pub fn step_turns(
        &mut self, words: &mut [u32], counters: &mut [u64], ops: &mut [sys::laxonje_op], turned: &mut [sys::laxonje_turned],
    ) -> usize {
        let (lent, counted, room, most) = (words.len(), counters.len(), ops.len(), turned.len());
        let (words, counters, ops, turned) = (words.as_mut_ptr(), counters.as_mut_ptr(), ops.as_mut_ptr(), turned.as_mut_ptr());
        // SAFETY: the module's reason.
        unsafe { sys::laxonje_queue_turns_step(self.get(), words, lent, counters, counted, ops, room, turned, most) }
    }

    /// The packet of this number of the last turn of several.
    pub fn turns_packet(&self, number: usize, out: &mut [u8]) -> usize {
        // SAFETY: the module's reason.
        unsafe { sys::laxonje_queue_turns_packet(self.get(), number, out.as_mut_ptr(), out.len()) }
    }

    /// Gives its share in counters to another queue.
    pub fn pass(&mut self, to: &mut QueueHandle) -> u32 {
        // SAFETY: the module's reason; the two handles are different values.
        unsafe { sys::laxonje_queue_pass(self.get(), to.get()) }
    }

    pub fn flags(&self) -> u32 {
        // SAFETY: the module's reason.
        unsafe { sys::laxonje_queue_flags(self.get()) }
    }

    /// Makes these offers from the next turn on.
    pub fn offer(&mut self, offers: u32) -> u32 {
        // SAFETY: the module's reason.
        unsafe { sys::laxonje_queue_offer(self.get(), offers) }
    }

    /// Knows that its guest takes so much.
    pub fn accept(&mut self, accepts: u32) -> u32 {
        // SAFETY: the module's reason.
        unsafe { sys::laxonje_queue_accept(self.get(), accepts) }
    }

    pub fn segment_type(&self) -> u32 {
        // SAFETY: the module's reason.
        unsafe { sys::laxonje_queue_segment_type(self.get()) }
    }

    pub fn segment_size(&self) -> u32 {
        // SAFETY: the module's reason.
        unsafe { sys::laxonje_queue_segment_size(self.get()) }
    }

    pub fn packet(&self, out: &mut [u8]) -> usize {
        // SAFETY: the module's reason.
        unsafe { sys::laxonje_queue_packet(self.get(), out.as_mut_ptr(), out.len()) }
    }

    pub fn state(&self) -> sys::laxonje_queue_standing {
        // SAFETY: the module's reason.
        unsafe { sys::laxonje_queue_state(self.get()) }
    }
}

impl Drop for QueueHandle {
    fn drop(&mut self) {
        // SAFETY: the module's reason. Nothing uses the handle after it is dropped.
        unsafe { sys::laxonje_queue_free(self.get()) }
    }
}

impl SharedHandle {
    pub fn none() -> Self {
        SharedHandle(Box::default())
    }

    pub fn make(&mut self, program: &ProgramHandle, queues: usize) -> u32 {
        // SAFETY: the module's reason.
        program.lent(|program| unsafe { sys::laxonje_counters_make(program, queues, self.0.get()) })
    }

    pub fn share(&mut self, queue: &mut QueueHandle) -> u32 {
        // SAFETY: the module's reason.
        unsafe { sys::laxonje_queue_share(queue.get(), self.0.get()) }
    }

    pub fn at(&mut self, map: u32, entry: u32, counter: u32) -> u64 {
        // SAFETY: the module's reason.
        unsafe { sys::laxonje_counters_at(self.0.get(), map, entry, counter) }
    }

    pub fn add(&mut self, map: u32, entry: u32, counter: u32, amount: u64) -> u32 {
        // SAFETY: the module's reason.
        unsafe { sys::laxonje_counters_add(self.0.get(), map, entry, counter, amount) }
    }
}

impl Drop for SharedHandle {
    fn drop(&mut self) {
        // SAFETY: the module's reason. Nothing uses the handle after it is dropped. Queues that share the counters go on with them.
        unsafe { sys::laxonje_counters_free(self.0.get()) }
    }
}

/// The text of what to write instead of what the verifier's cause refuses; empty if there is none.
pub(crate) fn advice(cause: u32) -> String {
    let mut text = [0; 512];
    // SAFETY: the module's reason. The answer is how long the text is, which may be more than there is room for.
    let length = unsafe { sys::laxonje_advice(cause, text.as_mut_ptr(), text.len()) };
    String::from_utf8_lossy(&text[..length.min(text.len())]).into_owned()
}

/// Whether a program is accepted.
pub(crate) fn check(program: &[u8], maps: &[sys::laxonje_map]) -> sys::laxonje_verdict {
    // SAFETY: the module's reason.
    unsafe { sys::laxonje_check(program.as_ptr(), program.len(), maps.as_ptr(), maps.len()) }
}

pub(crate) fn proved() -> u32 {
    // SAFETY: it takes nothing and answers a number.
    unsafe { sys::laxonje_proved() }
}

/// How the library was built.
pub(crate) fn build() -> &'static str {
    // SAFETY: it takes nothing, and answers a constant of the library with a zero at its end.
    let first = unsafe { sys::laxonje_build() }.cast::<u8>();
    // SAFETY: as above: all bytes up to the zero may be read.
    let length = (0..).take_while(|at| unsafe { *first.add(*at) } != 0).count();
    // SAFETY: as above.
    let text = unsafe { slice::from_raw_parts(first, length) };
    str::from_utf8(text).unwrap_or("a build that isn't named in UTF-8")
}

pub(crate) fn version() -> u32 {
    // SAFETY: it takes nothing and answers a number.
    unsafe { sys::laxonje_version() }
}
