//! The host's loop over version 4 of the C interface: the first read, and each op in its order.
use crate::causes::Halt;
use crate::guest::{Entry, Guest, Op, PAGE_WORDS};
use crate::handle::{ProgramHandle, QueueHandle, SharedHandle};
use crate::offload::{Accepts, Offload};
use crate::outcome::{DeliverError, Grant, ReplaceError, Stopped};
use crate::segments::{OfferError, Offers, Segments};
use crate::setup::{Extent, Indices, MakeError, Setup};
use crate::shared::ShareError;
use crate::turned::{Grants, Turned, MOST_TURNS};
use alloc::vec;
use alloc::vec::Vec;
use laxonje_sys as sys;

/// The word of a ring's producer of requests.
const PRODUCER: usize = 0;

type Ops = [sys::laxonje_op; sys::LAXONJE_TURNS_OPS];

/// A queue with what it was made of and the words that it is lent.
pub(crate) struct Driver {
    handle: QueueHandle,
    desc: sys::laxonje_queue_desc,
    frames: Vec<sys::laxonje_extent>,
    table: Vec<u32>,
    /// The words that are lent: those of a page, until a turn of several packets is wanted.
    words: Vec<u32>,
    ops: Ops,
    turned: Turned,
    grants: Grants,
    /// Why nothing may begin. From before the first access until all is over it is `Abandoned`, which a panic of the guest's leaves: the next
    /// step would answer an access that wasn't made with the words of one before.
    stopped: Option<Stopped>,
    shares: bool,
    offers: Offers,
    accepts: Accepts,
}

impl Driver {
    pub fn new(program: &ProgramHandle, setup: &Setup) -> Result<Driver, MakeError> {
        let frames = setup.frames.iter().map(|extent: &Extent| sys::laxonje_extent { frames: extent.frames, domain: extent.domain });
        let desc = sys::laxonje_queue_desc {
            tx: setup.tx,
            rx: setup.rx,
            granter: setup.frontend,
            user: setup.backend,
            port: setup.port,
            ifindex: setup.ifindex,
            queue: setup.queue,
            tx_index: setup.at.tx,
            rx_index: setup.at.rx,
        };
        let mut driver = Driver {
            handle: QueueHandle::none(),
            desc,
            frames: frames.collect(),
            table: setup.table.to_vec(),
            words: vec![0; PAGE_WORDS],
            ops: [sys::laxonje_op::default(); sys::LAXONJE_TURNS_OPS],
            turned: Turned::default(),
            grants: Grants::default(),
            stopped: None,
            shares: false,
            offers: Offers::default(),
            accepts: Accepts::default(),
        };
        driver.make(program, setup.at, false).map(|()| driver)
    }

    /// Makes a queue in place of the one that there is, with that one's offers and guest. `keeps_share`: it gets that one's share in counters,
    /// too. If none is made nothing has changed.
    fn make(&mut self, program: &ProgramHandle, at: Indices, keeps_share: bool) -> Result<(), MakeError> {
        let desc = sys::laxonje_queue_desc { tx_index: at.tx, rx_index: at.rx, ..self.desc };
        let mut made = QueueHandle::none();
        if let Some(cause) = MakeError::of(made.make(program, &self.frames, &self.table, &desc)) {
            return Err(cause);
        }
        for answer in [made.offer(self.offers.bits()), made.accept(self.accepts.bits())] {
            if answer != sys::LAXONJE_OFFERED {
                return Err(MakeError::Unknown(answer)); // the library has taken them before
            }
        }
        let shares = self.shares && keeps_share;
        if shares {
            match self.handle.pass(&mut made) {
                sys::LAXONJE_SHARES_NOW => {}
                sys::LAXONJE_SHARES_MEMORY => return Err(MakeError::Memory),
                answer => return Err(MakeError::Unknown(answer)), // its maps have the same sizes
            }
        }
        self.shares = shares;
        self.handle = made;
        Ok(())
    }

    /// `keeps_share`: the queue goes on with the counters that it shares, if it does.
    pub fn replace(&mut self, program: &ProgramHandle, keeps_share: bool) -> Result<(), ReplaceError> {
        let at = self.indices().map_err(ReplaceError::of)?;
        self.make(program, at, keeps_share).map_err(ReplaceError::Make)
    }

    /// The library's answer: busy, too, if a guest panicked before the library began.
    pub fn relist(&mut self, program: &ProgramHandle) -> u32 {
        match self.is_abandoned() {
            false => self.handle.relist(program),
            true => sys::LAXONJE_RELISTED_BUSY,
        }
    }

    /// Makes these offers, also of a queue that comes in this one's place.
    pub fn offer(&mut self, offers: Offers) -> Result<(), OfferError> {
        if self.is_abandoned() {
            return Err(OfferError::Abandoned);
        }
        OfferError::of(self.handle.offer(offers.bits()))?;
        self.offers = offers;
        Ok(())
    }

    /// Knows that its guest takes so much, also of a queue that comes in this one's place.
    pub fn accept(&mut self, accepts: Accepts) -> Result<(), OfferError> {
        if self.is_abandoned() {
            return Err(OfferError::Abandoned);
        }
        OfferError::of(self.handle.accept(accepts.bits()))?;
        self.accepts = accepts;
        Ok(())
    }

    pub fn share(&mut self, counters: &mut SharedHandle) -> Result<(), ShareError> {
        if self.is_abandoned() {
            return Err(ShareError::Abandoned);
        }
        ShareError::of(counters.share(&mut self.handle))?;
        self.shares = true;
        Ok(())
    }

    fn is_abandoned(&self) -> bool {
        self.stopped == Some(Stopped::Abandoned)
    }

    pub fn turn(&mut self, counters: &mut [u64], guest: &mut (impl Guest + ?Sized)) -> Result<sys::laxonje_op, Stopped> {
        self.begin()?;
        let producer = producer(self.desc.tx, guest);
        let count = self.handle.turn(producer, &mut self.ops);
        self.finish(count, guest, |driver| driver.step(counters))
    }

    /// Takes a turn of up to `most` packets. Returns how many there were: `turned` has what became of each.
    pub fn turns(&mut self, most: usize, counters: &mut [u64], guest: &mut (impl Guest + ?Sized)) -> Result<usize, Stopped> {
        self.turned.count = 0;
        let over = match most.min(MOST_TURNS) {
            0 | 1 => self.turn(counters, guest),
            most => self.turn_of_several(most, counters, guest),
        }?;
        self.note_turned(&over);
        Ok(self.turned.count)
    }

    fn turn_of_several(
        &mut self, most: usize, counters: &mut [u64], guest: &mut (impl Guest + ?Sized),
    ) -> Result<sys::laxonje_op, Stopped> {
        self.begin()?;
        if self.words.len() < sys::LAXONJE_TURNS_WORDS {
            self.words.resize(sys::LAXONJE_TURNS_WORDS, 0);
        }
        let producer = producer(self.desc.tx, guest);
        let count = self.handle.turns(producer, most as u32, &mut self.ops);
        self.finish(count, guest, |driver| driver.step_turns(counters))
    }

    fn step_turns(&mut self, counters: &mut [u64]) -> usize {
        self.handle.step_turns(&mut self.words, counters, &mut self.ops, &mut self.turned.results)
    }

    /// Notes what a turn has come to.
    fn note_turned(&mut self, over: &sys::laxonje_op) {
        match over.outcome() {
            sys::LAXONJE_TURN_IDLE => {}
            sys::LAXONJE_TURN_SEVERAL => {
                (self.turned.count, self.turned.several) = ((over.slots() as usize).min(MOST_TURNS), true);
                self.stopped = self.turned.halt().map(Stopped::Halted);
            }
            _ => self.turned.set_one(self.result_of(over)),
        }
    }

    /// The result of a turn of one.
    pub fn result_of(&self, over: &sys::laxonje_op) -> sys::laxonje_turned {
        let (outcome, ops, number) = (over.outcome(), over.ops(), over.number());
        let (slots, cause) = (over.slots(), over.cause());
        let mut result = sys::laxonje_turned { outcome, ops, number, slots, cause, ..sys::laxonje_turned::default() };
        if outcome == sys::LAXONJE_TURN_RAN {
            result.flags = self.handle.flags();
            if result.flags & sys::LAXONJE_FLAG_EXTRA_INFO != 0 {
                (result.segment_type, result.segment_size) = (self.handle.segment_type() as u16, self.handle.segment_size() as u16);
            }
        }
        result
    }

    pub fn turned(&self) -> &Turned {
        &self.turned
    }

    /// A turn that isn't taken, since the queue makes no more accesses.
    pub fn turn_stopped(&mut self, why: Stopped) {
        self.turned.set_stopped(why);
    }

    /// The packet of that number of the last turn of `turns`.
    pub fn packet_of(&self, number: usize, out: &mut [u8]) -> usize {
        match self.turned.get(number) {
            Some(it) if it.outcome != sys::LAXONJE_TURN_RAN => 0,
            Some(_) if self.turned.several => self.handle.turns_packet(number, out),
            Some(_) => self.packet(out),
            None => 0,
        }
    }

    pub fn deliver(
        &mut self, packet: &[u8], offload: Offload, counters: &mut [u64], guest: &mut (impl Guest + ?Sized),
    ) -> Result<Result<sys::laxonje_op, DeliverError>, Stopped> {
        self.begin()?;
        let producer = producer(self.desc.rx, guest);
        let taken = self.handle.deliver(producer, packet, offload);
        if taken == sys::LAXONJE_TAKEN {
            return self.step_on(counters, guest).map(Ok);
        }
        let why = DeliverError::of(taken).ok_or(Stopped::Abandoned)?;
        self.stopped = None;
        Ok(Err(why))
    }

    pub fn wait_for(&mut self, slots: u32, counters: &mut [u64], guest: &mut (impl Guest + ?Sized)) -> Result<sys::laxonje_op, Stopped> {
        self.begin()?;
        match self.handle.wait_for(slots) {
            sys::LAXONJE_TAKEN => self.step_on(counters, guest),
            _ => Err(Stopped::Abandoned),
        }
    }

    /// Notes that something is under way, if nothing is.
    fn begin(&mut self) -> Result<(), Stopped> {
        match self.stopped {
            None => {
                self.stopped = Some(Stopped::Abandoned);
                self.grants.clear();
                Ok(())
            }
            Some(why) => Err(why),
        }
    }

    /// Takes the next step of what is under way, and goes on to its end.
    fn step_on(&mut self, counters: &mut [u64], guest: &mut (impl Guest + ?Sized)) -> Result<sys::laxonje_op, Stopped> {
        let count = self.step(counters);
        self.finish(count, guest, |driver| driver.step(counters))
    }

    fn step(&mut self, counters: &mut [u64]) -> usize {
        self.handle.step(&mut self.words, counters, &mut self.ops)
    }

    /// Takes what is under way to its end: the ops that are there, and those of each further step. A step without ops is one that the
    /// library doesn't take.
    fn finish(
        &mut self, mut count: usize, guest: &mut (impl Guest + ?Sized), mut step: impl FnMut(&mut Driver) -> usize,
    ) -> Result<sys::laxonje_op, Stopped> {
        while count > 0 {
            if self.make_ops(count, guest) {
                let over = self.ops[count - 1];
                self.stopped = halt_of(&over).map(Stopped::Halted);
                return self.stopped.map_or(Ok(over), Err);
            }
            count = step(self);
        }
        Err(Stopped::Abandoned)
    }

    /// Makes the first ops in their order. Returns whether the last of them says that all is over.
    fn make_ops(&mut self, count: usize, guest: &mut (impl Guest + ?Sized)) -> bool {
        let ops = &self.ops[..count];
        for op in ops {
            make_op(op, &mut self.words, &mut self.grants, guest);
            guest.told(&Op::of(op), words_of(op, &self.words));
        }
        ops.last().map_or(false, |op| op.kind == sys::LAXONJE_OP_DONE)
    }

    pub fn packet(&self, out: &mut [u8]) -> usize {
        match self.stopped {
            None => self.handle.packet(out),
            Some(_) => 0,
        }
    }

    pub fn grants(&self) -> &Grants {
        &self.grants
    }

    pub fn flags(&self) -> u32 {
        self.handle.flags()
    }

    pub fn segments(&self) -> Option<Segments> {
        Segments::of(self.handle.segment_type(), || self.handle.segment_size())
    }

    pub fn indices(&self) -> Result<Indices, Stopped> {
        if let Some(why) = self.stopped {
            return Err(why);
        }
        let at = self.handle.state();
        match at.kind {
            sys::LAXONJE_STANDS => Ok(Indices { tx: at.tx_index, rx: at.rx_index }),
            _ => Err(Stopped::Abandoned),
        }
    }
}

/// Why a queue has halted, if what is over says so.
fn halt_of(over: &sys::laxonje_op) -> Option<Halt> {
    match over.outcome() {
        sys::LAXONJE_TURN_HALTED | sys::LAXONJE_DELIVERY_HALTED | sys::LAXONJE_AWAITED_HALTED => Some(Halt(over.cause())),
        _ => None,
    }
}

/// Makes an op. If it reads an entry of the grant table, that is noted.
fn make_op(op: &sys::laxonje_op, words: &mut [u32], grants: &mut Grants, guest: &mut (impl Guest + ?Sized)) {
    let (word, count) = (op.word as usize, op.count as usize);
    let lent = op.lent as usize..op.lent as usize + count;
    match op.kind {
        sys::LAXONJE_OP_READ if op.entry != sys::LAXONJE_ENTRY_NONE => {
            let entry = Entry::of(op);
            let read = guest.entry(&entry);
            grants.note(lent.start, Grant { entry, words: read });
            words[lent].copy_from_slice(&read);
        }
        sys::LAXONJE_OP_READ => guest.read(op.frame, word, &mut words[lent]),
        sys::LAXONJE_OP_WRITE => guest.write(op.frame, word, &words[lent]),
        sys::LAXONJE_OP_STORE => guest.write(op.frame, word, &op.value[..count]),
        sys::LAXONJE_OP_PUSH => words[lent.start] = guest.push(op.frame, word, op.value[0], op.value[1] as usize),
        sys::LAXONJE_OP_NOTIFY => guest.notify(op.value[0]),
        _ => guest.over(),
    }
}

/// The words that an op read or wrote, which `make_op` has looked at. Nothing here can fail, so that it costs nothing where no trace is kept.
fn words_of<'a>(op: &'a sys::laxonje_op, words: &'a [u32]) -> &'a [u32] {
    let (lent, count) = (op.lent as usize, op.count as usize);
    let found = match op.kind {
        sys::LAXONJE_OP_READ | sys::LAXONJE_OP_WRITE => words.get(lent..lent + count),
        sys::LAXONJE_OP_STORE => op.value.get(..count),
        sys::LAXONJE_OP_PUSH => words.get(lent..=lent),
        _ => None,
    };
    found.unwrap_or_default()
}

/// The producer of requests of a ring.
fn producer(ring: u32, guest: &mut (impl Guest + ?Sized)) -> u32 {
    let mut word = [0];
    guest.read(ring, PRODUCER, &mut word);
    word[0]
}
