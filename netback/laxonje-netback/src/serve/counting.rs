//! What the program of a device counts, over all of its queues.
use super::Told;
use crate::stats::add;
use laxonje::{Counters, Guest, Program, Queue, MOST_SHARES};
use std::sync::{Arc, Mutex, MutexGuard, PoisonError, TryLockError};
use std::time::Duration;

/// The counters that the queues of a device share, if there are several.
#[derive(Clone, Default)]
pub struct SharedCounters(Option<Arc<Shared>>);

/// Counters, and who takes a turn alone.
struct Shared {
    counters: Mutex<Counters>,
    turn: Mutex<()>,
}

impl SharedCounters {
    /// Counters of a program, for so many queues.
    pub fn of(program: &Program, queues: usize) -> SharedCounters {
        let several = Some(queues).filter(|count| *count > 1);
        let counters = several.and_then(|count| Counters::new(program, count.min(MOST_SHARES)).ok());
        SharedCounters(counters.map(|counters| Arc::new(Shared { counters: Mutex::new(counters), turn: Mutex::new(()) })))
    }

    fn lock(&self) -> Option<MutexGuard<'_, Counters>> {
        self.0.as_ref().map(|shared| shared.counters.lock().unwrap_or_else(PoisonError::into_inner))
    }

    /// Takes a turn of one of the queues, of up to `most` packets: how many there were. If its program runs alone, no other one of them takes one
    /// meanwhile.
    pub fn turns(&self, queue: &mut Queue, guest: &mut impl Guest, most: usize) -> usize {
        let _alone = if queue.runs_alone() { self.alone() } else { None };
        queue.turns(most, guest)
    }

    /// While it is held no queue takes a turn alone. A panic comes from the guest's accesses, and not while a program runs: after it others go on.
    pub fn alone(&self) -> Option<MutexGuard<'_, ()>> {
        self.0.as_ref().map(|shared| shared.turn.lock().unwrap_or_else(PoisonError::into_inner))
    }

    /// Has a queue of this program share them. One that can't has its own.
    pub fn share(&self, queue: &mut Queue) {
        if let Some(mut counters) = self.lock() {
            let _ = counters.share(queue);
        }
    }

    /// Gives their program the time. No thread of packets waits for another: one that has the counters has just given the time, or reads them all.
    pub fn set_time(&self, time: Duration) {
        match self.0.as_ref().map(|shared| shared.counters.try_lock()) {
            Some(Ok(mut counters)) => counters.set_time(time),
            Some(Err(TryLockError::Poisoned(counters))) => counters.into_inner().set_time(time),
            Some(Err(TryLockError::WouldBlock)) | None => {}
        }
    }

    /// From now on those of another program, for so many queues: the same ones, if its maps are the same.
    pub fn replace(&mut self, program: &Program, queues: usize) {
        if self.lock().map_or(true, |counters| !counters.fit(program)) {
            *self = SharedCounters::of(program, queues);
        }
    }

    /// What the program counted here stands with what the first of the queues that answer counted.
    pub fn add_to(&self, told: &mut [Option<Told>]) {
        if let (Some(mut counters), Some(first)) = (self.lock(), told.iter_mut().flatten().next()) {
            let shared = counters.all();
            first.counters.resize(shared.len(), 0);
            add(&mut first.counters, &shared);
        }
    }
}
