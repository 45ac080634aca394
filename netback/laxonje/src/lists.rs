//! Lists of a program's maps that become others: rows that are looked up by a key, replaced without a verification.
use crate::causes::Fault;
use crate::program::Program;
use crate::queue::Queue;
use core::fmt;
use laxonje_sys as sys;

/// Why a program has the lists that it had.
#[derive(Clone, Copy, Debug, PartialEq, Eq)]
#[non_exhaustive]
pub enum RelistError {
    /// The settings text has the fault L`0`.
    Settings(Fault),
    /// The settings text has other instructions, or maps of other sizes or keys.
    Other,
    /// Memory ran out.
    Memory,
}

impl RelistError {
    fn of(verdict: sys::laxonje_verdict) -> Option<RelistError> {
        match (verdict.kind, verdict.cause) {
            (sys::LAXONJE_ACCEPTED, _) => None,
            (sys::LAXONJE_OTHER, _) => Some(RelistError::Other),
            (sys::LAXONJE_SETTINGS, sys::LAXONJE_L_MEMORY) => Some(RelistError::Memory),
            (sys::LAXONJE_SETTINGS, fault) => Some(RelistError::Settings(Fault(fault))),
            _ => Some(RelistError::Memory),
        }
    }
}

impl fmt::Display for RelistError {
    fn fmt(&self, to: &mut fmt::Formatter<'_>) -> fmt::Result {
        match self {
            RelistError::Settings(fault) => write!(to, "L{}: {fault}", fault.0),
            RelistError::Other => to.write_str("the settings have another program, or other maps"),
            RelistError::Memory => to.write_str("memory ran out"),
        }
    }
}

#[cfg(feature = "std")]
impl std::error::Error for RelistError {}

/// Why a queue has the lists that it had.
#[derive(Clone, Copy, Debug, PartialEq, Eq)]
#[non_exhaustive]
pub enum QueueRelistError {
    /// The program's maps aren't as many, as large and of such keys as the queue's.
    Maps,
    /// Memory ran out.
    Memory,
    /// As [`Turn::Abandoned`](crate::Turn::Abandoned).
    Abandoned,
}

impl QueueRelistError {
    fn of(answer: u32) -> Option<QueueRelistError> {
        match answer {
            sys::LAXONJE_RELISTED => None,
            sys::LAXONJE_RELISTED_MAPS => Some(QueueRelistError::Maps),
            sys::LAXONJE_RELISTED_MEMORY => Some(QueueRelistError::Memory),
            _ => Some(QueueRelistError::Abandoned),
        }
    }
}

impl fmt::Display for QueueRelistError {
    fn fmt(&self, to: &mut fmt::Formatter<'_>) -> fmt::Result {
        to.write_str(match self {
            QueueRelistError::Maps => "the program has other maps than the queue",
            QueueRelistError::Memory => "memory ran out",
            QueueRelistError::Abandoned => "the guest's memory panicked before",
        })
    }
}

#[cfg(feature = "std")]
impl std::error::Error for QueueRelistError {}

impl Program {
    /// Takes the lists of a settings text in place of its own: the rows of its maps that are looked up by a key. Nothing is verified. What was
    /// made of it before, a queue or a clone, has the lists that it had.
    pub fn relist(&mut self, text: &[u8]) -> Result<(), RelistError> {
        RelistError::of(self.handle.relist(text)).map_or(Ok(()), Err)
    }
}

impl Queue {
    /// Takes the lists of a program in place of its own, after [`Program::relist`]. Its program and its counters stay, and each turn has one list of
    /// each map from its beginning to its end.
    pub fn relist(&mut self, program: &Program) -> Result<(), QueueRelistError> {
        QueueRelistError::of(self.driver.relist(&program.handle)).map_or(Ok(()), Err)
    }
}
