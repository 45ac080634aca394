//! What the main process and that of a guest say to each other, and the main process and its starter.
use super::codec::{Reader, Writer};
use crate::keys::QueueKeys;
use crate::stats::{Counts, Rings, COUNTS};
use laxonje::{Accepts, Offers};

/// The most bytes of a message.
pub const MOST_MESSAGE: usize = 1 << 15;
/// The most bytes of a settings text in one message, and the most counters.
pub const TEXT_PART: usize = 1 << 14;
pub const WORDS_PART: usize = 1 << 11;
/// The most bytes of a line for the log.
pub const MOST_LINE: usize = 1 << 11;
const MOST_QUEUES: usize = 64;

/// An order of the main process to that of a guest.
#[derive(Clone, Debug, PartialEq, Eq)]
pub enum Order {
    /// A part of a settings text.
    Text(Vec<u8>),
    /// The text is whole: verify it, and keep the program under this number. It differs from that of `lists_of` in rows alone, if that is known.
    Program { number: u64, lists_of: u64 },
    /// No device has that program any longer.
    Forget { number: u64 },
    /// Serve a device. For each queue two descriptors come along: of the TAP and of the event channel.
    Connect(Connect),
    /// Go on with another program.
    Replace { device: u32, number: u64 },
    /// Say what was counted. The answer has the question's number.
    Tell { device: u32, question: u64 },
    /// End the device's threads, each between two turns, and say what was counted.
    Disconnect { device: u32, question: u64 },
}

/// How a device is served.
#[derive(Clone, Debug, PartialEq, Eq)]
pub struct Connect {
    pub device: u32,
    pub connection: u64,
    pub ifindex: u32,
    pub program: u64,
    /// The rings begin at 0; else they are gone on with where they stand.
    pub fresh: bool,
    pub notifies: bool,
    /// The guest takes packets of more than a page.
    pub scatters: bool,
    /// What the guest was offered.
    pub offers: Offers,
    /// What of a packet may be left to it.
    pub accepts: Accepts,
    /// The references of the rings, and the port that is bound.
    pub queues: Vec<QueueKeys>,
}

/// A report of the process of a guest. The main process believes nothing of it that would touch another guest.
#[derive(Clone, Debug, PartialEq, Eq)]
pub enum Report {
    Connected {
        device: u32,
        connection: u64,
    },
    /// The device isn't served.
    Failed {
        device: u32,
        connection: u64,
        why: String,
    },
    /// A queue's thread has ended by itself.
    Ended {
        device: u32,
        connection: u64,
        queue: u32,
        cause: Cause,
    },
    /// The numbers of a queue, and the indices of its rings if its thread answers.
    Counted {
        device: u32,
        question: u64,
        queue: u32,
        counts: Box<Counts>,
        rings: Option<Rings>,
    },
    /// Counters of a queue's program, from one on.
    Counters {
        device: u32,
        question: u64,
        queue: u32,
        from: u32,
        words: Vec<u64>,
    },
    /// The answer to `Tell` or `Disconnect` is whole.
    Done {
        device: u32,
        question: u64,
    },
    /// A line for the log, of a device if it is about one.
    Line {
        device: Option<u32>,
        text: String,
    },
}

/// Why a queue's thread has ended.
#[derive(Clone, Debug, PartialEq, Eq)]
pub enum Cause {
    Halted(u32),
    Failed(String),
    /// A fault of this program. `stands`: it came between two turns.
    Panicked {
        line: String,
        stands: bool,
    },
}

/// An order of the main process to its starter.
#[derive(Clone, Copy, Debug, PartialEq, Eq)]
pub enum Wish {
    /// Start a process for a guest; its end of a pair comes along.
    Start {
        number: u64,
        domain: u16,
    },
    Kill {
        number: u64,
    },
}

/// A process that the starter has started has ended, or couldn't be started.
#[derive(Clone, Debug, PartialEq, Eq)]
pub struct Exit {
    pub number: u64,
    pub how: String,
}

fn cut(text: &str) -> &[u8] {
    &text.as_bytes()[..text.len().min(MOST_LINE)]
}

impl Order {
    pub fn encode(&self) -> Vec<u8> {
        match self {
            Order::Text(part) => Writer::of(0).bytes(part),
            Order::Program { number, lists_of } => Writer::of(1).long(*number).long(*lists_of),
            Order::Forget { number } => Writer::of(2).long(*number),
            Order::Connect(connect) => connect.write(Writer::of(3)),
            Order::Replace { device, number } => Writer::of(4).number(*device).long(*number),
            Order::Tell { device, question } => Writer::of(5).number(*device).long(*question),
            Order::Disconnect { device, question } => Writer::of(6).number(*device).long(*question),
        }
        .end()
    }

    pub fn decode(message: &[u8]) -> Option<Order> {
        let mut from = Reader::of(message);
        let order = match from.kind()? {
            0 => Order::Text(from.bytes(TEXT_PART)?.to_vec()),
            1 => Order::Program { number: from.long()?, lists_of: from.long()? },
            2 => Order::Forget { number: from.long()? },
            3 => Order::Connect(Connect::read(&mut from)?),
            4 => Order::Replace { device: from.number()?, number: from.long()? },
            5 => Order::Tell { device: from.number()?, question: from.long()? },
            6 => Order::Disconnect { device: from.number()?, question: from.long()? },
            _ => return None,
        };
        from.whole(order)
    }
}

impl Connect {
    fn write(&self, to: Writer) -> Writer {
        let Connect { device, connection, ifindex, program, fresh, notifies, scatters, offers, accepts, queues } = self;
        let to = to.number(*device).long(*connection).number(*ifindex).long(*program).flag(*fresh).flag(*notifies).flag(*scatters);
        let to = to.flag(offers.tcpv4).flag(offers.tcpv6).flag(accepts.tcpv4).flag(accepts.tcpv6).flag(accepts.checksum);
        let to = to.number(queues.len() as u32);
        queues.iter().fold(to, |to, keys| to.number(keys.tx).number(keys.rx).number(keys.event))
    }

    fn read(from: &mut Reader) -> Option<Connect> {
        Some(Connect {
            device: from.number()?,
            connection: from.long()?,
            ifindex: from.number()?,
            program: from.long()?,
            fresh: from.flag()?,
            notifies: from.flag()?,
            scatters: from.flag()?,
            offers: Offers { tcpv4: from.flag()?, tcpv6: from.flag()? },
            accepts: Accepts { tcpv4: from.flag()?, tcpv6: from.flag()?, checksum: from.flag()? },
            queues: Connect::queues(from)?,
        })
    }

    fn queues(from: &mut Reader) -> Option<Vec<QueueKeys>> {
        let count = from.count(MOST_QUEUES)?;
        (0..count).map(|_| Some(QueueKeys { tx: from.number()?, rx: from.number()?, event: from.number()? })).collect()
    }
}

impl Report {
    /// Returns the number of the device that it is about, if it is about one.
    pub fn device(&self) -> Option<u32> {
        match self {
            Report::Line { device, .. } => *device,
            Report::Connected { device, .. }
            | Report::Failed { device, .. }
            | Report::Ended { device, .. }
            | Report::Counted { device, .. }
            | Report::Counters { device, .. }
            | Report::Done { device, .. } => Some(*device),
        }
    }

    pub fn encode(&self) -> Vec<u8> {
        let head = |kind, device: &u32, of: &u64| Writer::of(kind).number(*device).long(*of);
        match self {
            Report::Connected { device, connection } => head(0, device, connection),
            Report::Failed { device, connection, why } => head(1, device, connection).bytes(cut(why)),
            Report::Ended { device, connection, queue, cause } => cause.write(head(2, device, connection).number(*queue)),
            Report::Counted { device, question, queue, counts, rings } => {
                let to = head(3, device, question).number(*queue).longs(&counts.0).flag(rings.is_some());
                let Rings { tx, rx } = rings.unwrap_or_default();
                [tx.0, tx.1, rx.0, rx.1].into_iter().fold(to, Writer::number)
            }
            Report::Counters { device, question, queue, from, words } => {
                head(4, device, question).number(*queue).number(*from).longs(words)
            }
            Report::Done { device, question } => head(5, device, question),
            Report::Line { device, text } => Writer::of(6).flag(device.is_some()).number(device.unwrap_or(0)).bytes(cut(text)),
        }
        .end()
    }

    pub fn decode(message: &[u8]) -> Option<Report> {
        let mut from = Reader::of(message);
        let kind = from.kind()?;
        if kind == 6 {
            let (is_about_one, device) = (from.flag()?, from.number()?);
            let line = Report::Line { device: is_about_one.then_some(device), text: from.text(MOST_LINE)? };
            return from.whole(line);
        }
        let (device, of) = (from.number()?, from.long()?);
        let report = match kind {
            0 => Report::Connected { device, connection: of },
            1 => Report::Failed { device, connection: of, why: from.text(MOST_LINE)? },
            2 => Report::Ended { device, connection: of, queue: from.number()?, cause: Cause::read(&mut from)? },
            3 => Report::counted(device, of, &mut from)?,
            4 => {
                let (queue, start) = (from.number()?, from.number()?);
                Report::Counters { device, question: of, queue, from: start, words: from.longs(WORDS_PART)? }
            }
            5 => Report::Done { device, question: of },
            _ => return None,
        };
        from.whole(report)
    }

    fn counted(device: u32, question: u64, from: &mut Reader) -> Option<Report> {
        let queue = from.number()?;
        let counts = Box::new(Counts(from.longs(COUNTS)?.try_into().ok()?));
        let answers = from.flag()?;
        let rings = Rings { tx: (from.number()?, from.number()?), rx: (from.number()?, from.number()?) };
        Some(Report::Counted { device, question, queue, counts, rings: answers.then_some(rings) })
    }
}

impl Cause {
    fn write(&self, to: Writer) -> Writer {
        match self {
            Cause::Halted(cause) => to.flag(false).number(*cause),
            Cause::Failed(why) => to.flag(true).flag(false).bytes(cut(why)),
            Cause::Panicked { line, stands } => to.flag(true).flag(true).flag(*stands).bytes(cut(line)),
        }
    }

    fn read(from: &mut Reader) -> Option<Cause> {
        if !from.flag()? {
            return Some(Cause::Halted(from.number()?));
        }
        match from.flag()? {
            false => Some(Cause::Failed(from.text(MOST_LINE)?)),
            true => {
                let stands = from.flag()?;
                Some(Cause::Panicked { stands, line: from.text(MOST_LINE)? })
            }
        }
    }
}

impl Wish {
    pub fn encode(self) -> Vec<u8> {
        match self {
            Wish::Start { number, domain } => Writer::of(0).long(number).number(domain.into()),
            Wish::Kill { number } => Writer::of(1).long(number),
        }
        .end()
    }

    pub fn decode(message: &[u8]) -> Option<Wish> {
        let mut from = Reader::of(message);
        let wish = match from.kind()? {
            0 => Wish::Start { number: from.long()?, domain: from.number()?.try_into().ok()? },
            1 => Wish::Kill { number: from.long()? },
            _ => return None,
        };
        from.whole(wish)
    }
}

impl Exit {
    pub fn encode(&self) -> Vec<u8> {
        Writer::of(0).long(self.number).bytes(cut(&self.how)).end()
    }

    pub fn decode(message: &[u8]) -> Option<Exit> {
        let mut from = Reader::of(message);
        let _ = from.kind()?;
        let exit = Exit { number: from.long()?, how: from.text(MOST_LINE)? };
        from.whole(exit)
    }
}

#[cfg(test)]
mod tests;
