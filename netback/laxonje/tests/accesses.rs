//! The accesses that a queue asks of its host, one by one, and hosts that panic at one.
#[allow(dead_code)]
mod memory;

use laxonje::{
    read_words, Accepts, Action, Awaited, Counters, Delivery, Entry, Guest, GuestMemory, Indices, OfferError, Offers, Op, Program, Queue,
    Refusal, ReplaceError, ShareError, Stopped, Turn,
};
use memory::{answers, udp, Memory, DATA, TX};

const MORE: u32 = 4;

fn action(turn: Turn) -> Action {
    match turn {
        Turn::Ran(run) => run.action,
        other => panic!("{other:?}"),
    }
}

/// A host that panics at an access: once so many have been made. A page that can't be reached, and a guest's own `over`, are accesses too.
struct Panics {
    memory: Memory,
    left: usize,
    made: usize,
}

impl Panics {
    fn new() -> Panics {
        Panics { memory: Memory::new(), left: usize::MAX, made: 0 }
    }

    fn access(&mut self) {
        assert_ne!(self.left, 0, "planted");
        self.left -= 1;
        self.made += 1;
    }
}

impl Guest for Panics {
    fn read(&mut self, frame: u32, word: usize, into: &mut [u32]) {
        self.access();
        Guest::read(&mut self.memory, frame, word, into)
    }
    fn write(&mut self, frame: u32, word: usize, from: &[u32]) {
        self.access();
        Guest::write(&mut self.memory, frame, word, from)
    }
    fn push(&mut self, frame: u32, word: usize, value: u32, then: usize) -> u32 {
        self.access();
        Guest::push(&mut self.memory, frame, word, value, then)
    }
    fn notify(&mut self, port: u32) {
        self.access();
        GuestMemory::notify(&mut self.memory, port)
    }
    fn over(&mut self) {
        self.access();
    }
}

/// A queue that took a packet of `aa`, and has one of `bb` in two slots and buffers for it before it.
fn before_the_second(program: &Program) -> (Panics, Queue) {
    let mut guest = Panics::new();
    let mut queue = guest.memory.queue(program, Indices::default());
    for (number, byte) in [(0, 0xaa), (1, 0xbb), (2, 0xbb)] {
        guest.memory.fill(number, &[byte; 64]);
    }
    for index in 0..3 {
        guest.memory.post(index, guest.memory.grant(4 + index as usize, true));
    }
    guest.memory.send(0, guest.memory.grant(0, false), 0, 64);
    assert!(matches!(queue.turn(&mut guest), Turn::Ran(_)));
    guest.memory.send(1, guest.memory.grant(1, false), MORE, 64);
    guest.memory.send(2, guest.memory.grant(2, false), 0, 30);
    guest.made = 0;
    (guest, queue)
}

/// Makes a call whose k-th access panics, for each k that it has. After each the queue makes no access, and all calls say why.
fn each_access_panics(program: &Program, call: impl Fn(&mut Queue, &mut Panics)) -> usize {
    let mut counters = Counters::new(program, 1).unwrap();
    let (mut guest, mut queue) = before_the_second(program);
    call(&mut queue, &mut guest);
    let count = guest.made;
    for access in 0..count {
        let (mut guest, mut queue) = before_the_second(program);
        guest.left = access;
        let caught = std::panic::catch_unwind(std::panic::AssertUnwindSafe(|| call(&mut queue, &mut guest)));
        assert!(caught.is_err(), "access {access}");
        (guest.left, guest.made) = (usize::MAX, 0);
        assert_eq!(queue.turn(&mut guest), Turn::Abandoned, "access {access}");
        assert_eq!(queue.deliver(&udp(60), &mut guest), Ok(Delivery::Abandoned));
        assert_eq!(queue.wait_for(60, &mut guest), Ok(Awaited::Abandoned));
        assert_eq!(queue.indices(), Err(Stopped::Abandoned));
        assert_eq!(queue.replace(program), Err(ReplaceError::Abandoned));
        assert_eq!(queue.offer(Offers::ALL), Err(OfferError::Abandoned));
        assert_eq!(queue.share(&mut counters), Err(ShareError::Abandoned));
        assert_eq!(queue.accept(Accepts::ALL), Err(OfferError::Abandoned));
        assert_eq!((queue.packet(&mut [0; 64]), guest.made), (0, 0));
    }
    count
}

#[test]
fn a_panic_at_any_access_leaves_a_queue_that_says_so() {
    let (passes, returns) = (answers(2), answers(3));
    let turn = |queue: &mut Queue, guest: &mut Panics| assert!(matches!(queue.turn(guest), Turn::Ran(_)));
    // producer, two slots, two entries, two pages, two responses, the push, the notice, and the end
    assert_eq!(each_access_panics(&passes, turn), 11);
    assert!(each_access_panics(&returns, turn) > 11);
    let delivered = each_access_panics(&passes, |queue, guest| assert!(queue.deliver(&udp(5000), guest).is_ok()));
    let awaited = each_access_panics(&passes, |queue, guest| assert!(queue.wait_for(5000, guest).is_ok()));
    assert!(delivered > 9 && awaited > 1, "{delivered} {awaited}");
}

/// A host that asks for pages: it notes what it is asked.
struct Asks {
    memory: Memory,
    said: Vec<String>,
}

impl Guest for Asks {
    fn read(&mut self, frame: u32, word: usize, into: &mut [u32]) {
        self.said.push(format!("read {frame} {word} {}", into.len()));
        Guest::read(&mut self.memory, frame, word, into)
    }
    fn write(&mut self, frame: u32, word: usize, from: &[u32]) {
        self.said.push(format!("write {frame} {word} {}", from.len()));
        Guest::write(&mut self.memory, frame, word, from)
    }
    fn push(&mut self, frame: u32, word: usize, value: u32, then: usize) -> u32 {
        self.said.push(format!("push {frame} {word} {value} {then}"));
        Guest::push(&mut self.memory, frame, word, value, then)
    }
    fn notify(&mut self, port: u32) {
        self.said.push(format!("notify {port}"));
        GuestMemory::notify(&mut self.memory, port)
    }
    fn entry(&mut self, entry: &Entry) -> [u32; 2] {
        self.said.push(format!("entry {} {}", entry.reference, if entry.writes { "writes" } else { "reads" }));
        self.memory.entry(entry)
    }
    fn over(&mut self) {
        self.said.push("over".to_owned());
    }
}

#[test]
fn an_entry_says_whether_its_page_is_to_be_written() {
    let program = answers(3);
    let mut guest = Asks { memory: Memory::new(), said: Vec::new() };
    let mut queue = guest.memory.queue(&program, Indices::default());
    guest.memory.send(0, guest.memory.grant(0, false), 0, 14);
    guest.memory.post(0, guest.memory.grant(1, true));
    assert_eq!(action(queue.turn(&mut guest)), Action::Tx);
    // pushes come when all granted pages have been read and written
    let said: Vec<&str> = guest.said.iter().map(String::as_str).collect();
    assert_eq!(
        said,
        [
            "read 0 0 1",
            "read 0 16 3",
            "entry 8 reads",
            "read 3 0 4",
            "read 1 0 1",
            "read 1 16 2",
            "entry 9 writes",
            "write 4 0 4",
            "write 1 16 2",
            "push 1 2 1 3",
            "notify 9",
            "write 0 16 1",
            "push 0 2 1 3",
            "notify 9",
            "over"
        ]
    );
}

/// A guest that notes each op.
struct Traced(Memory, Vec<Op>, Vec<u32>);

impl GuestMemory for Traced {
    fn page(&self, frame: u32) -> &laxonje::Page {
        self.0.page(frame)
    }

    fn notify(&mut self, port: u32) {
        GuestMemory::notify(&mut self.0, port);
    }

    fn told(&mut self, op: &Op, words: &[u32]) {
        self.1.push(*op);
        self.2.extend(words);
    }
}

#[test]
fn a_trace_has_each_op_and_what_was_refused() {
    let program = answers(2);
    let mut guest = Traced(Memory::new(), Vec::new(), Vec::new());
    let mut queue = guest.0.queue(&program, Indices::default());
    assert_eq!(queue.last_grant(), None);
    let reference = guest.0.grant(0, false);
    guest.0.send(0, reference, 0, 60);
    assert_eq!(action(queue.turn(&mut guest as &mut dyn GuestMemory)), Action::Pass);
    let (tx, entry) = (TX as u32, Entry { reference: 8, frame: memory::TABLE as u32, word: 16, writes: false });
    assert_eq!(guest.1[..3], [Op::Read { frame: tx, word: 16 }, Op::Entry(entry), Op::Read { frame: DATA as u32, word: 0 }]);
    let after = [Op::Write { frame: tx, word: 16 }, Op::Push { frame: tx, word: 2, value: 1, then: 3 }, Op::Notify(9), Op::Done];
    assert_eq!(guest.1[3..], after);
    assert_eq!((guest.2[..3].to_vec(), guest.2[3..5].to_vec()), (vec![8, 0, 60 << 16 | 100], vec![5, DATA as u32]));
    assert_eq!(guest.2[guest.2.len() - 2..], [100, 1]); // the response (OKAY), and the event index that the guest had left
                                                        // a packet whose grant isn't there: its reference, and the words that were read
    guest.0.send(1, 77, 0, 60);
    assert_eq!(queue.turn(&mut guest), Turn::Refused(Refusal::GRANT));
    let refused = queue.last_grant().unwrap();
    assert_eq!((refused.entry.reference, refused.entry.word, refused.words), (77, 154, [0, 0]));
    // a reference beyond the table, whose entry isn't read
    guest.0.send(2, 512, 0, 60);
    assert_eq!((queue.turn(&mut guest), queue.last_grant()), (Turn::Refused(Refusal::GRANT), None));
    // an idle turn reads no entry
    assert_eq!((queue.turn(&mut guest), queue.last_grant()), (Turn::Idle, None));
}

#[test]
fn words_are_read_as_far_as_both_go() {
    let page = Memory::new();
    (0..64).for_each(|word| page.set(DATA, word, 1000 + word as u32));
    let from = &page.page(DATA as u32)[..64];
    for (first, count) in (0..8).flat_map(|first| (0..=40).map(move |count| (first, count))) {
        let mut words = [7; 48];
        read_words(&from[first..first + count], &mut words);
        let wanted: Vec<u32> = (0..48).map(|at| if at < count { 1000 + (first + at) as u32 } else { 7 }).collect();
        assert_eq!(words[..], wanted[..], "{first} {count}");
        let mut few = vec![7; count];
        read_words(from, &mut few);
        assert!(few.iter().enumerate().all(|(at, word)| *word == 1000 + at as u32));
    }
}
