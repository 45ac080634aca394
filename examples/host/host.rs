//! A safe Rust host over the C header: rustc --edition 2021 -L FOLDER -l static=laxonje host.rs
use std::fmt;

#[repr(C)]
pub struct Map {
    pub entries: u32,
    pub counters: u32,
}

/// What became of a program. The header says what the numbers mean.
#[repr(C)]
#[derive(Debug)]
pub struct Verdict {
    pub kind: u32,
    pub cause: u32,
    pub at: u32,
}

#[repr(C)]
#[derive(Clone, Copy, Debug, Default, PartialEq)]
pub struct Run {
    pub number: u32,
    pub action: u32,
    pub instructions: u32,
}

#[repr(C)]
struct Handle {
    at: *mut u8,
    live: bool,
}

extern "C" {
    fn laxonje_load(program: *const u8, bytes: usize, maps: *const Map, count: usize, out: *mut Handle) -> Verdict;
    fn laxonje_load_settings(text: *const u8, bytes: usize, out: *mut Handle) -> Verdict;
    fn laxonje_again(program: *mut Handle, out: *mut Handle) -> Verdict;
    fn laxonje_run(
        program: *mut Handle, counters: *mut u64, count: usize, packet: *mut u8, bytes: usize, ifindex: u32, queue: u32,
    ) -> Run;
    fn laxonje_counters(program: *mut Handle) -> usize;
    fn laxonje_place(program: *mut Handle, map: u32, entry: u32, counter: u32) -> usize;
    fn laxonje_free(program: *mut Handle);
}

impl fmt::Display for Verdict {
    fn fmt(&self, f: &mut fmt::Formatter<'_>) -> fmt::Result {
        match self.kind {
            0 => write!(f, "accepted, {} instructions", self.at),
            1 => write!(f, "refused: V{} at {}", self.cause, self.at),
            2 => write!(f, "map {} is out of its limits", self.at),
            3 => write!(f, "settings refused: L{}", self.cause),
            _ => write!(f, "no program"),
        }
    }
}

/// An accepted program with counters of its own. A `Vec` holds the counters, `Drop` frees the program, and `&mut self`
/// makes one call at a time, so what the header asks of a caller is kept here.
pub struct Program {
    handle: Handle,
    counters: Vec<u64>,
}

// The library proves that a program may be handed to another thread.
unsafe impl Send for Program {}

impl Program {
    fn of(call: impl FnOnce(*mut Handle) -> Verdict) -> Result<Program, Verdict> {
        let mut program = Program { handle: Handle { at: std::ptr::null_mut(), live: false }, counters: Vec::new() };
        let verdict = call(&mut program.handle);
        if verdict.kind != 0 {
            return Err(verdict);
        }
        program.counters = vec![0; unsafe { laxonje_counters(&mut program.handle) }];
        Ok(program)
    }

    pub fn load(bytes: &[u8], maps: &[Map]) -> Result<Program, Verdict> {
        Program::of(|out| unsafe { laxonje_load(bytes.as_ptr(), bytes.len(), maps.as_ptr(), maps.len(), out) })
    }

    pub fn load_settings(text: &[u8]) -> Result<Program, Verdict> {
        Program::of(|out| unsafe { laxonje_load_settings(text.as_ptr(), text.len(), out) })
    }

    /// The same program with counters of its own, as for another thread.
    pub fn again(&mut self) -> Result<Program, Verdict> {
        let handle: *mut Handle = &mut self.handle;
        Program::of(|out| unsafe { laxonje_again(handle, out) })
    }

    /// Runs the program on a packet in place. `None` if the packet is too long.
    pub fn run(&mut self, packet: &mut [u8]) -> Option<Run> {
        let run = unsafe {
            laxonje_run(
                &mut self.handle, self.counters.as_mut_ptr(), self.counters.len(), packet.as_mut_ptr(), packet.len(), 0, 0,
            )
        };
        (run.instructions > 0).then_some(run)
    }

    /// A counter, if there is such a one.
    pub fn counter(&mut self, map: u32, entry: u32, counter: u32) -> Option<u64> {
        let place = unsafe { laxonje_place(&mut self.handle, map, entry, counter) };
        self.counters.get(place).copied()
    }
}

impl Drop for Program {
    fn drop(&mut self) {
        unsafe { laxonje_free(&mut self.handle) }
    }
}

fn main() {
    let settings = std::env::args().nth(1).expect("usage: host SETTINGS, those of examples/count-protocols");
    let text = std::fs::read(settings).expect("settings");
    let mut program = Program::load_settings(&text).unwrap_or_else(|verdict| panic!("{verdict}"));
    let mut udp = [0; 60];
    udp[12..15].copy_from_slice(&[8, 0, 0x45]);
    udp[23] = 17;

    for _ in 0..3 {
        assert_eq!(program.run(&mut udp.clone()).map(|run| run.action), Some(2));
    }
    let mut other = program.again().unwrap_or_else(|verdict| panic!("{verdict}"));
    let other = std::thread::spawn(move || {
        other.run(&mut udp);
        other
    });
    let mut other = other.join().unwrap();
    println!("udp {:?}, another thread's {:?}", program.counter(0, 17, 0), other.counter(0, 17, 0));
    assert_eq!(program.counter(1, 0, 0), None);
    assert_eq!(program.run(&mut vec![0; 65536]), None);
    let refused = Program::load(&[0x95, 0, 0, 0, 0, 0, 0, 0], &[]).err().expect("r0 is unset");
    println!("{refused}");
    println!("{}", Program::load(&[], &[Map { entries: 0, counters: 1 }]).err().expect("a map without entries"));
}
