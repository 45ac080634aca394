//! What the process may do: capabilities are given up, and system calls are listed.
//!
//! What makes each `unsafe` block sound: the calls read what is passed, which is there during the call.
mod calls;

use self::calls::*;
use super::done;
use crate::ffi;
use std::ffi::CString;
use std::io;
use std::os::raw::{c_int, c_long, c_ulong};

const LAST_CAPABILITY: u32 = 40;
/// A sleep may end that many nanoseconds late. The kernel's own number is 50,000.
const LEAST_SLACK: c_ulong = 1;

/// Which capabilities a process keeps.
#[derive(Clone, Copy, Debug, PartialEq, Eq)]
pub enum Keeps {
    /// CAP_NET_ADMIN, for interfaces.
    Network,
    Nothing,
}

/// Gives up all other capabilities in this thread and those that it starts. No program that is executed gets more.
pub fn keep_capabilities(keeps: Keeps) -> io::Result<()> {
    let kept = if keeps == Keeps::Network { 1 << ffi::CAP_NET_ADMIN } else { 0 };
    control(ffi::PR_SET_NO_NEW_PRIVS, 1, 0)?;
    for capability in 0..=LAST_CAPABILITY {
        // An error: the kernel doesn't know it, or the process may not drop it, and doesn't have it then.
        let _ = control(ffi::PR_CAPBSET_DROP, capability.into(), 0);
    }
    let mut header = ffi::cap_header { version: ffi::CAP_VERSION_3, pid: 0 };
    let data = [ffi::cap_data { effective: kept, permitted: kept, inheritable: 0 }, ffi::cap_data::default()];
    // SAFETY: the module's reason: version 3 has two parts.
    done(unsafe { ffi::capset(&mut header, data.as_ptr()) })
}

/// Lets threads of this process take a priority once its capabilities are given up. Without the right to it this does nothing: who started
/// the process may have allowed it.
pub fn allow_priority(nice: i32) {
    let wanted = (20 - nice) as c_ulong;
    let mut limit = ffi::rlimit::default();
    // SAFETY: both calls have a limit of the caller's own.
    unsafe {
        if ffi::getrlimit(ffi::RLIMIT_NICE, &mut limit) == 0 && limit.current < wanted {
            let raised = ffi::rlimit { current: wanted, most: limit.most.max(wanted) };
            ffi::setrlimit(ffi::RLIMIT_NICE, &raised);
        }
    }
}

/// The priority of this thread. When one is woken it doesn't take the processor from who runs (SCHED_BATCH): so
/// a sender goes on, and its packets are taken many at a time. Its sleeps end in time.
pub fn set_priority(nice: i32) -> io::Result<()> {
    control(ffi::PR_SET_TIMERSLACK, LEAST_SLACK, 0)?;
    let priority = 0;
    // SAFETY: `struct sched_param` is one number, which the call reads; 0 is this thread.
    done(unsafe { ffi::sched_setscheduler(0, ffi::SCHED_BATCH, &priority) })?;
    // SAFETY: it takes numbers; 0 is this thread.
    done(unsafe { ffi::setpriority(ffi::PRIO_PROCESS, 0, nice) })
}

/// Closes what whoever started this process has left open, but for the three standard descriptors.
pub fn close_inherited() {
    const CLOSE: c_long = 3;
    const CLOSE_RANGE: c_long = 436;
    const MOST: c_long = 65_536;
    // SAFETY: both take numbers, and this process has opened nothing yet.
    unsafe {
        if ffi::syscall(CLOSE_RANGE, 3 as c_long, c_long::from(u32::MAX), 0 as c_long) != 0 {
            // Linux before 5.9
            for fd in 3..MOST {
                ffi::syscall(CLOSE, fd);
            }
        }
    }
}

/// The name of this process in lists of processes, of 15 bytes at most.
pub fn set_name(name: &str) -> io::Result<()> {
    let name = CString::new(name)?;
    control(ffi::PR_SET_NAME, name.as_ptr() as c_ulong, 0)
}

fn control(option: c_int, second: c_ulong, third: c_ulong) -> io::Result<()> {
    // SAFETY: the options that are passed take numbers, or a pointer to a program or a text that is there.
    done(unsafe { ffi::prctl(option, second, third, 0, 0) })
}

const LOAD_WORD: u16 = 0x20;
const JUMP_IF_EQUAL: u16 = 0x15;
const JUMP_IF_SET: u16 = 0x45;
const RETURN: u16 = 0x06;
const NUMBER: u32 = 0;
const ARCHITECTURE: u32 = 4;
const SECOND_ARGUMENT: u32 = 24;
const THIRD_ARGUMENT: u32 = 32;
const X86_64: u32 = 0xc000_003e;
const PROT_EXEC: u32 = 4;
const ALLOW: u32 = 0x7fff_0000;
/// `SECCOMP_RET_ERRNO | EPERM`: a call that isn't listed fails, and the other guests are served.
const DENY: u32 = 0x0005_0001;

const fn load(at: u32) -> ffi::sock_filter {
    ffi::sock_filter { code: LOAD_WORD, jt: 0, jf: 0, k: at }
}

const fn jump(code: u16, k: u32, jt: u8, jf: u8) -> ffi::sock_filter {
    ffi::sock_filter { code, jt, jf, k }
}

const fn answer(k: u32) -> ffi::sock_filter {
    ffi::sock_filter { code: RETURN, jt: 0, jf: 0, k }
}

/// Which requests `ioctl` may make.
#[derive(Clone, Copy)]
enum Requests<'list> {
    Any,
    These(&'list [u32]),
}

/// Allows the calls of a list, `ioctl` with some requests, and memory that isn't to be executed; the rest fails.
fn program(allowed: &[u32], requests: Requests) -> Vec<ffi::sock_filter> {
    let mut program = vec![load(ARCHITECTURE), jump(JUMP_IF_EQUAL, X86_64, 1, 0), answer(DENY), load(NUMBER)];
    let is_plain = |call: u32| ![MMAP, MPROTECT].contains(&call) && (call != IOCTL || matches!(requests, Requests::Any));
    program.extend(allow_each(allowed.iter().copied().filter(|call| is_plain(*call))));
    if let Requests::These(requests) = requests {
        let answers = 2 * requests.len() as u8;
        program.extend([jump(JUMP_IF_EQUAL, IOCTL, 0, answers + 2), load(SECOND_ARGUMENT)]);
        program.extend(allow_each(requests.iter().copied()));
        program.push(answer(DENY));
    }
    // mmap and mprotect have the protection as their third argument
    program.extend([jump(JUMP_IF_EQUAL, MMAP, 1, 0), jump(JUMP_IF_EQUAL, MPROTECT, 0, 3), load(THIRD_ARGUMENT)]);
    program.extend([jump(JUMP_IF_SET, PROT_EXEC, 1, 0), answer(ALLOW), answer(DENY)]);
    program
}

fn allow_each(numbers: impl Iterator<Item = u32>) -> impl Iterator<Item = ffi::sock_filter> {
    numbers.flat_map(|number| [jump(JUMP_IF_EQUAL, number, 0, 1), answer(ALLOW)])
}

fn restrict(allowed: &[u32], requests: Requests) -> io::Result<()> {
    let program = program(allowed, requests);
    let filter = ffi::sock_fprog { len: program.len() as u16, filter: program.as_ptr() };
    control(ffi::PR_SET_SECCOMP, ffi::SECCOMP_MODE_FILTER, &filter as *const ffi::sock_fprog as c_ulong)
}

/// Restricts this thread to what a thread of packets does.
pub fn restrict_to_packets() -> io::Result<()> {
    restrict(&PACKETS, Requests::These(&REQUESTS))
}

/// Restricts this thread, and those that it starts, to what the process of a guest does.
pub fn restrict_to_guest() -> io::Result<()> {
    restrict(&[&PACKETS[..], &GUEST[..]].concat(), Requests::These(&REQUESTS))
}

/// Restricts this thread, and those that it starts, to what the main process does.
pub fn restrict_to_service() -> io::Result<()> {
    restrict(&[&PACKETS[..], &SERVICE[..]].concat(), Requests::Any)
}

#[cfg(test)]
mod tests {
    use super::*;
    use std::thread;

    const THROUGH_32_BITS: u32 = 0x4000_0003;

    /// What a seccomp program answers to a call with these second and third arguments: the few instructions that `program` uses.
    fn answers(program: &[ffi::sock_filter], architecture: u32, number: u32, arguments: [u32; 2]) -> u32 {
        let (mut at, mut loaded) = (0, 0);
        loop {
            let step = program[at];
            let jumps = |taken: bool| usize::from(if taken { step.jt } else { step.jf });
            at += 1 + match step.code {
                LOAD_WORD => {
                    loaded = [number, architecture, 0, 0, 0, 0, arguments[0], 0, arguments[1]][step.k as usize / 4];
                    0
                }
                JUMP_IF_EQUAL => jumps(loaded == step.k),
                JUMP_IF_SET => jumps(loaded & step.k != 0),
                _ => return step.k,
            };
        }
    }

    #[test]
    fn listed_calls_are_allowed_and_others_fail() {
        let lists = [PACKETS.to_vec(), [&PACKETS[..], &GUEST[..]].concat(), [&PACKETS[..], &SERVICE[..]].concat()];
        for list in lists {
            let program = program(&list, Requests::These(&REQUESTS));
            for number in 0..500 {
                let said = if list.contains(&number) { ALLOW } else { DENY };
                assert_eq!(answers(&program, X86_64, number, [ffi::FIONBIO, 3]), said, "{number}");
                assert_eq!(answers(&program, THROUGH_32_BITS, number, [ffi::FIONBIO, 3]), DENY);
            }
            for call in [59, 322, 101, 310, 311] {
                assert!(!list.contains(&call), "execve, execveat, ptrace, process_vm_readv, process_vm_writev: {call}");
            }
        }
        let guest = [&PACKETS[..], &GUEST[..]].concat();
        assert!([OPEN, OPENAT, SOCKET, SENDMSG, FCNTL].iter().all(|call| !guest.contains(call)));
    }

    #[test]
    fn of_ioctl_the_listed_requests_are_allowed() {
        let guest = program(&PACKETS, Requests::These(&REQUESTS));
        for request in REQUESTS {
            assert_eq!(answers(&guest, X86_64, IOCTL, [request, 0]), ALLOW, "{request:x}");
            assert_eq!(answers(&guest, X86_64, IOCTL, [request ^ 1 << 31, 0]), DENY, "{request:x}");
        }
        // a port of another guest's is bound, and an interface is given another name, owner, or an end
        for request in [0x0008_4501, 0x8923, 0x4004_54ca, 0x4004_54cb, 0x4004_54cc, 0] {
            assert_eq!(answers(&guest, X86_64, IOCTL, [request, 0]), DENY, "{request:x}");
            assert_eq!(answers(&program(&PACKETS, Requests::Any), X86_64, IOCTL, [request, 0]), ALLOW);
        }
    }

    #[test]
    fn no_memory_is_executed() {
        let rows = [(MMAP, 3, ALLOW), (MMAP, 7, DENY), (MMAP, 5, DENY), (MPROTECT, 1, ALLOW), (MPROTECT, 5, DENY), (READ, 5, ALLOW)];
        for requests in [Requests::Any, Requests::These(&REQUESTS)] {
            let program = program(&PACKETS, requests);
            for (call, third, said) in rows {
                assert_eq!(answers(&program, X86_64, call, [0, third]), said, "{call} {third}");
            }
        }
    }

    /// The error's number of a system call with three arguments, or 0.
    fn tried(number: u32, first: usize, second: usize, third: usize) -> i32 {
        // SAFETY: the calls that are tried have a text that is there, or numbers.
        let status = unsafe { ffi::syscall(number.into(), first, second, third) };
        if status < 0 {
            io::Error::last_os_error().raw_os_error().unwrap_or(-1)
        } else {
            0
        }
    }

    #[test]
    fn what_serves_a_guest_opens_nothing_and_asks_devices_for_what_is_listed() {
        const EPERM: i32 = 1;
        const EBADF: i32 = 9;
        const EXECVE: u32 = 59;
        const PTRACE: u32 = 101;
        const PROCESS_VM_WRITEV: u32 = 311;
        for restrict in [restrict_to_guest, restrict_to_packets] {
            let body = move || {
                keep_capabilities(Keeps::Nothing).and_then(|()| restrict())?;
                let path = "/etc/passwd\0".as_ptr() as usize;
                let refused = [
                    tried(OPEN, path, 0, 0),
                    tried(OPENAT, usize::MAX - 99, path, 0), // AT_FDCWD
                    tried(EXECVE, path, 0, 0),
                    tried(SOCKET, 1, 1, 0),
                    tried(SENDMSG, 0, 0, 0),
                    tried(PTRACE, 0, 0, 0),
                    tried(PROCESS_VM_WRITEV, 1, 0, 0),
                    tried(IOCTL, usize::MAX, ffi::TUNSETPERSIST as usize, 0),
                    tried(IOCTL, usize::MAX, ffi::SIOCSIFNAME as usize, 0),
                ];
                let allowed = [tried(IOCTL, usize::MAX, ffi::TUNSETCARRIER as usize, 0), tried(GETTID, 0, 0, 0)];
                Ok::<_, io::Error>((refused, allowed))
            };
            let (refused, allowed) = thread::spawn(body).join().unwrap().unwrap();
            assert_eq!((refused, allowed), ([EPERM; 9], [EBADF, 0]));
        }
    }

    #[test]
    fn the_main_process_opens_files_and_executes_no_program() {
        let body = || {
            keep_capabilities(Keeps::Nothing)?;
            restrict_to_service()?;
            Ok::<_, io::Error>((
                std::fs::File::open("/proc/self/status").is_ok(),
                std::process::Command::new("/bin/true").status().is_err(),
            ))
        };
        assert_eq!(thread::spawn(body).join().unwrap().unwrap(), (true, true));
    }
}
