//! System calls of x86-64 (`asm/unistd_64.h`), and which of them what part of the program makes.
use crate::ffi;

pub const READ: u32 = 0;
pub const WRITE: u32 = 1;
pub const OPEN: u32 = 2;
pub const CLOSE: u32 = 3;
pub const STAT: u32 = 4;
pub const FSTAT: u32 = 5;
pub const LSTAT: u32 = 6;
pub const POLL: u32 = 7;
pub const LSEEK: u32 = 8;
pub const MMAP: u32 = 9;
pub const MPROTECT: u32 = 10;
pub const MUNMAP: u32 = 11;
pub const BRK: u32 = 12;
pub const RT_SIGACTION: u32 = 13;
pub const RT_SIGPROCMASK: u32 = 14;
pub const RT_SIGRETURN: u32 = 15;
pub const IOCTL: u32 = 16;
pub const READV: u32 = 19;
pub const WRITEV: u32 = 20;
pub const SCHED_YIELD: u32 = 24;
pub const MREMAP: u32 = 25;
pub const MADVISE: u32 = 28;
pub const NANOSLEEP: u32 = 35;
pub const GETPID: u32 = 39;
pub const SOCKET: u32 = 41;
pub const SENDTO: u32 = 44;
pub const RECVFROM: u32 = 45;
pub const SENDMSG: u32 = 46;
pub const RECVMSG: u32 = 47;
pub const SHUTDOWN: u32 = 48;
pub const SOCKETPAIR: u32 = 53;
pub const SETSOCKOPT: u32 = 54;
pub const CLONE: u32 = 56;
pub const EXIT: u32 = 60;
pub const FCNTL: u32 = 72;
pub const UNLINK: u32 = 87;
pub const SIGALTSTACK: u32 = 131;
pub const PRCTL: u32 = 157;
pub const GETTID: u32 = 186;
pub const FUTEX: u32 = 202;
pub const IO_SETUP: u32 = 206;
pub const IO_DESTROY: u32 = 207;
pub const IO_GETEVENTS: u32 = 208;
pub const IO_SUBMIT: u32 = 209;
pub const SCHED_GETAFFINITY: u32 = 204;
pub const GETDENTS64: u32 = 217;
pub const RESTART_SYSCALL: u32 = 219;
pub const CLOCK_GETTIME: u32 = 228;
pub const CLOCK_NANOSLEEP: u32 = 230;
pub const EXIT_GROUP: u32 = 231;
pub const OPENAT: u32 = 257;
pub const NEWFSTATAT: u32 = 262;
pub const SET_ROBUST_LIST: u32 = 273;
pub const ACCEPT4: u32 = 288;
pub const PIPE2: u32 = 293;
pub const GETRANDOM: u32 = 318;
pub const STATX: u32 = 332;
pub const READLINK: u32 = 89;
pub const RSEQ: u32 = 334;
pub const CLONE3: u32 = 435;

/// What a thread of packets does: reads and writes what is open, waits, asks Xen by `ioctl`, takes and gives memory, and ends.
pub const PACKETS: [u32; 31] = [
    READ,
    WRITE,
    READV,
    WRITEV,
    CLOSE,
    POLL,
    IOCTL,
    MMAP,
    MUNMAP,
    MREMAP,
    MADVISE,
    BRK,
    FUTEX,
    RT_SIGPROCMASK,
    RT_SIGRETURN,
    SIGALTSTACK,
    SENDTO,
    RECVFROM,
    SCHED_YIELD,
    CLOCK_GETTIME,
    RESTART_SYSCALL,
    EXIT,
    EXIT_GROUP,
    GETRANDOM,
    GETTID,
    MPROTECT,
    IO_SUBMIT,
    IO_GETEVENTS,
    IO_DESTROY,
    NANOSLEEP,
    CLOCK_NANOSLEEP,
];

/// What the process of a guest does besides: takes messages and descriptors, and starts threads of packets, which restrict themselves.
pub const GUEST: [u32; 9] = [RECVMSG, SOCKETPAIR, IO_SETUP, CLONE, CLONE3, RSEQ, SET_ROBUST_LIST, SCHED_GETAFFINITY, PRCTL];

/// What the process of a guest asks of devices by `ioctl`: pages of Xen's, a notice, and the carrier of an interface. FIONBIO is of its own
/// pairs of sockets.
pub const REQUESTS: [u32; 9] = [
    ffi::IOCTL_GNTDEV_MAP_GRANT_REF,
    ffi::IOCTL_GNTDEV_UNMAP_GRANT_REF,
    ffi::IOCTL_GNTDEV_GET_OFFSET_FOR_VADDR,
    ffi::IOCTL_GNTDEV_GRANT_COPY,
    ffi::IOCTL_GNTALLOC_ALLOC_GREF,
    ffi::IOCTL_GNTALLOC_DEALLOC_GREF,
    ffi::IOCTL_EVTCHN_NOTIFY,
    ffi::TUNSETCARRIER as u32,
    ffi::FIONBIO,
];

/// What the main process does: opens devices, settings and TAPs, passes descriptors, and answers on its socket. XenStore's library starts a
/// thread.
pub const SERVICE: [u32; 28] = [
    OPEN,
    OPENAT,
    STAT,
    FSTAT,
    LSTAT,
    NEWFSTATAT,
    STATX,
    LSEEK,
    RT_SIGACTION,
    GETPID,
    SOCKET,
    SENDMSG,
    RECVMSG,
    SHUTDOWN,
    SOCKETPAIR,
    SETSOCKOPT,
    CLONE,
    CLONE3,
    FCNTL,
    UNLINK,
    PRCTL,
    SCHED_GETAFFINITY,
    GETDENTS64,
    SET_ROBUST_LIST,
    ACCEPT4,
    PIPE2,
    RSEQ,
    READLINK,
];
