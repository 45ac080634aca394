//! Declarations by hand of what is called of libxenstore, libxengnttab, libxenevtchn and the C library: xenstore.h, xengnttab.h,
//! xenevtchn.h and xentoollog.h of Xen 4.17, and the manual pages of section 2. For x86-64 Linux.
#![allow(non_camel_case_types)]

use std::os::raw::{c_char, c_int, c_long, c_short, c_uint, c_ulong, c_void};
use std::sync::atomic::AtomicU32;

/// Opaque types of Xen's libraries.
#[repr(C)]
pub struct xs_handle {
    _private: [u8; 0],
}
#[repr(C)]
pub struct xengnttab_handle {
    _private: [u8; 0],
}
#[repr(C)]
pub struct xengntdev_handle {
    _private: [u8; 0],
}
#[repr(C)]
pub struct xenevtchn_handle {
    _private: [u8; 0],
}

/// A logger. The last argument of `vmessage` is a `va_list`, which x86-64 passes as a pointer.
#[repr(C)]
pub struct xentoollog_logger {
    pub vmessage: extern "C" fn(*mut xentoollog_logger, c_int, c_int, *const c_char, *const c_char, *mut c_void),
    pub progress: Option<extern "C" fn()>,
    pub destroy: extern "C" fn(*mut xentoollog_logger),
}

/// One side of a copy: a page of another domain's, or memory of this process.
#[repr(C)]
#[derive(Clone, Copy)]
pub union copy_side {
    pub virt: *mut c_void,
    pub foreign: foreign_side,
}

#[repr(C)]
#[derive(Clone, Copy)]
pub struct foreign_side {
    pub reference: u32,
    pub offset: u16,
    pub domid: u16,
}

#[repr(C)]
#[derive(Clone, Copy)]
pub struct xengnttab_grant_copy_segment {
    pub source: copy_side,
    pub dest: copy_side,
    pub len: u16,
    pub flags: u16,
    pub status: i16,
}

pub const GNTCOPY_SOURCE_GREF: u16 = 1;
pub const GNTCOPY_DEST_GREF: u16 = 2;
pub const DOMID_SELF: u16 = 0x7ff0;
pub const GNTST_OKAY: i16 = 0;
pub const XS_WATCH_PATH: usize = 0;
pub const XS_WATCH_TOKEN: usize = 1;

#[link(name = "xenstore")]
extern "C" {
    pub fn xs_open(flags: c_ulong) -> *mut xs_handle;
    pub fn xs_close(handle: *mut xs_handle);
    pub fn xs_fileno(handle: *mut xs_handle) -> c_int;
    pub fn xs_read(handle: *mut xs_handle, transaction: u32, path: *const c_char, length: *mut c_uint) -> *mut c_void;
    pub fn xs_directory(handle: *mut xs_handle, transaction: u32, path: *const c_char, count: *mut c_uint) -> *mut *mut c_char;
    pub fn xs_write(handle: *mut xs_handle, transaction: u32, path: *const c_char, data: *const c_void, length: c_uint) -> bool;
    pub fn xs_watch(handle: *mut xs_handle, path: *const c_char, token: *const c_char) -> bool;
    pub fn xs_unwatch(handle: *mut xs_handle, path: *const c_char, token: *const c_char) -> bool;
    pub fn xs_check_watch(handle: *mut xs_handle) -> *mut *mut c_char;
}

#[link(name = "xengnttab")]
extern "C" {
    pub fn xengnttab_open(logger: *mut xentoollog_logger, flags: c_uint) -> *mut xengnttab_handle;
    pub fn xengnttab_close(handle: *mut xengnttab_handle) -> c_int;
    pub fn xengnttab_map_grant_ref(handle: *mut xengnttab_handle, domid: u32, reference: u32, prot: c_int) -> *mut c_void;
    pub fn xengnttab_unmap(handle: *mut xengnttab_handle, start: *mut c_void, count: u32) -> c_int;
    pub fn xengntshr_open(logger: *mut xentoollog_logger, flags: c_uint) -> *mut xengntdev_handle;
    pub fn xengntshr_close(handle: *mut xengntdev_handle) -> c_int;
    pub fn xengntshr_share_pages(
        handle: *mut xengntdev_handle, domid: u32, count: c_int, references: *mut u32, writable: c_int,
    ) -> *mut c_void;
    pub fn xengntshr_unshare(handle: *mut xengntdev_handle, start: *mut c_void, count: u32) -> c_int;
    pub fn xengnttab_grant_copy(handle: *mut xengnttab_handle, count: u32, segments: *mut xengnttab_grant_copy_segment) -> c_int;
}

#[link(name = "xenevtchn")]
extern "C" {
    pub fn xenevtchn_open(logger: *mut xentoollog_logger, flags: c_uint) -> *mut xenevtchn_handle;
    pub fn xenevtchn_close(handle: *mut xenevtchn_handle) -> c_int;
    pub fn xenevtchn_fd(handle: *mut xenevtchn_handle) -> c_int;
    pub fn xenevtchn_notify(handle: *mut xenevtchn_handle, port: u32) -> c_int;
    pub fn xenevtchn_fdopen(logger: *mut xentoollog_logger, fd: c_int, flags: c_uint) -> *mut xenevtchn_handle;
    pub fn xenevtchn_bind_interdomain(handle: *mut xenevtchn_handle, domid: u32, remote_port: u32) -> c_int;
    pub fn xenevtchn_pending(handle: *mut xenevtchn_handle) -> c_int;
    pub fn xenevtchn_unmask(handle: *mut xenevtchn_handle, port: u32) -> c_int;
}

#[repr(C)]
pub struct pollfd {
    pub fd: c_int,
    pub events: c_short,
    pub revents: c_short,
}
pub const POLLIN: c_short = 1;
pub const POLLERR: c_short = 8;

/// `sigset_t` of the C library.
#[repr(C)]
pub struct signal_set {
    pub words: [c_ulong; 16],
}
pub const SIG_BLOCK: c_int = 0;
pub const SIGHUP: c_int = 1;
pub const SIGINT: c_int = 2;
pub const SIGBUS: c_int = 7;
pub const SIGSEGV: c_int = 11;
pub const SIG_DFL: usize = 0;
pub const SIGTERM: c_int = 15;
pub const SIGCHLD: c_int = 17;
/// `SFD_NONBLOCK | SFD_CLOEXEC`.
pub const SIGNALFD_FLAGS: c_int = 0o4000 | 0o2000000;
/// `sizeof (struct signalfd_siginfo)`, which begins with the signal's number.
pub const SIGNALFD_BYTES: usize = 128;

pub const PROT_READ: c_int = 1;
pub const PROT_WRITE: c_int = 2;
pub const MAP_PRIVATE: c_int = 2;
pub const MAP_ANONYMOUS: c_int = 0x20;
/// What `mmap` answers if it fails: `(void *)-1`.
pub const MAP_FAILED: usize = usize::MAX;

/// `struct ifreq`: a name, then a union of 24 bytes.
#[repr(C)]
pub struct ifreq {
    pub name: [u8; 16],
    pub value: [u8; 24],
}
pub const TUNSETIFF: c_ulong = 0x4004_54ca;
pub const TUNSETPERSIST: c_ulong = 0x4004_54cb;
pub const TUNSETOFFLOAD: c_ulong = 0x4004_54d0;
pub const TUN_F_CSUM: c_ulong = 1;
pub const TUN_F_TSO4: c_ulong = 2;
pub const TUN_F_TSO6: c_ulong = 4;
pub const TUNSETCARRIER: c_ulong = 0x4004_54e2;
pub const TUNGETFEATURES: c_ulong = 0x8004_54cf;
pub const SIOCGIFFLAGS: c_ulong = 0x8913;
pub const SIOCSIFFLAGS: c_ulong = 0x8914;
pub const SIOCGIFNAME: c_ulong = 0x8910;
pub const SIOCSIFMTU: c_ulong = 0x8922;
pub const SIOCSIFNAME: c_ulong = 0x8923;
pub const SIOCSIFHWADDR: c_ulong = 0x8924;
pub const SIOCGIFINDEX: c_ulong = 0x8933;
pub const SIOCSIFTXQLEN: c_ulong = 0x8943;
pub const SIOCBRADDIF: c_ulong = 0x89a2;
pub const IFF_UP: u16 = 1;
pub const IFF_VNET_HDR: u16 = 0x4000;
/// `IFF_TAP | IFF_NO_PI | IFF_VNET_HDR`.
pub const TAP_FLAGS: u16 = 0x0002 | 0x1000 | IFF_VNET_HDR;
pub const IFF_MULTI_QUEUE: u16 = 0x0100;
pub const ARPHRD_ETHER: u16 = 1;
pub const O_NONBLOCK: c_int = 0o4000;
pub const FIONBIO: u32 = 0x5421;
pub const EINTR: c_int = 4;
pub const EBUSY: c_int = 16;
pub const ENODEV: c_int = 19;
pub const EINVAL: c_int = 22;

#[repr(C)]
pub struct cap_header {
    pub version: u32,
    pub pid: c_int,
}
#[repr(C)]
#[derive(Clone, Copy, Default)]
pub struct cap_data {
    pub effective: u32,
    pub permitted: u32,
    pub inheritable: u32,
}
#[repr(C)]
#[derive(Clone, Copy, Default)]
pub struct rlimit {
    pub current: c_ulong,
    pub most: c_ulong,
}
pub const RLIMIT_NICE: c_int = 13;
pub const RLIMIT_AS: c_int = 9;
pub const M_ARENA_MAX: c_int = -8;
pub const CAP_VERSION_3: u32 = 0x2008_0522;
pub const CAP_NET_ADMIN: u32 = 12;
pub const PRIO_PROCESS: c_int = 0;
pub const SCHED_BATCH: c_int = 3;
pub const PR_SET_NAME: c_int = 15;
pub const PR_SET_SECCOMP: c_int = 22;
pub const PR_CAPBSET_DROP: c_int = 24;
pub const PR_SET_TIMERSLACK: c_int = 29;
pub const PR_SET_NO_NEW_PRIVS: c_int = 38;
pub const SECCOMP_MODE_FILTER: c_ulong = 2;

/// `struct timespec` of the C library.
#[repr(C)]
#[derive(Clone, Copy, Default)]
pub struct timespec {
    pub seconds: c_long,
    pub nanoseconds: c_long,
}
pub const CLOCK_MONOTONIC: c_int = 1;
pub const CLOCK_THREAD_CPUTIME_ID: c_int = 3;

/// `struct iovec`, `struct msghdr`, `struct cmsghdr` and `struct timeval` of the C library.
#[repr(C)]
pub struct iovec {
    pub base: *mut c_void,
    pub bytes: usize,
}
#[repr(C)]
pub struct msghdr {
    pub name: *mut c_void,
    pub name_bytes: c_uint,
    pub parts: *mut iovec,
    pub count: usize,
    pub control: *mut c_void,
    pub control_bytes: usize,
    pub flags: c_int,
}
#[repr(C)]
pub struct cmsghdr {
    pub length: usize,
    pub level: c_int,
    pub kind: c_int,
}
#[repr(C)]
pub struct timeval {
    pub seconds: c_long,
    pub microseconds: c_long,
}
pub const AF_UNIX: c_int = 1;
pub const SOCK_SEQPACKET: c_int = 5;
pub const SOCK_CLOEXEC: c_int = 0o2000000;
pub const SOL_SOCKET: c_int = 1;
pub const SO_SNDTIMEO: c_int = 21;
pub const SCM_RIGHTS: c_int = 1;
pub const MSG_CTRUNC: c_int = 0x8;
pub const MSG_TRUNC: c_int = 0x20;
pub const MSG_DONTWAIT: c_int = 0x40;
pub const MSG_NOSIGNAL: c_int = 0x4000;
pub const MSG_CMSG_CLOEXEC: c_int = 0x4000_0000;
pub const LOCK_EX: c_int = 2;
pub const LOCK_NB: c_int = 4;

/// Requests of `xen/gntdev.h`, `xen/gntalloc.h` and `xen/evtchn.h`, which Xen's libraries make.
pub const IOCTL_GNTDEV_MAP_GRANT_REF: u32 = 0x0018_4700;
pub const IOCTL_GNTDEV_UNMAP_GRANT_REF: u32 = 0x0010_4701;
pub const IOCTL_GNTDEV_GET_OFFSET_FOR_VADDR: u32 = 0x0018_4702;
pub const IOCTL_GNTDEV_GRANT_COPY: u32 = 0x0010_4708;
pub const IOCTL_GNTALLOC_ALLOC_GREF: u32 = 0x0018_4705;
pub const IOCTL_GNTALLOC_DEALLOC_GREF: u32 = 0x0010_4706;
pub const IOCTL_EVTCHN_NOTIFY: u32 = 0x0004_4504;

/// An instruction of a seccomp program, and the program.
#[repr(C)]
#[derive(Clone, Copy, Debug, PartialEq, Eq)]
pub struct sock_filter {
    pub code: u16,
    pub jt: u8,
    pub jf: u8,
    pub k: u32,
}
#[repr(C)]
pub struct sock_fprog {
    pub len: u16,
    pub filter: *const sock_filter,
}

/// `struct iocb` and `struct io_event` of `linux/aio_abi.h`, for a little-endian machine.
#[repr(C)]
#[derive(Clone, Copy, Debug, Default)]
pub struct iocb {
    pub data: u64,
    pub key: u32,
    pub rw_flags: u32,
    pub opcode: u16,
    pub priority: i16,
    pub fd: u32,
    pub buffer: u64,
    pub bytes: u64,
    pub offset: i64,
    pub reserved: u64,
    pub flags: u32,
    pub event_fd: u32,
}
#[repr(C)]
#[derive(Clone, Copy, Debug, Default)]
pub struct io_event {
    pub data: u64,
    pub object: u64,
    pub result: i64,
    pub second: i64,
}
/// `struct aio_ring` of Linux's `fs/aio.c`: how each ended, in memory of this process at a context's address. `io_event`s follow, from the one
/// `head` says up to the one before `tail`.
#[repr(C)]
pub struct aio_ring {
    pub id: u32,
    pub count: u32,
    pub head: AtomicU32,
    pub tail: AtomicU32,
    pub magic: u32,
    pub compatible: u32,
    pub incompatible: u32,
    pub header_bytes: u32,
}
pub const AIO_RING_MAGIC: u32 = 0xa10a_10a1;
pub const IOCB_CMD_PREAD: u16 = 0;
pub const IOCB_CMD_PWRITE: u16 = 1;
pub const SYS_IO_SETUP: c_long = 206;
pub const SYS_IO_DESTROY: c_long = 207;
pub const SYS_IO_GETEVENTS: c_long = 208;
pub const SYS_IO_SUBMIT: c_long = 209;

extern "C" {
    pub fn syscall(number: c_long, ...) -> c_long;
    pub fn free(at: *mut c_void);
    pub fn mallopt(what: c_int, value: c_int) -> c_int;
    pub fn mmap(at: *mut c_void, bytes: usize, access: c_int, kind: c_int, fd: c_int, offset: c_long) -> *mut c_void;
    pub fn munmap(at: *mut c_void, bytes: usize) -> c_int;
    pub fn socketpair(family: c_int, kind: c_int, protocol: c_int, ends: *mut c_int) -> c_int;
    pub fn setsockopt(fd: c_int, level: c_int, option: c_int, value: *const c_void, bytes: c_uint) -> c_int;
    pub fn send(fd: c_int, message: *const c_void, bytes: usize, flags: c_int) -> isize;
    pub fn recv(fd: c_int, room: *mut c_void, bytes: usize, flags: c_int) -> isize;
    pub fn sendmsg(fd: c_int, message: *const msghdr, flags: c_int) -> isize;
    pub fn recvmsg(fd: c_int, message: *mut msghdr, flags: c_int) -> isize;
    pub fn flock(fd: c_int, operation: c_int) -> c_int;
    pub fn poll(on: *mut pollfd, count: c_ulong, milliseconds: c_int) -> c_int;
    pub fn ioctl(fd: c_int, request: c_ulong, ...) -> c_int;
    pub fn signal(signal: c_int, handler: usize) -> usize;
    pub fn sigemptyset(set: *mut signal_set) -> c_int;
    pub fn sigaddset(set: *mut signal_set, signal: c_int) -> c_int;
    pub fn pthread_sigmask(how: c_int, set: *const signal_set, old: *mut signal_set) -> c_int;
    pub fn signalfd(fd: c_int, set: *const signal_set, flags: c_int) -> c_int;
    pub fn prctl(option: c_int, second: c_ulong, third: c_ulong, fourth: c_ulong, fifth: c_ulong) -> c_int;
    pub fn sched_setscheduler(pid: c_int, policy: c_int, priority: *const c_int) -> c_int;
    pub fn setpriority(which: c_int, who: c_uint, nice: c_int) -> c_int;
    pub fn getrlimit(resource: c_int, limit: *mut rlimit) -> c_int;
    pub fn setrlimit(resource: c_int, limit: *const rlimit) -> c_int;
    pub fn clock_gettime(clock: c_int, time: *mut timespec) -> c_int;
    pub fn capset(header: *mut cap_header, data: *const cap_data) -> c_int;
}

// The sizes that headers.c compares with the headers.
const _: () = assert!(std::mem::size_of::<xengnttab_grant_copy_segment>() == 24);
const _: () = assert!(std::mem::size_of::<xentoollog_logger>() == 24);
const _: () = assert!(std::mem::size_of::<ifreq>() == 40);
const _: () = assert!(std::mem::size_of::<pollfd>() == 8);
const _: () = assert!(std::mem::size_of::<signal_set>() == 128);
const _: () = assert!(std::mem::size_of::<rlimit>() == 16);
const _: () = assert!(std::mem::size_of::<cap_header>() == 8 && std::mem::size_of::<cap_data>() == 12);
const _: () = assert!(std::mem::size_of::<sock_filter>() == 8 && std::mem::size_of::<sock_fprog>() == 16);
const _: () = assert!(std::mem::size_of::<iovec>() == 16 && std::mem::size_of::<msghdr>() == 56);
const _: () = assert!(std::mem::size_of::<cmsghdr>() == 16 && std::mem::size_of::<timeval>() == 16);
const _: () = assert!(std::mem::size_of::<timespec>() == 16);
const _: () = assert!(std::mem::size_of::<iocb>() == 64 && std::mem::size_of::<io_event>() == 32 && std::mem::size_of::<aio_ring>() == 32);
