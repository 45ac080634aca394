//! TAP devices, and what is set of an interface.
//!
//! What makes each `unsafe` block sound: the requests of `netdevice(7)` and of `if_tun.h` read and write one `struct ifreq`, which is
//! the caller's own; SIOCBRADDIF reads it, TUNSETPERSIST and TUNSETOFFLOAD take a number, and TUNGETFEATURES writes one.
use super::batch::{Batch, Moved};
use super::done;
use crate::ffi;
use laxonje::Accepts;
use std::fs::{File, OpenOptions};
use std::io::{self, Read, Write};
use std::os::raw::{c_int, c_uint, c_ulong};
use std::os::unix::fs::OpenOptionsExt;
use std::os::unix::io::{AsRawFd, OwnedFd, RawFd};
use std::os::unix::net::UnixDatagram;

/// `struct virtio_net_hdr`, which stands before each packet of a TAP device.
pub const HEADER_BYTES: usize = 10;

/// The most packets at once. Linux has 65,536 for all processes (`fs.aio-max-nr`).
const MOST_AT_ONCE: usize = 64;
/// How many packets wait in each queue of a TAP device that can have several. Linux makes 256 queues of it, each with room for that many
/// three times: with its usual 1,000 packets a device takes 6.6 MB of the kernel's memory.
const MOST_WAITING: u32 = 128;

/// A queue of a TAP device.
pub struct Tap {
    file: File,
    /// Without one each packet takes a system call.
    batch: Option<Batch>,
    moved: Moved,
}

/// How many queues a TAP device can have, which it is made for.
#[derive(Clone, Copy, Debug, PartialEq, Eq)]
pub enum TapKind {
    One,
    Several,
}

impl TapKind {
    fn flags(self) -> u16 {
        match self {
            TapKind::One => ffi::TAP_FLAGS,
            TapKind::Several => ffi::TAP_FLAGS | ffi::IFF_MULTI_QUEUE,
        }
    }

    fn other(self) -> TapKind {
        match self {
            TapKind::One => TapKind::Several,
            TapKind::Several => TapKind::One,
        }
    }

    /// How many packets are to wait in a queue. `None`: as many as Linux says.
    pub fn most_waiting(self) -> Option<u32> {
        match self {
            TapKind::One => None,
            TapKind::Several => Some(MOST_WAITING),
        }
    }
}

/// A network interface by its name.
#[derive(Clone, Debug, PartialEq, Eq)]
pub struct Interface(String);

impl Interface {
    /// A name of 1 to 15 bytes that Linux takes.
    pub fn new(name: &str) -> io::Result<Interface> {
        let fits = (1..16).contains(&name.len()) && name != "." && name != "..";
        let plain = |byte: u8| byte.is_ascii_graphic() && !b"/:%".contains(&byte);
        match fits && name.bytes().all(plain) {
            true => Ok(Interface(name.to_owned())),
            false => Err(io::Error::new(io::ErrorKind::InvalidInput, format!("{name:?} is no name of an interface"))),
        }
    }

    pub fn name(&self) -> &str {
        &self.0
    }

    /// The interface of a number, by its present name. `None`: it is gone.
    pub fn of_index(index: u32) -> io::Result<Option<Interface>> {
        let mut request = ffi::ifreq { name: [0; 16], value: [0; 24] };
        request.value[..4].copy_from_slice(&index.to_ne_bytes());
        match ask(ffi::SIOCGIFNAME, &mut request) {
            Err(error) if error.raw_os_error() == Some(ffi::ENODEV) => return Ok(None),
            other => other?,
        }
        let name = request.name.split(|byte| *byte == 0).next().unwrap_or_default();
        Interface::new(&String::from_utf8_lossy(name)).map(Some)
    }

    fn request(&self) -> ffi::ifreq {
        let mut request = ffi::ifreq { name: [0; 16], value: [0; 24] };
        request.name[..self.0.len()].copy_from_slice(self.0.as_bytes());
        request
    }

    /// A further queue of the TAP device of this name and kind, which is made if it isn't there.
    pub fn open_tap(&self, kind: TapKind) -> io::Result<Tap> {
        let file = OpenOptions::new().read(true).write(true).custom_flags(ffi::O_NONBLOCK).open("/dev/net/tun")?;
        let mut request = self.request();
        request.value[..2].copy_from_slice(&kind.flags().to_ne_bytes());
        // SAFETY: the module's reason.
        done(unsafe { ffi::ioctl(file.as_raw_fd(), ffi::TUNSETIFF, &mut request) })?;
        Ok(Tap { file, batch: None, moved: Moved::new() })
    }

    /// The same of the wished kind, or of that which the device has: a process before this may have made it.
    pub fn open_as(&self, wished: TapKind) -> io::Result<(Tap, TapKind)> {
        let with = |kind| self.open_tap(kind).map(|tap| (tap, kind));
        match with(wished) {
            Err(error) if error.raw_os_error() == Some(ffi::EINVAL) => with(wished.other()).map_err(|_| error),
            other => other,
        }
    }

    pub fn index(&self) -> io::Result<u32> {
        let mut request = self.request();
        ask(ffi::SIOCGIFINDEX, &mut request)?;
        Ok(first_number(&request))
    }

    pub fn set_address(&self, address: [u8; 6]) -> io::Result<()> {
        let mut request = self.request();
        request.value[..2].copy_from_slice(&ffi::ARPHRD_ETHER.to_ne_bytes());
        request.value[2..8].copy_from_slice(&address);
        ask(ffi::SIOCSIFHWADDR, &mut request)
    }

    pub fn set_mtu(&self, bytes: u32) -> io::Result<()> {
        let mut request = self.request();
        request.value[..4].copy_from_slice(&bytes.to_ne_bytes());
        ask(ffi::SIOCSIFMTU, &mut request)
    }

    /// How many packets wait in each queue. To be set before it is up: memory for the queues is taken then.
    pub fn set_most_waiting(&self, packets: u32) -> io::Result<()> {
        let mut request = self.request();
        request.value[..4].copy_from_slice(&packets.to_ne_bytes());
        ask(ffi::SIOCSIFTXQLEN, &mut request)
    }

    /// Gives it another name, which no other interface has. It is down.
    pub fn rename(&self, name: &str) -> io::Result<Interface> {
        let other = Interface::new(name)?;
        let mut request = self.request();
        request.value[..other.0.len()].copy_from_slice(other.0.as_bytes());
        ask(ffi::SIOCSIFNAME, &mut request).map(|()| other)
    }

    pub fn set_up(&self) -> io::Result<()> {
        let mut request = self.request();
        ask(ffi::SIOCGIFFLAGS, &mut request)?;
        request.value[0] |= ffi::IFF_UP as u8;
        ask(ffi::SIOCSIFFLAGS, &mut request)
    }

    /// Makes it a port of a bridge. One that it already is stays.
    pub fn join(&self, bridge: &Interface) -> io::Result<()> {
        let mut request = bridge.request();
        request.value[..4].copy_from_slice(&self.index()?.to_ne_bytes());
        match ask(ffi::SIOCBRADDIF, &mut request) {
            Err(error) if error.raw_os_error() == Some(ffi::EBUSY) => Ok(()),
            other => other,
        }
    }
}

fn ask(what: c_ulong, request: &mut ffi::ifreq) -> io::Result<()> {
    let socket = UnixDatagram::unbound()?;
    // SAFETY: the module's reason.
    done(unsafe { ffi::ioctl(socket.as_raw_fd(), what, request as *mut ffi::ifreq) })
}

fn first_number(request: &ffi::ifreq) -> u32 {
    u32::from_ne_bytes([request.value[0], request.value[1], request.value[2], request.value[3]])
}

impl Tap {
    /// A queue that another process has opened.
    pub fn of(descriptor: OwnedFd) -> Tap {
        Tap { file: File::from(descriptor), batch: None, moved: Moved::new() }
    }

    /// Whether the device stays when nobody holds it open.
    pub fn keep(&self, stays: bool) -> io::Result<()> {
        // SAFETY: the module's reason.
        done(unsafe { ffi::ioctl(self.file.as_raw_fd(), ffi::TUNSETPERSIST, c_ulong::from(stays)) })
    }

    /// Whether the kernel takes packets with a header that says how they are to be segmented.
    pub fn takes_headers(&self) -> io::Result<bool> {
        let mut features: c_uint = 0;
        // SAFETY: the module's reason.
        done(unsafe { ffi::ioctl(self.file.as_raw_fd(), ffi::TUNGETFEATURES, &mut features) })?;
        Ok(features & c_uint::from(ffi::IFF_VNET_HDR) != 0)
    }

    /// What the kernel may leave undone of the device's packets from now on. TCP with notices of congestion (RFC 3168) isn't among that, as it
    /// isn't for Linux's vifs: the kernel makes its segments.
    pub fn leave(&self, accepts: Accepts) -> io::Result<()> {
        let Accepts { tcpv4, tcpv6, checksum } = accepts;
        let bit = |is_left: bool, bit: c_ulong| if is_left { bit } else { 0 };
        let bits = bit(checksum, ffi::TUN_F_CSUM) | bit(tcpv4, ffi::TUN_F_TSO4) | bit(tcpv6, ffi::TUN_F_TSO6);
        // SAFETY: the module's reason.
        done(unsafe { ffi::ioctl(self.file.as_raw_fd(), ffi::TUNSETOFFLOAD, bits) })
    }

    /// Whether its interface has a carrier.
    pub fn set_carrier(&self, is_there: bool) -> io::Result<()> {
        let on = c_int::from(is_there);
        // SAFETY: the request reads one `int`.
        done(unsafe { ffi::ioctl(self.file.as_raw_fd(), ffi::TUNSETCARRIER, &on) })
    }

    /// Packets go in batches from now on.
    pub fn open_batch(&mut self) -> io::Result<()> {
        self.batch = Some(Batch::open(MOST_AT_ONCE)?);
        Ok(())
    }

    pub fn fd(&self) -> RawFd {
        self.file.as_raw_fd()
    }

    /// Writes packets, each with its header in front, and then reads as many as come and there are rooms for. Returns how many bytes of each
    /// went, and then came.
    pub fn exchange<'bytes>(
        &mut self, writes: impl Iterator<Item = &'bytes [u8]>, reads: impl Iterator<Item = &'bytes mut [u8]>,
    ) -> &[Option<usize>] {
        let Tap { file, batch, moved } = self;
        moved.clear();
        match batch {
            Some(batch) if batch.is_open() => batch.run(file.as_raw_fd(), writes, reads, moved),
            _ => {
                moved.extend(writes.map(|packet| file.write(packet).ok()));
                moved.extend(reads.map(|room| file.read(room).ok()));
            }
        }
        moved
    }
}

#[cfg(test)]
mod tests {
    use super::*;

    /// `None`: this user may not make TAP devices.
    fn made(name: &str, wished: TapKind) -> Option<(Interface, TapKind)> {
        let interface = Interface::new(name).unwrap();
        let (tap, kind) = interface.open_as(wished).ok()?;
        tap.keep(true).ok()?;
        Some((interface, kind))
    }

    #[test]
    fn a_tap_has_the_kind_that_it_was_made_for_and_is_known_by_its_number() {
        let name = format!("lx{}", std::process::id());
        let (interface, kind) = match made(&name, TapKind::One) {
            Some(made) => made,
            None => return,
        };
        let first = interface.open_tap(kind).unwrap();
        assert!(interface.open_tap(kind).is_err(), "one queue is one user's");
        assert!(first.set_carrier(false).is_ok() && first.set_carrier(true).is_ok());
        assert!(first.takes_headers().unwrap());
        drop(first);
        assert_eq!(made(&name, TapKind::Several).unwrap().1, TapKind::One);
        let index = interface.index().unwrap();
        interface.set_most_waiting(32).unwrap();
        let renamed = interface.rename(&format!("{name}x")).unwrap();
        assert_eq!((Interface::of_index(index).unwrap(), interface.index().is_err()), (Some(renamed.clone()), true));
        renamed.open_tap(kind).and_then(|tap| tap.keep(false)).unwrap();
        assert_eq!(Interface::of_index(index).unwrap(), None);
        let several = [Interface::new(&name).unwrap().open_as(TapKind::Several), interface.open_as(TapKind::One)];
        assert!(several.iter().all(|opened| matches!(opened, Ok((_, TapKind::Several)))));
    }

    #[test]
    fn names_are_those_that_linux_takes() {
        for name in ["vif1.0", "tap-web", "a", "123456789012345"] {
            assert_eq!(Interface::new(name).unwrap().name(), name);
        }
        for name in ["", ".", "..", "a/b", "a b", "a:1", "a%d", "1234567890123456", "a\n", "vif\u{e9}"] {
            assert!(Interface::new(name).is_err(), "{name:?}");
        }
    }
}
