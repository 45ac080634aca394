//! A device's TAP: it is made under the device's own name, and followed where it is renamed to.
use super::{node, Id, Shared};
use crate::keys::{self, State};
use crate::os::{Interface, TapKind};
use laxonje::Offers;
use std::io;

/// The TAP's own address, as that of Linux's vifs: no bridge takes it for its own, and it is never the guest's.
const ADDRESS: [u8; 6] = [0xfe, 0xff, 0xff, 0xff, 0xff, 0xff];
const LEAST_MTU: u32 = 68;
const MOST_MTU: u32 = 65_521;

/// The TAP device of a vif.
#[derive(Clone, Debug)]
pub struct Port {
    pub interface: Interface,
    /// The interface's number, which stays when a script renames it.
    index: u32,
    pub kind: TapKind,
    /// Its packets have a header that can say how they are to be segmented.
    takes_headers: bool,
}

impl Port {
    /// Makes the TAP device, which stays until the device goes: even if this process ends before it. One that a process before this made is
    /// gone on with.
    pub fn make(shared: &Shared, id: Id) -> io::Result<Port> {
        let key = |name: &str| node::key(&shared.store, id, name);
        let interface = left(id, key("vifname"), key("state")).map_or_else(|| own(id), Ok)?;
        let wanted = if node::queues(&shared.store, id, shared.options.queues) > 1 { TapKind::Several } else { TapKind::One };
        let (tap, kind) = interface.open_as(wanted)?;
        let mut port = Port { index: interface.index()?, interface, kind, takes_headers: tap.takes_headers()? };
        port.prepare(key("mtu"))?;
        if key("script").is_none() {
            port.set_up(key("vifname"), key("bridge").or_else(|| shared.options.bridge.clone()))?;
        }
        tap.keep(true)?; // one that isn't ready goes with this function
        Ok(port)
    }

    /// Does what is the same for each device.
    fn prepare(&self, mtu: Option<String>) -> io::Result<()> {
        self.interface.set_address(ADDRESS)?;
        if let Some(packets) = self.kind.most_waiting() {
            self.interface.set_most_waiting(packets)?;
        }
        match mtu.as_deref().and_then(keys::number) {
            Some(mtu) => self.interface.set_mtu(mtu.clamp(LEAST_MTU, MOST_MTU)),
            None => Ok(()),
        }
    }

    /// Does what the toolstack's script would, for a device without one.
    fn set_up(&mut self, vifname: Option<String>, bridge: Option<String>) -> io::Result<()> {
        if let Some(wished) = vifname.filter(|wished| wished != self.interface.name()) {
            self.interface = self.interface.rename(&wished)?;
        }
        if let Some(bridge) = bridge {
            self.interface.join(&Interface::new(&bridge)?)?;
        }
        self.interface.set_up()
    }

    /// Follows whoever has renamed it. `Ok(false)`: it is gone.
    pub fn follow(&mut self) -> io::Result<bool> {
        let present = Interface::of_index(self.index)?;
        let is_there = present.is_some();
        self.interface = present.unwrap_or_else(|| self.interface.clone());
        Ok(is_there)
    }

    pub fn index(&self) -> u32 {
        self.index
    }

    /// Which of these offers it can keep.
    pub fn offers(&self, wished: Offers) -> Offers {
        match self.takes_headers {
            true => wished,
            false => Offers::default(),
        }
    }

    /// Takes the TAP device away.
    pub fn remove(&mut self) -> io::Result<()> {
        match self.follow()? {
            true => self.interface.open_tap(self.kind).and_then(|tap| tap.keep(false)),
            false => Ok(()),
        }
    }
}

fn own(id: Id) -> io::Result<Interface> {
    Interface::new(&format!("vif{}.{}", id.domain, id.number))
}

/// A TAP device that a process before this made and a script renamed: the device isn't new, and has the wished name and not its own.
fn left(id: Id, vifname: Option<String>, state: Option<String>) -> Option<Interface> {
    let wished = Interface::new(&vifname?).ok()?;
    let is_there = |interface: &Interface| interface.index().is_ok();
    let is_new = State::of(state.as_deref()) == Some(State::Initialising);
    let has_own = own(id).map_or(false, |own| is_there(&own));
    (!is_new && !has_own && is_there(&wished)).then_some(wished)
}
