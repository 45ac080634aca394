//! What the toolstack wrote of a device, and which driver of the kernel's has it.
use super::Id;
use crate::filters::Guest;
use crate::xen::Store;
use std::path::Path;

/// The only type of a device all of whose packets go through its rings (`libxl_types.idl`).
const PLAIN_TYPE: &str = "vif";

/// A key of the device's backend.
pub fn key(store: &Store, id: Id, name: &str) -> Option<String> {
    store.read(&format!("{}/{name}", id.back()))
}

/// The guest by its name and its UUID, as they are now.
pub fn guest(store: &Store, id: Id) -> Guest {
    let key = |name: &str| store.read(&format!("/local/domain/{}/{name}", id.domain));
    let uuid = key("vm").and_then(|path| path.strip_prefix("/vm/").map(str::to_owned));
    Guest { name: key("name").unwrap_or_default(), uuid }
}

/// How many queues to offer: no more than the guest can have processors, if that is known.
pub fn queues(store: &Store, id: Id, most: u32) -> u32 {
    match store.list(&format!("/local/domain/{}/cpu", id.domain)).len() {
        0 => most,
        processors => most.min(processors as u32),
    }
}

/// Why a device of this type isn't served. `None`: it is.
pub fn goes_around(device_type: Option<&str>) -> Option<String> {
    let other = device_type.filter(|text| *text != PLAIN_TYPE)?;
    Some(format!("its type is {other}: the guest has an emulated card too, whose packets no filter sees (type=vif, or --with-emulated)"))
}

/// Who of the kernel has a device.
#[derive(Clone, Copy, Debug, PartialEq, Eq)]
pub enum Kernel {
    /// The kernel's xen-netback isn't there.
    Absent,
    /// It is there, and hasn't this device: not yet, or no longer.
    Unbound,
    Bound,
}

/// Where the kernel shows its backends.
pub const BACKENDS: &str = "/sys/bus/xen-backend";

/// `shown` is [`BACKENDS`].
pub fn kernel(shown: &Path, id: Id) -> Kernel {
    if shown.join(format!("devices/vif-{}-{}/driver", id.domain, id.number)).exists() {
        return Kernel::Bound;
    }
    match shown.join("drivers/vif").exists() {
        true => Kernel::Unbound,
        false => Kernel::Absent,
    }
}

#[cfg(test)]
mod tests {
    use super::*;

    #[test]
    fn a_card_that_goes_around_the_filter_is_refused() {
        assert_eq!((goes_around(None), goes_around(Some("vif"))), (None, None));
        for other in ["vif_ioemu", "ioemu", ""] {
            assert!(goes_around(Some(other)).unwrap().contains("--with-emulated"), "{other}");
        }
    }

    #[test]
    fn a_device_is_the_kernels_while_its_driver_is_bound() {
        let shown = std::env::temp_dir().join(format!("laxonje-kernel-{}", std::process::id()));
        let id = Id { domain: 3, number: 1 };
        assert_eq!(kernel(&shown, id), Kernel::Absent);
        std::fs::create_dir_all(shown.join("drivers/vif")).unwrap();
        std::fs::create_dir_all(shown.join("devices/vif-3-1")).unwrap();
        assert_eq!(kernel(&shown, id), Kernel::Unbound);
        std::os::unix::fs::symlink("../../drivers/vif", shown.join("devices/vif-3-1/driver")).unwrap();
        assert_eq!((kernel(&shown, id), kernel(&shown, Id { domain: 3, number: 0 })), (Kernel::Bound, Kernel::Unbound));
        std::fs::remove_dir_all(&shown).unwrap();
    }
}
