//! Programs of objects: the function of examples/count-protocols, as clang 19 makes it by `-target bpf -mcpu=v2 -O2 -g`; and without `-g`
//!
//! ```c
//! const volatile __u32 queues = 1;
//! static const __u8 actions[32] = {[IPPROTO_UDP] = XDP_TX};
//! SEC("xdp") int table(struct xdp_md *ctx)
//! {
//!     struct iphdr *ip = (void *)(long)ctx->data + sizeof(struct ethhdr);
//!
//!     if ((void *)(ip + 1) > (void *)(long)ctx->data_end || ctx->rx_queue_index >= queues || ip->protocol > 31)
//!         return XDP_DROP;
//!     return actions[ip->protocol];
//! }
//! ```
mod packets;

use laxonje::{Action, LoadError, MapSize, ObjectCause, Program};
use packets::udp;

const COUNT: &str = include_str!("count-protocols.hex");

const TABLE: &str = include_str!("table.hex");

fn object(hex: &str) -> Vec<u8> {
    let digits: Vec<u8> = hex.bytes().filter(u8::is_ascii_hexdigit).collect();
    let byte = |pair: &[u8]| u8::from_str_radix(core::str::from_utf8(pair).unwrap(), 16).unwrap();
    digits.chunks(2).map(byte).collect()
}

#[test]
fn a_function_of_an_object_is_run() {
    let mut program = Program::from_object(&object(COUNT), "count_protocol").unwrap();
    assert_eq!(program.maps(), [MapSize { entries: 256, counters: 1 }]);
    assert_eq!(program.map_names(), ["protocols"]);
    let mut counters = program.new_counters();
    assert_eq!(program.run(&mut counters, &mut udp(), 0, 0).map(|run| run.action), Some(Action::Pass));
    assert_eq!(program.place(0, 17, 0).map(|place| counters[place]), Some(1));
}

#[test]
fn a_function_has_its_constants() {
    let mut program = Program::from_object(&object(TABLE), "table").unwrap();
    assert_eq!(program.maps(), [MapSize { entries: 1, counters: 1 }, MapSize { entries: 1, counters: 1 }]);
    assert_eq!(program.map_names(), [".rodata", ".rodata.cst32"]);
    let mut counters = program.new_counters();
    assert_eq!(program.run(&mut counters, &mut udp(), 0, 0).map(|run| run.action), Some(Action::Tx));
    assert_eq!(program.run(&mut counters, &mut udp(), 0, 1).map(|run| run.action), Some(Action::Drop));
    let mut tcp = udp();
    tcp[23] = 6;
    assert_eq!(program.run(&mut counters, &mut tcp, 0, 0).map(|run| run.action), Some(Action::Aborted));
}

#[test]
fn what_is_no_such_function_has_its_cause() {
    let refused = Program::from_object(&object(COUNT), "count").unwrap_err();
    assert_eq!(refused, LoadError::Object { cause: ObjectCause::NO_FUNCTION, at: 0 });
    assert_eq!(refused.to_string(), "O10 at 0: no function of this name");
    assert!(Program::from_object(b"", "count").is_err());
}
