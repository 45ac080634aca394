//! Packets of the tests.

/// An Ethernet frame with IPv4 whose protocol is UDP.
pub fn udp() -> Vec<u8> {
    let mut packet = vec![0; 60];
    packet[12..15].copy_from_slice(&[8, 0, 0x45]);
    packet[23] = 17;
    packet
}
