//! The bytes of a packet that follow from its others: the length, the header's flags and the checksum.

pub fn sum(bytes: &[u8]) -> u8 {
    bytes.iter().fold(0, |sum, &byte| sum.wrapping_add(byte))
}

/// Makes the length byte right, as far as a byte can.
pub fn length(packet: &mut [u8]) {
    let size = packet.len() as u8;
    if let Some(place) = packet.get_mut(2) {
        *place = size;
    }
}

/// The header's three flags, which stand two bits lower than in byte 1 of the service section.
pub fn flags(section: u8) -> u8 {
    (section & 0x70) >> 2
}

/// Makes the checksum right by the byte at `by`: all bytes but the last, and the one at `at` once more, sum to zero.
pub fn checksum(packet: &mut [u8], at: usize, by: usize) {
    packet[by] = 0;
    let last = packet.len() - 1;
    packet[by] = sum(&packet[..last]).wrapping_add(packet[at]).wrapping_neg();
}
