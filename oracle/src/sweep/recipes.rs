//! The packets that the sweep of the reader changes, each made from a row of numbers.

use crate::mend;

/// All that a packet is made from. Its number makes its hours, captions and languages its own.
pub struct Recipe {
    number: u8,
    rate: u8,
    flags: u8,
    sequence: u16,
    captions: u8,
    services: u8,
    futures: u8,
    behind: usize,
}

/// Byte 3, byte 4, sequence, then how many captions, services, future sections and bytes behind the footer.
type Row = (u8, u8, u16, u8, u8, u8, usize);

const ROWS: [Row; 11] = [
    // Read before each of the others, so that what a refusal keeps and what it clears shows.
    (0x8F, 0xBF, 0x1234, 0, 4, 0, 0),
    // Nothing; a time code; captions, none and twenty; services.
    (0x1F, 0x03, 0x0000, 0, 0, 0, 0),
    (0x2F, 0x83, 0x00FF, 0, 0, 0, 0),
    (0x3F, 0x43, 0x0100, 0, 0, 0, 0),
    (0x4F, 0x43, 0x4321, 20, 0, 0, 0),
    (0x5F, 0x37, 0x8000, 0, 3, 0, 0),
    // All of these, few and as many as there can be.
    (0x6F, 0xEB, 0x7FFF, 2, 2, 0, 0),
    (0x7F, 0xFF, 0xFEDC, 31, 15, 0, 0),
    // Two future sections, whose content could be the footer.
    (0x8F, 0x43, 0x7474, 2, 0, 2, 0),
    // Bytes behind the footer.
    (0x1F, 0x83, 0x0A0B, 0, 0, 0, 3),
    // All sections and a future one, and the bits that are not read clear.
    (0x30, 0xE4, 0xFFFF, 1, 2, 1, 0),
];

/// It is also what future sections contain and what stands behind a footer, so that a wrong length meets it.
const FOOTER_ID: u8 = 0x74;

impl Recipe {
    pub fn new(number: u8) -> Self {
        let (rate, flags, sequence, captions, services, futures, behind) =
            ROWS[usize::from(number)];
        Recipe {
            number,
            rate,
            flags,
            sequence,
            captions,
            services,
            futures,
            behind,
        }
    }

    /// A packet that is accepted.
    pub fn packet(&self) -> Vec<u8> {
        let [high, low] = self.sequence.to_be_bytes();
        let mut packet = vec![0x96, 0x69, 0, self.rate, self.flags, high, low];
        if self.flags & 0x80 != 0 {
            packet.extend_from_slice(&[0x71, 0xD0 + self.number, 0xB4, 0xA5, 0x99]);
        }
        if self.flags & 0x40 != 0 {
            self.add_captions(&mut packet);
        }
        if self.flags & 0x20 != 0 {
            self.add_services(&mut packet);
        }
        self.add_futures(&mut packet);
        // The checksum byte stays where bytes follow it.
        packet.extend_from_slice(&[FOOTER_ID, high, low, 0x5A]);
        packet.resize(packet.len() + self.behind, FOOTER_ID);
        mend::length(&mut packet);
        self.mend(&mut packet);
        packet
    }

    fn add_captions(&self, packet: &mut Vec<u8>) {
        packet.extend_from_slice(&[0x72, 0xE0 + self.captions]);
        for at in 0..3 * u16::from(self.captions) {
            packet.push((at * 7 + u16::from(self.number)) as u8);
        }
    }

    /// The section's three flags stand two bits higher than the header's.
    fn add_services(&self, packet: &mut Vec<u8>) {
        packet.extend_from_slice(&[0x73, 0x80 + (self.flags & 0x1C) * 4 + self.services]);
        for k in 0..self.services {
            packet.extend_from_slice(&self.entry(k));
        }
    }

    /// Every third entry is a field, and all have flags, which a field drops.
    fn entry(&self, k: u8) -> [u8; 7] {
        let (header, kind) = named(k % 3 == 2, k / 3, k);
        let flags = k % 4 * 0x40 + 0x3F;
        [
            header,
            0x61 + k,
            0x61 + self.number,
            0x7A,
            kind,
            flags,
            0xFF,
        ]
    }

    /// Ten bytes in all, whose content the first section has.
    fn add_futures(&self, packet: &mut Vec<u8>) {
        for k in 0..self.futures {
            let length = if k == 0 { 10 - 2 * self.futures } else { 0 };
            packet.extend_from_slice(&[0x75 + k * 0x7A, length]);
            packet.resize(packet.len() + usize::from(length), FOOTER_ID);
        }
    }

    /// Makes the checksum right: by its own byte, or where bytes follow by the first of these, since the checksum byte
    /// then counts twice and cannot mend an odd sum.
    pub fn mend(&self, packet: &mut [u8]) {
        let at = packet.len() - 1 - self.behind;
        mend::checksum(packet, at, at + usize::from(self.behind > 0));
    }
}

/// What entry k of a made section names, as its header byte and its byte 3: a field, 1 and 2 in turn, or a digital service.
pub fn named(field: bool, turn: u8, k: u8) -> (u8, u8) {
    if field {
        return (0x80, 0x7E + turn % 2);
    }
    let number = ((u16::from(k) * 17 + 5) % 63 + 1) as u8;
    (0x80 + number, 0xC0 + number)
}
