//! Packets put together from parts, with the places of the parts kept for those who spoil them.

use crate::mend::{self, sum};
use crate::parts;
use crate::random::Random;

/// What a packet is built from; sections stand here whole, with id and count.
pub struct Plan {
    pub rate: u8,
    /// Flag bits that no section of the plan decides.
    pub loose: u8,
    pub sequence: u16,
    pub time: Option<[u8; 4]>,
    pub captions: Option<Vec<u8>>,
    pub services: Option<Vec<u8>>,
    pub future: Vec<Vec<u8>>,
    pub behind: Vec<u8>,
}

pub struct Packet {
    pub bytes: Vec<u8>,
    pub time: Option<usize>,
    pub captions: Option<usize>,
    pub services: Option<usize>,
    pub future: Vec<usize>,
    pub footer: usize,
}

fn rate(rng: &mut Random) -> u8 {
    let low = if rng.chance(4) {
        rng.byte() & 0x0F
    } else {
        0x0F
    };
    ((1 + rng.below(8) as u8) << 4) | low
}

impl Plan {
    /// Header and footer alone.
    pub fn bare(rng: &mut Random) -> Plan {
        Plan {
            rate: rate(rng),
            loose: rng.byte() & 0x1F,
            sequence: parts::sequence(rng),
            time: None,
            captions: None,
            services: None,
            future: Vec::new(),
            behind: Vec::new(),
        }
    }

    /// Any choice of sections, each of any size.
    pub fn any(rng: &mut Random) -> Plan {
        let mut plan = Plan::bare(rng);
        let chosen = rng.below(8);
        if chosen & 4 != 0 {
            plan.time = Some(parts::time(rng));
        }
        if chosen & 2 != 0 {
            let count = parts::count(rng, 31);
            plan.captions = Some(parts::captions(rng, count));
        }
        if chosen & 1 != 0 {
            let count = parts::count(rng, 15);
            plan.services = Some(parts::services(rng, count));
        }
        if rng.chance(4) {
            plan.add_future(rng);
        }
        plan
    }

    /// Every section there is, few of each, so that each rule has a place to be broken at.
    pub fn full(rng: &mut Random) -> Plan {
        let mut plan = Plan::bare(rng);
        let (triplets, entries) = (1 + rng.below(4), 1 + rng.below(3));
        plan.time = Some(parts::time(rng));
        plan.captions = Some(parts::captions(rng, triplets));
        plan.services = Some(parts::services(rng, entries));
        plan.add_future(rng);
        plan
    }

    /// One to three short sections, so that the longest packet still fits its length byte.
    pub fn add_future(&mut self, rng: &mut Random) {
        for _ in 0..=rng.below(3) {
            let length = rng.below(9);
            self.future.push(parts::future(rng, length));
        }
    }

    fn flags(&self) -> u8 {
        let time = if self.time.is_some() { 0x80 } else { 0 };
        let captions = if self.captions.is_some() { 0x40 } else { 0 };
        let services = match &self.services {
            Some(section) => 0x20 | mend::flags(section[1]) | (self.loose & 0x03),
            None => self.loose & 0x1F,
        };
        time | captions | services
    }

    /// Bytes and places, with length and checksum right.
    pub fn build(&self, rng: &mut Random) -> Packet {
        let [high, low] = self.sequence.to_be_bytes();
        let mut bytes = vec![0x96, 0x69, 0, self.rate, self.flags(), high, low];
        let time = self
            .time
            .map(|time| append(&mut bytes, &[0x71, time[0], time[1], time[2], time[3]]));
        let captions = self.captions.as_ref().map(|part| append(&mut bytes, part));
        let services = self.services.as_ref().map(|part| append(&mut bytes, part));
        let future = self
            .future
            .iter()
            .map(|part| append(&mut bytes, part))
            .collect();
        let footer = append(&mut bytes, &[0x74, high, low, 0]);
        append(&mut bytes, &self.behind);
        let mut packet = Packet {
            bytes,
            time,
            captions,
            services,
            future,
            footer,
        };
        packet.fit();
        packet.mend(rng);
        packet
    }
}

/// The place at which the part now stands.
fn append(bytes: &mut Vec<u8>, part: &[u8]) -> usize {
    bytes.extend_from_slice(part);
    bytes.len() - part.len()
}

impl Packet {
    pub fn any(rng: &mut Random) -> Packet {
        Plan::any(rng).build(rng)
    }

    /// Makes the length byte right, as far as a byte can.
    pub fn fit(&mut self) {
        mend::length(&mut self.bytes);
    }

    /// Makes the checksum right for a footer at its place, whatever else is spoilt.
    pub fn mend(&mut self, rng: &mut Random) {
        let at = self.footer + 3;
        let last = match self.bytes.len().checked_sub(1) {
            Some(last) if at <= last => last,
            _ => return,
        };
        if at < last {
            self.mend_inside(rng, at, last);
        } else {
            mend::checksum(&mut self.bytes, at, at);
        }
    }

    /// With bytes behind it the checksum is part of its own sum, so twice it must mend the rest.
    fn mend_inside(&mut self, rng: &mut Random, at: usize, last: usize) {
        self.bytes[at] = 0;
        if sum(&self.bytes[..last]) % 2 == 1 {
            let even = self.unread(rng, at, last);
            self.bytes[even] ^= 0x01;
        }
        let half = sum(&self.bytes[..last]).wrapping_neg() / 2;
        self.bytes[at] = half | (rng.byte() & 0x80);
    }

    /// A place whose lowest bit no rule reads.
    fn unread(&self, rng: &mut Random, at: usize, last: usize) -> usize {
        match rng.below(3) {
            0 => 3,
            1 => 4,
            _ if at + 1 < last => at + 1 + rng.below(last - at - 1),
            _ => 3,
        }
    }
}
