//! A number for a block of values, the same on both sides.

pub struct Digest(u64);

impl Digest {
    pub fn new() -> Self {
        Digest(0)
    }

    /// The one added makes a zero count, so that a block of zeros shows its length.
    pub fn feed(&mut self, value: u8) {
        self.0 = (self.0 * 16_777_619 + u64::from(value) + 1) % 4_294_967_296;
    }

    pub fn feed_all(&mut self, values: &[u8]) {
        for &value in values {
            self.feed(value);
        }
    }

    pub fn value(&self) -> u64 {
        self.0
    }
}
