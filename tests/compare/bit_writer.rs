//! Writes the descriptors of the syntax tables into bytes, most significant bit first.

#[derive(Clone, Default)]
pub struct BitWriter {
    bytes: Vec<u8>,
    free: usize,
}

impl BitWriter {
    /// u(n)
    pub fn put(&mut self, value: u64, n: usize) {
        for place in (0..n).rev() {
            self.put_bit(value >> place & 1);
        }
    }

    /// i(32)
    pub fn put_signed(&mut self, value: i32) {
        self.put(u64::from(value as u32), 32);
    }

    /// ue(v), of a number that needs at most 32 bits when one is added to it.
    pub fn put_exp_golomb(&mut self, value: u64) {
        let coded = value + 1;
        let zeros = coded.ilog2() as usize;
        self.put(0, zeros);
        self.put(coded, zeros + 1);
    }

    pub fn put_bytes(&mut self, bytes: &[u8]) {
        for byte in bytes {
            self.put(u64::from(*byte), 8);
        }
    }

    pub fn is_aligned(&self) -> bool {
        self.free == 0
    }

    /// The bytes, the last one filled up with zeros.
    pub fn into_bytes(self) -> Vec<u8> {
        self.bytes
    }

    fn put_bit(&mut self, bit: u64) {
        if self.free == 0 {
            self.bytes.push(0);
            self.free = 8;
        }
        self.free -= 1;
        if let Some(last) = self.bytes.last_mut() {
            *last |= (bit as u8) << self.free;
        }
    }
}
