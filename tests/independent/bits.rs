//! A payload's bits, most significant first, and the descriptors u(n), i(32) and ue(v).

use super::refusal::Refusal;

/// "At most 31 zeros are allowed".
const TOO_MANY_ZEROS: usize = 32;

/// The bits of `payload` that are not read yet: the upper `ready` bits of `word`, then the bytes from `next` on.
pub struct Bits<'a> {
    payload: &'a [u8],
    next: usize,
    word: u64,
    ready: usize,
}

impl<'a> Bits<'a> {
    pub fn new(payload: &'a [u8]) -> Self {
        Bits {
            payload,
            next: 0,
            word: 0,
            ready: 0,
        }
    }

    pub fn payload(&self) -> &'a [u8] {
        self.payload
    }

    /// The bit after the last one read.
    pub fn position(&self) -> usize {
        8 * self.next - self.ready
    }

    /// N, "8 times the stated size".
    pub fn end(&self) -> usize {
        8 * self.payload.len()
    }

    pub fn skip_to_end(&mut self) {
        self.next = self.payload.len();
        self.ready = 0;
    }

    /// u(n), n from 1 to 32.
    #[inline]
    pub fn u32(&mut self, n: usize) -> Result<u32, Refusal> {
        if self.ready < n {
            self.refill();
            if self.ready < n {
                return Err(Refusal::Short);
            }
        }
        let value = self.word >> (64 - n);
        self.skip(n);
        Ok(value as u32)
    }

    /// u(n), n from 1 to 16.
    #[inline]
    pub fn u16(&mut self, n: usize) -> Result<u16, Refusal> {
        Ok(self.u32(n)? as u16)
    }

    /// u(n), n from 1 to 8.
    #[inline]
    pub fn u8(&mut self, n: usize) -> Result<u8, Refusal> {
        Ok(self.u32(n)? as u8)
    }

    /// u(1)
    #[inline]
    pub fn flag(&mut self) -> Result<u8, Refusal> {
        self.u8(1)
    }

    /// u(n) that is ignored.
    #[inline]
    pub fn reserved(&mut self, n: usize) -> Result<(), Refusal> {
        self.u32(n)?;
        Ok(())
    }

    /// u(128), as its 16 bytes.
    pub fn u128(&mut self) -> Result<[u8; 16], Refusal> {
        if self.end() - self.position() < 128 {
            return Err(Refusal::Short);
        }
        let mut bytes = [0; 16];
        for four in bytes.chunks_exact_mut(4) {
            four.copy_from_slice(&self.u32(32)?.to_be_bytes());
        }
        Ok(bytes)
    }

    /// i(32)
    #[inline]
    pub fn i32(&mut self) -> Result<i32, Refusal> {
        Ok(self.u32(32)? as i32)
    }

    /// ue(v): after z zeros, the one and the z bits behind it are the number 2^z + x, one more than the meaning.
    #[inline]
    pub fn ue(&mut self) -> Result<u32, Refusal> {
        if self.ready < TOO_MANY_ZEROS {
            self.refill();
        }
        let zeros = self.ready.min(self.word.leading_zeros() as usize);
        if zeros >= TOO_MANY_ZEROS {
            return Err(Refusal::Zeros);
        }
        self.skip(zeros);
        Ok(self.u32(zeros + 1)? - 1)
    }

    #[inline]
    fn skip(&mut self, n: usize) {
        self.word <<= n;
        self.ready -= n;
    }

    /// Where fewer than 32 bits are ready, makes at least 57 ready, or all that are left.
    #[inline]
    fn refill(&mut self) {
        match self.payload[self.next..].first_chunk() {
            Some(chunk) => {
                let bytes = (64 - self.ready) / 8;
                let fresh = u64::from_be_bytes(*chunk) >> (64 - 8 * bytes) << (64 - 8 * bytes);
                self.word |= fresh >> self.ready;
                self.next += bytes;
                self.ready += 8 * bytes;
            }
            None => self.refill_by_bytes(),
        }
    }

    fn refill_by_bytes(&mut self) {
        while self.ready <= 56 && self.next < self.payload.len() {
            self.word |= u64::from(self.payload[self.next]) << (56 - self.ready);
            self.next += 1;
            self.ready += 8;
        }
    }
}
