//! Messages of the nine kinds as the syntax tables print them, their fields at the edges of what they
//! may be, and, where that is asked for, now and then beyond.

use crate::bit_writer::BitWriter;
use crate::random::Random;

pub const KINDS: [u64; 9] = [4, 5, 45, 47, 150, 154, 155, 165, 177];

const LARGEST_EXP_GOLOMB: u64 = (1 << 32) - 2;

/// Whether fields may break the rules, or have a message of kind 45 set aside.
#[derive(Clone, Copy, PartialEq)]
pub enum Manner {
    Lawful,
    Daring,
}

pub struct Composer<'a> {
    random: &'a mut Random,
    manner: Manner,
    bits: BitWriter,
}

/// A message of one of the nine kinds, without a tail.
pub fn compose(random: &mut Random, kind: u64, manner: Manner) -> BitWriter {
    let mut composer = Composer {
        random,
        manner,
        bits: BitWriter::default(),
    };
    match kind {
        4 => composer.registered(),
        5 => composer.unregistered(),
        45 => composer.frame_packing(),
        47 => composer.orientation(),
        150 => composer.equirectangular(),
        154 => composer.rotation(),
        155 => composer.region_wise(),
        165 => composer.alpha(),
        _ => composer.depth(),
    }
    composer.bits
}

impl Composer<'_> {
    fn registered(&mut self) {
        let country_code = self.random.pick(&[0xB5, 0, 1, 254, 255, 255]);
        self.bits.put(country_code, 8);
        if country_code == 255 {
            self.edge(8);
        }
        self.rest();
    }

    fn unregistered(&mut self) {
        self.identifier();
        self.rest();
    }

    /// All zeros, all ones, or bytes of which many are at an edge.
    fn identifier(&mut self) {
        let all = self.random.pick(&[Some(0), Some(255), None, None, None]);
        for _ in 0..16 {
            let edge = self.random.edge(8);
            self.bits.put(all.unwrap_or(edge), 8);
        }
    }

    fn rest(&mut self) {
        let count = match self.random.below(8) {
            0..=2 => 0,
            3 => 1,
            _ => self.random.below(20),
        };
        let bytes = self.random.bytes(count);
        self.bits.put_bytes(&bytes);
    }

    fn frame_packing(&mut self) {
        let id = self.ruled(
            &[0, 1, 2, 255, 512, 513, (1 << 31) - 1],
            &[256, 257, 511, 1 << 31, (1 << 31) + 1, LARGEST_EXP_GOLOMB],
        );
        self.bits.put_exp_golomb(id);
        if !self.cancelled() {
            self.arrangement();
        }
        self.any(1);
    }

    fn arrangement(&mut self) {
        let arrangement_type = self.ruled(&[3, 4, 5], &[0, 1, 2, 6, 7, 77, 127]);
        let quincunx = u64::from(self.random.one_in(4));
        let content_interpretation = self.ruled(&[0, 1, 2], &[3, 4, 63]);
        self.bits.put(arrangement_type, 7);
        self.bits.put(quincunx, 1);
        self.bits.put(content_interpretation, 6);
        self.any(6);
        if quincunx == 0 && arrangement_type != 5 {
            self.any(16);
        }
        self.any(8);
        self.any(1);
    }

    fn orientation(&mut self) {
        if !self.cancelled() {
            self.any(7);
        }
    }

    fn equirectangular(&mut self) {
        if self.cancelled() {
            return;
        }
        self.any(1);
        let guarded = self.random.flag();
        self.bits.put(guarded, 1);
        self.any(2);
        if guarded == 1 {
            self.any(3);
            self.edge(8);
            self.edge(8);
        }
    }

    fn rotation(&mut self) {
        if self.cancelled() {
            return;
        }
        self.any(7);
        self.angle(-11_796_480, 11_796_479);
        self.angle(-5_898_240, 5_898_240);
        self.angle(-11_796_480, 11_796_479);
    }

    fn angle(&mut self, least: i32, most: i32) {
        let within = least + self.random.below((most - least) as usize) as i32;
        let angle = self.ruled(
            &[
                least,
                least + 1,
                -65_537,
                -1,
                0,
                1,
                65_536,
                most - 1,
                most,
                within,
                within,
            ],
            &[
                i32::MIN,
                -11_796_480,
                least - 1,
                most + 1,
                11_796_479,
                i32::MAX,
            ],
        );
        self.bits.put_signed(angle);
    }

    fn region_wise(&mut self) {
        if self.cancelled() {
            return;
        }
        let count = self.ruled(&[1, 1, 1, 2, 2, 3, 4, 15, 16], &[0, 17, 17, 18, 255]);
        self.any(7);
        self.bits.put(count, 8);
        for width in [32, 32, 16, 16] {
            let most = (1 << width) - 1;
            let size = self.random.edge(width).max(1);
            let size = self.ruled(&[1, 2, 3, most, size, size], &[0]);
            self.bits.put(size, width);
        }
        for _ in 0..count {
            self.region();
        }
    }

    fn region(&mut self) {
        let guarded = self.random.flag();
        self.any(7);
        self.bits.put(guarded, 1);
        for width in [32, 32, 32, 32, 16, 16, 16, 16] {
            self.edge(width);
        }
        if guarded == 1 {
            self.guard_bands();
        }
    }

    fn guard_bands(&mut self) {
        for _ in 0..4 {
            self.edge(8);
        }
        let not_used = self.random.flag();
        self.bits.put(not_used, 1);
        for _ in 0..4 {
            let guard_type = match not_used {
                0 => self.ruled(&[1, 2, 3, 4, 5, 6, 7], &[0]),
                _ => self.random.bits(3),
            };
            self.bits.put(guard_type, 3);
        }
        self.any(3);
    }

    fn alpha(&mut self) {
        if self.cancelled() {
            return;
        }
        let bit_depth_minus8 = self.random.bits(3);
        self.any(3);
        self.bits.put(bit_depth_minus8, 3);
        self.edge(bit_depth_minus8 as usize + 9);
        self.edge(bit_depth_minus8 as usize + 9);
        self.any(1);
        let clip = self.random.flag();
        self.bits.put(clip, 1);
        if clip == 1 {
            self.any(1);
        }
    }

    fn depth(&mut self) {
        let [z_near, z_far, d_min, d_max] = [(); 4].map(|()| self.random.flag());
        for flag in [z_near, z_far, d_min, d_max] {
            self.bits.put(flag, 1);
        }
        let lawful_type = self.random.bits(4);
        let representation_type = self.ruled(
            &[3, lawful_type, lawful_type, 15],
            &[16, 17, 255, LARGEST_EXP_GOLOMB],
        );
        self.bits.put_exp_golomb(representation_type);
        if d_min == 1 || d_max == 1 {
            let any = self.random.bits(20);
            let reference_view = self
                .random
                .pick(&[0, 1, 1023, 1024, any, LARGEST_EXP_GOLOMB]);
            self.bits.put_exp_golomb(reference_view);
        }
        for flag in [z_near, z_far, d_min, d_max] {
            if flag == 1 {
                self.element();
            }
        }
        if representation_type == 3 {
            self.list();
        }
    }

    fn element(&mut self) {
        let any_exponent = self.random.bits(7);
        let exponent = self
            .random
            .pick(&[0, 0, 1, 2, 31, 125, 126, 127, any_exponent]);
        let any_length = self.random.between(1, 32);
        let length = self.random.pick(&[1, 2, 31, 32, any_length, any_length]);
        let any_mantissa = self.random.edge(length);
        let mantissa = self.random.pick(&[0, 0, any_mantissa, any_mantissa]);
        self.any(1);
        self.bits.put(exponent, 7);
        self.bits.put(length as u64 - 1, 5);
        self.bits.put(mantissa, length);
    }

    fn list(&mut self) {
        let count_minus1 = self.ruled(
            &[0, 1, 2, 7, 61, 62],
            &[63, 63, 64, 255, LARGEST_EXP_GOLOMB],
        );
        self.bits.put_exp_golomb(count_minus1);
        for _ in 0..=count_minus1.min(64) {
            let any = self.random.bits(16);
            let listed = self.rarely_ruled(
                &[0, 1, 2, any, any, 65_534, 65_535],
                &[65_536, 65_536, 65_537, 1 << 31, LARGEST_EXP_GOLOMB],
            );
            self.bits.put_exp_golomb(listed);
        }
    }

    fn cancelled(&mut self) -> bool {
        let cancelled = self.random.one_in(6);
        self.bits.put(u64::from(cancelled), 1);
        cancelled
    }

    fn any(&mut self, n: usize) {
        let value = self.random.bits(n);
        self.bits.put(value, n);
    }

    fn edge(&mut self, n: usize) {
        let value = self.random.edge(n);
        self.bits.put(value, n);
    }

    fn ruled<T: Copy>(&mut self, lawful: &[T], beyond: &[T]) -> T {
        self.ruled_one_in(10, lawful, beyond)
    }

    /// For fields of which a message has many.
    fn rarely_ruled<T: Copy>(&mut self, lawful: &[T], beyond: &[T]) -> T {
        self.ruled_one_in(50, lawful, beyond)
    }

    fn ruled_one_in<T: Copy>(&mut self, chances: usize, lawful: &[T], beyond: &[T]) -> T {
        let dares = self.manner == Manner::Daring && self.random.one_in(chances);
        self.random.pick(if dares { beyond } else { lawful })
    }
}
