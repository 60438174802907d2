//! The fields of held records and slots, in the order and the widths of the C header's structs.

use crate::independent::{
    Equirectangular, FramePacking, Held, HeldRecords, Orientation, Region, RegionWise, Rotation,
    Slots,
};

/// How many bytes the five held records take on a pipe, and how many the slots.
pub const HELD_LENGTH: usize = 648;
pub const SLOTS_LENGTH: usize = 8 * (1 + HELD_LENGTH);

/// Sees each field and says what it is from now on.
pub trait Visitor {
    fn field(&mut self, name: &'static str, width: usize, value: u64) -> u64;

    fn enter(&mut self, _name: &'static str, _index: usize) {}

    fn leave(&mut self) {}
}

pub trait Visited {
    fn visit(&mut self, visitor: &mut impl Visitor);
}

trait Number: Copy {
    fn bits(self) -> u64;
    fn of_bits(bits: u64) -> Self;
}

macro_rules! integer {
    ($type:ty, $unsigned:ty) => {
        impl Number for $type {
            fn bits(self) -> u64 {
                self as $unsigned as u64
            }
            fn of_bits(bits: u64) -> Self {
                bits as $type
            }
        }
    };
}

integer!(u8, u8);
integer!(u16, u16);
integer!(u32, u32);
integer!(i32, u32);

impl Number for f64 {
    fn bits(self) -> u64 {
        self.to_bits()
    }
    fn of_bits(bits: u64) -> Self {
        f64::from_bits(bits)
    }
}

fn visit_number<N: Number>(visitor: &mut impl Visitor, name: &'static str, number: &mut N) {
    *number = N::of_bits(visitor.field(name, size_of::<N>(), number.bits()));
}

macro_rules! visit_fields {
    ($visitor:ident, $record:expr, $($field:ident)+) => {
        $(visit_number($visitor, stringify!($field), &mut $record.$field);)+
    };
}

fn visit_within(
    visitor: &mut impl Visitor,
    name: &'static str,
    index: usize,
    visited: &mut impl Visited,
) {
    visitor.enter(name, index);
    visited.visit(visitor);
    visitor.leave();
}

impl Visited for FramePacking {
    fn visit(&mut self, visitor: &mut impl Visitor) {
        visit_fields!(visitor, self,
            id cancel arrangement_type quincunx content_interpretation
            spatial_flipping frame0_flipped field_views current_is_frame0
            frame0_self_contained frame1_self_contained
            frame0_grid_x frame0_grid_y frame1_grid_x frame1_grid_y
            persistence upsampled_aspect_ratio);
    }
}

impl Visited for Orientation {
    fn visit(&mut self, visitor: &mut impl Visitor) {
        visit_fields!(visitor, self, cancel persistence transform);
    }
}

impl Visited for Equirectangular {
    fn visit(&mut self, visitor: &mut impl Visitor) {
        visit_fields!(visitor, self,
            cancel persistence guarded guard_type left_width right_width);
    }
}

impl Visited for Rotation {
    fn visit(&mut self, visitor: &mut impl Visitor) {
        visit_fields!(visitor, self, cancel persistence yaw pitch roll);
        visit_number(visitor, "degrees.yaw", &mut self.degrees.yaw);
        visit_number(visitor, "degrees.pitch", &mut self.degrees.pitch);
        visit_number(visitor, "degrees.roll", &mut self.degrees.roll);
    }
}

impl Visited for Region {
    fn visit(&mut self, visitor: &mut impl Visitor) {
        visit_fields!(visitor, self,
            transform guarded
            projected_width projected_height projected_top projected_left
            packed_width packed_height packed_top packed_left
            left_width right_width top_height bottom_height not_used);
        for guard_type in &mut self.guard_types {
            visit_number(visitor, "guard_type", guard_type);
        }
    }
}

impl Visited for RegionWise {
    fn visit(&mut self, visitor: &mut impl Visitor) {
        visit_fields!(visitor, self,
            cancel persistence matching count
            projected_width projected_height packed_width packed_height);
        for (index, region) in self.regions.iter_mut().enumerate() {
            visit_within(visitor, "region", index, region);
        }
    }
}

impl<T: Visited> Visited for Held<T> {
    fn visit(&mut self, visitor: &mut impl Visitor) {
        visit_fields!(visitor, self, on);
        self.value.visit(visitor);
    }
}

impl Visited for HeldRecords {
    fn visit(&mut self, visitor: &mut impl Visitor) {
        visit_within(visitor, "kind", 45, &mut self.frame_packing);
        visit_within(visitor, "kind", 47, &mut self.orientation);
        visit_within(visitor, "kind", 150, &mut self.equirectangular);
        visit_within(visitor, "kind", 154, &mut self.rotation);
        visit_within(visitor, "kind", 155, &mut self.regions);
    }
}

impl Visited for Slots {
    fn visit(&mut self, visitor: &mut impl Visitor) {
        for (index, slot) in self.slots.iter_mut().enumerate() {
            visitor.enter("slot", index);
            visit_fields!(visitor, slot, open);
            slot.held.visit(visitor);
            visitor.leave();
        }
    }
}

/// Takes each field from the front of the bytes.
pub struct Take<'a>(pub &'a [u8]);

impl Visitor for Take<'_> {
    fn field(&mut self, _name: &'static str, width: usize, _value: u64) -> u64 {
        let (field, rest) = self.0.split_at(width);
        self.0 = rest;
        let mut bytes = [0; 8];
        bytes[..width].copy_from_slice(field);
        u64::from_le_bytes(bytes)
    }
}

/// Gives each field to the end of the bytes.
pub struct Give<'a>(pub &'a mut Vec<u8>);

impl Visitor for Give<'_> {
    fn field(&mut self, _name: &'static str, width: usize, value: u64) -> u64 {
        self.0.extend(&value.to_le_bytes()[..width]);
        value
    }
}
