//! An answer as the row of numbers that the C entry hands out.

use super::*;

/// Numbers written one after the other into a lent slice.
struct Row<'a> {
    numbers: &'a mut [u64],
    length: usize,
}

impl Row<'_> {
    fn push(&mut self, number: u64) {
        self.numbers[self.length] = number;
        self.length += 1;
    }

    fn extend<const N: usize>(&mut self, numbers: [u64; N]) {
        self.numbers[self.length..][..N].copy_from_slice(&numbers);
        self.length += N;
    }
}

/// The extension count and then the record's fields, over the front of `numbers`; nothing where the answer has no record. Answers how
/// many numbers there are.
pub fn write_row(answer: &Answer, numbers: &mut [u64]) -> usize {
    let Some(record) = &answer.record else {
        return 0;
    };
    let mut row = Row { numbers, length: 0 };
    row.push(answer.extension.into());
    match record {
        Record::Registered(message) => registered(&mut row, message),
        Record::Unregistered(message) => row.extend(message.identifier.map(u64::from)),
        Record::FramePacking(message) => frame_packing(&mut row, message),
        Record::Orientation(message) => orientation(&mut row, message),
        Record::Equirectangular(message) => equirectangular(&mut row, message),
        Record::Rotation(message) => rotation(&mut row, message),
        Record::RegionWise(message) => region_wise(&mut row, message),
        Record::Alpha(message) => alpha(&mut row, message),
        Record::Depth(message) => depth(&mut row, message),
    }
    row.length
}

fn registered(row: &mut Row, message: &Registered) {
    row.extend([message.country_code, message.extension_byte].map(u64::from));
}

fn frame_packing(row: &mut Row, message: &FramePacking) {
    row.push(message.id.into());
    row.extend(
        [
            message.cancel,
            message.arrangement_type,
            message.quincunx,
            message.content_interpretation,
            message.spatial_flipping,
            message.frame0_flipped,
            message.field_views,
            message.current_is_frame0,
            message.frame0_self_contained,
            message.frame1_self_contained,
            message.frame0_grid_x,
            message.frame0_grid_y,
            message.frame1_grid_x,
            message.frame1_grid_y,
            message.persistence,
            message.upsampled_aspect_ratio,
        ]
        .map(u64::from),
    );
}

fn orientation(row: &mut Row, message: &Orientation) {
    row.extend([message.cancel, message.persistence, message.transform].map(u64::from));
}

fn equirectangular(row: &mut Row, message: &Equirectangular) {
    row.extend(
        [
            message.cancel,
            message.persistence,
            message.guarded,
            message.guard_type,
            message.left_width,
            message.right_width,
        ]
        .map(u64::from),
    );
}

fn rotation(row: &mut Row, message: &Rotation) {
    row.extend([message.cancel, message.persistence].map(u64::from));
    row.extend([message.yaw, message.pitch, message.roll].map(|angle| u64::from(angle as u32)));
    let degrees = &message.degrees;
    row.extend([degrees.yaw, degrees.pitch, degrees.roll].map(f64::to_bits));
}

fn region_wise(row: &mut Row, message: &RegionWise) {
    row.extend(
        [
            message.cancel,
            message.persistence,
            message.matching,
            message.count,
        ]
        .map(u64::from),
    );
    row.extend([message.projected_width, message.projected_height].map(u64::from));
    row.extend([message.packed_width, message.packed_height].map(u64::from));
    for area in &message.regions {
        region(row, area);
    }
}

fn region(row: &mut Row, region: &Region) {
    row.extend([region.transform, region.guarded].map(u64::from));
    row.extend(
        [
            region.projected_width,
            region.projected_height,
            region.projected_top,
            region.projected_left,
        ]
        .map(u64::from),
    );
    row.extend(
        [
            region.packed_width,
            region.packed_height,
            region.packed_top,
            region.packed_left,
        ]
        .map(u64::from),
    );
    row.extend(
        [
            region.left_width,
            region.right_width,
            region.top_height,
            region.bottom_height,
            region.not_used,
        ]
        .map(u64::from),
    );
    row.extend(region.guard_types.map(u64::from));
}

fn alpha(row: &mut Row, message: &Alpha) {
    row.extend([message.cancel, message.use_idc, message.bit_depth_minus8].map(u64::from));
    row.extend([message.transparent, message.opaque].map(u64::from));
    row.extend([message.increment, message.clip, message.clip_type].map(u64::from));
}

fn depth(row: &mut Row, message: &Depth) {
    row.extend(
        [
            message.z_near_flag,
            message.z_far_flag,
            message.d_min_flag,
            message.d_max_flag,
            message.representation_type,
        ]
        .map(u64::from),
    );
    row.push(message.reference_view.into());
    for part in [
        &message.z_near,
        &message.z_far,
        &message.d_min,
        &message.d_max,
    ] {
        element(row, part);
    }
    row.push(message.count.into());
    row.extend(message.list.map(u64::from));
}

fn element(row: &mut Row, element: &Element) {
    row.extend(
        [
            element.sign,
            element.exponent,
            element.mantissa_length_minus1,
        ]
        .map(u64::from),
    );
    row.push(element.mantissa.into());
    row.extend(match element.number {
        DepthNumber::Absent => [0, 0],
        DepthNumber::Unspecified => [1, 0],
        DepthNumber::Number(number) => [2, number.to_bits()],
    });
}
