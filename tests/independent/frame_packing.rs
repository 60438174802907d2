//! Kind 45, frame packing arrangement (8.6.1).

use super::bits::Bits;
use super::refusal::Refusal;

#[derive(Clone, Copy, Default, Debug)]
pub struct FramePacking {
    pub id: u32,
    pub cancel: u8,
    pub arrangement_type: u8,
    pub quincunx: u8,
    pub content_interpretation: u8,
    pub spatial_flipping: u8,
    pub frame0_flipped: u8,
    pub field_views: u8,
    pub current_is_frame0: u8,
    pub frame0_self_contained: u8,
    pub frame1_self_contained: u8,
    pub frame0_grid_x: u8,
    pub frame0_grid_y: u8,
    pub frame1_grid_x: u8,
    pub frame1_grid_y: u8,
    pub persistence: u8,
    pub upsampled_aspect_ratio: u8,
}

impl FramePacking {
    /// "Id in 256..511 or at least 2^31; or, not cancelled, a type other than 3, 4, 5 or a content
    /// interpretation above 2."
    pub fn is_set_aside(&self) -> bool {
        let id = (256..=511).contains(&self.id) || self.id >= 1 << 31;
        let arrangement =
            !(3..=5).contains(&self.arrangement_type) || self.content_interpretation > 2;
        id || self.cancel == 0 && arrangement
    }

    fn has_grid(&self) -> bool {
        self.quincunx == 0 && self.arrangement_type != 5
    }
}

pub fn read(bits: &mut Bits) -> Result<FramePacking, Refusal> {
    let mut message = FramePacking {
        id: bits.ue()?,
        cancel: bits.flag()?,
        ..FramePacking::default()
    };
    if message.cancel == 0 {
        read_arrangement(bits, &mut message)?;
    }
    message.upsampled_aspect_ratio = bits.flag()?;
    Ok(message)
}

fn read_arrangement(bits: &mut Bits, message: &mut FramePacking) -> Result<(), Refusal> {
    message.arrangement_type = bits.u8(7)?;
    message.quincunx = bits.flag()?;
    message.content_interpretation = bits.u8(6)?;
    message.spatial_flipping = bits.flag()?;
    message.frame0_flipped = bits.flag()?;
    message.field_views = bits.flag()?;
    message.current_is_frame0 = bits.flag()?;
    message.frame0_self_contained = bits.flag()?;
    message.frame1_self_contained = bits.flag()?;
    if message.has_grid() {
        message.frame0_grid_x = bits.u8(4)?;
        message.frame0_grid_y = bits.u8(4)?;
        message.frame1_grid_x = bits.u8(4)?;
        message.frame1_grid_y = bits.u8(4)?;
    }
    bits.reserved(8)?;
    message.persistence = bits.flag()?;
    Ok(())
}
