//! The numbers that come with zeros.

#[derive(Clone, Copy, PartialEq, Eq, Debug)]
pub enum Refusal {
    Kind = 1,
    Size = 2,
    Short = 3,
    Zeros = 4,
    Rule = 5,
    Regions = 6,
    Tail = 7,
    Slot = 8,
    Table = 9,
    Room = 10,
}

/// "A rule below is broken", where it is not kept.
pub fn rule(kept: bool) -> Result<(), Refusal> {
    if kept {
        Ok(())
    } else {
        Err(Refusal::Rule)
    }
}
