//! Eight slots and the calls on them.

use super::*;

const SLOTS: usize = 8;

/// A record where `on` is 1, and else nothing.
#[derive(Clone, Copy, Default, Debug)]
pub struct Held<T> {
    pub on: u8,
    pub value: T,
}

#[derive(Clone, Copy, Default, Debug)]
pub struct HeldRecords {
    pub frame_packing: Held<FramePacking>,
    pub orientation: Held<Orientation>,
    pub equirectangular: Held<Equirectangular>,
    pub rotation: Held<Rotation>,
    pub regions: Held<RegionWise>,
}

/// Open where `open` is 1, and else closed.
#[derive(Clone, Copy, Default, Debug)]
pub struct Slot {
    pub open: u8,
    pub held: HeldRecords,
}

#[derive(Clone, Copy, Default, Debug)]
pub struct Slots {
    pub slots: [Slot; SLOTS],
}

/// The number, and what was held at the picture.
#[derive(Clone, Copy, Debug)]
pub struct Pictured {
    pub number: u32,
    pub held: HeldRecords,
}

impl Slots {
    pub fn start() -> Self {
        Slots::default()
    }

    /// "Opening, of a closed or an open slot, leaves the fresh slot".
    pub fn open(&mut self, slot: u64) -> u32 {
        renew(self.at(slot), 1)
    }

    pub fn close(&mut self, slot: u64) -> u32 {
        renew(self.at_open(slot), 0)
    }

    pub fn sequence(&mut self, slot: u64) -> u32 {
        renew(self.at_open(slot), 1)
    }

    pub fn feed(&mut self, slot: u64, kind: u64, size: u64, bytes: &[u8]) -> Answer {
        let Some(slot) = self.at_open(slot) else {
            return Answer::refused(Refusal::Slot);
        };
        let answer = read(kind, size, bytes);
        if answer.number == TAKEN {
            slot.held.take(&answer);
        }
        answer
    }

    /// "Answers with the five held records, then drops each whose persistence flag is 0."
    pub fn picture(&mut self, slot: u64) -> Pictured {
        let Some(slot) = self.at_open(slot) else {
            return Pictured {
                number: Refusal::Slot as u32,
                held: HeldRecords::default(),
            };
        };
        let held = slot.held;
        slot.held.drop_unpersisting();
        Pictured {
            number: TAKEN,
            held,
        }
    }

    pub fn table(&self, slot: u64, rows: &mut [u64]) -> Tabled {
        let open = place(slot)
            .map(|place| &self.slots[place])
            .filter(|slot| slot.open == 1);
        let written = match open {
            Some(slot) => table::write(&slot.held, rows),
            None => Err(Refusal::Slot),
        };
        match written {
            Ok(rows) => Tabled {
                number: TAKEN,
                rows,
            },
            Err(refusal) => Tabled {
                number: refusal as u32,
                rows: 0,
            },
        }
    }

    fn at(&mut self, slot: u64) -> Option<&mut Slot> {
        place(slot).map(|place| &mut self.slots[place])
    }

    fn at_open(&mut self, slot: u64) -> Option<&mut Slot> {
        self.at(slot).filter(|slot| slot.open == 1)
    }
}

fn renew(slot: Option<&mut Slot>, open: u8) -> u32 {
    match slot {
        Some(slot) => {
            *slot = Slot::fresh(open);
            TAKEN
        }
        None => Refusal::Slot as u32,
    }
}

fn place(slot: u64) -> Option<usize> {
    (slot < SLOTS as u64).then_some(slot as usize)
}

impl Slot {
    fn fresh(open: u8) -> Self {
        Slot {
            open,
            held: HeldRecords::default(),
        }
    }
}

impl HeldRecords {
    /// "A taken message replaces the held one, a cancel leaves nothing."
    fn take(&mut self, answer: &Answer) {
        match &answer.record {
            Some(Record::FramePacking(message)) => {
                self.frame_packing.replace(message.cancel, message)
            }
            Some(Record::Orientation(message)) => self.orientation.replace(message.cancel, message),
            Some(Record::Equirectangular(message)) => {
                self.equirectangular.replace(message.cancel, message)
            }
            Some(Record::Rotation(message)) => self.rotation.replace(message.cancel, message),
            Some(Record::RegionWise(message)) => self.regions.replace(message.cancel, message),
            _ => (),
        }
    }

    fn drop_unpersisting(&mut self) {
        self.frame_packing.keep(|message| message.persistence);
        self.orientation.keep(|message| message.persistence);
        self.equirectangular.keep(|message| message.persistence);
        self.rotation.keep(|message| message.persistence);
        self.regions.keep(|message| message.persistence);
    }
}

impl<T: Copy + Default> Held<T> {
    pub fn get(&self) -> Option<&T> {
        (self.on == 1).then_some(&self.value)
    }

    fn replace(&mut self, cancel: u8, message: &T) {
        *self = match cancel {
            0 => Held {
                on: 1,
                value: *message,
            },
            _ => Held::default(),
        };
    }

    fn keep(&mut self, persistence: fn(&T) -> u8) {
        if persistence(&self.value) == 0 {
            *self = Held::default();
        }
    }
}
