//! Broken variants of the independent reader, each with one error: put in the reader's place, the
//! comparison must see every one of them.

use crate::comparison::compare;
use crate::{grouped, Options};
use std::path::{Path, PathBuf};
use std::process::Command;
use std::sync::atomic::{AtomicUsize, Ordering};
use std::sync::Mutex;
use std::{fs, io, thread};

struct Variant {
    error: &'static str,
    edits: &'static [Edit],
}

/// The right text stands exactly once in the file.
struct Edit {
    file: &'static str,
    right: &'static str,
    wrong: &'static str,
}

macro_rules! variants {
    ($($error:literal: $($file:literal $right:literal => $wrong:literal),+;)+) => {
        &[$(Variant {
            error: $error,
            edits: &[$(Edit { file: $file, right: $right, wrong: $wrong }),+],
        }),+]
    };
}

const VARIANTS: &[Variant] = variants! {
    "the tail's one bit is searched from the front":
        "tail.rs" "last_one_of_final_byte(bits) {"
            => "(after..bits.end())
                .find(|place| bits.payload()[place / 8] << (place % 8) & 0x80 != 0)
                .filter(|first| first + 8 >= bits.end())
            {";
    "guard type 6 is read as 0 before its rule is judged":
        "region_wise.rs" "let coded = bits.u8(3)?;" => "let coded = guard_type(bits.u8(3)?);";
    "a message without persistence uncovers the older one":
        "slots.rs" "    pub value: T,\n" => "    pub value: T,\n    pub older: Option<T>,\n",
        "slots.rs" "                value: *message,\n"
            => "                value: *message,\n                older: self.get().copied(),\n",
        "slots.rs" "persistence(&self.value) == 0 {\n            *self = Held::default();"
            => "persistence(&self.value) == 0 {
                *self = match self.older {
                    Some(value) => Held { on: 1, value, older: None },
                    None => Held::default(),
                };";
    "half the projected width is added in 32 bits":
        "table.rs" "u64::from(region.projected_left) + offsets.projected_left"
            => "u64::from(region.projected_left.wrapping_add(offsets.projected_left as u32))";
    "half the packed height is added in 16 bits":
        "table.rs" "u64::from(region.packed_top) + offsets.packed_top"
            => "u64::from(region.packed_top.wrapping_add(offsets.packed_top as u16))";

    "the kind is compared in 8 bits":
        "mod.rs" "= match kind {" => "= match kind & 0xFF {";
    "the kind is compared in 32 bits":
        "mod.rs" "= match kind {" => "= match u64::from(kind as u32) {";
    "the size is compared in 32 bits":
        "mod.rs" "if size > LARGEST_SIZE {" => "let size = u64::from(size as u32);\n    if size > LARGEST_SIZE {";
    "the lent length counts in place of the size":
        "mod.rs" "bytes.get(..size as usize)" => "bytes.get(..size as usize).and(Some(bytes))";
    "a size of 8,192 is refused":
        "mod.rs" "size > LARGEST_SIZE" => "size >= LARGEST_SIZE";
    "20 is judged before 7":
        "mod.rs" "        Err(refusal) => return Answer::refused(refusal),\n    };\n    let record = record(message);\n"
            => "        Err(_) if number(&record) == SET_ASIDE => 0,
        Err(refusal) => return Answer::refused(refusal),
    };\n",
        "mod.rs" "    let extension = match tail" => "    let record = record(message);\n    let extension = match tail";

    "32 leading zeros are 3 in place of 4":
        "bits.rs" "Err(Refusal::Zeros)" => "Err(Refusal::Short)";
    "32 leading zeros are allowed":
        "bits.rs" "zeros >= TOO_MANY_ZEROS" => "zeros > TOO_MANY_ZEROS";
    "zeros past the end are counted":
        "bits.rs" "self.ready.min(self.word.leading_zeros() as usize)"
            => "self.word.leading_zeros() as usize;
        if zeros < TOO_MANY_ZEROS && zeros > self.ready {
            return Err(Refusal::Short);
        }";
    "the extension includes the one bit":
        "tail.rs" "(last - after) as u32" => "(last - after + 1) as u32";
    "a one bit of the message is taken for the tail's":
        "tail.rs" "Some(last) if last >= after => Ok((last - after) as u32)"
            => "Some(last) => Ok(last.saturating_sub(after) as u32)";
    "a message that ends on a byte boundary is given no tail":
        "tail.rs" "after == bits.end()" => "after % 8 == 0";

    "id 511 is not set aside":
        "frame_packing.rs" "256..=511" => "256..511";
    "id 2^31 is not set aside":
        "frame_packing.rs" "self.id >= 1 << 31" => "self.id > 1 << 31";
    "a cancel is not set aside for its id":
        "frame_packing.rs" "id || self.cancel == 0 && arrangement" => "self.cancel == 0 && (id || arrangement)";
    "grid positions are read under type 5":
        "frame_packing.rs" "self.quincunx == 0 && self.arrangement_type != 5" => "self.quincunx == 0";
    "grid positions are read under types 3 and 4 alone":
        "frame_packing.rs" "self.arrangement_type != 5" => "matches!(self.arrangement_type, 3 | 4)";
    "a cancel has no upsampled aspect ratio flag":
        "frame_packing.rs" "read_arrangement(bits, &mut message)?;\n    }\n    message"
            => "read_arrangement(bits, &mut message)?;\n    } else {\n        return Ok(message);\n    }\n    message";
    "guard types 4 to 7 are handed out as coded":
        "equirectangular.rs" "coded > 3" => "coded > 7";
    "pitch is judged by the bounds of yaw":
        "rotation.rs" "angle(bits, PITCH)" => "angle(bits, YAW_AND_ROLL)";
    "a yaw of 180 degrees is taken":
        "rotation.rs" "..=11_796_479" => "..=11_796_480";
    "projected width and height are exchanged":
        "region_wise.rs" "region.projected_width = bits.u32(32)?;\n    region.projected_height = bits.u32(32)?;"
            => "region.projected_height = bits.u32(32)?;\n    region.projected_width = bits.u32(32)?;";
    "a 17th region is taken and forgotten":
        "region_wise.rs" "> MOST_REGIONS {" => "> MOST_REGIONS + 1 {",
        "region_wise.rs" "Ok(count)" => "Ok(count.min(MOST_REGIONS as u8))";
    "a packed height of 0 is taken":
        "region_wise.rs" "rule(message.packed_height >= 1)" => "Ok(())";
    "alpha values have 8 bits and the coded depth":
        "alpha.rs" "+ 9" => "+ 8";
    "depth type 16 is taken":
        "depth.rs" "at_most(bits, 15)" => "at_most(bits, 16)";
    "the reference view is read where both disparities are there":
        "depth.rs" "d_min_flag | d_max_flag" => "d_min_flag & d_max_flag";
    "a 64th listed number is taken and forgotten":
        "depth.rs" "at_most(bits, 62)? as u8 + 1" => "at_most(bits, 63)?.min(62) as u8 + 1";
    "a listed 65,536 is taken":
        "depth.rs" "at_most(bits, 65_535)" => "at_most(bits, 65_536)";
    "the mantissa length less one is taken for the length":
        "depth.rs" "usize::from(mantissa_length_minus1) + 1" => "usize::from(mantissa_length_minus1).max(1)";
    "zero is negative where its sign is 1":
        "numbers.rs" "if mantissa == 0 {\n        return 0.0;"
            => "if mantissa == 0 {\n        return if sign { -0.0 } else { 0.0 };";
    "the byte after country code 254 is taken for its extension":
        "user_data.rs" "255 =>" => "254.. =>";
    "an extension byte of 255 is taken for 254":
        "user_data.rs" "255 => bits.u8(8)?" => "255 => bits.u8(8)?.min(254)";
    "an identifier of all ones is refused":
        "user_data.rs" "identifier: bits.u128()?"
            => "identifier: bits.u128().and_then(|all| (all != [255; 16]).then_some(all).ok_or(Refusal::Short))?";

    "opening an open slot keeps what it held":
        "slots.rs" "renew(self.at(slot), 1)"
            => "self.at(slot).map_or(8, |slot| {
                slot.open = 1;
                TAKEN
            })";
    "closing keeps what the slot held":
        "slots.rs" "renew(self.at_open(slot), 0)"
            => "self.at_open(slot).map_or(8, |slot| {
                slot.open = 0;
                TAKEN
            })";
    "a sequence call keeps what the slot held":
        "slots.rs" "renew(self.at_open(slot), 1)" => "self.at_open(slot).map_or(8, |_| TAKEN)";
    "a closed slot can be closed again":
        "slots.rs" "renew(self.at_open(slot), 0)" => "renew(self.at(slot), 0)";
    "the slot number counts in 32 bits":
        "slots.rs" "(slot < SLOTS as u64)" => "((slot as u32 as u64) < SLOTS as u64)",
        "slots.rs" "then_some(slot as usize)" => "then_some(slot as u32 as usize)";
    "a message that is set aside is held":
        "slots.rs" "answer.number == TAKEN" => "answer.record.is_some()";
    "a cancel keeps the older message":
        "slots.rs" "_ => Held::default()," => "_ => *self,";
    "a picture drops first and answers then":
        "slots.rs" "let held = slot.held;\n        slot.held.drop_unpersisting();"
            => "slot.held.drop_unpersisting();\n        let held = slot.held;";
    "a slot is open where its mark is not 0":
        "slots.rs" "self.at(slot).filter(|slot| slot.open == 1)" => "self.at(slot).filter(|slot| slot.open != 0)";
    "a record is held where its mark is not 0":
        "slots.rs" "(self.on == 1)" => "(self.on != 0)";
    "a held count above 16 gives a table of 16":
        "table.rs" "count @ 1..=MOST_REGIONS => Some(&message.regions[..count])"
            => "count @ 1.. => Some(&message.regions[..count.min(MOST_REGIONS)])";
    "half of an odd width is rounded up":
        "table.rs" "message.projected_width / 2" => "message.projected_width.div_ceil(2)";
    "quincunx sampling leaves no table":
        "table.rs" "match frame_packing?.arrangement_type"
            => "match frame_packing.filter(|held| held.quincunx == 0)?.arrangement_type";
    "room for the first picture's rows is enough":
        "table.rs" "get_mut(..ROW * rows)" => "get_mut(..ROW * regions.len())";
};

/// Builds and compares each variant, as many at a time as the machine has processors, and says at which
/// input it was caught.
pub fn all_are_caught(options: &Options) -> io::Result<bool> {
    let next = AtomicUsize::new(0);
    let results = Mutex::new(Vec::new());
    thread::scope(|scope| {
        for _ in 0..thread::available_parallelism().map_or(1, usize::from) {
            scope.spawn(|| {
                while let Some(variant) = VARIANTS.get(next.fetch_add(1, Ordering::Relaxed)) {
                    let caught = caught_at(options, variant);
                    if let Ok(mut results) = results.lock() {
                        results.push((variant.error, caught));
                    }
                }
            });
        }
    });
    let results = results.into_inner().unwrap_or_default();
    let mut all = results.len() == VARIANTS.len();
    for variant in VARIANTS {
        for (error, caught) in &results {
            if *error == variant.error {
                all &= say(error, caught);
            }
        }
    }
    if all {
        println!("compare: {} broken variants, all caught", VARIANTS.len());
    }
    Ok(all)
}

fn say(error: &str, caught: &io::Result<Option<u64>>) -> bool {
    match caught {
        Ok(Some(index)) => println!("{:>10}  {error}", grouped(*index)),
        Ok(None) => println!("not caught  {error}"),
        Err(fault) => println!("{fault}  {error}"),
    }
    matches!(caught, Ok(Some(_)))
}

/// How many inputs it took to see the error. A variant that ends in place of an answer is not seen by it.
fn caught_at(options: &Options, variant: &Variant) -> io::Result<Option<u64>> {
    let copy = edited_copy(options, variant)?;
    let difference = compare(options, &build(&copy)?)?.difference;
    fs::remove_dir_all(&copy)?;
    match difference {
        Some(difference) if difference.is_of_answers() => Ok(Some(difference.index + 1)),
        Some(_) => Err(io::Error::other("a process ended")),
        None => Ok(None),
    }
}

/// A folder with the reader's sources and the variant's error in them.
fn edited_copy(options: &Options, variant: &Variant) -> io::Result<PathBuf> {
    let name = variant
        .error
        .replace(|letter: char| !letter.is_alphanumeric(), "-");
    let copy = options.built.join("variants").join(name);
    for folder in ["independent", "compare"] {
        copy_sources(&options.tests.join(folder), &copy.join(folder))?;
    }
    for edit in variant.edits {
        apply(edit, &copy.join("independent").join(edit.file))?;
    }
    Ok(copy)
}

fn build(copy: &Path) -> io::Result<PathBuf> {
    let program = copy.join("reader");
    let built = Command::new("rustc")
        .args([
            "--edition",
            "2021",
            "-A",
            "warnings",
            "-C",
            "debug-assertions=off",
        ])
        .arg("-o")
        .arg(&program)
        .arg(copy.join("compare").join("reader.rs"))
        .status()?;
    if built.success() {
        Ok(program)
    } else {
        Err(io::Error::other("does not build"))
    }
}

fn copy_sources(from: &Path, to: &Path) -> io::Result<()> {
    fs::create_dir_all(to)?;
    for entry in fs::read_dir(from)? {
        let source = entry?.path();
        if let Some(name) = source.file_name().filter(|_| source.is_file()) {
            fs::copy(&source, to.join(name))?;
        }
    }
    Ok(())
}

fn apply(edit: &Edit, file: &Path) -> io::Result<()> {
    let text = fs::read_to_string(file)?;
    if text.matches(edit.right).count() != 1 {
        let message = format!("{} has not once the text {:?}", edit.file, edit.right);
        return Err(io::Error::other(message));
    }
    fs::write(file, text.replace(edit.right, edit.wrong))
}
