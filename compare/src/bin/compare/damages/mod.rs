//! What may be wrong with a supplier's list with evidence: `supply` is the list, the other files have the damages, each
//! to one part of it.

mod bytes;
mod entries;
mod keys;
mod records;
mod sets;
mod supply;

pub use supply::{Files, Supply};

use compare::random::Random;

/// Alters a supply; the second one is of another catalogue.
type Damage = fn(&mut Random, &mut Supply, &Supply);

const DAMAGES: [Damage; 47] = [
    entries::drop_entry,
    entries::drop_all_entries,
    entries::add_entry,
    entries::add_withheld,
    entries::exchange_withheld,
    keys::add_dropped,
    keys::add_dropped,
    keys::add_all_dropped,
    keys::add_above_dropped,
    keys::add_above_dropped,
    keys::drop_key,
    keys::drop_all_keys,
    keys::columns_for_key,
    keys::column_as_key,
    keys::key_of_another_target,
    keys::key_for_all,
    entries::double_entry,
    entries::exchange_entries,
    entries::spare_column,
    entries::spare_column,
    entries::column_less,
    entries::unknown_target,
    entries::unknown_column,
    entries::unknown_right,
    entries::other_list,
    entries::other_list_beside,
    records::drop_record,
    records::drop_unbacked_records,
    records::drop_records_of_right,
    records::repeat_record,
    records::shuffle_records,
    records::reverse_rows,
    records::wrong_rows,
    records::one_row_twice,
    records::right_inside,
    records::row_out_of_range,
    records::unknown_target,
    records::unknown_column,
    records::unknown_right,
    records::another_right,
    records::another_target,
    records::smaller_set,
    records::larger_set,
    records::other_evidence,
    records::other_evidence_beside,
    bytes::bytes_in_front,
    bytes::other_catalogue,
];

/// Alters the bytes of a file.
type Tear = fn(&mut Random, &mut Files, &Supply);

const TEARS: [Tear; 8] = [
    bytes::damage_catalogue,
    bytes::damage_list,
    bytes::byte_less,
    bytes::byte_more,
    bytes::altered_evidence,
    bytes::any_list,
    bytes::any_evidence,
    bytes::no_evidence,
];

/// One damage. After some the list is accepted still.
pub fn one(random: &mut Random, supply: &Supply, other: &Supply) -> Files {
    if random.once_in(4) {
        altered(random, supply)
    } else {
        damaged(random, supply, other, 1).files()
    }
}

/// Two to four damages, the last to bytes or not.
pub fn several(random: &mut Random, supply: &Supply, other: &Supply) -> Files {
    if random.once_in(2) {
        let count = random.from_to(1, 3);
        let supply = damaged(random, supply, other, count);
        altered(random, &supply)
    } else {
        let count = random.from_to(2, 4);
        damaged(random, supply, other, count).files()
    }
}

fn damaged(random: &mut Random, supply: &Supply, other: &Supply, count: usize) -> Supply {
    let mut supply = supply.clone();
    for _ in 0..count {
        random.pick(&DAMAGES)(random, &mut supply, other);
    }
    supply
}

fn altered(random: &mut Random, supply: &Supply) -> Files {
    let mut files = supply.files();
    random.pick(&TEARS)(random, &mut files, supply);
    files
}

/// A file cut at every length, lengthened, and with each of its bytes altered.
pub fn every(file: &[u8]) -> Vec<Vec<u8>> {
    let mut files: Vec<Vec<u8>> = (0..file.len()).map(|len| file[..len].to_vec()).collect();
    files.push([file, &[0]].concat());
    for at in 0..file.len() {
        for byte in [0, 1, 2, 3, 15, 16, 254, 255, file[at].wrapping_add(1), file[at].wrapping_sub(1)] {
            let mut file = file.to_vec();
            file[at] = byte;
            files.push(file);
        }
    }
    files
}
