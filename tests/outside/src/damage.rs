//! Lists with something wrong in them: a valid list, damaged in a place or two. Which refusal that makes, if any, is
//! not known here.

use crate::feeds::noise;
use chance::Chance;
use doors::records::{Fields, RECORD, WITHDRAW};

/// Damages a list. Half the time one record is damaged more than once, so that the order of the rules is tried.
pub fn damage(list: &mut Vec<u8>, chance: &mut Chance) {
    if list.len() < RECORD || chance.happens(0.1) {
        let odd = chance.below(RECORD as u64) as usize;
        list.extend(noise(odd, chance));
        return;
    }
    let places: Vec<usize> = (0..list.len() / RECORD).collect();
    let place = RECORD * chance.pick(&places);
    let record = list[place..].first_chunk_mut::<RECORD>().expect("a whole record stands there");
    for _ in 0..*chance.pick(&[1, 1, 2, 3]) {
        damage_record(record, chance);
    }
}

fn damage_record(record: &mut [u8; RECORD], chance: &mut Chance) {
    let mut fields = Fields::of(*record);
    match chance.below(6) {
        0 => fields.length = *chance.pick(&[32, 33, 34, 128, 255]),
        1 => fields.address |= 1 << chance.below(32),
        2 => fields.action = *chance.pick(&[0, 1, 2, 3, 4, 255]),
        3 => fields.hop = *chance.pick(&[0, 1, 64, 65, 255, 256, 257, 258, 320, 512, 0x8000, 0xFFFF]),
        4 => (fields.action, fields.hop) = (WITHDRAW, 0),
        _ => fields = Fields::of((u64::from_be_bytes(*record) ^ (1 << chance.below(64))).to_be_bytes()),
    }
    *record = fields.bytes();
}
