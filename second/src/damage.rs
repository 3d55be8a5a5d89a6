//! Damaging well-formed tables, so that they reach a chosen refusal at a chosen record.

use crate::random::Random;
use crate::record::Bytes;
use crate::table::{read_table, Refusal, MOST_RECORDS, NONE};

/// The table with one record damaged so that this refusal is its answer, if chance finds a way.
pub fn damage(random: &mut Random, table: &[Bytes], number: u8, place: usize) -> Option<Vec<Bytes>> {
    for _ in 0..120 {
        let mut damaged = table.to_vec();
        damage_once(random, &mut damaged, number, place);
        let is_meant = |refusal: Refusal| (refusal.number, refusal.place) == (number, place);
        if read_table(&damaged.concat()).is_err_and(is_meant) {
            return Some(damaged);
        }
    }
    None
}

/// One change of the kind that leads to this refusal number; it may also lead elsewhere.
pub fn damage_once(random: &mut Random, table: &mut [Bytes], number: u8, place: usize) {
    let size = table.len();
    let any = random.byte();
    let near = random.below(size + 2) as u8;
    let most = MOST_RECORDS as u8;
    let link = random.pick(&[any, near, place as u8, NONE, 64, most, 254, size as u8, place as u8 + 1]);
    let small = random.below(6) as u8;
    match number {
        2 => table[place][random.below(2)] ^= any.max(1),
        3 => table[place][random.pick(&[2, 3])] = random.pick(&[small, small, any, 5, 255]),
        4 => damage_rest(random, &mut table[place], any),
        5 => table[place][random.pick(&[4, 7])] = random.pick(&[16, 17, 31, 32, 33, 255, any]),
        6 => damage_parent(random, &mut table[place], link),
        7 => damage_source(random, &mut table[place], link, any),
        _ => damage_sibling(random, table, place),
    }
}

fn damage_rest(random: &mut Random, record: &mut Bytes, any: u8) {
    match random.below(4) {
        0 => record[8] = random.pick(&[1, 2, 3, 4, 5, 128, 255, any]),
        1 => record[random.pick(&[9, 14, 15])] = any.max(1),
        2 => record[random.pick(&[6, 7])] = random.pick(&[0, 1, 31, any]),
        _ => record[random.pick(&[10, 11, 12, 13])] = any.max(1),
    }
}

fn damage_parent(random: &mut Random, record: &mut Bytes, link: u8) {
    match random.below(4) {
        0 => record[4] = random.below(16) as u8,
        1 => *record = crate::record::init(random.below(16) as u8, link),
        2 if record[2] == 0 => *record = crate::record::store(0, record[4], record[5], 0, 0),
        _ => record[5] = link,
    }
}

fn damage_source(random: &mut Random, record: &mut Bytes, link: u8, any: u8) {
    match random.below(4) {
        0 => record[7] = random.below(32) as u8,
        1 => record[8] ^= 1,
        2 => record[10 + random.below(2)] = any,
        _ => record[6] = link,
    }
}

/// The record becomes an earlier one's sibling: a copy of it, or one with its parent.
fn damage_sibling(random: &mut Random, table: &mut [Bytes], place: usize) {
    let earlier = table[random.below(place.max(1))];
    if random.percent(50) {
        table[place] = earlier;
    } else {
        table[place][4] = earlier[4];
        table[place][5] = earlier[5];
    }
}

/// Any byte of any record set to any or an edge value.
pub fn scatter(random: &mut Random, table: &mut [Bytes]) {
    let edges = [0, 1, 2, 3, 4, 5, 15, 16, 31, 32, 63, 64, 127, 128, 199, 200, 254, 255];
    let place = random.below(table.len());
    let position = random.below(16);
    table[place][position] = if random.percent(80) { random.pick(&edges) } else { random.byte() };
}
