//! Tables of two rings of one finding: the least cycle is not the first that a search meets, or one of several.

use crate::builder::Builder;
use crate::gadgets::{arm_ring, double_update, home_sc_ring, sc_ring, store_ring, update_ring};
use crate::record::Bytes;
use crate::sc_gadgets::{far_fr_ring, two_stores_ring};

const ACQ: u8 = 1;
const REL: u8 = 2;

/// A ring below a record, of a length of its own.
type Ring = fn(&mut Builder, u8);

/// Rings that A1 shows.
const A1_RINGS: [Ring; 8] = [
    |b, base| store_ring(b, base, 2, REL, ACQ),
    |b, base| store_ring(b, base, 3, REL, ACQ),
    |b, base| store_ring(b, base, 4, REL, ACQ),
    |b, base| store_ring(b, base, 5, REL, ACQ),
    |b, base| arm_ring(b, base, 2),
    |b, base| arm_ring(b, base, 3),
    |b, base| arm_ring(b, base, 4),
    |b, base| arm_ring(b, base, 6),
];

/// Rings that A4 shows.
const A4_RINGS: [Ring; 9] = [
    double_update,
    |b, base| update_ring(b, base, 3),
    |b, base| sc_ring(b, base, 2, false),
    |b, base| sc_ring(b, base, 2, true),
    |b, base| home_sc_ring(b, base, 2),
    |b, base| home_sc_ring(b, base, 3),
    |b, base| two_stores_ring(b, base, 2, false),
    |b, base| two_stores_ring(b, base, 3, false),
    |b, base| far_fr_ring(b, base, 2),
];

/// Each two rings of one finding, in either order, that fit into a table of so many records.
pub fn tables_of_two_rings(most: usize) -> Vec<Vec<Bytes>> {
    let mut tables = Vec::new();
    for rings in [&A1_RINGS[..], &A4_RINGS[..]] {
        for (first, second) in rings.iter().flat_map(|first| rings.iter().map(move |second| (first, second)))
        {
            let mut b = Builder::default();
            for ring in [first, second] {
                let base = b.thread(0);
                ring(&mut b, base);
            }
            tables.push(b.table);
        }
    }
    tables.retain(|table| table.len() <= most);
    tables
}
