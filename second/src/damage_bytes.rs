//! Small sound tables with a record of every kind, and that record damaged at every byte, one and two at a time.

use crate::random::Random;
use crate::record::{init, load, put_read, put_written, store, update, Bytes};
use crate::table::{NONE, RECORD_BYTES};

/// What the record to be damaged is.
#[derive(Clone, Copy, Debug)]
pub enum Shape {
    /// Record 0.
    Root,
    /// A later Init.
    Init,
    Load {
        is_u: bool,
    },
    Store {
        is_u: bool,
    },
    Update {
        read_is_u: bool,
        written_is_u: bool,
    },
}

/// Every kind, with each of its values known and u.
pub const SHAPES: [Shape; 10] = [
    Shape::Root,
    Shape::Init,
    Shape::Load { is_u: false },
    Shape::Load { is_u: true },
    Shape::Store { is_u: false },
    Shape::Store { is_u: true },
    Shape::Update { read_is_u: false, written_is_u: false },
    Shape::Update { read_is_u: true, written_is_u: false },
    Shape::Update { read_is_u: false, written_is_u: true },
    Shape::Update { read_is_u: true, written_is_u: true },
];

/// How many records stand before the one to be damaged, but for the root, and how many after it.
const BEFORE: [usize; 5] = [2, 3, 4, 6, 17];
const AFTER: usize = 4;

/// A table, and the number of the record that is damaged in it.
#[derive(Clone, Debug)]
pub struct Table {
    pub records: Vec<Bytes>,
    pub place: usize,
}

impl Table {
    /// A sound table around a record of this shape; turns that follow each other put it at other places.
    pub fn sound(random: &mut Random, shape: Shape, turn: usize) -> Table {
        let token = two_bytes(random);
        let location = random.below(32) as u8;
        let mut records = match shape {
            Shape::Root => Vec::new(),
            _ => front(BEFORE[turn % BEFORE.len()], location, token),
        };
        let place = records.len();
        records.push(record_of(random, shape, &records, location, token));
        let behind = [init(15, place as u8), store(0, 15, place as u8 + 1, location, token), init(14, 0)];
        records.extend(&behind[..turn % AFTER]);
        Table { records, place }
    }

    pub fn record(&mut self) -> &mut Bytes {
        &mut self.records[self.place]
    }

    pub fn bytes(&self) -> Vec<u8> {
        self.records.concat()
    }
}

/// A value of which no byte is 0.
fn two_bytes(random: &mut Random) -> u16 {
    u16::from_le_bytes([not_zero(random), not_zero(random)])
}

fn not_zero(random: &mut Random) -> u8 {
    1 + random.below(255) as u8
}

/// The root, a store of the token, and thread 1 below it, which loads the token again and again.
fn front(size: usize, location: u8, token: u16) -> Vec<Bytes> {
    let mut records = vec![init(0, NONE), store(2, 0, 0, location, token), init(1, 1)];
    for number in 3..size {
        records.push(load(1, 1, number as u8 - 1, 1, location, token));
    }
    records.truncate(size);
    records
}

/// A record of the shape, below the last of the front; what reads has the token from record 1.
fn record_of(random: &mut Random, shape: Shape, front: &[Bytes], location: u8, token: u16) -> Bytes {
    let Some(above) = front.last() else { return init(0, NONE) };
    let (thread, parent) = (above[4], front.len() as u8 - 1);
    let (written, other) = (two_bytes(random), random.below(32) as u8);
    let (mut record, read_is_u, written_is_u) = match shape {
        Shape::Root | Shape::Init => (init(2, parent), false, false),
        Shape::Load { is_u } => {
            (load(random.pick(&[0, 1, 4]), thread, parent, 1, location, token), is_u, false)
        }
        Shape::Store { is_u } => {
            (store(random.pick(&[0, 2, 4]), thread, parent, other, written), false, is_u)
        }
        Shape::Update { read_is_u, written_is_u } => {
            let order = random.pick(&[3, 4]);
            (update(order, thread, parent, 1, location, token, written), read_is_u, written_is_u)
        }
    };
    if read_is_u {
        put_read(&mut record, None);
    }
    if written_is_u {
        put_written(&mut record, None);
    }
    record
}

/// How many values each byte is changed to.
pub const VALUES: usize = 9;

/// What a byte is changed to: its neighbours by a bit, edges of the fields, and any value. One may be its own.
pub fn values_for(random: &mut Random, right: u8) -> [u8; VALUES] {
    [right ^ 1, right ^ 0x80, 0, 2, 3, 4, 16, NONE, random.byte()]
}

/// A record of each shape with each byte changed to several values, one at a time.
pub fn one_byte_damaged(random: &mut Random) -> Vec<Table> {
    let mut list: Vec<Table> = Vec::new();
    for shape in SHAPES {
        for (byte, which) in (0..RECORD_BYTES).flat_map(|byte| (0..VALUES).map(move |which| (byte, which))) {
            let mut table = Table::sound(random, shape, list.len());
            let right = table.record()[byte];
            let value = values_for(random, right)[which];
            if value != right {
                table.record()[byte] = value;
                list.push(table);
            }
        }
    }
    list
}

/// How many tables of two damaged bytes each shape has: two for each pair of bytes.
pub const PAIRS: usize = RECORD_BYTES * (RECORD_BYTES - 1);

/// A record of each shape with each two bytes changed, to values wrong by themselves and to any values.
pub fn two_bytes_damaged(random: &mut Random) -> Vec<Table> {
    let mut list: Vec<Table> = Vec::new();
    for (number, shape) in SHAPES.into_iter().enumerate() {
        for (low, high) in (0..RECORD_BYTES).flat_map(|high| (0..high).map(move |low| (low, high))) {
            for wrong_alone in [true, false] {
                // A pair stands at another place in each shape.
                let mut table = Table::sound(random, shape, list.len() + number);
                for byte in [low, high] {
                    let value = wrong_value(random, byte, table.place);
                    let any = another_value(random, table.record()[byte]);
                    table.record()[byte] = if wrong_alone { value } else { any };
                }
                list.push(table);
            }
        }
    }
    list
}

fn another_value(random: &mut Random, right: u8) -> u8 {
    loop {
        let values = values_for(random, right);
        let value = random.pick(&values);
        if value != right {
            return value;
        }
    }
}

/// A value that is wrong in this byte of a record at this place, whatever its kind, where there is one. (A value
/// that is known may be any number, so that bytes 10 to 13 are wrong only where they should rest.)
pub fn wrong_value(random: &mut Random, byte: usize, place: usize) -> u8 {
    let at_least = |random: &mut Random, least: usize| (least + random.below(256 - least)) as u8;
    match byte {
        0 => 0x45 ^ not_zero(random),
        1 => 0x56 ^ not_zero(random),
        2 | 8 => at_least(random, 4),
        3 => at_least(random, 5),
        4 => at_least(random, 16),
        5 => random.pick(&[place as u8, 64, 200, 254]),
        6 => random.pick(&[0, place as u8, 64, 200, 254]),
        7 => at_least(random, 32),
        _ => not_zero(random),
    }
}
