//! Making the sixteen bytes of a record, for the examples and the generator.

pub type Bytes = [u8; 16];

/// The bytes that every record shares; all fields that a kind may lack are at rest.
fn blank(kind: u8, order: u8, thread: u8, parent: u8) -> Bytes {
    [0x45, 0x56, kind, order, thread, parent, 255, 0, 0, 0, 0, 0, 0, 0, 0, 0]
}

/// A value is `None` for u.
pub fn put_read(record: &mut Bytes, value: Option<u16>) {
    record[8] = (record[8] & 2) | u8::from(value.is_none());
    record[10..12].copy_from_slice(&value.unwrap_or(0).to_le_bytes());
}

/// A value is `None` for u.
pub fn put_written(record: &mut Bytes, value: Option<u16>) {
    record[8] = (record[8] & 1) | if value.is_none() { 2 } else { 0 };
    record[12..14].copy_from_slice(&value.unwrap_or(0).to_le_bytes());
}

pub fn init(thread: u8, parent: u8) -> Bytes {
    blank(0, 0, thread, parent)
}

pub fn load(order: u8, thread: u8, parent: u8, source: u8, location: u8, read: u16) -> Bytes {
    let mut record = load_u(order, thread, parent, source, location);
    put_read(&mut record, Some(read));
    record
}

pub fn load_u(order: u8, thread: u8, parent: u8, source: u8, location: u8) -> Bytes {
    let mut record = blank(1, order, thread, parent);
    record[6] = source;
    record[7] = location;
    put_read(&mut record, None);
    record
}

pub fn store(order: u8, thread: u8, parent: u8, location: u8, written: u16) -> Bytes {
    let mut record = blank(2, order, thread, parent);
    record[7] = location;
    put_written(&mut record, Some(written));
    record
}

pub fn update(order: u8, thread: u8, parent: u8, source: u8, location: u8, read: u16, written: u16) -> Bytes {
    let mut record = update_u(order, thread, parent, source, location, written);
    put_read(&mut record, Some(read));
    record
}

/// An update that reads u.
pub fn update_u(order: u8, thread: u8, parent: u8, source: u8, location: u8, written: u16) -> Bytes {
    let mut record = blank(3, order, thread, parent);
    record[6] = source;
    record[7] = location;
    put_read(&mut record, None);
    put_written(&mut record, Some(written));
    record
}
