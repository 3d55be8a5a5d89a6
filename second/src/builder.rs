//! A table under construction.

use crate::record::{init, load, load_u, store, update, update_u, Bytes};
use crate::table::NONE;

/// "thread, 0 to 15"
pub const THREADS: u8 = 16;

/// A table under construction, with threads and locations that are still free.
pub struct Builder {
    pub table: Vec<Bytes>,
    next_thread: u8,
    next_location: u8,
}

impl Default for Builder {
    fn default() -> Builder {
        Builder { table: vec![init(0, NONE)], next_thread: 1, next_location: 0 }
    }
}

impl Builder {
    pub fn push(&mut self, record: Bytes) -> u8 {
        self.table.push(record);
        self.table.len() as u8 - 1
    }

    pub fn thread_of(&self, number: u8) -> u8 {
        self.table[number as usize][4]
    }

    pub fn location(&mut self) -> u8 {
        self.next_location += 1;
        self.next_location - 1
    }

    /// Whether there is a thread not used before.
    pub fn has_thread(&self) -> bool {
        self.next_thread < THREADS
    }

    /// An Init of a thread not used before.
    pub fn thread(&mut self, parent: u8) -> u8 {
        self.next_thread += 1;
        self.push(init(self.next_thread - 1, parent))
    }

    pub fn store(&mut self, order: u8, parent: u8, location: u8, value: u16) -> u8 {
        self.push(store(order, self.thread_of(parent), parent, location, value))
    }

    /// A load of what the source wrote.
    pub fn load(&mut self, order: u8, parent: u8, source: u8) -> u8 {
        let written = self.table[source as usize];
        let value = u16::from_le_bytes([written[12], written[13]]);
        self.push(load(order, self.thread_of(parent), parent, source, written[7], value))
    }

    /// A load of u without a source.
    pub fn load_u(&mut self, order: u8, parent: u8, location: u8) -> u8 {
        self.push(load_u(order, self.thread_of(parent), parent, NONE, location))
    }

    /// An update of what the source wrote.
    pub fn update(&mut self, order: u8, parent: u8, source: u8, value: u16) -> u8 {
        let written = self.table[source as usize];
        let read = u16::from_le_bytes([written[12], written[13]]);
        self.push(update(order, self.thread_of(parent), parent, source, written[7], read, value))
    }

    /// An update that reads u without a source.
    pub fn update_u(&mut self, order: u8, parent: u8, location: u8, value: u16) -> u8 {
        self.push(update_u(order, self.thread_of(parent), parent, NONE, location, value))
    }
}
