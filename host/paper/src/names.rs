//! The names of the slots that a check has passed.

use crate::name::{Name, folded};

/// So many names are looked through one after the other; with more a table by hash is faster.
const LIST_NAMES: usize = 24;

/// Places of the table: a power of two, and more than twice the 778 names that a directory can have.
const TABLE_PLACES: usize = 2_048;

/// A set of names, in which capitals or not a name is the same.
pub struct Names {
    list: [Name; LIST_NAMES],
    count: usize,
    /// The names once there are many, each at the first free place from its hash on. A place without one holds zeros, which are
    /// no name's: the first byte of a name is not 0.
    table: Vec<Name>,
}

impl Names {
    pub const EMPTY: Names = Names {
        list: [[0; 10]; LIST_NAMES],
        count: 0,
        table: Vec::new(),
    };

    /// Adds a name, and tells whether it is new.
    pub fn add(&mut self, name: &Name) -> bool {
        let name = folded(name);
        if self.count == LIST_NAMES {
            self.fill_table();
        }
        let new = match self.count {
            ..LIST_NAMES => self.add_to_list(name),
            _ => self.add_to_table(name),
        };
        self.count += usize::from(new);
        new
    }

    /// Puts a name behind the first ones, and tells whether it is none of them.
    fn add_to_list(&mut self, name: Name) -> bool {
        let new = !self.list[..self.count].contains(&name);
        if new {
            self.list[self.count] = name;
        }
        new
    }

    /// Puts the first names into the table.
    fn fill_table(&mut self) {
        self.table = vec![[0; 10]; TABLE_PLACES];
        for name in self.list {
            self.add_to_table(name);
        }
    }

    /// Puts a name into the table, and tells whether it was not there.
    fn add_to_table(&mut self, name: Name) -> bool {
        let mut place = hash(&name);
        loop {
            match self.table[place] {
                [0, ..] => break,
                other if other == name => return false,
                _ => place = (place + 1) % TABLE_PLACES,
            }
        }
        self.table[place] = name;
        true
    }
}

/// Where the search for a name begins.
fn hash(name: &Name) -> usize {
    let [a, b, c, d, e, f, g, h, i, j] = *name;
    let (front, back) = (
        u64::from_le_bytes([a, b, c, d, e, f, g, h]),
        u64::from(u16::from_le_bytes([i, j])),
    );
    let mixed = (front ^ back << 48).wrapping_mul(0x9e37_79b9_7f4a_7c15);
    (mixed >> (64 - TABLE_PLACES.ilog2())) as usize
}

#[cfg(test)]
mod tests {
    use super::*;

    #[test]
    fn a_name_is_new_once() {
        let name = |number: usize| *format!("a{number:<9}").as_bytes().first_chunk::<10>().expect("ten bytes");
        for many in [1, LIST_NAMES - 1, LIST_NAMES, LIST_NAMES + 1, 80, 778] {
            let mut names = Names::EMPTY;
            assert!((0..many).all(|number| names.add(&name(number))));
            assert!((0..many).all(|number| !names.add(&name(number).map(|byte| byte.to_ascii_uppercase()))));
            assert!(names.add(&name(many)));
        }
    }
}
