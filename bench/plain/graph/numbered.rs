//! Objects as labels see them: each identifier that an object holds has a number.

use super::Graph;
use crate::dump::Text;

impl<const ID: usize> Graph<'_, ID> {
    /// Returns the number of the class with this ID.
    pub fn class_named(&self, id: u64) -> Option<u32> {
        self.class_numbers.get(&id).copied()
    }

    /// Returns the row of `object`.
    pub fn row_of(&self, object: u32) -> u32 {
        let at = self.at(object);
        match self.text.bytes[at] {
            0x20 => self.rows().of_class_objects(),
            0x21 | 0x22 => self.class_of(at),
            _ => self.rows().of_primitives(self.text.bytes[at + 9 + ID]),
        }
    }

    /// Returns the bytes of `object`.
    pub fn bytes_of(&self, object: u32) -> u64 {
        let at = self.at(object);
        let bytes = match self.text.bytes[at] {
            0x20 => self.visit_class(at, |_| {}),
            0x21 => self.text.u4(at + 5 + 2 * ID),
            0x22 => self.text.u4(at + 5 + ID) * ID,
            _ => self.text.u4(at + 5 + ID) * self.text.size_of_type(self.text.bytes[at + 9 + ID]).unwrap(),
        };
        bytes as u64
    }

    /// Passes to `take` each object that `object`, whose row is `row`, refers to, after the number of the identifier
    /// that names it. Identifiers are numbered from 0: of a class as in `visit_class`; of others first the class, then
    /// the fields in the order of the layout, or the elements. The numbers rise; those of identifiers that name no
    /// object are left out.
    pub fn visit_numbered(&self, object: u32, row: u32, mut take: impl FnMut(u32, u32)) {
        let at = self.at(object);
        let mut number = 0;
        if let Some(class) = self.classes.get(row as usize) {
            take(0, class.object);
            number = 1;
        }
        let take_id = |id| {
            if id != 0
                && let Some(target) = self.find(id)
            {
                take(number, target);
            }
            number += 1;
        };
        match self.text.bytes[at] {
            0x20 => {
                self.visit_class(at, take_id);
            }
            0x21 => self.each_field(at, &self.classes[row as usize], take_id),
            0x22 => {
                let elements = &self.text.bytes[at + 9 + 2 * ID..][..self.text.u4(at + 5 + ID) * ID];
                elements.chunks_exact(ID).map(|element| Text::<ID> { bytes: element }.id(0)).for_each(take_id);
            }
            _ => {}
        }
    }
}
