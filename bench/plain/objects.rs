//! One pass over the objects of a dump: their index, and which of them are classes.

use crate::dump::{Dump, Text};
use crate::index::{Index, LowBits};

pub struct Objects {
    pub index: Index,
    /// The numbers of the class dumps.
    pub classes: Vec<u32>,
}

impl Objects {
    pub fn of<const ID: usize>(text: Text<ID>, dump: &Dump) -> Objects {
        let first = dump.objects.first().map_or(0, |at| text.id(*at as usize + 1));
        let objects = LowBits::to_try(first).into_iter().find_map(|low| Objects::with(text, dump, low));
        objects.expect("the last way to try does for all")
    }

    /// The objects of `dump`, if all their IDs have the lowest bits `low`.
    fn with<const ID: usize>(text: Text<ID>, dump: &Dump, low: LowBits) -> Option<Objects> {
        let mut classes = vec![];
        let id = |number: usize| text.id(dump.objects[number] as usize + 1);
        let ids = (0..).zip(&dump.objects).map(|(number, at)| {
            let at = *at as usize;
            if text.bytes[at] == 0x20 {
                classes.push(number);
            }
            text.id(at + 1)
        });
        let index = Index::new(dump.objects.len(), id, ids, low)?;
        Some(Objects { index, classes })
    }
}
