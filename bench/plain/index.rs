//! Look-ups of objects by ID. There are extents of neighbours in order, with a table of where they begin; or, for
//! objects in no order, entries of ID and number.

mod beginnings;
mod entries;
mod extents;
#[cfg(test)]
mod tests;

use beginnings::Beginnings;
use entries::Entries;
use extents::{Extent, GRANULES, gather, settle, sort};

/// The lowest bits, which are the same in all IDs, and how many they are. They are cut off before an ID is split into
/// page and granule.
#[derive(Clone, Copy)]
pub struct LowBits {
    count: u32,
    bits: u64,
}

impl LowBits {
    /// The low bits to try in turn, given the first ID: its lowest three, since objects mostly stand eight bytes or a
    /// multiple of that apart; then no bits, which fits any IDs.
    pub fn to_try(first: u64) -> [LowBits; 2] {
        [LowBits { count: 3, bits: first % 8 }, LowBits { count: 0, bits: 0 }]
    }

    /// The page of `id` and its granule on the page, if it has these lowest bits.
    fn page_and_granule(self, id: u64) -> Option<(u64, u32)> {
        let cut = id >> self.count;
        (id % (1 << self.count) == self.bits).then_some((cut / GRANULES, (cut % GRANULES) as u32))
    }
}

/// Finds objects by their IDs. If several objects have one ID, finds the first.
pub struct Index {
    low: LowBits,
    /// In place of the extents, for objects in no order.
    entries: Option<Entries>,
    /// In order, at most 64 of each page.
    extents: Vec<Extent>,
    beginnings: Beginnings,
    repeat: Option<u32>,
}

impl Index {
    /// The index of `count` objects, if all of their IDs have these lowest bits. `id` reads the ID of the object with a
    /// number, as often as wanted; `ids` yields the IDs of all objects in order, and is read at most once.
    pub fn new(
        count: usize,
        id: impl Fn(usize) -> u64,
        mut ids: impl Iterator<Item = u64>,
        low: LowBits,
    ) -> Option<Index> {
        let entries = Entries::of(count, id, ids.by_ref(), low);
        let mut extents = match entries {
            Some(_) => vec![],
            None => gather(ids.map(|id| low.page_and_granule(id)))?,
        };
        sort(&mut extents);
        let repeat = settle(&mut extents);
        let beginnings = Beginnings::of(&extents);
        Some(Index { low, entries, extents, beginnings, repeat })
    }

    pub fn find(&self, id: u64) -> Option<u32> {
        let (page, granule) = self.low.page_and_granule(id)?;
        if let Some(entries) = &self.entries {
            return entries.find(page, granule);
        }
        let first = self.beginnings.first_from(&self.extents, page)?;
        let mut of_page = self.extents[first..].iter().take_while(|extent| extent.page == page);
        of_page.find(|extent| extent.has(granule)).map(|extent| extent.number_at(granule))
    }

    /// The least number of an object whose ID an earlier object has.
    pub fn first_repeat(&self) -> Option<u32> {
        self.repeat
    }
}
