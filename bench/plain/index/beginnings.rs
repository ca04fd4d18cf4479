//! Where the extents of a page begin.

use super::extents::Extent;
use std::ops::Range;

/// The most extents that a look-up passes one after the other.
const MANY: usize = 64;

/// How far before and after a guess a look-up first tests an extent, if there are more than `MANY` extents.
const REACH: usize = 32;

/// A table: for each value of the leading bits of a page less the least page, the index of the first extent.
pub struct Beginnings {
    least: u64,
    shift: u32,
    starts: Vec<u32>,
}

impl Beginnings {
    /// Makes the table of `extents`, which are in order.
    pub fn of(extents: &[Extent]) -> Beginnings {
        let least = extents.first().map_or(0, |extent| extent.page);
        let span = extents.last().map_or(0, |extent| extent.page - least);
        let mut shift = 0;
        while span >> shift > extents.len() as u64 / 2 {
            shift += 1;
        }
        let mut starts = vec![extents.len() as u32; (span >> shift) as usize + 2];
        for (granule, extent) in extents.iter().enumerate().rev() {
            starts[((extent.page - least) >> shift) as usize] = granule as u32;
        }
        for slot in (1..starts.len()).rev() {
            starts[slot - 1] = starts[slot - 1].min(starts[slot]);
        }
        Beginnings { least, shift, starts }
    }

    /// The index of the first of `extents` whose page is `page` or above; None if no extent of `page` is possible.
    pub fn first_from(&self, extents: &[Extent], page: u64) -> Option<usize> {
        let within = page.checked_sub(self.least)?;
        let slot = (within >> self.shift) as usize;
        let end = *self.starts.get(slot + 1)? as usize;
        let mut range = self.starts[slot] as usize..end;
        let near = range.start + self.guess(within, range.len());
        if range.len() > MANY {
            range = narrowed(extents, range, near, page);
        }
        let mut at = near.clamp(range.start, range.end);
        while at > range.start && extents[at - 1].page >= page {
            at -= 1;
        }
        while at < range.end && extents[at].page < page {
            at += 1;
        }
        Some(at)
    }

    /// About where the page would be among the `count` extents of its slot if these were evenly spread. Only the time
    /// of a look-up depends on it.
    fn guess(&self, within: u64, count: usize) -> usize {
        let low = within & !(u64::MAX << self.shift);
        (low.wrapping_mul(count as u64) >> self.shift) as usize
    }
}

/// Narrows `range` to at most `MANY` indexes. The first extent of `page` or above is among them or just after them.
/// They are around the guess `near` if the guess is good, and otherwise what is left after halving.
fn narrowed(extents: &[Extent], mut range: Range<usize>, near: usize, page: u64) -> Range<usize> {
    let look = |range: Range<usize>, at: usize| match range.contains(&at) {
        false => range,
        true if extents[at].page < page => at + 1..range.end,
        true => range.start..at,
    };
    range = look(range, near.saturating_sub(REACH));
    range = look(range, near.saturating_add(REACH));
    while range.len() > MANY {
        let middle = range.start + range.len() / 2;
        range = look(range, middle);
    }
    range
}
