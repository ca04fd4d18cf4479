//! Entries of ID and number, ordered by ID, for objects in no order. A word of bits and an index for each page guess
//! where the entry of an ID is.

use super::LowBits;
use super::extents::GRANULES;

/// The most pages that entries may span: their granules are 2^32.
const MOST_PAGES: u64 = 1 << 26;

/// The number of stretches of objects that are sampled, and of neighbouring objects in each.
const STRETCHES: usize = 64;
const NEIGHBOURS: usize = 1024;

/// A sixteenth of the pages that a sample spans is added on either side. So most heaps need no second pass to find
/// their least and their greatest page.
const MARGIN: u64 = 16;

/// An object's number, and its ID with the low bits shifted out, minus the first granule of the least page.
#[derive(Clone, Copy, Default)]
struct Entry {
    at: u32,
    number: u32,
}

/// The granules of a page that have an object, a bit for each, and the index of the first one's entry.
#[derive(Clone, Copy, Default)]
struct Page {
    granules: u64,
    begin: u32,
}

impl Page {
    fn entry_of(self, granule: u32) -> usize {
        self.begin as usize + (self.granules & ((1 << granule) - 1)).count_ones() as usize
    }
}

/// Objects by their IDs, which all differ.
pub struct Entries {
    least: u64,
    /// From the least page to the greatest.
    pages: Vec<Page>,
    entries: Vec<Entry>,
}

impl Entries {
    /// Returns the entries of `count` objects, if the objects are in no order, their pages are close together, and
    /// their IDs all differ and have the low bits `low`. `id(number)` is the ID of object `number`. `ids` yields the
    /// IDs of objects 0, 1, 2 and so on; it is read if entries are made.
    pub fn of(
        count: usize,
        id: impl Fn(usize) -> u64,
        ids: impl Iterator<Item = u64>,
        low: LowBits,
    ) -> Option<Entries> {
        let (first, last) = ends_if_scattered(count, &id, low)?;
        let margin = (last - first) / MARGIN;
        let (least, pages) = noted(count, &id, low, (first.saturating_sub(margin), last + margin)).or_else(|| {
            let ends = ends(count, &id, low)?;
            noted(count, &id, low, ends)
        })?;
        let entries = placed(least, &pages, count, ids, low);
        Some(Entries { least, pages, entries })
    }

    pub fn find(&self, page: u64, granule: u32) -> Option<u32> {
        let within = page.checked_sub(self.least)?;
        let guess = self.pages.get(within as usize)?.entry_of(granule);
        let at = (within * GRANULES) as u32 + granule;
        if let Some(entry) = self.entries.get(guess).filter(|entry| entry.at == at) {
            return Some(entry.number);
        }
        let found = self.entries.binary_search_by_key(&at, |entry| entry.at).ok()?;
        Some(self.entries[found].number)
    }

    #[cfg(test)]
    pub fn len(&self) -> usize {
        self.entries.len()
    }
}

/// Samples objects. Returns their least and their greatest page, if more than half of them begin an extent.
fn ends_if_scattered(count: usize, id: impl Fn(usize) -> u64, low: LowBits) -> Option<(u64, u64)> {
    let step = (count / STRETCHES).max(NEIGHBOURS);
    let (mut extents, mut seen) = (0, 0);
    let (mut least, mut greatest) = (u64::MAX, 0);
    for start in (0..STRETCHES).map(|stretch| stretch * step) {
        let mut last = None;
        for number in start..count.min(start + NEIGHBOURS) {
            let (page, granule) = low.page_and_granule(id(number))?;
            let goes_on = last.is_some_and(|(before, at)| before == page && at < granule);
            extents += usize::from(!goes_on);
            seen += 1;
            last = Some((page, granule));
            (least, greatest) = (page.min(least), page.max(greatest));
        }
    }
    (extents > seen / 2).then_some((least, greatest))
}

/// Returns the least and the greatest page of the objects, if all their IDs have the low bits `low`.
fn ends(count: usize, id: impl Fn(usize) -> u64, low: LowBits) -> Option<(u64, u64)> {
    (0..count).try_fold((u64::MAX, 0), |(least, greatest), number| {
        let (page, _) = low.page_and_granule(id(number))?;
        Some((page.min(least), page.max(greatest)))
    })
}

/// Notes the objects on the pages from `least` to `greatest`. Returns the number of the first page with an object, and
/// the pages from there to the last one with an object. Returns `None` if an object is elsewhere or has other low bits
/// than `low`, if two objects have one ID, or if there are too many pages.
fn noted(
    count: usize,
    id: impl Fn(usize) -> u64,
    low: LowBits,
    (least, greatest): (u64, u64),
) -> Option<(u64, Vec<Page>)> {
    if greatest - least >= MOST_PAGES.min(count as u64 / 2) {
        return None;
    }
    let mut bits = vec![0u64; (greatest - least) as usize + 1];
    for number in 0..count {
        let (page, granule) = low.page_and_granule(id(number))?;
        *bits.get_mut(page.checked_sub(least)? as usize)? |= 1 << granule;
    }
    let begin = bits.iter().position(|granules| *granules != 0)?;
    let end = bits.iter().rposition(|granules| *granules != 0)? + 1;
    let mut before = 0;
    let pages = bits[begin..end].iter().map(|granules| {
        let page = Page { granules: *granules, begin: before };
        before += granules.count_ones();
        page
    });
    let pages = pages.collect();
    (before as usize == count).then_some((least + begin as u64, pages))
}

/// Returns the entries of the `count` objects, each at the index that `pages` guess for it. `ids` are their IDs,
/// by number.
fn placed(least: u64, pages: &[Page], count: usize, ids: impl Iterator<Item = u64>, low: LowBits) -> Vec<Entry> {
    let mut entries = vec![Entry::default(); count];
    for (number, id) in (0..).zip(ids) {
        let Some((page, granule)) = low.page_and_granule(id) else { continue };
        let within = page - least;
        entries[pages[within as usize].entry_of(granule)] = Entry { at: (within * GRANULES) as u32 + granule, number };
    }
    entries
}
