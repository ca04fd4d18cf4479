//! Extents: neighbouring objects of one page, whose numbers follow one another.

/// How many granules a page has.
pub const GRANULES: u64 = 64;

/// The page of the extent's objects; a bit for each granule of the page, set if the extent has an object there; and the
/// number of the first object.
#[derive(Clone, Copy, Default)]
pub struct Extent {
    pub page: u64,
    pub granules: u64,
    pub first: u32,
}

impl Extent {
    pub fn has(&self, granule: u32) -> bool {
        self.granules >> granule & 1 != 0
    }

    /// The number of the object at `granule`, if the extent has an object there.
    pub fn number_at(&self, granule: u32) -> u32 {
        self.first + (self.granules & ((1 << granule) - 1)).count_ones()
    }
}

/// The extents of `objects`, each a page and a granule, in file order; None if an object is None. An extent ends if the
/// page changes, or if the next granule is not above the last one. The first extent may be empty.
pub fn gather(objects: impl Iterator<Item = Option<(u64, u32)>>) -> Option<Vec<Extent>> {
    let mut extents = vec![];
    let mut extent = Extent::default();
    for (number, object) in (0..).zip(objects) {
        let (page, granule) = object?;
        let bit = 1 << granule;
        if page == extent.page && extent.granules < bit {
            extent.granules |= bit;
        } else {
            extents.push(extent);
            extent = Extent { page, granules: bit, first: number };
        }
    }
    extents.push(extent);
    Some(extents)
}

/// The stable sort is fast on long stretches in order. There are none if more than 1 in `FEW_DESCENTS` extents has a
/// lower page than the extent before: then the sort is unstable.
const FEW_DESCENTS: usize = 16;

/// Whether many extents have a lower page than the extent before. Only pages are compared, since numbers of gathered
/// extents never descend.
pub fn descend_often(extents: &[Extent]) -> bool {
    let descents = extents.windows(2).filter(|entry| entry[1].page < entry[0].page).count();
    descents > extents.len() / FEW_DESCENTS
}

/// Sorts by page, then by number.
pub fn sort(extents: &mut [Extent]) {
    if descend_often(extents) {
        extents.sort_unstable_by_key(|extent| (extent.page, extent.first));
    } else {
        extents.sort_by_key(|extent| (extent.page, extent.first));
    }
}

/// Drops each extent that adds no granule to those of earlier extents of its page. So a page keeps at most 64 extents.
/// Returns the least number of an object with the ID of an earlier object.
pub fn settle(extents: &mut Vec<Extent>) -> Option<u32> {
    let (mut page, mut seen) = (0, 0);
    let mut repeat: Option<u32> = None;
    extents.retain(|extent| {
        if extent.page != page {
            (page, seen) = (extent.page, 0);
        }
        let again = extent.granules & seen;
        if again != 0 {
            let number = extent.number_at(again.trailing_zeros());
            repeat = Some(repeat.map_or(number, |least| least.min(number)));
        }
        seen |= extent.granules;
        again != extent.granules
    });
    repeat
}
