//! Compares indexes with a search one by one.

use super::entries::Entries;
use super::extents::{Extent, descend_often, sort};
use super::{Index, LowBits};

fn index_of(ids: &[u64]) -> Index {
    let first = ids.first().copied().unwrap_or(0);
    let index = |low| Index::new(ids.len(), |number| ids[number], ids.iter().copied(), low);
    LowBits::to_try(first).into_iter().find_map(index).unwrap()
}

/// Checks that the index finds what a search finds: for each of `ids` and its neighbours, for both ends, and for
/// `others`. Returns the index.
fn sees(ids: &[u64], others: &[u64]) -> Index {
    let index = index_of(ids);
    let repeat = (0..ids.len()).find(|number| ids[..*number].contains(&ids[*number]));
    assert_eq!(index.first_repeat(), repeat.map(|number| number as u32), "{ids:?}");
    let near =
        ids.iter().flat_map(|id| [0, 1, 8, 64, 512, 1 << 63].map(|far| [id.wrapping_sub(far), id.wrapping_add(far)]));
    for id in near.flatten().chain([0, u64::MAX]).chain(others.iter().copied()) {
        let first = ids.iter().position(|other| *other == id);
        assert_eq!(index.find(id), first.map(|number| number as u32), "{id} in {ids:?}");
    }
    index
}

/// `count` neighbouring IDs, from `first` on.
fn neighbours(first: u64, count: u64) -> Vec<u64> {
    (0..count).map(|number| first + 8 * number).collect()
}

fn falling(first: u64, count: u64) -> Vec<u64> {
    neighbours(first, count).into_iter().rev().collect()
}

/// `count` IDs on `pages` pages, each on the page below that of the ID before. The highest page follows the lowest.
fn in_falling_pages(pages: u64, count: u64) -> Vec<u64> {
    (0..count).map(|number| 0x1000 + (pages - 1 - number % pages) * 512 + number / pages * 8).collect()
}

/// For each list the number of extents, or else the number of entries, and the number of low bits that are omitted.
#[test]
fn lists() {
    let rows: [(&str, Vec<u64>, usize, usize, u32); 28] = [
        ("no object", vec![], 0, 0, 3),
        ("one", vec![7], 1, 0, 3),
        ("0", vec![0], 1, 0, 3),
        ("the last ID", vec![u64::MAX], 1, 0, 3),
        ("both ends", vec![u64::MAX, 0], 2, 0, 0),
        ("both ends of granules that eight divides", vec![u64::MAX - 7, 0], 2, 0, 3),
        ("63 neighbours", neighbours(0x1000, 63), 1, 0, 3),
        ("64 neighbours", neighbours(0x1000, 64), 1, 0, 3),
        ("65 neighbours", neighbours(0x1000, 65), 2, 0, 3),
        ("64 neighbours on two pages", neighbours(0x1008, 64), 2, 0, 3),
        ("ascending", neighbours(0, 1000), 16, 0, 3),
        ("ascending with gaps", (0..100).map(|number| 72 * number).collect(), 14, 0, 3),
        ("descending", falling(0x1000, 200), 0, 200, 3),
        ("all granules of a page, descending", falling(0x1000, 64), 0, 64, 3),
        ("alike modulo eight, but no multiples", (0..64).map(|number| 0x1005 + 8 * number).collect(), 1, 0, 3),
        ("not alike modulo eight", (0..128).map(|number| 0x1000 + number).collect(), 2, 0, 0),
        ("alike modulo eight, but for the last", [neighbours(0x1000, 64), vec![0x1201]].concat(), 9, 0, 0),
        ("two extents of one page that overlap", [0, 16, 32, 8, 24, 40].to_vec(), 2, 0, 3),
        ("two objects of one ID", vec![0x1000, 0x1000], 1, 0, 3),
        ("one ID again and again", vec![0x1000; 100], 1, 0, 3),
        ("a repeat that begins an extent", [neighbours(0x1000, 4), vec![0x1008, 0x1020]].concat(), 2, 0, 3),
        ("a repeat amid an extent", [neighbours(0x1000, 4), vec![0x0ff8, 0x1010]].concat(), 2, 0, 3),
        ("an extent wholly repeated", [neighbours(0x1000, 9), vec![0], neighbours(0x1008, 5)].concat(), 2, 0, 3),
        ("a page again and again", falling(0x1000, 64).repeat(3), 64, 0, 3),
        ("two pages in turn", (0..128).map(|number| 0x1000 + number % 2 * 512 + number / 2 * 8).collect(), 0, 128, 3),
        ("falling pages, each full", in_falling_pages(16, 1024), 0, 1024, 3),
        ("the same, and one ID again", [in_falling_pages(16, 1024), vec![0x1008]].concat(), 1024, 0, 3),
        ("falling pages, and one that is far", [in_falling_pages(16, 1024), vec![0x100_0000]].concat(), 1025, 0, 3),
    ];
    for (name, ids, extents, entries, low) in rows {
        let index = sees(&ids, &[]);
        let found = (index.extents.len(), index.entries.as_ref().map_or(0, Entries::len), index.low.count);
        assert_eq!(found, (extents, entries, low), "{name}");
    }
}

/// All extents but one are in one slot of the table. In all lists but `full` reversed these are more than the `MANY`
/// that a look-up steps through.
#[test]
fn crowded_into_one_slot() {
    let even = neighbours(0, 500).into_iter().map(|id| 64 * id);
    let squares = (0..500).map(|number| 512 * number * number);
    let full = (0..500).map(|number| 512 * (number / 64) + 8 * (63 - number % 64));
    for ids in [even.collect::<Vec<_>>(), squares.collect(), full.collect()] {
        sees(&[ids.clone(), vec![1 << 63]].concat(), &neighbours(0x1000, 200));
        sees(&[vec![1 << 63], ids.into_iter().rev().collect()].concat(), &neighbours(0x1000, 200));
    }
}

struct Chance(u64);

impl Chance {
    fn below(&mut self, limit: u64) -> u64 {
        self.0 ^= self.0 << 13;
        self.0 ^= self.0 >> 7;
        self.0 ^= self.0 << 17;
        (self.0 >> 3) % limit
    }

    /// A list of a few IDs, or of a few hundred: at random, in steps, or both.
    fn list(&mut self) -> Vec<u64> {
        let limit = [16, 64, 600, 5000, 1 << 40, u64::MAX >> 3][self.below(6) as usize];
        let longest = if self.below(500) == 0 { 400 } else { 40 };
        let (count, way, mut last) = (self.below(longest), self.below(7), self.below(limit));
        let next = |_| {
            last = match way {
                0 => self.below(limit),
                1 => 8 * self.below(limit),
                2 => 8 * self.below(8),
                3 => last.wrapping_add(self.below(3)),
                4 => last.wrapping_add(8 * (1 + self.below(5))),
                5 => last.wrapping_sub(8 * (1 + self.below(5))),
                _ if self.below(7) == 0 => 8 * self.below(limit),
                _ => last.wrapping_add(8 * self.below(4)),
            };
            last
        };
        (0..count).map(next).collect()
    }
}

#[test]
fn lists_at_random() {
    let mut chance = Chance(88_172_645_463_325_252);
    let mut repeats = 0;
    for _ in 0..100_000 {
        let ids = chance.list();
        let others: Vec<_> = (0..10).map(|_| chance.below(6000)).collect();
        repeats += u32::from(sees(&ids, &others).first_repeat().is_some());
    }
    assert!((30_000..70_000).contains(&repeats), "{repeats}");
}

/// `count` extents, `descents` of which have a lower page than the extent before.
fn zigzag(descents: usize, count: usize) -> Vec<Extent> {
    let page = |granule: usize| if granule % 2 == 1 && granule < 2 * descents { 0 } else { granule as u64 + 1 };
    (0..count).map(|granule| Extent { page: page(granule), granules: 1, first: granule as u32 }).collect()
}

#[test]
fn order_of_extents() {
    let rows =
        [(0, 0, false), (0, 16, false), (1, 16, false), (2, 16, true), (1, 15, true), (6, 100, false), (7, 100, true)];
    for (descents, count, often) in rows {
        let mut extents = zigzag(descents, count);
        assert_eq!(descend_often(&extents), often, "{descents} of {count}");
        sort(&mut extents);
        assert!(extents.windows(2).all(|entry| (entry[0].page, entry[0].first) < (entry[1].page, entry[1].first)));
    }
    assert!(size_of::<Extent>() <= 24);
}
