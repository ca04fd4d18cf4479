//! A set of small numbers of which the next one is found quickly, however few there are.

const A_WORD: u32 = u64::BITS;

/// A bit for each number in the lowest level. Above it a bit for each word of the level below, set unless that is 0.
pub struct Ranks {
    levels: Vec<Vec<u64>>,
}

impl Ranks {
    /// The empty set of numbers below `limit`.
    pub fn new(limit: usize) -> Ranks {
        let mut levels = vec![vec![0; limit / A_WORD as usize + 1]];
        while levels[levels.len() - 1].len() > 1 {
            levels.push(vec![0; levels[levels.len() - 1].len().div_ceil(A_WORD as usize)]);
        }
        Ranks { levels }
    }

    pub fn insert(&mut self, rank: u32) {
        let mut at = rank;
        for level in &mut self.levels {
            let word = &mut level[(at / A_WORD) as usize];
            let was = *word;
            *word |= 1 << (at % A_WORD);
            if was != 0 {
                break;
            }
            at /= A_WORD;
        }
    }

    /// Removes the least number from `rank` on, and returns it. None if there is none.
    pub fn take_from(&mut self, rank: u32) -> Option<u32> {
        let found = self.next(rank)?;
        let mut at = found;
        for level in &mut self.levels {
            let word = &mut level[(at / A_WORD) as usize];
            *word &= !(1 << (at % A_WORD));
            if *word != 0 {
                break;
            }
            at /= A_WORD;
        }
        Some(found)
    }

    fn next(&self, rank: u32) -> Option<u32> {
        let mut at = rank;
        for (height, level) in self.levels.iter().enumerate() {
            let word = level.get((at / A_WORD) as usize)? & (u64::MAX << (at % A_WORD));
            if word != 0 {
                let found = at / A_WORD * A_WORD + word.trailing_zeros();
                let below = self.levels[..height].iter().rev();
                return Some(below.fold(found, |at, level| at * A_WORD + level[at as usize].trailing_zeros()));
            }
            at = at / A_WORD + 1;
        }
        None
    }
}

#[cfg(test)]
mod tests {
    use super::*;
    use std::collections::BTreeSet;

    #[test]
    fn numbers_at_random() {
        for limit in [1, 63, 64, 65, 4096, 300_000] {
            let (mut ranks, mut wanted) = (Ranks::new(limit), BTreeSet::new());
            let mut state = 88_172_645_463_325_252_u64;
            for _ in 0..20_000 {
                state ^= state << 13;
                state ^= state >> 7;
                state ^= state << 17;
                let rank = (state >> 3) as u32 % limit as u32;
                if state & 3 == 0 {
                    ranks.insert(rank);
                    wanted.insert(rank);
                } else {
                    let next = wanted.range(rank..).next().copied();
                    assert_eq!(ranks.take_from(rank), next);
                    next.map(|next| wanted.remove(&next));
                }
            }
        }
    }
}
