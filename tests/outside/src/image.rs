//! Typed states to little-endian bytes and back, in the C interface's layout.

use crate::model::{bandwidth, capacity};

/// A state as the lent slices: the record, then the tables in order.
pub trait Image {
    fn bytes(&self) -> Vec<Vec<u8>>;
    fn of(contents: &[Vec<u8>]) -> Self;
}

/// Little-endian words of each width.
trait Word: Copy + Sized {
    fn bytes(words: &[Self]) -> Vec<u8>;
    fn words(bytes: &[u8]) -> Vec<Self>;
}

macro_rules! word {
    ($type:ty) => {
        impl Word for $type {
            fn bytes(words: &[$type]) -> Vec<u8> {
                words.iter().flat_map(|word| word.to_le_bytes()).collect()
            }

            fn words(bytes: &[u8]) -> Vec<$type> {
                let word = |chunk: &[u8]| <$type>::from_le_bytes(chunk.try_into().unwrap());
                bytes.chunks_exact(std::mem::size_of::<$type>()).map(word).collect()
            }
        }
    };
}

word!(u16);
word!(u32);
word!(u64);

/// The words of a record; those that a short one lacks count as 0, and refusal 1 comes first anyway.
fn record_words<const N: usize>(bytes: &[u8]) -> [u64; N] {
    let words = u64::words(bytes);
    std::array::from_fn(|index| words.get(index).copied().unwrap_or(0))
}

impl Image for bandwidth::State {
    fn bytes(&self) -> Vec<Vec<u8>> {
        let bandwidth::Record { setup: s, mon_ctl, mon_ctr_val, alloc_ctl, bw_alloc, pool_given } =
            self.record;
        let setup = [s.nbwblks, s.mrbwb, s.nr, s.na, s.nm, s.q, s.w];
        let rest = [mon_ctl, mon_ctr_val, alloc_ctl, bw_alloc, pool_given];
        vec![
            Word::bytes(&[&setup[..], &rest[..]].concat()),
            Word::bytes(&self.active),
            Word::bytes(&self.configured),
            Word::bytes(&self.used),
            Word::bytes(&self.counters),
            Word::bytes(&self.events),
            Word::bytes(&self.waiters),
        ]
    }

    fn of(contents: &[Vec<u8>]) -> bandwidth::State {
        let [nbwblks, mrbwb, nr, na, nm, q, w, mon_ctl, mon_ctr_val, alloc_ctl, bw_alloc, pool_given] =
            record_words(&contents[0]);
        let setup = bandwidth::Setup { nbwblks, mrbwb, nr, na, nm, q, w };
        bandwidth::State {
            record: bandwidth::Record {
                setup,
                mon_ctl,
                mon_ctr_val,
                alloc_ctl,
                bw_alloc,
                pool_given,
            },
            active: Word::words(&contents[1]),
            configured: Word::words(&contents[2]),
            used: Word::words(&contents[3]),
            counters: Word::words(&contents[4]),
            events: Word::words(&contents[5]),
            waiters: Word::words(&contents[6]),
        }
    }
}

impl Image for capacity::State {
    fn bytes(&self) -> Vec<Vec<u8>> {
        let capacity::Record { setup: s, mon_ctl, mon_ctr_val, alloc_ctl, block_mask } =
            self.record;
        let setup = [s.ncblks, s.nr, s.na, s.nm, s.w, s.u];
        let rest = [mon_ctl, mon_ctr_val, alloc_ctl, block_mask];
        vec![
            Word::bytes(&[&setup[..], &rest[..]].concat()),
            Word::bytes(&self.masks),
            Word::bytes(&self.counters),
            Word::bytes(&self.events),
            Word::bytes(&self.owners),
        ]
    }

    fn of(contents: &[Vec<u8>]) -> capacity::State {
        let [ncblks, nr, na, nm, w, u, mon_ctl, mon_ctr_val, alloc_ctl, block_mask] =
            record_words(&contents[0]);
        let setup = capacity::Setup { ncblks, nr, na, nm, w, u };
        capacity::State {
            record: capacity::Record { setup, mon_ctl, mon_ctr_val, alloc_ctl, block_mask },
            masks: Word::words(&contents[1]),
            counters: Word::words(&contents[2]),
            events: Word::words(&contents[3]),
            owners: Word::words(&contents[4]),
        }
    }
}
