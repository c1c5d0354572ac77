//! The orders in which recovery goes through the occupied buckets.

use crate::list::List;
use crate::sizes::{Sizes, MOST_BUCKETS};
use crate::spare::Kind;
use crate::survey::Survey;

pub type Buckets = List<u8, MOST_BUCKETS>;

/// The occupied buckets in two orders.
pub struct Orders {
    pub by_epoch: Buckets,
    /// By back-end bucket, copies before Write buckets, and then by epoch.
    pub by_back_end: Buckets,
}

impl Orders {
    /// Each order is sorted as numbers, with the bucket in the low byte.
    pub fn new(sizes: &Sizes, survey: &Survey) -> Orders {
        let buckets = sizes.outside_ledger();
        let occupied = buckets.filter(|&bucket| survey[bucket].is_occupied());
        let mut keys: List<u64, MOST_BUCKETS> = occupied
            .map(|bucket| u64::from(survey[bucket].epoch) << 8 | u64::from(bucket))
            .collect();
        let by_epoch = sorted(&mut keys);
        for key in keys.iter_mut() {
            let look = &survey[*key as u8];
            let is_write = look.kind == Kind::Write;
            *key |= u64::from(look.back_end) << 41 | u64::from(is_write) << 40;
        }
        Orders {
            by_epoch,
            by_back_end: sorted(&mut keys),
        }
    }
}

fn sorted(keys: &mut [u64]) -> Buckets {
    keys.sort_unstable();
    keys.iter().map(|&key| key as u8).collect()
}

/// The lowest of the `limit` highest epochs; 0 when there are no more than those.
pub fn lowest_of_newest(epochs: impl Iterator<Item = u32>, limit: usize) -> u32 {
    let mut epochs: List<u32, MOST_BUCKETS> = epochs.collect();
    match epochs.len().saturating_sub(limit) {
        0 => 0,
        older => *epochs.select_nth_unstable(older).1,
    }
}
