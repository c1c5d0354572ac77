//! The erase ledger: the last two buckets of the chip. Before another bucket is erased
//! one of their pages says so, for an erase may stop halfway.

use crate::device::{Cut, Device};
use crate::sizes::{Sizes, LEDGER_BUCKETS};
use crate::spare::{areas, Area, Spare};

/// How many pages of each ledger bucket are used: entries, and spoiled pages that name
/// nothing.
#[derive(Clone, Copy, Default)]
pub struct Ledger {
    pub used: [usize; LEDGER_BUCKETS],
}

impl Ledger {
    /// Whether no more than one of the two is in use.
    pub fn one_in_use(&self) -> bool {
        self.used.contains(&0)
    }

    /// The one in use: the one that is not blank, else the lower.
    fn in_use(&self) -> usize {
        usize::from(self.used[1] > 0)
    }

    /// Makes an entry for a bucket. A full ledger bucket hands over to the other, and is
    /// erased as soon as the entry stands there.
    pub fn note(&mut self, device: &mut Device, sizes: &Sizes, bucket: u8) -> Result<(), Cut> {
        let entry = Spare::entry(bucket, device.epoch_of(bucket));
        let full = self.used[self.in_use()] == sizes.bucket_pages;
        let (old, new) = (self.in_use(), self.in_use() ^ usize::from(full));
        device.program_entry(sizes.ledger()[new], self.used[new], entry)?;
        self.used[new] += 1;
        if full {
            device.erase(sizes.ledger()[old])?;
            self.used[old] = 0;
        }
        Ok(())
    }
}

/// The pages of both ledger buckets.
pub fn ledger_areas<'s>(sizes: &Sizes, spare: &'s [u8]) -> &'s [Area] {
    &areas(spare)[sizes.queued_buckets() * sizes.bucket_pages..]
}
