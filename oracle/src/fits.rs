//! Whether a state fits the chip it comes with: refusal 5 if not.

use crate::distinct::Distinct;
use crate::sizes::{MOST_BUCKETS, MOST_QUEUED};
use crate::spare::Kind;
use crate::state::{ReadEntry, State, WriteEntry, EPOCH_END, HALVING_PERIOD};
use crate::survey::Survey;

impl State {
    pub fn fits(&self, survey: &Survey) -> bool {
        self.reads.len() <= self.sizes.read_limit
            && self.writes.len() <= self.sizes.write_limit
            && self.holds_each_once()
            && all_differ(self.reads.iter().map(|e| e.back_end))
            && all_differ(self.writes.iter().map(|e| e.back_end))
            && self.reads.iter().all(|e| self.read_entry_fits(e, survey))
            && self.writes.iter().all(|e| self.write_entry_fits(e, survey))
            && self.free.iter().all(|&bucket| survey[bucket].is_blank())
            && survey.ledger.one_in_use()
            && self.write_count < HALVING_PERIOD
            && (survey.next_epoch..=EPOCH_END).contains(&self.next_epoch)
    }

    /// Whether the four queues hold each bucket outside the ledger once, and no other.
    fn holds_each_once(&self) -> bool {
        let buckets = self.sizes.queued_buckets();
        let mut held = [false; MOST_BUCKETS];
        let mut hold = |bucket: u8| held[usize::from(bucket)] = true;
        self.reads.iter().for_each(|e| hold(e.bucket));
        self.writes.iter().for_each(|e| hold(e.bucket));
        self.gc.iter().for_each(|&bucket| hold(bucket));
        self.free.iter().for_each(|&bucket| hold(bucket));
        // As many entries as buckets: if each is held, none is held twice.
        self.reads.len() + self.writes.len() + self.gc.len() + self.free.len() == buckets
            && held[..buckets].iter().fold(true, |all, held| all & held)
    }

    fn read_entry_fits(&self, entry: &ReadEntry, survey: &Survey) -> bool {
        let look = &survey[entry.bucket];
        look.kind.is_copy() && look.back_end == entry.back_end && look.is_complete(&self.sizes)
    }

    fn write_entry_fits(&self, entry: &WriteEntry, survey: &Survey) -> bool {
        let look = &survey[entry.bucket];
        look.kind == Kind::Write
            && look.back_end == entry.back_end
            && usize::from(entry.priority) <= self.sizes.bucket_pages
            && entry.blank == look.blank_pages(&self.sizes)
            && (!entry.marked || self.holding(entry.back_end).copy.is_some())
    }
}

/// Whether no back-end bucket is there twice.
fn all_differ(mut back_ends: impl Iterator<Item = u16>) -> bool {
    let mut seen = Distinct::<{ 2 * MOST_QUEUED }>::new();
    back_ends.all(|back_end| seen.insert(u32::from(back_end) + 1))
}
