//! The state that goes into every call and is handed back by it.

use std::slice;

use crate::list::List;
use crate::merge::Holding;
use crate::sizes::{Sizes, MOST_BUCKETS, MOST_QUEUED};

/// One past the last epoch that fits its four spare bytes.
pub const EPOCH_END: u64 = 1 << 32;
/// Above this next epoch a call that allocates twice would run out of epochs.
pub const LAST_NEXT_EPOCH: u64 = EPOCH_END - 2;
/// Accepted writes from one halving of the priorities to the next.
pub const HALVING_PERIOD: u8 = 16;

#[derive(Clone, Copy, Debug, Default, PartialEq, Eq)]
pub struct ReadEntry {
    pub back_end: u16,
    pub bucket: u8,
}

#[derive(Clone, Copy, Debug, Default, PartialEq, Eq)]
pub struct WriteEntry {
    pub back_end: u16,
    pub bucket: u8,
    pub priority: u8,
    /// Blank pages of the bucket; the priority is as many only until it is halved.
    pub blank: u8,
    /// Whether the logs are all in the read bucket.
    pub marked: bool,
}

#[derive(Clone, Debug, Default, PartialEq, Eq)]
pub struct State {
    pub sizes: Sizes,
    pub running: bool,
    /// Least recent first.
    pub reads: List<ReadEntry, MOST_QUEUED>,
    /// In order of arrival.
    pub writes: List<WriteEntry, MOST_QUEUED>,
    pub gc: List<u8, MOST_BUCKETS>,
    pub free: List<u8, MOST_BUCKETS>,
    pub write_count: u8,
    pub next_epoch: u64,
}

impl State {
    /// The state that a finished format leaves.
    pub fn formatted(sizes: Sizes) -> State {
        State {
            sizes,
            running: true,
            free: sizes.outside_ledger().collect(),
            next_epoch: 1,
            ..State::default()
        }
    }

    pub fn stopped(mut self) -> State {
        self.running = false;
        self
    }

    /// Where the bytes of a back-end bucket are.
    pub fn holding(&self, back_end: u16) -> Holding<'_> {
        let copy = self.reads.iter().find(|e| e.back_end == back_end);
        let write = self.write_entry(back_end);
        Holding {
            back_end,
            copy: copy.map(|e| e.bucket),
            writes: write.map_or(&[], |e| slice::from_ref(&e.bucket)),
        }
    }

    /// Takes the mapping of a back-end bucket out of the read queue.
    pub fn unmap_read(&mut self, back_end: u16) -> Option<u8> {
        let place = self.reads.iter().position(|e| e.back_end == back_end)?;
        Some(self.reads.remove(place).bucket)
    }

    /// Takes a back-end bucket out of the write queue.
    pub fn unmap_write(&mut self, back_end: u16) -> Option<u8> {
        let place = self.writes.iter().position(|e| e.back_end == back_end)?;
        Some(self.writes.remove(place).bucket)
    }

    /// Maps a back-end bucket as most recent.
    pub fn map_read(&mut self, back_end: u16, bucket: u8) {
        self.reads.push(ReadEntry { back_end, bucket });
    }

    /// The record of a back-end bucket in the write queue.
    pub fn write_entry(&self, back_end: u16) -> Option<&WriteEntry> {
        self.writes.iter().find(|e| e.back_end == back_end)
    }

    /// Takes a log of a back-end bucket into account: its priority is the blank pages
    /// left, and no copy has the log yet. A back-end bucket that is not queued goes last.
    pub fn set_write(&mut self, back_end: u16, bucket: u8, blank: u8) {
        let logged = WriteEntry {
            back_end,
            bucket,
            priority: blank,
            blank,
            marked: false,
        };
        match self.writes.iter_mut().find(|e| e.back_end == back_end) {
            Some(entry) => *entry = logged,
            None => self.writes.push(logged),
        }
    }

    /// Whether the read bucket of a back-end bucket has all logs of its Write bucket.
    pub fn is_marked(&self, back_end: u16) -> bool {
        self.write_entry(back_end).is_some_and(|e| e.marked)
    }

    /// Marks the record of a back-end bucket, or clears its mark; without one nothing
    /// changes.
    pub fn set_mark(&mut self, back_end: u16, marked: bool) {
        if let Some(entry) = self.writes.iter_mut().find(|e| e.back_end == back_end) {
            entry.marked = marked;
        }
    }

    /// Counts an accepted write and halves all priorities at every 16th; the counts of
    /// blank pages stay.
    pub fn count_write(&mut self) {
        self.write_count += 1;
        if self.write_count == HALVING_PERIOD {
            self.write_count = 0;
            self.writes.iter_mut().for_each(|e| e.priority /= 2);
        }
    }

    /// Whether two allocations still get epochs of their own.
    pub fn has_epochs(&self) -> bool {
        self.next_epoch <= LAST_NEXT_EPOCH
    }
}
