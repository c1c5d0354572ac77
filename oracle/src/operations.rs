//! The operations built from the steps.

use crate::device::Cut;
use crate::engine::Answer;
use crate::list::List;
use crate::merge::Holding;
use crate::sizes::MOST_QUEUED;
use crate::spare::{Kind, Log};
use crate::steps::{Call, Room};

impl Call<'_> {
    pub fn write(&mut self, back_end: u16, offset: usize, data: &[u8]) -> Result<Answer, Cut> {
        let pages = self.state.sizes.log_pages(data.len());
        let Room {
            bucket,
            epoch,
            blank,
        } = self.room_for_log(back_end, pages)?;
        let log = Log {
            kind: Kind::Write,
            epoch,
            back_end,
            offset,
            length: data.len(),
        };
        let used = self.state.sizes.bucket_pages - blank;
        self.device.program_log(bucket, used, &log, data)?;
        let left = (blank - pages) as u8;
        self.state.set_write(back_end, bucket, left);
        self.state.count_write();
        Ok(Answer::Done)
    }

    pub fn read(&mut self, back_end: u16, offset: usize, buffer: &mut [u8]) -> Result<Answer, Cut> {
        if self.state.has_epochs() {
            self.use_copy(back_end)?;
        }
        // Only now is the buffer touched: a cut leaves it as it was. Logs are laid over
        // a copy that has them too: a state may say so of one that has not.
        let from = self.state.holding(back_end);
        self.device.read(&from, offset, buffer);
        Ok(Answer::Done)
    }

    /// Makes a copy with all bytes of a back-end bucket most recent: the one that is
    /// there if it has the logs or there are none, else a new one.
    fn use_copy(&mut self, back_end: u16) -> Result<(), Cut> {
        let Holding { copy, writes, .. } = self.state.holding(back_end);
        let write_miss = writes.is_empty();
        match copy {
            Some(copy) if write_miss || self.state.is_marked(back_end) => {
                self.state.unmap_read(back_end);
                self.state.map_read(back_end, copy);
                return Ok(());
            }
            None if self.state.reads.len() == self.state.sizes.read_limit => self.evict_read()?,
            _ => {}
        }
        let kind = if write_miss { Kind::Read } else { Kind::Dirty };
        self.store_copy(kind, back_end)?;
        self.state.set_mark(back_end, true);
        Ok(())
    }

    pub fn erase_step(&mut self) -> Result<Answer, Cut> {
        let erased = self.erase_gc_head()?;
        Ok(if erased { Answer::Done } else { Answer::Idle })
    }

    pub fn drain(&mut self) -> Result<Answer, Cut> {
        let drained = self.unsettled();
        for &back_end in drained.iter() {
            self.device.write_units(&self.state.holding(back_end))?;
        }
        let copies = drained.iter().filter_map(|&b| self.state.unmap_read(b));
        let copies: List<u8, MOST_QUEUED> = copies.collect();
        let writes = drained.iter().filter_map(|&b| self.state.unmap_write(b));
        let writes: List<u8, MOST_QUEUED> = writes.collect();
        // Copies go first: an old copy must never outlive the newer logs over it.
        for mut buckets in [copies, writes] {
            buckets.sort_unstable_by_key(|&bucket| self.survey[bucket].epoch);
            self.state.gc.extend(buckets.iter().copied());
        }
        Ok(Answer::Done)
    }

    /// Back-end buckets whose disk units may be out of date, rising.
    fn unsettled(&self) -> List<u16, { 2 * MOST_QUEUED }> {
        let writes = self.state.writes.iter().map(|e| e.back_end);
        let mut back_ends: List<u16, { 2 * MOST_QUEUED }> = writes.collect();
        for entry in self.state.reads.iter() {
            let dirty = self.survey[entry.bucket].kind == Kind::Dirty;
            if dirty && self.state.holding(entry.back_end).writes.is_empty() {
                back_ends.push(entry.back_end);
            }
        }
        back_ends.sort_unstable();
        back_ends
    }
}
