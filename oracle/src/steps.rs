//! The steps that the operations share.

use crate::device::{Cut, Device};
use crate::ledger::Ledger;
use crate::merge::Holding;
use crate::spare::Kind;
use crate::state::{State, WriteEntry};
use crate::survey::Survey;

/// A call that got past every refusal.
pub struct Call<'a> {
    /// The state that is handed back unless the call is cut.
    pub state: State,
    pub device: Device<'a>,
    /// The buckets as they were when the call began.
    pub survey: &'a Survey,
    /// The erase ledger as it is now.
    pub ledger: Ledger,
}

/// A place for a log: the bucket, its epoch and its blank pages.
pub struct Room {
    pub bucket: u8,
    pub epoch: u32,
    pub blank: usize,
}

impl Call<'_> {
    /// Erases the GC head, once the ledger has an entry for it; false when there is none.
    pub fn erase_gc_head(&mut self) -> Result<bool, Cut> {
        let Some(bucket) = self.state.gc.pop_first() else {
            return Ok(false);
        };
        self.ledger
            .note(&mut self.device, &self.state.sizes, bucket)?;
        self.device.erase(bucket)?;
        self.state.free.push(bucket);
        Ok(true)
    }

    /// A blank bucket and its epoch. One is always there: the read and write
    /// queues together leave at least one bucket to the GC and free queues.
    fn allocate(&mut self) -> Result<(u8, u32), Cut> {
        if self.state.free.is_empty() {
            self.erase_gc_head()?;
        }
        let bucket = self
            .state
            .free
            .pop_first()
            .expect("a bucket outside the read and write queues");
        let epoch = self.state.next_epoch as u32;
        self.state.next_epoch += 1;
        Ok((bucket, epoch))
    }

    /// Programs a new copy and maps it as most recent. An old copy joins GC only
    /// then, so that the bytes are always somewhere.
    pub fn store_copy(&mut self, kind: Kind, back_end: u16) -> Result<(), Cut> {
        let (bucket, epoch) = self.allocate()?;
        let from = self.state.holding(back_end);
        self.device.program_copy(bucket, kind, epoch, &from)?;
        let old = self.state.unmap_read(back_end);
        self.state.gc.extend(old);
        self.state.map_read(back_end, bucket);
        Ok(())
    }

    /// Puts a Write bucket out; what a copy has of it already is not stored again.
    fn evict_write(&mut self, back_end: u16) -> Result<(), Cut> {
        if !self.state.is_marked(back_end) {
            self.store_merged(back_end)?;
        }
        let bucket = self.state.unmap_write(back_end);
        self.state.gc.extend(bucket);
        Ok(())
    }

    /// Stores the merged bytes as a copy if there is one, else on the disk.
    fn store_merged(&mut self, back_end: u16) -> Result<(), Cut> {
        let from = self.state.holding(back_end);
        match from.copy {
            Some(_) => self.store_copy(Kind::Dirty, back_end),
            None => self.device.write_units(&from),
        }
    }

    /// Puts the least recent copy out; a Dirty one is all there is of its bytes. Logs
    /// of its back-end bucket are in no copy from now on.
    pub fn evict_read(&mut self) -> Result<(), Cut> {
        let Some(entry) = self.state.reads.pop_first() else {
            return Ok(());
        };
        if self.survey[entry.bucket].kind == Kind::Dirty {
            let from = Holding::copy_alone(entry.back_end, entry.bucket);
            self.device.write_units(&from)?;
        }
        self.state.gc.push(entry.bucket);
        self.state.set_mark(entry.back_end, false);
        Ok(())
    }

    /// The back-end bucket of smallest priority, then smallest epoch.
    fn write_victim(&self) -> Option<u16> {
        self.state
            .writes
            .iter()
            .min_by_key(|e| (e.priority, self.survey[e.bucket].epoch))
            .map(|e| e.back_end)
    }

    /// Finds or makes room for a log of `pages` pages, by the blank pages that the
    /// record of the back-end bucket keeps.
    pub fn room_for_log(&mut self, back_end: u16, pages: usize) -> Result<Room, Cut> {
        if let Some(&WriteEntry { bucket, blank, .. }) = self.state.write_entry(back_end) {
            let blank = usize::from(blank);
            if pages <= blank {
                let epoch = self.survey[bucket].epoch;
                return Ok(Room {
                    bucket,
                    epoch,
                    blank,
                });
            }
            self.evict_write(back_end)?;
        } else if self.state.writes.len() == self.state.sizes.write_limit {
            if let Some(victim) = self.write_victim() {
                self.evict_write(victim)?;
            }
        }
        let (bucket, epoch) = self.allocate()?;
        Ok(Room {
            bucket,
            epoch,
            blank: self.state.sizes.bucket_pages,
        })
    }
}
