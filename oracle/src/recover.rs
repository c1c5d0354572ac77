//! Recovery: what the chip alone says of the queues.

use crate::device::{Cut, Device};
use crate::found::Found;
use crate::merge::Holding;
use crate::order::{lowest_of_newest, Orders};
use crate::sizes::{Sizes, MOST_BUCKETS};
use crate::spare::Kind;
use crate::state::{ReadEntry, State, WriteEntry};
use crate::survey::Survey;

/// Finishes the erases that the ledger names, then rebuilds the state from the chip as
/// it is then, settling on the disk what the queues have no room for.
pub fn recover(sizes: Sizes, mut found: Found, device: &mut Device) -> Result<State, Cut> {
    found.sweep(&sizes, device)?;
    let plan = Plan::new(sizes, &found.survey);
    plan.settle(device)?;
    Ok(plan.state())
}

/// What becomes of an occupied bucket.
#[derive(Clone, Copy, PartialEq, Eq)]
enum Fate {
    /// A superseded or an incomplete copy.
    Stale,
    DroppedCopy,
    DroppedWrite,
    KeptCopy,
    KeptWrite,
}

struct Plan<'s> {
    sizes: Sizes,
    survey: &'s Survey,
    orders: Orders,
    /// The lowest epoch of the Write buckets that are kept.
    writes_from: u32,
    /// The lowest epoch of the copies that are kept.
    copies_from: u32,
}

impl<'s> Plan<'s> {
    fn new(sizes: Sizes, survey: &'s Survey) -> Plan<'s> {
        let mut plan = Plan {
            sizes,
            survey,
            orders: Orders::new(&sizes, survey),
            writes_from: 0,
            copies_from: 0,
        };
        let single_writes = plan.holdings().filter_map(|h| match h.writes {
            [only] => Some(survey[*only].epoch),
            _ => None,
        });
        plan.writes_from = lowest_of_newest(single_writes, sizes.write_limit);
        let remaining = plan.holdings().filter(|h| !plan.drops_writes(h));
        let copies = remaining.filter_map(|h| Some(survey[h.copy?].epoch));
        plan.copies_from = lowest_of_newest(copies, sizes.read_limit);
        plan
    }

    /// What the chip holds of each back-end bucket, rising.
    fn holdings(&self) -> impl Iterator<Item = Holding<'_>> {
        let same = |&a: &u8, &b: &u8| self.survey[a].back_end == self.survey[b].back_end;
        let runs = self.orders.by_back_end.chunk_by(same);
        runs.map(|run| self.holding(run))
    }

    /// The newest complete copy and the Write buckets of one back-end bucket.
    fn holding<'b>(&self, run: &'b [u8]) -> Holding<'b> {
        let is_copy = |&bucket: &u8| self.survey[bucket].kind.is_copy();
        let is_complete = |&bucket: &u8| self.survey[bucket].is_complete(&self.sizes);
        let (copies, writes) = run.split_at(run.partition_point(is_copy));
        Holding {
            back_end: self.survey[run[0]].back_end,
            copy: copies.iter().copied().rev().find(is_complete),
            writes,
        }
    }

    /// Whether the Write buckets are dropped, and the copy with them.
    fn drops_writes(&self, holding: &Holding) -> bool {
        match holding.writes {
            [] => false,
            [only] => self.survey[*only].epoch < self.writes_from,
            _ => true,
        }
    }

    /// The copy, if it is dropped by itself.
    fn dropped_copy(&self, holding: &Holding) -> Option<u8> {
        let is_older = |&copy: &u8| self.survey[copy].epoch < self.copies_from;
        holding.copy.filter(is_older)
    }

    /// Writes to the disk what is dropped and not there yet.
    fn settle(&self, device: &mut Device) -> Result<(), Cut> {
        let is_dirty = |&copy: &u8| self.survey[copy].kind == Kind::Dirty;
        for holding in self.holdings() {
            if self.drops_writes(&holding) {
                device.write_units(&holding)?;
            } else if let Some(copy) = self.dropped_copy(&holding).filter(is_dirty) {
                device.write_units(&Holding::copy_alone(holding.back_end, copy))?;
            }
        }
        Ok(())
    }

    fn fates(&self) -> [Fate; MOST_BUCKETS] {
        let mut fates = [Fate::Stale; MOST_BUCKETS];
        for holding in self.holdings() {
            let (copy_fate, write_fate) = if self.drops_writes(&holding) {
                (Fate::DroppedCopy, Fate::DroppedWrite)
            } else if self.dropped_copy(&holding).is_some() {
                (Fate::DroppedCopy, Fate::KeptWrite)
            } else {
                (Fate::KeptCopy, Fate::KeptWrite)
            };
            if let Some(copy) = holding.copy {
                fates[usize::from(copy)] = copy_fate;
            }
            for &write in holding.writes {
                fates[usize::from(write)] = write_fate;
            }
        }
        fates
    }

    fn state(&self) -> State {
        let fates = self.fates();
        let with = |fate: Fate| {
            let buckets = self.orders.by_epoch.iter().copied();
            buckets.filter(move |&bucket| fates[usize::from(bucket)] == fate)
        };
        // Copies before Write buckets: an old copy must never outlive newer logs.
        let gc = [Fate::Stale, Fate::DroppedCopy, Fate::DroppedWrite];
        let retired = gc.into_iter().flat_map(with);
        let is_blank = |&bucket: &u8| self.survey[bucket].is_blank();
        let is_spent = |&bucket: &u8| self.survey[bucket].is_spent();
        let spent = self.sizes.outside_ledger().filter(is_spent);
        State {
            sizes: self.sizes,
            running: true,
            reads: with(Fate::KeptCopy).map(|b| self.read_entry(b)).collect(),
            writes: with(Fate::KeptWrite).map(|b| self.write_entry(b)).collect(),
            gc: spent.chain(retired).collect(),
            free: self.sizes.outside_ledger().filter(is_blank).collect(),
            write_count: 0,
            next_epoch: self.survey.next_epoch,
        }
    }

    fn read_entry(&self, bucket: u8) -> ReadEntry {
        let back_end = self.survey[bucket].back_end;
        ReadEntry { back_end, bucket }
    }

    fn write_entry(&self, bucket: u8) -> WriteEntry {
        let look = &self.survey[bucket];
        let blank = look.blank_pages(&self.sizes);
        WriteEntry {
            back_end: look.back_end,
            bucket,
            priority: blank,
            blank,
            // The chip does not say whether the copy was made before the last log.
            marked: false,
        }
    }
}
