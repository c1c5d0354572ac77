//! What recovery finds: erases may have stopped halfway, in buckets that the ledger names
//! and in the ledger itself, and programs anywhere.

use crate::device::{Cut, Device};
use crate::ledger::ledger_areas;
use crate::sizes::{Sizes, MOST_BUCKETS};
use crate::spare::{areas, Area, Spare};
use crate::survey::{look_at, Look, Survey, Used};

pub struct Found {
    pub survey: Survey,
    /// The buckets that some entry names, by number.
    named: [bool; MOST_BUCKETS],
}

impl Found {
    /// Of a chip with no page programmed.
    pub fn blank() -> Found {
        Found {
            survey: Survey::blank(),
            named: [false; MOST_BUCKETS],
        }
    }

    /// Looks at every bucket of the chip; false when the image is not one that recovery
    /// takes: holes are, in the named buckets and in the ledger, and any ordinals in those.
    pub fn look_over(&mut self, sizes: &Sizes, spare: &[u8]) -> bool {
        let Found { survey, named } = self;
        for page in ledger_areas(sizes, spare).iter().map(Spare::of) {
            if let Some((bucket, epoch)) = page.as_entry(sizes) {
                survey.take_epoch(epoch);
                named[usize::from(bucket)] |= is_named_by(pages_of(sizes, spare, bucket), epoch);
            } else if page.is_programmed() {
                return false;
            }
        }
        survey.look_over_buckets(sizes, spare, |bucket, pages| {
            if named[bucket] {
                look_at_torn(sizes, pages)
            } else {
                look_at(sizes, pages)
            }
        })
    }

    /// Erases each named bucket, rising, and then the ledger; both need no entries.
    pub fn sweep(&mut self, sizes: &Sizes, device: &mut Device) -> Result<(), Cut> {
        for bucket in sizes.outside_ledger() {
            if self.named[usize::from(bucket)] {
                device.erase(bucket)?;
                self.survey.erased(bucket);
            }
        }
        sizes
            .ledger()
            .into_iter()
            .try_for_each(|bucket| device.erase(bucket))
    }
}

fn pages_of<'s>(sizes: &Sizes, spare: &'s [u8], bucket: u8) -> &'s [Area] {
    &areas(spare)[usize::from(bucket) * sizes.bucket_pages..][..sizes.bucket_pages]
}

/// Whether none of a bucket's programmed pages holds another epoch than its entry.
fn is_named_by(pages: &[Area], epoch: u32) -> bool {
    let mut pages = pages.iter().map(Spare::of);
    pages.all(|page| !page.is_programmed() || page.epoch() == epoch)
}

/// Looks at one named bucket; `None` when its programmed pages break the rules. Which of
/// its pages are programmed, and their ordinals, are not among these.
fn look_at_torn(sizes: &Sizes, pages: &[Area]) -> Option<Look> {
    let programmed = pages
        .iter()
        .map(Spare::of)
        .filter(|page| page.is_programmed());
    let Some(first) = programmed.clone().next() else {
        return Some(Look::BLANK);
    };
    let kind = first.kind_if_good(sizes)?;
    let good = |page: Spare| page.same_bucket(first) && page.kind_if_good(sizes).is_some();
    programmed.clone().all(good).then(|| Look {
        kind,
        // It is erased before anyone asks which of its pages are spoiled.
        used: Used::new(programmed.count(), false),
        back_end: first.back_end(),
        epoch: first.epoch(),
    })
}
