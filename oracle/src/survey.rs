//! One pass over the spare areas: whether the image is well formed, and what each
//! bucket holds.

use std::ops::Index;

use crate::distinct::Distinct;
use crate::ledger::{ledger_areas, Ledger};
use crate::sizes::{Sizes, MOST_BUCKETS};
use crate::spare::{areas, Area, Kind, Spare};

/// How many pages of a bucket are not blank, and in the highest bit whether one of them
/// is spoiled: a byte for both, as a survey has so many.
#[derive(Clone, Copy)]
pub struct Used(u8);

impl Used {
    const SPOILED: u8 = 0x80;

    pub fn new(pages: usize, spoiled: bool) -> Used {
        Used(pages as u8 | if spoiled { Used::SPOILED } else { 0 })
    }

    fn pages(self) -> u8 {
        self.0 & !Used::SPOILED
    }
}

/// What the spare areas of one bucket say, once they are known to be well formed.
#[derive(Clone, Copy)]
pub struct Look {
    /// Kind, back-end bucket and epoch are those of its first programmed page.
    pub kind: Kind,
    pub used: Used,
    pub back_end: u16,
    /// At least 1, and 0 without a programmed page.
    pub epoch: u32,
}

impl Look {
    pub const BLANK: Look = Look {
        kind: Kind::Nothing,
        used: Used(0),
        back_end: 0,
        epoch: 0,
    };

    /// With a spoiled page before all of these.
    fn behind_spoiled(self) -> Look {
        let used = Used::new(usize::from(self.used.pages()) + 1, true);
        Look { used, ..self }
    }

    pub fn is_blank(&self) -> bool {
        self.used.0 == 0
    }

    /// Whether some page is programmed.
    pub fn is_occupied(&self) -> bool {
        self.kind != Kind::Nothing
    }

    /// Whether some page is spoiled and none programmed.
    pub fn is_spent(&self) -> bool {
        !self.is_blank() && !self.is_occupied()
    }

    /// Whether all pages are programmed: used, and none of them spoiled.
    pub fn is_complete(&self, sizes: &Sizes) -> bool {
        usize::from(self.used.0) == sizes.bucket_pages
    }

    /// How many pages are blank: all behind those in use.
    pub fn blank_pages(&self, sizes: &Sizes) -> u8 {
        sizes.bucket_pages as u8 - self.used.pages()
    }
}

/// What the whole chip holds: its buckets outside the ledger, and the ledger. It is filled where it stands, as it is too large to be
/// handed on by value for nothing.
pub struct Survey {
    /// Blank from the ledger on.
    looks: [Look; MOST_BUCKETS],
    pub ledger: Ledger,
    /// The lowest next epoch that is above all present, those of entries too: the
    /// highest plus 1, or 1.
    pub next_epoch: u64,
}

impl Survey {
    /// Of a chip with no page programmed.
    pub fn blank() -> Survey {
        Survey {
            looks: [Look::BLANK; MOST_BUCKETS],
            ledger: Ledger::default(),
            next_epoch: 1,
        }
    }

    /// Looks at every bucket of the chip; false when the image is not well formed.
    pub fn look_over(&mut self, sizes: &Sizes, spare: &[u8]) -> bool {
        self.look_over_buckets(sizes, spare, |_, pages| look_at(sizes, pages))
            && self.look_over_ledger(sizes, spare)
    }

    /// Looks at every bucket outside the ledger by a rule for its pages; no two may
    /// share an epoch.
    pub fn look_over_buckets(
        &mut self,
        sizes: &Sizes,
        spare: &[u8],
        look_at: impl Fn(usize, &[Area]) -> Option<Look>,
    ) -> bool {
        let mut epochs = Distinct::<{ 2 * MOST_BUCKETS }>::new();
        let looks = self.looks[..sizes.queued_buckets()].iter_mut();
        let buckets = areas(spare).chunks_exact(sizes.bucket_pages);
        looks.zip(buckets).enumerate().all(|(i, (look, pages))| {
            let Some(seen) = look_at(i, pages) else {
                return false;
            };
            *look = seen;
            self.next_epoch = self.next_epoch.max(u64::from(seen.epoch) + 1);
            !seen.is_occupied() || epochs.insert(seen.epoch)
        })
    }

    /// Looks at both ledger buckets: entries and spoiled pages, and blank ones only
    /// behind them.
    fn look_over_ledger(&mut self, sizes: &Sizes, spare: &[u8]) -> bool {
        let buckets = ledger_areas(sizes, spare).chunks_exact(sizes.bucket_pages);
        buckets.enumerate().all(|(i, pages)| {
            let mut used = 0;
            for page in pages.iter().map(Spare::of) {
                match page.as_entry(sizes) {
                    Some((_, epoch)) => self.take_epoch(epoch),
                    None if page.is_spoiled() => {}
                    None => break,
                }
                used += 1;
            }
            self.ledger.used[i] = used;
            all_blank(&pages[used..])
        })
    }

    /// An epoch that is present: the next one is above it.
    pub fn take_epoch(&mut self, epoch: u32) {
        self.next_epoch = self.next_epoch.max(u64::from(epoch) + 1);
    }

    /// Takes a bucket as erased since.
    pub fn erased(&mut self, bucket: u8) {
        self.looks[usize::from(bucket)] = Look::BLANK;
    }
}

impl Index<u8> for Survey {
    type Output = Look;

    fn index(&self, bucket: u8) -> &Look {
        &self.looks[usize::from(bucket)]
    }
}

/// Looks at one bucket; `None` when its pages break the rules.
pub fn look_at(sizes: &Sizes, pages: &[Area]) -> Option<Look> {
    let Some(first) = pages.first().map(Spare::of) else {
        return Some(Look::BLANK);
    };
    if first.is_blank() {
        return all_blank(pages).then_some(Look::BLANK);
    }
    if first.is_spoiled() {
        return look_at(sizes, &pages[1..]).map(Look::behind_spoiled);
    }
    let kind = first.kind_if_good(sizes).filter(|_| first.is_first())?;
    let mut used = pages_of_log(first, pages);
    let mut spoiled = false;
    while used < pages.len() {
        let spare = Spare::of(&pages[used]);
        if spare.is_blank() {
            break;
        }
        if kind == Kind::Write && spare.same_bucket(first) && spare.starts_log(sizes) {
            used += pages_of_log(spare, &pages[used..]);
        } else if spare.is_spoiled() {
            spoiled = true;
            used += 1;
        } else {
            return None;
        }
    }
    all_blank(&pages[used..]).then(|| Look {
        kind,
        used: Used::new(used, spoiled),
        back_end: first.back_end(),
        epoch: first.epoch(),
    })
}

/// How many pages of a log there are from its first one on: a page that goes on
/// with it is the page before with the ordinal one higher.
fn pages_of_log(first: Spare, pages: &[Area]) -> usize {
    let pages = &pages[..pages.len().min(first.count())];
    let mut expected = first;
    for (i, page) in pages.iter().enumerate() {
        if Spare::of(page) != expected {
            return i;
        }
        expected = expected.next();
    }
    pages.len()
}

/// Whether all bytes are FF, told by wide ands over eight pages at a time.
fn all_blank(pages: &[Area]) -> bool {
    let (eights, rest) = pages.as_chunks::<8>();
    eights.iter().all(|eight| {
        let bytes = eight.as_flattened().iter();
        bytes.fold(0xFF, |all, byte| all & byte) == 0xFF
    }) && rest.iter().all(|page| Spare::of(page).is_blank())
}
