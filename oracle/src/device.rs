//! The lent chip and disk, and the three kinds of store that change them: programs
//! of pages, erases of buckets, writes of disk units.

use crate::merge::Holding;
use crate::sizes::Sizes;
use crate::spare::{areas, Kind, Log, Spare, SPARE_BYTES};

pub const ERASED: u8 = 0xFF;

/// The buffers a caller lends: flash data, its spare areas and the disk.
pub struct Lent<'a> {
    pub data: &'a mut [u8],
    pub spare: &'a mut [u8],
    pub disk: &'a mut [u8],
}

impl Lent<'_> {
    pub fn fits(&self, sizes: &Sizes) -> bool {
        self.data.len() == sizes.data_bytes()
            && self.spare.len() == sizes.spare_bytes()
            && self.disk.len() == sizes.disk_bytes()
    }
}

/// The allowance ran short: the next store was not made.
#[derive(Debug)]
pub struct Cut;

/// The lent buffers together with the allowance that guards them.
pub struct Device<'a> {
    sizes: Sizes,
    lent: Lent<'a>,
    allowance: u64,
    made: u64,
}

impl<'a> Device<'a> {
    pub fn new(sizes: Sizes, lent: Lent<'a>, allowance: u64) -> Device<'a> {
        Device {
            sizes,
            lent,
            allowance,
            made: 0,
        }
    }

    pub fn stores_made(&self) -> u64 {
        self.made
    }

    /// Grants as many of the next `wanted` stores as the allowance has left; the
    /// caller makes exactly those, and is cut if they are not all.
    fn grant(&mut self, wanted: usize) -> (usize, Result<(), Cut>) {
        let granted = (self.allowance - self.made).min(wanted as u64) as usize;
        self.made += granted as u64;
        let outcome = if granted == wanted { Ok(()) } else { Err(Cut) };
        (granted, outcome)
    }

    pub fn erase(&mut self, bucket: u8) -> Result<(), Cut> {
        let (_, outcome) = self.grant(1);
        outcome?;
        let spare_bytes = self.sizes.bucket_pages * SPARE_BYTES;
        self.lent.data[self.sizes.start(bucket)..][..self.sizes.bucket_bytes()].fill(ERASED);
        self.lent.spare[usize::from(bucket) * spare_bytes..][..spare_bytes].fill(ERASED);
        Ok(())
    }

    /// The epoch of a bucket as it is now; 0 if no page of it is programmed.
    pub fn epoch_of(&self, bucket: u8) -> u32 {
        let first_page = usize::from(bucket) * self.sizes.bucket_pages;
        let pages = &areas(&self.lent.spare)[first_page..][..self.sizes.bucket_pages];
        let mut pages = pages.iter().map(Spare::of);
        pages.find(|p| p.is_programmed()).map_or(0, Spare::epoch)
    }

    /// Programs a ledger's page with an entry; its data is FF throughout.
    pub fn program_entry(&mut self, bucket: u8, page: usize, entry: Spare) -> Result<(), Cut> {
        let (_, outcome) = self.grant(1);
        outcome?;
        let page = usize::from(bucket) * self.sizes.bucket_pages + page;
        let page_bytes = self.sizes.page_bytes;
        self.lent.data[page * page_bytes..][..page_bytes].fill(ERASED);
        self.lent.spare[page * SPARE_BYTES..][..SPARE_BYTES].copy_from_slice(&entry.area());
        Ok(())
    }

    /// Programs a log into a bucket whose first `used` pages are taken.
    pub fn program_log(
        &mut self,
        bucket: u8,
        used: usize,
        log: &Log,
        data: &[u8],
    ) -> Result<(), Cut> {
        let (pages, outcome) = self.grant(self.sizes.log_pages(log.length));
        let first_page = usize::from(bucket) * self.sizes.bucket_pages + used;
        let page_bytes = self.sizes.page_bytes;
        let room = &mut self.lent.data[first_page * page_bytes..][..pages * page_bytes];
        let (bytes, fill) = room.split_at_mut(data.len().min(room.len()));
        bytes.copy_from_slice(&data[..bytes.len()]);
        fill.fill(ERASED);
        self.tag(first_page, pages, log);
        outcome
    }

    /// Programs all pages of a blank bucket as a Read or Dirty copy, straight from
    /// where the bytes are.
    pub fn program_copy(
        &mut self,
        bucket: u8,
        kind: Kind,
        epoch: u32,
        from: &Holding,
    ) -> Result<(), Cut> {
        let (pages, outcome) = self.grant(self.sizes.bucket_pages);
        let (start, length) = (self.sizes.start(bucket), pages * self.sizes.page_bytes);
        let Lent { data, spare, disk } = &mut self.lent;
        match from.copy.map(|copy| self.sizes.start(copy)) {
            Some(copy) => data.copy_within(copy..copy + length, start),
            None => {
                let units = &disk[self.sizes.start(from.back_end)..][..length];
                data[start..][..length].copy_from_slice(units);
            }
        }
        from.each_piece(&self.sizes, spare, 0..length, |piece| {
            data.copy_within(piece.from..piece.from + piece.length, start + piece.to);
        });
        let log = Log {
            kind,
            epoch,
            back_end: from.back_end,
            offset: 0,
            length: self.sizes.bucket_bytes(),
        };
        self.tag(usize::from(bucket) * self.sizes.bucket_pages, pages, &log);
        outcome
    }

    /// Fills the spare areas of the first pages of a log.
    fn tag(&mut self, first_page: usize, pages: usize, log: &Log) {
        let mut spare = Spare::first_of(log, self.sizes.log_pages(log.length));
        let (areas, _) = self.lent.spare.as_chunks_mut();
        for area in &mut areas[first_page..][..pages] {
            *area = spare.area();
            spare = spare.next();
        }
    }

    /// Writes all units of a back-end bucket in rising order. Without a copy their
    /// bytes are there already, and only the logs are laid over them.
    pub fn write_units(&mut self, from: &Holding) -> Result<(), Cut> {
        let (units, outcome) = self.grant(self.sizes.bucket_pages);
        let length = units * self.sizes.page_bytes;
        let Lent { data, spare, disk } = &mut self.lent;
        let disk = &mut disk[self.sizes.start(from.back_end)..][..length];
        if let Some(copy) = from.copy {
            disk.copy_from_slice(&data[self.sizes.start(copy)..][..length]);
        }
        from.each_piece(&self.sizes, spare, 0..length, |piece| {
            disk[piece.to..][..piece.length].copy_from_slice(&data[piece.from..][..piece.length]);
        });
        outcome
    }

    /// Reads a part of a back-end bucket; this is no store.
    pub fn read(&self, from: &Holding, offset: usize, buffer: &mut [u8]) {
        let Lent { data, spare, disk } = &self.lent;
        let base = match from.copy {
            Some(copy) => &data[self.sizes.start(copy)..],
            None => &disk[self.sizes.start(from.back_end)..],
        };
        buffer.copy_from_slice(&base[offset..][..buffer.len()]);
        let part = offset..offset + buffer.len();
        from.each_piece(&self.sizes, spare, part, |piece| {
            buffer[piece.to..][..piece.length].copy_from_slice(&data[piece.from..][..piece.length]);
        });
    }
}
