//! Spare areas and their fields.

use crate::sizes::Sizes;

pub const SPARE_BYTES: usize = 16;

/// A page's spare area as it lies on the chip.
pub type Area = [u8; SPARE_BYTES];

/// The spare areas of a chip or of a part of it, page by page.
pub fn areas(spare: &[u8]) -> &[Area] {
    spare.as_chunks().0
}

/// What a bucket holds: nothing, or what the state byte of its programmed pages says.
#[derive(Clone, Copy, Debug, PartialEq, Eq)]
pub enum Kind {
    Nothing = 0,
    Read = 1,
    Write = 2,
    Dirty = 3,
}

impl Kind {
    /// The kind of a programmed page.
    fn from_byte(byte: u8) -> Option<Kind> {
        match byte {
            1 => Some(Kind::Read),
            2 => Some(Kind::Write),
            3 => Some(Kind::Dirty),
            _ => None,
        }
    }

    pub fn is_copy(self) -> bool {
        matches!(self, Kind::Read | Kind::Dirty)
    }
}

/// The fields that all pages of a log share.
#[derive(Clone, Copy, Debug, PartialEq, Eq)]
pub struct Log {
    pub kind: Kind,
    pub epoch: u32,
    pub back_end: u16,
    pub offset: usize,
    pub length: usize,
}

/// A page's spare area as one number, its first byte lowest.
#[derive(Clone, Copy, Debug, PartialEq, Eq)]
pub struct Spare(u128);

impl Spare {
    const BLANK: Spare = Spare(u128::MAX);
    /// The state that the chip reports of a page whose program stopped halfway.
    const SPOILED: u8 = 0;
    /// One more in the ordinal.
    const ORDINAL: u128 = 1 << 8;
    /// State, zero bytes, epoch and back-end bucket: alike in all pages of a bucket.
    const BUCKET_FIELDS: u128 =
        u128::from_le_bytes(*b"\xFF\0\0\xFF\xFF\xFF\xFF\xFF\xFF\xFF\xFF\xFF\0\0\0\0");
    const ZERO_BYTES: u128 = u128::from_le_bytes(*b"\0\0\0\xFF\0\0\0\0\0\0\xFF\xFF\0\0\0\0");

    /// State 4, ordinal 0, count 1 and zeros: an entry but for its epoch and its bucket.
    const ENTRY: u128 = u128::from_le_bytes(*b"\x04\0\x01\0\0\0\0\0\0\0\0\0\0\0\0\0");
    const ENTRY_FIELDS: u128 =
        u128::from_le_bytes(*b"\0\0\0\0\xFF\xFF\xFF\xFF\xFF\xFF\0\0\0\0\0\0");

    pub fn of(area: &Area) -> Spare {
        Spare(u128::from_le_bytes(*area))
    }

    /// The first page of a log that takes `count` pages.
    pub fn first_of(log: &Log, count: usize) -> Spare {
        let mut area = [0; SPARE_BYTES];
        area[0] = log.kind as u8;
        area[2] = count as u8;
        area[4..8].copy_from_slice(&log.epoch.to_be_bytes());
        area[8..10].copy_from_slice(&log.back_end.to_be_bytes());
        area[12..14].copy_from_slice(&(log.offset as u16).to_be_bytes());
        area[14..].copy_from_slice(&((log.length - 1) as u16).to_be_bytes());
        Spare::of(&area)
    }

    /// A ledger's entry for a bucket that is about to be erased; epoch 0 says it has none.
    pub fn entry(bucket: u8, epoch: u32) -> Spare {
        let mut area = Spare::ENTRY.to_le_bytes();
        area[4..8].copy_from_slice(&epoch.to_be_bytes());
        area[9] = bucket;
        Spare::of(&area)
    }

    /// The page after this one in the same log.
    pub fn next(self) -> Spare {
        Spare(self.0.wrapping_add(Spare::ORDINAL))
    }

    pub fn area(self) -> Area {
        self.0.to_le_bytes()
    }

    pub fn is_blank(self) -> bool {
        self == Spare::BLANK
    }

    /// Whether the page is spoiled: it is used, and its other bytes mean nothing.
    pub fn is_spoiled(self) -> bool {
        self.byte(0) == Spare::SPOILED
    }

    pub fn is_programmed(self) -> bool {
        !self.is_blank() && !self.is_spoiled()
    }

    fn byte(self, place: usize) -> u8 {
        (self.0 >> (8 * place)) as u8
    }

    fn pair(self, place: usize) -> u16 {
        ((self.0 >> (8 * place)) as u16).swap_bytes()
    }

    fn kind(self) -> Option<Kind> {
        Kind::from_byte(self.byte(0))
    }

    fn ordinal(self) -> usize {
        self.byte(1).into()
    }

    pub fn count(self) -> usize {
        self.byte(2).into()
    }

    pub fn epoch(self) -> u32 {
        ((self.0 >> 32) as u32).swap_bytes()
    }

    pub fn back_end(self) -> u16 {
        self.pair(8)
    }

    pub fn offset(self) -> usize {
        self.pair(12).into()
    }

    pub fn length(self) -> usize {
        usize::from(self.pair(14)) + 1
    }

    /// The bucket and the epoch of a ledger's entry, if this is one.
    pub fn as_entry(self, sizes: &Sizes) -> Option<(u8, u32)> {
        let bucket = usize::from(self.back_end());
        let is_entry =
            self.0 & !Spare::ENTRY_FIELDS == Spare::ENTRY && bucket < sizes.queued_buckets();
        is_entry.then(|| (bucket as u8, self.epoch()))
    }

    /// If this used page completes its log, how many pages before it the log began.
    pub fn completes(self) -> Option<usize> {
        let is_last = self.ordinal() + 1 == self.count() && !self.is_spoiled();
        is_last.then(|| self.ordinal())
    }

    pub fn starts_log(self, sizes: &Sizes) -> bool {
        self.is_first() && self.log_fits(sizes)
    }

    /// Whether this is the first page of its log.
    pub fn is_first(self) -> bool {
        self.ordinal() == 0
    }

    /// Whether the page count fits the length, and the log its bucket.
    fn log_fits(self, sizes: &Sizes) -> bool {
        sizes.fills_pages(self.length(), self.count())
            && sizes.part_fits(self.offset(), self.length())
    }

    /// The kind of a programmed page whose fields keep the rules, whatever its ordinal.
    pub fn kind_if_good(self, sizes: &Sizes) -> Option<Kind> {
        let kind = self.kind()?;
        let whole = self.offset() == 0 && self.length() == sizes.bucket_bytes();
        let good = self.zeros_are_zero()
            && self.epoch() >= 1
            && usize::from(self.back_end()) < sizes.back_end_buckets
            && self.log_fits(sizes)
            && (kind == Kind::Write || whole);
        good.then_some(kind)
    }

    fn zeros_are_zero(self) -> bool {
        self.0 & Spare::ZERO_BYTES == 0
    }

    pub fn same_bucket(self, other: Spare) -> bool {
        (self.0 ^ other.0) & Spare::BUCKET_FIELDS == 0
    }
}
