//! Where the bytes of a back-end bucket are: complete logs over a copy or the disk.

use std::ops::Range;

use crate::sizes::Sizes;
use crate::spare::{areas, Spare};

/// The buckets that hold the bytes of one back-end bucket.
#[derive(Clone, Copy)]
pub struct Holding<'b> {
    pub back_end: u16,
    /// The Read or Dirty bucket under the logs; the disk if there is none.
    pub copy: Option<u8>,
    /// Write buckets by rising epoch.
    pub writes: &'b [u8],
}

/// Bytes of a log, and where in a part of the back-end bucket they are laid.
pub struct Piece {
    /// Their first byte in the flash data.
    pub from: usize,
    /// Their first byte in the part.
    pub to: usize,
    pub length: usize,
}

impl Holding<'_> {
    /// A copy with no logs over it.
    pub fn copy_alone(back_end: u16, copy: u8) -> Self {
        Holding {
            back_end,
            copy: Some(copy),
            writes: &[],
        }
    }

    /// Gives what the complete logs lay over a part of the back-end bucket, oldest
    /// first.
    pub fn each_piece(
        &self,
        sizes: &Sizes,
        spare: &[u8],
        part: Range<usize>,
        mut give: impl FnMut(Piece),
    ) {
        for &bucket in self.writes {
            let first_page = usize::from(bucket) * sizes.bucket_pages;
            let areas = &areas(spare)[first_page..][..sizes.bucket_pages];
            let spares = areas.iter().map(Spare::of).take_while(|s| !s.is_blank());
            for (page, spare) in spares.enumerate() {
                // Only the last page commits a log; pages of abandoned logs never match.
                if let Some(back) = spare.completes() {
                    let from = (first_page + page - back) * sizes.page_bytes;
                    piece_within(spare, from, &part).map(&mut give);
                }
            }
        }
    }
}

/// What a log that is found at `from` lays over a part of the back-end bucket.
fn piece_within(log: Spare, from: usize, part: &Range<usize>) -> Option<Piece> {
    let start = log.offset().max(part.start);
    let end = (log.offset() + log.length()).min(part.end);
    (start < end).then(|| Piece {
        from: from + start - log.offset(),
        to: start - part.start,
        length: end - start,
    })
}
