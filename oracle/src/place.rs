//! A place in a frame: a bucket and a page or unit of it.

use crate::frame::{Frame, TurnedDown};

/// A page of a cache bucket, or a unit of a back-end bucket.
pub struct Place {
    pub bucket: usize,
    pub page: usize,
}

impl Place {
    pub fn parse(frame: &mut Frame) -> Result<Place, TurnedDown> {
        Ok(Place {
            bucket: frame.pair()?,
            page: frame.byte()?,
        })
    }

    /// Which one of so many buckets of so many pages it is, counted from the first.
    pub fn among(&self, buckets: usize, pages: usize) -> Result<usize, TurnedDown> {
        if self.bucket < buckets && self.page < pages {
            Ok(self.bucket * pages + self.page)
        } else {
            Err(TurnedDown::NoPlace)
        }
    }
}
