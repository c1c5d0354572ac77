//! The frames of the calls 01 to 06, alike in both programs.

use crate::form::read_sizes;
use crate::frame::{Frame, TurnedDown};
use crate::sizes::Sizes;

pub enum Request<'a> {
    Format(Sizes),
    Read {
        back_end: usize,
        offset: usize,
        length: usize,
    },
    Write {
        back_end: usize,
        offset: usize,
        data: &'a [u8],
    },
    EraseStep,
    Drain,
    Recover,
}

impl<'a> Request<'a> {
    /// The allowance and the request of a frame whose operation is read.
    pub fn parse(operation: usize, mut frame: Frame<'a>) -> Result<(u64, Request<'a>), TurnedDown> {
        let allowance = frame.number(2)?;
        let request = match operation {
            1 => Request::Format(read_sizes(&mut frame)?),
            2 => Request::Read {
                back_end: frame.pair()?,
                offset: frame.pair()?,
                length: frame.pair()?,
            },
            3 => Request::Write {
                back_end: frame.pair()?,
                offset: frame.pair()?,
                data: frame.rest(),
            },
            4 => Request::EraseStep,
            5 => Request::Drain,
            6 => Request::Recover,
            _ => return Err(TurnedDown::BadLine),
        };
        frame.end()?;
        Ok((allowance, request))
    }
}
