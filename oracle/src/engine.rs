//! The entries. Each takes the state by value, refuses bad calls by number, and
//! hands the state back with an answer and the count of stores made.

use crate::device::{Cut, Device, Lent};
use crate::found::Found;
use crate::image_text;
use crate::recover;
use crate::sizes::Sizes;
use crate::state::State;
use crate::steps::Call;
use crate::survey::Survey;

/// Why a call is turned down; the numbers are those of documents 01 and 02.
#[derive(Clone, Copy, Debug, PartialEq, Eq)]
pub enum Refusal {
    Sizes = 1,
    Buffers = 2,
    NotRunning = 3,
    Image = 4,
    State = 5,
    Place = 6,
    Part = 7,
    Epochs = 8,
    Line = 9,
    PageTwice = 10,
}

#[derive(Clone, Copy, Debug, PartialEq, Eq)]
pub enum Answer {
    Done,
    Idle,
    Cut,
    Refused(Refusal),
}

impl Answer {
    pub const fn byte(self) -> u8 {
        match self {
            Answer::Done => 0x00,
            Answer::Idle => 0x10,
            Answer::Cut => 0x11,
            Answer::Refused(refusal) => refusal as u8,
        }
    }
}

#[derive(Clone, Debug, PartialEq, Eq)]
pub struct Outcome {
    pub answer: Answer,
    /// Stores made.
    pub stores: u64,
    pub state: State,
}

impl Outcome {
    fn refused(refusal: Refusal, state: State) -> Outcome {
        Outcome {
            answer: Answer::Refused(refusal),
            stores: 0,
            state,
        }
    }

    fn cut(stores: u64, state: State) -> Outcome {
        Outcome {
            answer: Answer::Cut,
            stores,
            state: state.stopped(),
        }
    }
}

/// A page look's outcome; the page is empty with a refusal.
pub struct PageLook<'a> {
    pub answer: Answer,
    pub state: State,
    pub page: &'a [u8],
}

pub fn format(state: State, sizes: Sizes, lent: Lent, allowance: u64) -> Outcome {
    if let Err(refusal) = check_lent(&sizes, &lent) {
        return Outcome::refused(refusal, state);
    }
    let mut device = Device::new(sizes, lent, allowance);
    let erased = sizes.buckets().try_for_each(|bucket| device.erase(bucket));
    match erased {
        Ok(()) => Outcome {
            answer: Answer::Done,
            stores: device.stores_made(),
            state: State::formatted(sizes),
        },
        Err(Cut) => Outcome::cut(device.stores_made(), state),
    }
}

pub fn read(
    state: State,
    lent: Lent,
    allowance: u64,
    back_end: usize,
    offset: usize,
    buffer: &mut [u8],
) -> Outcome {
    let part = Part {
        back_end,
        offset,
        length: buffer.len(),
    };
    run(
        state,
        lent,
        allowance,
        |state| part.check(&state.sizes),
        |call| call.read(back_end as u16, offset, buffer),
    )
}

pub fn write(
    state: State,
    lent: Lent,
    allowance: u64,
    back_end: usize,
    offset: usize,
    data: &[u8],
) -> Outcome {
    let part = Part {
        back_end,
        offset,
        length: data.len(),
    };
    let check = |state: &State| {
        part.check(&state.sizes)?;
        require(state.has_epochs(), Refusal::Epochs)
    };
    run(state, lent, allowance, check, |call| {
        call.write(back_end as u16, offset, data)
    })
}

pub fn erase_step(state: State, lent: Lent, allowance: u64) -> Outcome {
    run(state, lent, allowance, |_| Ok(()), |call| call.erase_step())
}

pub fn drain(state: State, lent: Lent, allowance: u64) -> Outcome {
    run(state, lent, allowance, |_| Ok(()), |call| call.drain())
}

pub fn recover(state: State, sizes: Sizes, lent: Lent, allowance: u64) -> Outcome {
    if let Err(refusal) = check_lent(&sizes, &lent) {
        return Outcome::refused(refusal, state);
    }
    let mut found = Found::blank();
    if !found.look_over(&sizes, lent.spare) {
        return Outcome::refused(Refusal::Image, state);
    }
    let mut device = Device::new(sizes, lent, allowance);
    match recover::recover(sizes, found, &mut device) {
        Ok(state) => Outcome {
            answer: Answer::Done,
            stores: device.stores_made(),
            state,
        },
        Err(Cut) => Outcome::cut(device.stores_made(), state),
    }
}

/// Lends a page's own bytes back out of the lent flash data.
pub fn page_look(state: State, data: &[u8], bucket: usize, page: usize) -> PageLook<'_> {
    let sizes = state.sizes;
    let refused = |refusal, state| PageLook {
        answer: Answer::Refused(refusal),
        state,
        page: &[],
    };
    if !sizes.within_limits() {
        return refused(Refusal::Sizes, state);
    }
    if data.len() != sizes.data_bytes() {
        return refused(Refusal::Buffers, state);
    }
    if bucket >= sizes.cache_buckets || page >= sizes.bucket_pages {
        return refused(Refusal::Place, state);
    }
    let start = (bucket * sizes.bucket_pages + page) * sizes.page_bytes;
    PageLook {
        answer: Answer::Done,
        state,
        page: &data[start..][..sizes.page_bytes],
    }
}

/// Puts the chip's image as text at the start of a buffer; gives the text's length.
pub fn write_text(
    sizes: &Sizes,
    data: &[u8],
    spare: &[u8],
    buffer: &mut [u8],
) -> Result<usize, Refusal> {
    check_chip(sizes, data, spare)?;
    let length = image_text::length(sizes, spare);
    let text = buffer.get_mut(..length).ok_or(Refusal::Buffers)?;
    image_text::write(sizes, data, spare, text);
    Ok(length)
}

/// Makes the chip the image of a text; a text with a fault changes nothing.
pub fn read_text(
    sizes: &Sizes,
    text: &[u8],
    data: &mut [u8],
    spare: &mut [u8],
) -> Result<(), Refusal> {
    check_chip(sizes, data, spare)?;
    image_text::check(sizes, text).map_err(|fault| fault.refusal)?;
    image_text::read(sizes, text, data, spare);
    Ok(())
}

/// The part of a back-end bucket that a read or write is about.
struct Part {
    back_end: usize,
    offset: usize,
    length: usize,
}

impl Part {
    fn check(&self, sizes: &Sizes) -> Result<(), Refusal> {
        require(self.back_end < sizes.back_end_buckets, Refusal::Place)?;
        require(
            self.length > 0 && sizes.part_fits(self.offset, self.length),
            Refusal::Part,
        )
    }
}

fn require(holds: bool, refusal: Refusal) -> Result<(), Refusal> {
    if holds {
        Ok(())
    } else {
        Err(refusal)
    }
}

fn check_lent(sizes: &Sizes, lent: &Lent) -> Result<(), Refusal> {
    require(sizes.within_limits(), Refusal::Sizes)?;
    require(lent.fits(sizes), Refusal::Buffers)
}

/// The refusals of the entries that are lent a chip and no disk.
fn check_chip(sizes: &Sizes, data: &[u8], spare: &[u8]) -> Result<(), Refusal> {
    require(sizes.within_limits(), Refusal::Sizes)?;
    let lengths = (data.len(), spare.len());
    require(
        lengths == (sizes.data_bytes(), sizes.spare_bytes()),
        Refusal::Buffers,
    )
}

/// The refusals of the four operations that need a running state, up to number 5.
fn check_running(state: &State, lent: &Lent, survey: &mut Survey) -> Result<(), Refusal> {
    check_lent(&state.sizes, lent)?;
    require(state.running, Refusal::NotRunning)?;
    require(survey.look_over(&state.sizes, lent.spare), Refusal::Image)?;
    require(state.fits(survey), Refusal::State)
}

/// Runs one of those four: first every refusal in its order, then the operation,
/// on a state that a cut throws away.
fn run(
    state: State,
    lent: Lent,
    allowance: u64,
    check: impl FnOnce(&State) -> Result<(), Refusal>,
    operation: impl FnOnce(&mut Call) -> Result<Answer, Cut>,
) -> Outcome {
    let mut survey = Survey::blank();
    let checked = check_running(&state, &lent, &mut survey).and_then(|()| check(&state));
    if let Err(refusal) = checked {
        return Outcome::refused(refusal, state);
    }
    let mut call = Call {
        state: state.clone(),
        device: Device::new(state.sizes, lent, allowance),
        survey: &survey,
        ledger: survey.ledger,
    };
    match operation(&mut call) {
        Ok(answer) => Outcome {
            answer,
            stores: call.device.stores_made(),
            state: call.state,
        },
        Err(Cut) => Outcome::cut(call.device.stores_made(), state),
    }
}
