//! The recorder that the lines drive: its chip, its disk and the engine's state.

use crate::device::Lent;
use crate::engine::{self, Answer, Refusal};
use crate::frame::TurnedDown;
use crate::lines::Answered;
use crate::request::Request;
use crate::sizes::Sizes;
use crate::spare::SPARE_BYTES;
use crate::state::State;

const FLASH_BYTES: usize = 32_768;
const DISK_BYTES: usize = 16_384;

/// By how many bytes the data, spare and disk lent to a call are too short.
#[derive(Clone, Copy, Default)]
pub struct Missing {
    pub data: usize,
    pub spare: usize,
    pub disk: usize,
}

pub struct Recorder {
    pub data: [u8; FLASH_BYTES],
    pub spare: [u8; FLASH_BYTES],
    pub disk: [u8; DISK_BYTES],
    pub state: State,
    /// The sizes of the last Done format.
    formatted: Option<Sizes>,
}

impl Recorder {
    pub fn new() -> Recorder {
        Recorder {
            data: [0; FLASH_BYTES],
            spare: [0; FLASH_BYTES],
            disk: [0; DISK_BYTES],
            state: State::default(),
            formatted: None,
        }
    }

    /// The sizes of the last Done format, without which there is nothing to call.
    pub fn formatted(&self) -> Result<Sizes, TurnedDown> {
        self.formatted.ok_or(TurnedDown::BeforeFormat)
    }

    /// Makes a call; the bytes of a read that is Done are put in `bytes`.
    pub fn run(
        &mut self,
        request: Request,
        allowance: u64,
        missing: Missing,
        bytes: &mut Vec<u8>,
    ) -> Result<Answered, TurnedDown> {
        let Request::Format(sizes) = request else {
            let sizes = self.formatted()?;
            return Ok(self.call(sizes, request, allowance, missing, bytes));
        };
        if sizes.within_limits() && !fits_buffers(&sizes) {
            return Err(TurnedDown::BeyondBuffers);
        }
        let answered = self.call(sizes, request, allowance, missing, bytes);
        if answered.0 == Answer::Done.byte() {
            self.formatted = Some(sizes);
        }
        Ok(answered)
    }

    fn call(
        &mut self,
        sizes: Sizes,
        request: Request,
        allowance: u64,
        missing: Missing,
        bytes: &mut Vec<u8>,
    ) -> Answered {
        let state = std::mem::take(&mut self.state);
        let lent = self.lend(sizes, missing);
        let outcome = match request {
            Request::Format(sizes) => engine::format(state, sizes, lent, allowance),
            Request::Read {
                back_end,
                offset,
                length,
            } => {
                bytes.resize(length, 0);
                engine::read(state, lent, allowance, back_end, offset, bytes)
            }
            Request::Write {
                back_end,
                offset,
                data,
            } => engine::write(state, lent, allowance, back_end, offset, data),
            Request::EraseStep => engine::erase_step(state, lent, allowance),
            Request::Drain => engine::drain(state, lent, allowance),
            Request::Recover => engine::recover(state, sizes, lent, allowance),
        };
        self.state = outcome.state;
        if outcome.answer != Answer::Done {
            bytes.clear();
        }
        (outcome.answer.byte(), outcome.stores)
    }

    /// Each array from its start.
    fn lend(&mut self, sizes: Sizes, missing: Missing) -> Lent<'_> {
        // Sizes that break a limit may be beyond the arrays; the engine refuses
        // them before it looks at what is lent.
        let sizes = if sizes.within_limits() {
            sizes
        } else {
            Sizes::default()
        };
        Lent {
            data: &mut self.data[..sizes.data_bytes().saturating_sub(missing.data)],
            spare: &mut self.spare[..sizes.spare_bytes().saturating_sub(missing.spare)],
            disk: &mut self.disk[..sizes.disk_bytes().saturating_sub(missing.disk)],
        }
    }

    /// Looks at a page; its bytes are put in `bytes`.
    pub fn page_look(
        &mut self,
        bucket: usize,
        page: usize,
        missing: Missing,
        bytes: &mut Vec<u8>,
    ) -> Result<Answered, TurnedDown> {
        let sizes = self.formatted()?;
        let state = std::mem::take(&mut self.state);
        let lent = self.lend(sizes, missing);
        let look = engine::page_look(state, lent.data, bucket, page);
        bytes.extend_from_slice(look.page);
        let answer = look.answer.byte();
        self.state = look.state;
        Ok((answer, 0))
    }

    /// Writes the chip as text into a buffer with so much room; the text's length and the
    /// text are put in `bytes`.
    pub fn write_text(
        &mut self,
        room: usize,
        missing: Missing,
        bytes: &mut Vec<u8>,
    ) -> Result<Answered, TurnedDown> {
        let (sizes, state_sizes) = (self.formatted()?, self.state.sizes);
        let lent = self.lend(sizes, missing);
        let mut buffer = vec![0; room];
        let written = engine::write_text(&state_sizes, lent.data, lent.spare, &mut buffer);
        if let Ok(length) = written {
            bytes.extend_from_slice(&(length as u32).to_be_bytes());
            bytes.extend_from_slice(&buffer[..length]);
        }
        Ok(answered(written.map(|_| ())))
    }

    /// Reads a text onto the chip.
    pub fn read_text(&mut self, text: &[u8], missing: Missing) -> Result<Answered, TurnedDown> {
        let (sizes, state_sizes) = (self.formatted()?, self.state.sizes);
        let lent = self.lend(sizes, missing);
        let read = engine::read_text(&state_sizes, text, lent.data, lent.spare);
        Ok(answered(read))
    }
}

/// What is printed of an entry that takes no allowance.
fn answered(outcome: Result<(), Refusal>) -> Answered {
    let answer = outcome.map_or_else(Answer::Refused, |()| Answer::Done);
    (answer.byte(), 0)
}

fn fits_buffers(sizes: &Sizes) -> bool {
    let pages = sizes.cache_buckets * sizes.bucket_pages;
    pages * (sizes.page_bytes + SPARE_BYTES) <= FLASH_BYTES && sizes.disk_bytes() <= DISK_BYTES
}
