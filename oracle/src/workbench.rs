//! The workbench: a program whose lines are the driving program's calls and the page
//! look, the text of a chip image, and lines that put and show states, pages and disk
//! units just as they are.

use std::io::{self, BufRead, Write};

use crate::engine::Answer;
use crate::form::{read_state, show_state};
use crate::frame::{Frame, TurnedDown};
use crate::lines::{answer_lines, Answered};
use crate::place::Place;
use crate::recorder::{Missing, Recorder};
use crate::request::Request;
use crate::spare::SPARE_BYTES;

const MOST_DIGITS: usize = 8_192;
/// The longest buffer that a text can be written into.
const MOST_TEXT: usize = 131_072;
/// What is answered when something was put there or shown.
const DONE: Answered = (Answer::Done.byte(), 0);

/// Answers every line of the input.
pub fn work(input: impl BufRead, output: impl Write) -> io::Result<()> {
    let mut workbench = Workbench {
        recorder: Recorder::new(),
        missing: Missing::default(),
    };
    answer_lines(input, output, MOST_DIGITS, |frame, bytes| {
        workbench.line(frame, bytes)
    })
}

struct Workbench {
    recorder: Recorder,
    /// What the next call is not lent.
    missing: Missing,
}

/// Each kind of line reads its whole frame first: a bad line is bad before all else.
impl Workbench {
    fn line(&mut self, mut frame: Frame, bytes: &mut Vec<u8>) -> Result<Answered, TurnedDown> {
        let operation = frame.byte()?;
        match operation {
            0x01..=0x06 => self.call(operation, frame, bytes),
            0x10 => self.put_state(frame),
            0x11 => self.show_state(frame, bytes),
            0x12 => self.put_page(frame),
            0x13 => self.show_page(frame, bytes),
            0x14 => self.put_unit(frame),
            0x15 => self.show_unit(frame, bytes),
            0x16 => self.page_look(frame, bytes),
            0x17 => self.lend_less(frame),
            0x30 => self.write_text(frame, bytes),
            0x31 => self.read_text(frame),
            _ => Err(TurnedDown::BadLine),
        }
    }

    fn call(
        &mut self,
        operation: usize,
        frame: Frame,
        bytes: &mut Vec<u8>,
    ) -> Result<Answered, TurnedDown> {
        let (allowance, request) = Request::parse(operation, frame)?;
        let missing = std::mem::take(&mut self.missing);
        self.recorder.run(request, allowance, missing, bytes)
    }

    fn put_state(&mut self, mut frame: Frame) -> Result<Answered, TurnedDown> {
        let state = read_state(&mut frame)?;
        frame.end()?;
        self.recorder.formatted()?;
        self.recorder.state = state;
        Ok(DONE)
    }

    fn show_state(&mut self, frame: Frame, bytes: &mut Vec<u8>) -> Result<Answered, TurnedDown> {
        frame.end()?;
        self.recorder.formatted()?;
        show_state(&self.recorder.state, bytes);
        Ok(DONE)
    }

    fn put_page(&mut self, mut frame: Frame) -> Result<Answered, TurnedDown> {
        let place = Place::parse(&mut frame)?;
        let spare = frame.take(SPARE_BYTES)?;
        let data = frame.take(self.page_bytes())?;
        frame.end()?;
        let page = self.page(place)?;
        self.recorder.spare[page * SPARE_BYTES..][..SPARE_BYTES].copy_from_slice(spare);
        self.recorder.data[page * data.len()..][..data.len()].copy_from_slice(data);
        Ok(DONE)
    }

    fn show_page(&mut self, mut frame: Frame, bytes: &mut Vec<u8>) -> Result<Answered, TurnedDown> {
        let place = Place::parse(&mut frame)?;
        frame.end()?;
        let (page, page_bytes) = (self.page(place)?, self.page_bytes());
        bytes.extend_from_slice(&self.recorder.spare[page * SPARE_BYTES..][..SPARE_BYTES]);
        bytes.extend_from_slice(&self.recorder.data[page * page_bytes..][..page_bytes]);
        Ok(DONE)
    }

    fn put_unit(&mut self, mut frame: Frame) -> Result<Answered, TurnedDown> {
        let place = Place::parse(&mut frame)?;
        let data = frame.take(self.page_bytes())?;
        frame.end()?;
        let unit = self.unit(place)?;
        self.recorder.disk[unit * data.len()..][..data.len()].copy_from_slice(data);
        Ok(DONE)
    }

    fn show_unit(&mut self, mut frame: Frame, bytes: &mut Vec<u8>) -> Result<Answered, TurnedDown> {
        let place = Place::parse(&mut frame)?;
        frame.end()?;
        let (unit, page_bytes) = (self.unit(place)?, self.page_bytes());
        bytes.extend_from_slice(&self.recorder.disk[unit * page_bytes..][..page_bytes]);
        Ok(DONE)
    }

    fn page_look(&mut self, mut frame: Frame, bytes: &mut Vec<u8>) -> Result<Answered, TurnedDown> {
        let place = Place::parse(&mut frame)?;
        frame.end()?;
        let missing = std::mem::take(&mut self.missing);
        self.recorder
            .page_look(place.bucket, place.page, missing, bytes)
    }

    fn lend_less(&mut self, mut frame: Frame) -> Result<Answered, TurnedDown> {
        let missing = Missing {
            data: frame.pair()?,
            spare: frame.pair()?,
            disk: frame.pair()?,
        };
        frame.end()?;
        self.recorder.formatted()?;
        self.missing = missing;
        Ok(DONE)
    }

    fn write_text(
        &mut self,
        mut frame: Frame,
        bytes: &mut Vec<u8>,
    ) -> Result<Answered, TurnedDown> {
        let room = frame.number(4)? as usize;
        frame.end()?;
        if room > MOST_TEXT {
            return Err(TurnedDown::BadLine);
        }
        let missing = std::mem::take(&mut self.missing);
        self.recorder.write_text(room, missing, bytes)
    }

    fn read_text(&mut self, mut frame: Frame) -> Result<Answered, TurnedDown> {
        let missing = std::mem::take(&mut self.missing);
        self.recorder.read_text(frame.rest(), missing)
    }

    /// S of the last Done format; before it lines have no data.
    fn page_bytes(&self) -> usize {
        self.recorder
            .formatted()
            .map_or(0, |sizes| sizes.page_bytes)
    }

    /// The page at a place of the chip, counted from its first.
    fn page(&self, place: Place) -> Result<usize, TurnedDown> {
        let sizes = self.recorder.formatted()?;
        place.among(sizes.cache_buckets, sizes.bucket_pages)
    }

    /// The unit at a place of the disk, counted from its first.
    fn unit(&self, place: Place) -> Result<usize, TurnedDown> {
        let sizes = self.recorder.formatted()?;
        place.among(sizes.back_end_buckets, sizes.bucket_pages)
    }
}
