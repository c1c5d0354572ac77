//! The text of a chip image: a line for each page that is not blank, the digits of its
//! bucket, page, spare area and data. All lines are checked before the first is taken.

use crate::device::ERASED;
use crate::digits::{decode, digits_of};
use crate::engine::Refusal;
use crate::frame::{Frame, TurnedDown};
use crate::place::Place;
use crate::sizes::{Sizes, MOST_BUCKETS, MOST_BUCKET_PAGES, MOST_PAGE_BYTES};
use crate::spare::{areas, Area, Spare, SPARE_BYTES};

const PLACE_BYTES: usize = 3;
const MOST_FRAME_BYTES: usize = frame_bytes(MOST_PAGE_BYTES);
const MOST_PAGES: usize = MOST_BUCKETS * MOST_BUCKET_PAGES;

/// The first line that is turned down, counted from 0, and why.
#[derive(Clone, Copy, Debug, PartialEq, Eq)]
pub struct Fault {
    pub line: usize,
    pub refusal: Refusal,
}

/// A page that a line gives, counted from the chip's first, and its bytes.
struct Page<'a> {
    number: usize,
    spare: &'a Area,
    data: &'a [u8],
}

/// Looks for the first line that is turned down; the sizes keep their limits.
pub fn check(sizes: &Sizes, text: &[u8]) -> Result<(), Fault> {
    let mut given = [false; MOST_PAGES];
    lines(text)
        .map(|line| check_line(sizes, line, &mut given))
        .enumerate()
        .try_for_each(|(line, checked)| checked.map_err(|refusal| Fault { line, refusal }))
}

/// Makes data and spare areas the image of a text without a fault.
pub fn read(sizes: &Sizes, text: &[u8], data: &mut [u8], spare: &mut [u8]) {
    data.fill(ERASED);
    spare.fill(ERASED);
    let mut frame = [0; MOST_FRAME_BYTES];
    for line in lines(text) {
        let page = parse(sizes, line, &mut frame).expect("the text was checked");
        spare[page.number * SPARE_BYTES..][..SPARE_BYTES].copy_from_slice(page.spare);
        data[page.number * sizes.page_bytes..][..sizes.page_bytes].copy_from_slice(page.data);
    }
}

/// The length of the image's text.
pub fn length(sizes: &Sizes, spare: &[u8]) -> usize {
    used_pages(spare).count() * line_bytes(sizes)
}

/// Fills `text`, which is as long as the image's text, with it.
pub fn write(sizes: &Sizes, data: &[u8], spare: &[u8], text: &mut [u8]) {
    let lines = text.chunks_exact_mut(line_bytes(sizes));
    for (line, (number, spare)) in lines.zip(used_pages(spare)) {
        let page = Page {
            number,
            spare,
            data: &data[number * sizes.page_bytes..][..sizes.page_bytes],
        };
        write_line(sizes, page, line);
    }
}

/// The lines of a text without their line feeds, which the last may lack.
fn lines(text: &[u8]) -> impl Iterator<Item = &[u8]> {
    let lines = text.split_inclusive(|&character| character == b'\n');
    lines.map(|line| line.strip_suffix(b"\n").unwrap_or(line))
}

/// Checks a line that comes after lines that gave those pages, and adds its own.
fn check_line(sizes: &Sizes, line: &[u8], given: &mut [bool]) -> Result<(), Refusal> {
    let mut frame = [0; MOST_FRAME_BYTES];
    let page = parse(sizes, line, &mut frame).map_err(|_| Refusal::Line)?;
    if std::mem::replace(&mut given[page.number], true) {
        return Err(Refusal::PageTwice);
    }
    Ok(())
}

fn parse<'f>(sizes: &Sizes, line: &[u8], bytes: &'f mut [u8]) -> Result<Page<'f>, TurnedDown> {
    let mut frame = Frame::new(decode(line, bytes).ok_or(TurnedDown::BadLine)?);
    let place = Place::parse(&mut frame)?;
    let spare = &areas(frame.take(SPARE_BYTES)?)[0];
    let data = frame.take(sizes.page_bytes)?;
    frame.end()?;
    if Spare::of(spare).is_blank() {
        return Err(TurnedDown::BadLine);
    }
    let number = place.among(sizes.cache_buckets, sizes.bucket_pages)?;
    Ok(Page {
        number,
        spare,
        data,
    })
}

/// The pages that are not blank, rising: each one's number and spare area.
fn used_pages(spare: &[u8]) -> impl Iterator<Item = (usize, &Area)> {
    let pages = areas(spare).iter().enumerate();
    pages.filter(|(_, area)| !Spare::of(area).is_blank())
}

fn write_line(sizes: &Sizes, page: Page, line: &mut [u8]) {
    let bucket = (page.number / sizes.bucket_pages) as u16;
    let [high, low] = bucket.to_be_bytes();
    let place = [high, low, (page.number % sizes.bucket_pages) as u8];
    let bytes = place.iter().chain(page.spare).chain(page.data);
    let (pairs, end) = line.as_chunks_mut();
    for (pair, &byte) in pairs.iter_mut().zip(bytes) {
        *pair = digits_of(byte);
    }
    end.fill(b'\n');
}

const fn frame_bytes(page_bytes: usize) -> usize {
    PLACE_BYTES + SPARE_BYTES + page_bytes
}

/// The length of a line with its line feed.
fn line_bytes(sizes: &Sizes) -> usize {
    2 * frame_bytes(sizes.page_bytes) + 1
}
