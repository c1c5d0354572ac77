//! The rewriting program: a line of sizes and the text of a chip image in, the same image
//! in the writer's form out; or one line that says which line of the input is turned down.

use std::io::{self, Read, Write};

use crate::digits::{decode, digits_of};
use crate::engine::Refusal;
use crate::form::read_sizes;
use crate::frame::{Frame, TurnedDown};
use crate::image_text;
use crate::sizes::Sizes;

const SIZES_BYTES: usize = 9;
/// The most data bytes of a chip.
const MOST_DATA_BYTES: usize = 1_048_576;

/// The answer byte of an input that is turned down, and the number of the line at fault.
#[derive(Clone, Copy, Debug, PartialEq, Eq)]
struct TurnedDownAt {
    answer: u8,
    line: usize,
}

/// Rewrites the whole input.
pub fn rewrite(mut input: impl Read, mut output: impl Write) -> io::Result<()> {
    let mut text = Vec::new();
    input.read_to_end(&mut text)?;
    output.write_all(&rewritten(&text).unwrap_or_else(TurnedDownAt::text))?;
    output.flush()
}

fn rewritten(text: &[u8]) -> Result<Vec<u8>, TurnedDownAt> {
    let (first, image) = first_line(text);
    let sizes = sizes_of(first).map_err(|answer| TurnedDownAt { answer, line: 1 })?;
    image_text::check(&sizes, image).map_err(|fault| TurnedDownAt {
        answer: fault.refusal as u8,
        line: fault.line + 2,
    })?;
    let mut rewritten = first.to_ascii_uppercase();
    rewritten.push(b'\n');
    append_image(&sizes, image, &mut rewritten);
    Ok(rewritten)
}

/// The first line, and what comes behind its line feed.
fn first_line(text: &[u8]) -> (&[u8], &[u8]) {
    let end = text.iter().position(|&character| character == b'\n');
    end.map_or((text, &[]), |end| (&text[..end], &text[end + 1..]))
}

fn sizes_of(line: &[u8]) -> Result<Sizes, u8> {
    let mut bytes = [0; SIZES_BYTES];
    let sizes = decode(line, &mut bytes)
        .and_then(|bytes| read_sizes(&mut Frame::new(bytes)).ok())
        .ok_or(Refusal::Line as u8)?;
    if !sizes.within_limits() {
        return Err(Refusal::Sizes as u8);
    }
    if sizes.data_bytes() > MOST_DATA_BYTES {
        return Err(TurnedDown::BeyondBuffers as u8);
    }
    Ok(sizes)
}

/// Reads an image's text, and appends it as it is written.
fn append_image(sizes: &Sizes, image: &[u8], text: &mut Vec<u8>) {
    let mut data = vec![0; sizes.data_bytes()];
    let mut spare = vec![0; sizes.spare_bytes()];
    image_text::read(sizes, image, &mut data, &mut spare);
    let start = text.len();
    text.resize(start + image_text::length(sizes, &spare), 0);
    image_text::write(sizes, &data, &spare, &mut text[start..]);
}

impl TurnedDownAt {
    fn text(self) -> Vec<u8> {
        let bytes = [self.answer, (self.line >> 8) as u8, self.line as u8];
        let mut text: Vec<u8> = bytes.into_iter().flat_map(digits_of).collect();
        text.push(b'\n');
        text
    }
}
