//! Lines of hexadecimal in, lines of hexadecimal out.

use std::io::{self, BufRead, Write};

use crate::digits::{decode, digits_of};
use crate::frame::{Frame, TurnedDown};

/// What a line prints before its bytes: answer byte and stores.
pub type Answered = (u8, u64);

/// Answers every line of the input. `answer` gets a line's frame, and an empty list
/// for the bytes that are printed.
pub fn answer_lines(
    mut input: impl BufRead,
    mut output: impl Write,
    most_digits: usize,
    mut answer: impl FnMut(Frame, &mut Vec<u8>) -> Result<Answered, TurnedDown>,
) -> io::Result<()> {
    let mut line = Vec::with_capacity(most_digits + 1);
    let mut frame = vec![0; most_digits / 2];
    let (mut bytes, mut text) = (Vec::new(), Vec::new());
    while next_line(&mut input, most_digits, &mut line)? {
        bytes.clear();
        let (answer, stores) = decode(&line, &mut frame)
            .ok_or(TurnedDown::BadLine)
            .and_then(|frame| answer(Frame::new(frame), &mut bytes))
            .unwrap_or_else(|turned_down| (turned_down as u8, 0));
        text.clear();
        let answered = [answer, (stores >> 8) as u8, stores as u8];
        let printed = answered.iter().chain(&bytes);
        text.extend(printed.flat_map(|&byte| digits_of(byte)));
        text.push(b'\n');
        output.write_all(&text)?;
    }
    output.flush()
}

/// Reads the next line without its line feed; false at the end of the input. Of
/// a line too long for a frame only enough is kept to tell that it is.
fn next_line(input: &mut impl BufRead, most_digits: usize, line: &mut Vec<u8>) -> io::Result<bool> {
    line.clear();
    let mut begun = false;
    loop {
        let chunk = input.fill_buf()?;
        if chunk.is_empty() {
            return Ok(begun);
        }
        begun = true;
        let end = chunk.iter().position(|&c| c == b'\n');
        let part = &chunk[..end.unwrap_or(chunk.len())];
        let room = (most_digits + 1).saturating_sub(line.len());
        line.extend_from_slice(&part[..part.len().min(room)]);
        let taken = part.len() + usize::from(end.is_some());
        input.consume(taken);
        if end.is_some() {
            return Ok(true);
        }
    }
}
