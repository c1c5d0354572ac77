//! The text of a chip image: each fault, orders and cases, buffers; the workbench's lines
//! for it, and the program that rewrites it.

use super::{sizes, Dice};
use crate::engine::{self, Refusal};
use crate::rewrite::rewrite;
use crate::sizes::Sizes;
use crate::workbench::work;

/// The sizes of a small chip.
const SMALL: [usize; 6] = [4, 2, 5, 2, 1, 1];
const BLANK: &str = "FFFFFFFFFFFFFFFFFFFFFFFFFFFFFFFF";
/// Lines of it: a programmed page, a spoiled one and an entry of the ledger.
const PROGRAMMED: &str = "00010002000100000000A70000000000000002AABBCCFF";
const SPOILED: &str = "00010100FFFFFFFFFFFFFFFFFFFFFFFFFFFFFF01020304";
const ENTRY: &str = "00030104000100000000A700020000000000000FFFFFFF";

/// A chip's data and spare areas.
#[derive(Clone, Debug, PartialEq)]
struct Chip {
    sizes: Sizes,
    data: Vec<u8>,
    spare: Vec<u8>,
}

impl Chip {
    /// All bytes alike: FF for a blank chip.
    fn of(sizes: Sizes, byte: u8) -> Chip {
        Chip {
            sizes,
            data: vec![byte; sizes.data_bytes()],
            spare: vec![byte; sizes.spare_bytes()],
        }
    }

    /// Any data, and a share of pages blank; some of the others are blank but for a byte.
    fn any(dice: &mut Dice, sizes: Sizes) -> Chip {
        let (data, mut spare) = (dice.bytes(sizes.data_bytes()), Vec::new());
        for _ in 0..sizes.cache_buckets * sizes.bucket_pages {
            let mut area = vec![0xFF; 16];
            match dice.below(4) {
                0 => area = dice.bytes(16),
                1 => area[dice.below(16)] = dice.below(256) as u8,
                _ => {}
            }
            spare.extend(area);
        }
        Chip { sizes, data, spare }
    }

    fn read(&mut self, text: &str) -> Result<(), Refusal> {
        engine::read_text(
            &self.sizes,
            text.as_bytes(),
            &mut self.data,
            &mut self.spare,
        )
    }

    fn write(&self, buffer: &mut [u8]) -> Result<usize, Refusal> {
        engine::write_text(&self.sizes, &self.data, &self.spare, buffer)
    }

    /// The chip's text, for which a line of each page has room.
    fn text(&self) -> String {
        let pages = self.sizes.cache_buckets * self.sizes.bucket_pages;
        let mut buffer = vec![0; pages * (2 * (19 + self.sizes.page_bytes) + 1)];
        let length = self.write(&mut buffer).unwrap();
        String::from_utf8(buffer[..length].to_vec()).unwrap()
    }

    /// This chip with the data of its blank pages FF: what its text says of it.
    fn cleaned(mut self) -> Chip {
        let pages = self.data.chunks_mut(self.sizes.page_bytes);
        for (data, area) in pages.zip(self.spare.chunks(16)) {
            if area.iter().all(|&byte| byte == 0xFF) {
                data.fill(0xFF);
            }
        }
        self
    }
}

/// The image of a text that is not turned down.
fn image(sizes: Sizes, text: &str) -> Chip {
    let mut chip = Chip::of(sizes, 0);
    assert_eq!(chip.read(text), Ok(()));
    chip
}

/// What a text is answered; one that is turned down changes nothing.
fn number(text: &str) -> u8 {
    let before = Chip::any(&mut Dice(3), sizes(SMALL));
    let mut after = before.clone();
    match after.read(text) {
        Ok(()) => 0,
        Err(refusal) => {
            assert!(after == before);
            refusal as u8
        }
    }
}

/// Lines, each with its line feed.
fn joined(lines: &[&str]) -> String {
    lines.iter().map(|line| format!("{line}\n")).collect()
}

/// Lines that are number 9 wherever they stand.
fn malformed() -> Vec<String> {
    let line = PROGRAMMED.to_string();
    let place = |place: &str| format!("{place}{}", &line[6..]);
    vec![
        String::new(),
        "\r".into(),
        format!("{line}\r"),
        format!(" {line}"),
        line[1..].into(),
        line[2..].into(),
        line[..line.len() - 1].into(),
        line[..line.len() - 2].into(),
        format!("{line}0"),
        format!("{line}00"),
        line.repeat(30),
        line.repeat(100),
        line.replace("AABB", "AAGB"),
        line.replace("AABB", "AA B"),
        line.replace('2', "/"),
        line.replace('2', ":"),
        line.replace('2', "@"),
        line.replace('A', "`"),
        line.replace('A', "g"),
        line.replace('2', "\0"),
        place("000500"),
        place("FFFF00"),
        place("010100"),
        place("000102"),
        place("0001FF"),
        place("000502"),
        format!("000000{BLANK}AABBCCFF"),
        format!("000100{}aabbccff", BLANK.to_lowercase()),
    ]
}

#[test]
fn a_page_that_is_not_blank_is_a_line() {
    let mut chip = Chip::of(sizes(SMALL), 0xFF);
    // The data of a blank page is not sent.
    chip.data[..4].fill(7);
    assert_eq!(chip.text(), "");
    // Bucket 1 has pages 2 and 3, bucket 3 the pages 6 and 7.
    chip.spare[2 * 16..][..16]
        .copy_from_slice(&[2, 0, 1, 0, 0, 0, 0, 0xA7, 0, 0, 0, 0, 0, 0, 0, 2]);
    chip.data[2 * 4..][..4].copy_from_slice(&[0xAA, 0xBB, 0xCC, 0xFF]);
    chip.spare[3 * 16] = 0;
    chip.data[3 * 4..][..4].copy_from_slice(&[1, 2, 3, 4]);
    chip.spare[7 * 16..][..16]
        .copy_from_slice(&[4, 0, 1, 0, 0, 0, 0, 0xA7, 0, 2, 0, 0, 0, 0, 0, 0]);
    chip.data[7 * 4] = 0x0F;
    assert_eq!(chip.text(), joined(&[PROGRAMMED, SPOILED, ENTRY]));
    assert!(image(chip.sizes, &chip.text()) == chip.cleaned());
}

#[test]
fn any_order_and_either_case_give_one_image() {
    let text = joined(&[PROGRAMMED, SPOILED, ENTRY]);
    let chip = image(sizes(SMALL), &text);
    for lines in [
        [ENTRY, SPOILED, PROGRAMMED],
        [SPOILED, ENTRY, PROGRAMMED],
        [ENTRY, PROGRAMMED, SPOILED],
    ] {
        let shuffled = joined(&lines);
        for other in [&shuffled, &shuffled.to_lowercase(), shuffled.trim_end()] {
            assert!(image(chip.sizes, other) == chip);
        }
    }
    let mixed = text.replace("AABB", "aAbB").replace("FF\n", "fF\n");
    assert!(mixed != text && image(chip.sizes, &mixed) == chip);
    assert_eq!(chip.text(), text);
}

#[test]
fn a_text_without_lines_is_a_blank_chip() {
    assert!(image(sizes(SMALL), "") == Chip::of(sizes(SMALL), 0xFF));
    assert_eq!(number("\n"), 9);
    assert_eq!(number(&format!("{PROGRAMMED}\n\n")), 9);
    assert_eq!(number(&format!("\n{PROGRAMMED}\n")), 9);
    assert_eq!(number(&format!("{PROGRAMMED}\r\n")), 9);
}

#[test]
fn each_fault_alone() {
    for line in malformed() {
        for lines in [
            [SPOILED, ENTRY, &line],
            [SPOILED, &line, ENTRY],
            [&line, SPOILED, ENTRY],
        ] {
            assert_eq!(number(&joined(&lines)), 9, "{lines:?}");
        }
        // At the end of the text nothing behind the last line feed is no line.
        let last = format!("{SPOILED}\n{line}");
        assert_eq!(number(&last), if line.is_empty() { 0 } else { 9 });
    }
    for lines in [
        [PROGRAMMED, PROGRAMMED, ENTRY],
        [PROGRAMMED, ENTRY, PROGRAMMED],
        [PROGRAMMED, ENTRY, &PROGRAMMED.replace("AABBCC", "ddeeff")],
    ] {
        assert_eq!(number(&joined(&lines)), 10);
        assert_eq!(number(joined(&lines).trim_end()), 10);
    }
}

#[test]
fn the_first_faulty_line_decides() {
    for line in malformed() {
        let before = joined(&[PROGRAMMED, &line, PROGRAMMED]);
        let behind = joined(&[PROGRAMMED, PROGRAMMED, &line]);
        assert_eq!((number(&before), number(&behind)), (9, 10));
    }
}

#[test]
fn nine_is_checked_before_ten() {
    // Each fault in a line for a page that is there already.
    for line in malformed() {
        assert_eq!(number(&joined(&[PROGRAMMED, &line])), 9);
    }
    // A line that was turned down would have been the first for its page.
    let blank = format!("000100{BLANK}AABBCCFF");
    assert_eq!(number(&joined(&[&blank, PROGRAMMED, PROGRAMMED])), 9);
}

#[test]
fn sizes_and_lengths_are_checked_before_lines() {
    let good = Chip::any(&mut Dice(4), sizes(SMALL));
    let refused = |chip: &Chip, number: u8| {
        for text in ["", "\n", PROGRAMMED] {
            let mut after = chip.clone();
            assert_eq!(after.read(text).map_err(|r| r as u8), Err(number));
            assert!(after == *chip);
        }
        let mut buffer = [0xA5; 10];
        assert_eq!(chip.write(&mut buffer).map_err(|r| r as u8), Err(number));
        assert_eq!(buffer, [0xA5; 10]);
    };
    for place in 0..6 {
        let mut other = SMALL;
        other[place] = 0;
        refused(&Chip::of(sizes(other), 0xFF), 1);
    }
    refused(&Chip::of(sizes([4, 2, 4, 2, 1, 1]), 0xFF), 1);
    for (less, more) in [(1, 0), (0, 1)] {
        for data in [true, false] {
            let mut chip = good.clone();
            let area = if data {
                &mut chip.data
            } else {
                &mut chip.spare
            };
            area.resize(area.len() + more - less, 0xFF);
            refused(&chip, 2);
            chip.sizes.page_bytes = 3;
            refused(&chip, 1);
        }
    }
}

#[test]
fn a_buffer_holds_the_text_or_stays() {
    let chip = Chip::any(&mut Dice(5), sizes(SMALL));
    let text = chip.text().into_bytes();
    for room in [0, 1, text.len() - 47, text.len() - 1] {
        let mut buffer = vec![0xA5; room];
        assert_eq!(chip.write(&mut buffer), Err(Refusal::Buffers));
        assert_eq!(buffer, vec![0xA5; room]);
    }
    for more in [0, 1, 50] {
        let mut buffer = vec![0xA5; text.len() + more];
        assert_eq!(chip.write(&mut buffer), Ok(text.len()));
        assert_eq!(buffer, [&text[..], &vec![0xA5; more]].concat());
    }
    let blank = Chip::of(chip.sizes, 0xFF);
    assert_eq!(
        (blank.write(&mut []), blank.write(&mut [7])),
        (Ok(0), Ok(0))
    );
}

#[test]
fn the_largest_pages_and_the_most_of_them() {
    for widest in [[1024, 1, 5, 1, 1, 1], [4, 64, 256, 1, 64, 64]] {
        let chip = Chip::of(sizes(widest), 0xA5);
        let text = chip.text();
        let line = 2 * (19 + chip.sizes.page_bytes) + 1;
        assert_eq!(
            text.len(),
            line * chip.sizes.cache_buckets * chip.sizes.bucket_pages
        );
        assert!(image(chip.sizes, &text) == chip);
        let last = &text[text.len() - line..];
        let mut after = Chip::of(chip.sizes, 7);
        assert_eq!(
            after.read(&format!("{text}{last}")),
            Err(Refusal::PageTwice)
        );
        assert_eq!(after.read(&format!("{text}0{last}")), Err(Refusal::Line));
        assert!(after == Chip::of(chip.sizes, 7));
    }
}

/// The lines of a text in any order, each in either case, the last one with its line
/// feed or without.
fn other_text(dice: &mut Dice, text: &str) -> String {
    let mut lines: Vec<String> = text.lines().map(str::to_string).collect();
    for end in (1..lines.len()).rev() {
        lines.swap(end, dice.below(end + 1));
    }
    for line in lines.iter_mut().filter(|_| dice.one_in(2)) {
        *line = line.to_lowercase();
    }
    let end = if lines.is_empty() || dice.one_in(2) {
        ""
    } else {
        "\n"
    };
    lines.join("\n") + end
}

#[test]
fn texts_of_one_image_are_rewritten_alike() {
    let mut dice = Dice(6);
    for _ in 0..300 {
        let chip = Chip::any(&mut dice, sizes(SMALL));
        let text = chip.text();
        let other = other_text(&mut dice, &text);
        let read = image(chip.sizes, &other);
        assert!(read == chip.clone().cleaned());
        assert_eq!(read.text(), text);
        // A byte more makes another image, and another text.
        let mut changed = read.clone();
        let page = dice.below(10);
        changed.spare[16 * page + 3] ^= 1;
        let changed = image(chip.sizes, &changed.text());
        assert!(changed != read && changed.text() != text);
    }
}

/// What the workbench prints for lines.
fn worked(lines: &[&str]) -> Vec<String> {
    let mut output = Vec::new();
    work(joined(lines).as_bytes(), &mut output).unwrap();
    let text = String::from_utf8(output).unwrap();
    text.lines().map(str::to_string).collect()
}

/// The digits of a text's characters.
fn hex(text: &str) -> String {
    text.bytes().map(|byte| format!("{byte:02X}")).collect()
}

#[test]
fn the_workbench_writes_and_reads_texts() {
    let text = joined(&[PROGRAMMED, SPOILED, ENTRY]);
    let put = format!("31{}", hex(&text.to_lowercase()));
    let written = format!("0000000000008D{}", hex(&text));
    let shown = format!("000000{}", &PROGRAMMED[6..]);
    let twice = format!("31{}", hex(&joined(&[ENTRY, ENTRY])));
    let (lines, printed): (Vec<&str>, Vec<&str>) = [
        ("300000", "F00000"),
        ("300000000000", "F00000"),
        ("3000020001", "F00000"),
        ("30FFFFFFFF", "F00000"),
        ("3000020000", "030000"),
        ("31", "030000"),
        ("01FFFF000402000500020101", "000005"),
        ("3000000000", "00000000000000"),
        (&put, "000000"),
        ("3000020000", &written),
        ("300000008D", &written),
        ("300000008C", "020000"),
        ("13000100", &shown),
        (&twice, "0A0000"),
        ("310A", "090000"),
        ("3130", "090000"),
        ("3000020000", &written),
        ("31", "000000"),
        ("3000020000", "00000000000000"),
    ]
    .into_iter()
    .unzip();
    assert_eq!(worked(&lines), printed);
}

#[test]
fn the_workbench_lends_a_text_less() {
    let format = "01FFFF000402000500020101";
    for (less, printed) in [
        ("17000100000000", "020000"),
        ("17000000010000", "020000"),
        ("17000000000001", "000000"),
        ("17FFFFFFFFFFFF", "020000"),
    ] {
        // A bad line leaves what is lent; a line of text uses it up.
        let lines = [format, less, "3000020001", "300000", "31", "31"];
        assert_eq!(worked(&lines)[2..], ["F00000", "F00000", printed, "000000"]);
        let lines = [format, less, "3000000000", "3000000000"];
        assert_eq!(&worked(&lines)[2][..6], printed);
        assert_eq!(worked(&lines)[3], "00000000000000");
    }
    // Sizes are the state's: twice as many pages in half as many buckets are as long.
    let state = "1000040200060002010100000000000000000000000000000000";
    let lines = ["01FFFF000401000C00040101", state, "31"];
    assert_eq!(worked(&lines)[1..], ["000000", "000000"]);
}

/// What the rewriting program prints for an input.
fn rewritten(input: &str) -> String {
    let mut output = Vec::new();
    rewrite(input.as_bytes(), &mut output).unwrap();
    String::from_utf8(output).unwrap()
}

#[test]
fn a_text_is_rewritten() {
    let sizes = "000402000500020101";
    let text = joined(&[sizes, PROGRAMMED, SPOILED, ENTRY]);
    let shuffled = joined(&[sizes, ENTRY, PROGRAMMED, SPOILED]).to_lowercase();
    for input in [&text, text.trim_end(), &shuffled, shuffled.trim_end()] {
        assert_eq!(rewritten(input), text);
    }
    // Sizes in capitals, with a line feed, and no line for a blank chip.
    let wide = "0004010100FFFE0A0B";
    for input in [wide, &wide.to_lowercase(), &joined(&[wide])] {
        assert_eq!(rewritten(input), joined(&[wide]));
    }
}

#[test]
fn the_line_at_fault_is_told() {
    let sizes = "000402000500020101";
    for (lines, printed) in [
        (&[][..], "090001"),
        (&[""], "090001"),
        (&["", sizes], "090001"),
        (&[&sizes[2..]], "090001"),
        (&[&sizes[1..]], "090001"),
        (&["0004020005000201010"], "090001"),
        (&["00040200050002010100"], "090001"),
        (&["00040200050002010G"], "090001"),
        (&["000402000500020101\r"], "090001"),
        // Each limit, and what is beyond the program; a line behind it is not looked at.
        (&["000302000500020101"], "010001"),
        (&["040102000500020101"], "010001"),
        (&["000400000500020101"], "010001"),
        (&["000441000500020101"], "010001"),
        (&["000402000400020101"], "010001"),
        (&["000402010100020101"], "010001"),
        (&["000402000500000101"], "010001"),
        (&["000402000500020001"], "010001"),
        (&["000402010000024101"], "010001"),
        (&["000402000500020100", ""], "010001"),
        (&["040040001100020101", ""], "F10001"),
        (&["004040010100020101"], "010001"),
        (&["0400400010FFFF0101"], "0400400010FFFF0101"),
        (&["004040010000020101"], "004040010000020101"),
        (&["004140010000020101"], "F10001"),
        (&[sizes, ""], "090002"),
        (&[sizes, PROGRAMMED, ""], "090003"),
        (&[sizes, PROGRAMMED, PROGRAMMED], "0A0003"),
        (&[sizes, PROGRAMMED, PROGRAMMED, ""], "0A0003"),
        (&[sizes, PROGRAMMED, ENTRY, "0", PROGRAMMED], "090004"),
    ] {
        assert_eq!(rewritten(&joined(lines)), joined(&[printed]), "{lines:?}");
    }
    // The most pages there may be, and one line more.
    let chip = Chip::of(super::sizes([4, 64, 256, 1, 64, 64]), 0);
    let text = format!("000440010000014040\n{}", chip.text());
    assert_eq!(rewritten(&text), text);
    assert_eq!(rewritten(&format!("{text}\n")), "094002\n");
    assert_eq!(rewritten(&format!("{text}{}", &text[19..66])), "0A4002\n");
}
