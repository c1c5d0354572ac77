//! The proved engine and the plain Rust one, given the same calls in one process.
//!
//! `harness rows` prints the rows with what they are and how many passes over the
//! spare bytes they need. `harness time REPEATS` times every row and prints `ROW
//! PROVED RUST` in nanoseconds of a call for each repeat. `harness run ROW
//! proved|rust COUNT` makes one run and times nothing, for a count of instructions.
//! `harness limit REPEATS` and `harness pass COUNT` do the same for a bare pass,
//! `harness time-merges REPEATS` and `harness run-merge ROW new|old COUNT` for
//! the new merge and the old, both proved.

use std::hint::black_box;

use oracle::device::Lent;
use oracle::engine;
use oracle::sizes::Sizes;
use oracle::state::State;

/// Never cuts: no operation makes as many stores.
const PLENTY: u64 = 65_535;

/// The functions of the crate `bench`, all of one form. A lent area is a pointer and a length.
macro_rules! exported {
    ($($name:ident)*) => {
        #[link(name = "bench")]
        extern "C" {
            $(fn $name(
                n: usize, s: usize, b: usize, before: usize, spread: u16,
                page: *mut u8, page_length: usize, flash: *mut u8, flash_length: usize,
                spare: *mut u8, spare_length: usize, disk: *mut u8, disk_length: usize,
            ) -> usize;)*
        }
    };
}

exported!(bench_writes bench_reads bench_drains bench_recoveries);

/// Those that merge.
macro_rules! exported_merges {
    ($($name:ident)*) => {
        #[link(name = "bench")]
        extern "C" {
            $(fn $name(
                n: usize, s: usize, logs: usize, apart: usize, from: usize,
                log: *const u8, log_length: usize, window: *mut u8, window_length: usize,
                flash: *mut u8, flash_length: usize, spare: *mut u8, spare_length: usize,
                disk: *mut u8, disk_length: usize,
            ) -> usize;)*
        }
    };
}

exported_merges!(bench_old_merges bench_new_merges);

#[derive(Clone, Copy)]
enum Work {
    Writes,
    Reads,
    /// Each a write to every one of the back-end buckets, and the drain.
    Drains,
    /// Of the image that the writes before leave.
    Recoveries,
}

struct Row {
    name: &'static str,
    what: &'static str,
    page_bytes: usize,
    back_end_buckets: usize,
    work: Work,
    /// Calls before those that are timed.
    before: usize,
    /// Back-end buckets that take turns.
    spread: u16,
    /// Calls that are timed.
    count: usize,
}

/// The largest sizes; 128 back-end buckets are twice what a queue holds.
const LARGE: Row = Row {
    name: "",
    what: "",
    page_bytes: 1024,
    back_end_buckets: 128,
    work: Work::Writes,
    before: 0,
    spread: 128,
    count: 1000,
};

/// Pages of 4 bytes, so that the disk of 65,535 back-end buckets is 16 MiB.
const SMALL: Row = Row {
    page_bytes: 4,
    work: Work::Recoveries,
    before: 4,
    spread: 4,
    ..LARGE
};

const ROWS: [Row; 9] = [
    Row {
        name: "write",
        what: "a log of 1,024 bytes, behind others of its back-end bucket",
        before: 16,
        spread: 16,
        ..LARGE
    },
    Row {
        name: "write, evicting",
        what: "a log of 1,024 bytes, 128 back-end buckets in turn: each evicts another's bucket",
        before: 256,
        ..LARGE
    },
    Row {
        name: "read hit",
        what: "1,024 bytes of a copy on the chip",
        work: Work::Reads,
        before: 1,
        spread: 1,
        ..LARGE
    },
    Row {
        name: "read miss, evicting",
        what: "1,024 bytes, 128 back-end buckets in turn: each drops a copy and programs one",
        work: Work::Reads,
        before: 256,
        ..LARGE
    },
    Row {
        name: "drain",
        what: "64 writes to as many back-end buckets, and the drain of them",
        work: Work::Drains,
        spread: 64,
        before: 4,
        count: 10,
        ..LARGE
    },
    Row {
        name: "recover, 4 occupied",
        what: "an image with 4 cache buckets in use",
        work: Work::Recoveries,
        before: 4,
        spread: 4,
        ..LARGE
    },
    Row {
        name: "recover, 254 occupied",
        what: "an image with all outside the ledger in use, most of them superseded",
        work: Work::Recoveries,
        before: 400,
        count: 500,
        ..LARGE
    },
    Row {
        name: "recover, B 64",
        what: "S 4, an image with 4 cache buckets in use",
        back_end_buckets: 64,
        ..SMALL
    },
    Row {
        name: "recover, B 65,535",
        what: "S 4, an image with 4 cache buckets in use",
        back_end_buckets: 65_535,
        ..SMALL
    },
];

impl Row {
    fn sizes(&self) -> Sizes {
        Sizes {
            page_bytes: self.page_bytes,
            bucket_pages: 64,
            cache_buckets: 256,
            back_end_buckets: self.back_end_buckets,
            read_limit: 64,
            write_limit: 64,
        }
    }

    /// Passes over the spare bytes: each call must look at every page.
    fn passes(&self) -> u16 {
        match self.work {
            Work::Drains => self.spread + 1,
            Work::Writes | Work::Reads | Work::Recoveries => 1,
        }
    }
}

/// Chip, disk, and a page's bytes to write or to read into; one set for each engine.
#[derive(PartialEq)]
struct Areas {
    flash: Vec<u8>,
    spare: Vec<u8>,
    disk: Vec<u8>,
    page: Vec<u8>,
}

impl Areas {
    fn new(sizes: &Sizes) -> Areas {
        Areas {
            flash: vec![0; sizes.data_bytes()],
            spare: vec![0; sizes.spare_bytes()],
            disk: (0..sizes.disk_bytes()).map(|i| i as u8).collect(),
            page: (0..sizes.page_bytes).map(|i| !i as u8).collect(),
        }
    }

    fn lent(&mut self) -> Lent<'_> {
        Lent {
            data: &mut self.flash,
            spare: &mut self.spare,
            disk: &mut self.disk,
        }
    }
}

/// Formats, makes the calls before and `count` more, and gives the stores made after the format.
type Side<R> = fn(&R, usize, &mut Areas) -> usize;

fn proved(row: &Row, count: usize, areas: &mut Areas) -> usize {
    let function = match row.work {
        Work::Writes => bench_writes,
        Work::Reads => bench_reads,
        Work::Drains => bench_drains,
        Work::Recoveries => bench_recoveries,
    };
    // Each pointer and length are those of a whole vector.
    unsafe {
        function(
            count,
            row.page_bytes,
            row.back_end_buckets,
            row.before,
            row.spread,
            areas.page.as_mut_ptr(),
            areas.page.len(),
            areas.flash.as_mut_ptr(),
            areas.flash.len(),
            areas.spare.as_mut_ptr(),
            areas.spare.len(),
            areas.disk.as_mut_ptr(),
            areas.disk.len(),
        )
    }
}

fn plain(row: &Row, count: usize, areas: &mut Areas) -> usize {
    let formatted = engine::format(State::default(), row.sizes(), areas.lent(), PLENTY);
    let mut run = Plain {
        row,
        areas,
        state: formatted.state,
        stores: 0,
    };
    match row.work {
        Work::Writes => [row.before, count].map(|n| run.writes(n)),
        Work::Reads => [row.before, count].map(|n| run.reads(n)),
        Work::Drains => [row.before, count].map(|n| run.drains(n)),
        Work::Recoveries => [run.writes(row.before), run.recoveries(count)],
    };
    run.stores
}

/// The plain engine at work.
struct Plain<'a> {
    row: &'a Row,
    areas: &'a mut Areas,
    state: State,
    stores: usize,
}

impl Plain<'_> {
    /// The state goes into the call and is handed back by it.
    fn call(&mut self, operation: impl FnOnce(State, &mut Areas) -> engine::Outcome) {
        let outcome = operation(std::mem::take(&mut self.state), self.areas);
        self.stores += outcome.stores as usize;
        self.state = outcome.state;
    }

    fn writes(&mut self, n: usize) {
        let data = self.areas.page.clone();
        for i in 0..n {
            let bucket = i % self.row.spread as usize;
            self.call(|state, areas| engine::write(state, areas.lent(), PLENTY, bucket, 0, &data));
        }
    }

    fn reads(&mut self, n: usize) {
        let mut buffer = std::mem::take(&mut self.areas.page);
        for i in 0..n {
            let bucket = i % self.row.spread as usize;
            self.call(|state, areas| {
                engine::read(state, areas.lent(), PLENTY, bucket, 0, &mut buffer)
            });
        }
        self.areas.page = buffer;
    }

    fn drains(&mut self, n: usize) {
        for _ in 0..n {
            self.writes(self.row.spread as usize);
            self.call(|state, areas| engine::drain(state, areas.lent(), PLENTY));
        }
    }

    fn recoveries(&mut self, n: usize) {
        let sizes = self.row.sizes();
        for _ in 0..n {
            self.call(|state, areas| engine::recover(state, sizes, areas.lent(), PLENTY));
        }
    }
}

/// Logs of one Write bucket, all of one length.
struct Logs {
    what: &'static str,
    count: usize,
    bytes: usize,
    /// From the start of a log to that of the next.
    apart: usize,
}

/// The bytes that are merged.
struct Window {
    what: &'static str,
    from: usize,
    length: usize,
    /// Merges that are timed: many, since a repeat formats the chip too, and that takes as long as thousands.
    count: usize,
}

const LOGS: [Logs; 7] = [
    Logs {
        what: "1 log of 1,024 bytes",
        count: 1,
        bytes: 1024,
        apart: 0,
    },
    Logs {
        what: "1 log of 65,536 bytes",
        count: 1,
        bytes: 65_536,
        apart: 0,
    },
    Logs {
        what: "8 logs of 1,024 bytes, apart",
        count: 8,
        bytes: 1024,
        apart: 8192,
    },
    Logs {
        what: "8 logs of 8,192 bytes, each half over the one before",
        count: 8,
        bytes: 8192,
        apart: 4096,
    },
    Logs {
        what: "64 logs of 1,024 bytes, end to end",
        count: 64,
        bytes: 1024,
        apart: 1024,
    },
    Logs {
        what: "64 logs of 1,024 bytes, each half over the one before",
        count: 64,
        bytes: 1024,
        apart: 512,
    },
    Logs {
        what: "64 logs of 1,024 bytes, all in one place",
        count: 64,
        bytes: 1024,
        apart: 0,
    },
];

const WINDOWS: [Window; 2] = [
    Window {
        what: "all 65,536 bytes",
        from: 0,
        length: 65_536,
        count: 5_000,
    },
    Window {
        what: "1,024 bytes from 512 on",
        from: 512,
        length: 1024,
        count: 50_000,
    },
];

struct Merge {
    logs: &'static Logs,
    window: &'static Window,
}

/// Every window over all logs.
fn merges() -> Vec<Merge> {
    let over = |logs| WINDOWS.iter().map(move |window| Merge { logs, window });
    LOGS.iter().flat_map(over).collect()
}

impl Merge {
    const SIZES: Row = Row {
        back_end_buckets: 1,
        ..LARGE
    };

    fn name(&self) -> String {
        format!("{}; {}", self.logs.what, self.window.what)
    }

    /// A chip, and a page of the window's length.
    fn areas(&self) -> Areas {
        Areas {
            page: vec![0; self.window.length],
            ..Areas::new(&Merge::SIZES.sizes())
        }
    }
}

/// Writes the logs on a formatted chip, and merges them into the page so many times.
macro_rules! merging {
    ($name:ident $function:ident) => {
        fn $name(merge: &Merge, count: usize, areas: &mut Areas) -> usize {
            let log: Vec<u8> = (0..merge.logs.bytes).map(|i| !i as u8).collect();
            // Each pointer and length are those of a whole vector.
            unsafe {
                $function(
                    count,
                    Merge::SIZES.page_bytes,
                    merge.logs.count,
                    merge.logs.apart,
                    merge.window.from,
                    log.as_ptr(),
                    log.len(),
                    areas.page.as_mut_ptr(),
                    areas.page.len(),
                    areas.flash.as_mut_ptr(),
                    areas.flash.len(),
                    areas.spare.as_mut_ptr(),
                    areas.spare.len(),
                    areas.disk.as_mut_ptr(),
                    areas.disk.len(),
                )
            }
        }
    };
}

merging!(merge_old bench_old_merges);
merging!(merge_new bench_new_merges);

extern "C" {
    fn clock_gettime(clock: i32, time: *mut [i64; 2]) -> i32;
}

/// Nanoseconds of processor time so far: other work on the machine is not in it.
fn processor_time() -> f64 {
    const PROCESS: i32 = 2;
    let mut time = [0, 0];
    let status = unsafe { clock_gettime(PROCESS, &mut time) };
    assert_eq!(status, 0, "no clock of processor time");
    time[0] as f64 * 1e9 + time[1] as f64
}

/// A row for two sides that take turns.
struct Pair<'a, R> {
    name: &'a str,
    row: &'a R,
    /// Calls that are timed.
    count: usize,
    sides: [Side<R>; 2],
}

impl<R> Pair<'_, R> {
    /// Nanoseconds of one run, and its sum of stores.
    fn timed(&self, side: usize, count: usize, areas: &mut [Areas; 2]) -> (f64, usize) {
        let begin = processor_time();
        let stores = self.sides[side](self.row, count, &mut areas[side]);
        (processor_time() - begin, stores)
    }

    /// Nanoseconds of one call on each side: a run less one without the calls that are timed.
    fn repeat(&self, areas: &mut [Areas; 2]) -> [f64; 2] {
        let before = [0, 1].map(|side| self.timed(side, 0, areas).0);
        let [one, other] = [0, 1].map(|side| self.timed(side, self.count, areas));
        assert_eq!(one.1, other.1, "{}: stores differ", self.name);
        assert!(
            areas[0] == areas[1],
            "{}: chip, disk or bytes read differ",
            self.name
        );
        let count = self.count as f64;
        [(one.0 - before[0]) / count, (other.0 - before[1]) / count]
    }

    fn time(&self, repeats: usize, mut areas: [Areas; 2]) {
        // The first is not counted: it takes its memory from the system page by page.
        self.repeat(&mut areas);
        for _ in 0..repeats {
            let [one, other] = self.repeat(&mut areas);
            println!("{}\t{one:.1}\t{other:.1}", self.name);
        }
    }
}

fn time_rows(repeats: usize) {
    for row in &ROWS {
        let pair = Pair {
            name: row.name,
            row,
            count: row.count,
            sides: [proved, plain],
        };
        pair.time(repeats, [0, 1].map(|_| Areas::new(&row.sizes())));
    }
}

fn time_merges(repeats: usize) {
    for merge in merges() {
        let pair = Pair {
            name: &merge.name(),
            row: &merge,
            count: merge.window.count,
            sides: [merge_new, merge_old],
        };
        pair.time(repeats, [0, 1].map(|_| merge.areas()));
    }
}

/// The limit: all spare bytes put together by wide ands, eight pages at a time, and nothing else.
fn bare_pass(spare: &[u8]) -> [u64; 16] {
    let (words, _) = spare.as_chunks::<8>();
    let (eights, _) = words.as_chunks::<16>();
    let mut all = [u64::MAX; 16];
    for eight in eights {
        for (lane, word) in all.iter_mut().zip(eight) {
            *lane &= u64::from_ne_bytes(*word);
        }
    }
    all
}

fn bare_passes(count: usize, spare: &[u8]) {
    for _ in 0..count {
        black_box(bare_pass(black_box(spare)));
    }
}

fn erased_spare() -> Vec<u8> {
    vec![0xFF; LARGE.sizes().spare_bytes()]
}

fn time_limit(repeats: usize) {
    let spare = erased_spare();
    for _ in 0..repeats {
        let begin = processor_time();
        bare_passes(LARGE.count, &spare);
        println!("{:.0}", (processor_time() - begin) / LARGE.count as f64);
    }
}

fn run_once(name: &str, engine: &str, count: usize) {
    let row = ROWS.iter().find(|row| row.name == name).expect("a row");
    let engine: Side<Row> = if engine == "proved" { proved } else { plain };
    println!("{}", engine(row, count, &mut Areas::new(&row.sizes())));
}

fn merge_once(name: &str, which: &str, count: usize) {
    let merges = merges();
    let merge = merges
        .iter()
        .find(|merge| merge.name() == name)
        .expect("a merge");
    let side: Side<Merge> = if which == "old" { merge_old } else { merge_new };
    println!("{}", side(merge, count, &mut merge.areas()));
}

fn main() {
    let words: Vec<String> = std::env::args().skip(1).collect();
    let number = |word: &str| word.parse().expect("a count");
    match words.iter().map(String::as_str).collect::<Vec<_>>()[..] {
        ["rows"] => ROWS
            .iter()
            .for_each(|row| println!("{}\t{}\t{}", row.name, row.what, row.passes())),
        ["time", repeats] => time_rows(number(repeats)),
        ["run", name, engine @ ("proved" | "rust"), count] => run_once(name, engine, number(count)),
        ["time-merges", repeats] => time_merges(number(repeats)),
        ["run-merge", name, which @ ("new" | "old"), count] => {
            merge_once(name, which, number(count))
        }
        ["limit", repeats] => time_limit(number(repeats)),
        ["pass", count] => bare_passes(number(count), &erased_spare()),
        _ => panic!(
            "usage: harness rows | time REPEATS | run ROW proved|rust COUNT | time-merges REPEATS \
             | run-merge ROW new|old COUNT | limit REPEATS | pass COUNT"
        ),
    }
}
