use std::io::{self, BufWriter};

fn main() -> io::Result<()> {
    oracle::workbench::work(io::stdin().lock(), BufWriter::new(io::stdout().lock()))
}
