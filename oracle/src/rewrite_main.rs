use std::io::{self, BufWriter};

fn main() -> io::Result<()> {
    oracle::rewrite::rewrite(io::stdin().lock(), BufWriter::new(io::stdout().lock()))
}
