//! `tsevents` by the reference: a log on standard input, its events on standard output.

use std::io;

fn main() -> io::Result<()> {
    let (input, output) = (io::stdin(), io::stdout());
    songpigeon_reference::text::run(input.lock(), io::BufWriter::new(output.lock()))
}
