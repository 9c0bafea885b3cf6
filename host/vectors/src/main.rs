//! What the programs `refusal_vectors` and `packet_vectors` should write, worked out by the reference:
//! `songpigeon-vectors NAME` prints the kept lines of the program of that name (`crates/NAME/stdout`).

mod lines;
mod packets;
mod refusals;

use std::{env, process};

fn main() {
    match env::args().nth(1).as_deref() {
        Some("refusal_vectors") => refusals::all(),
        Some("packet_vectors") => packets::all(),
        _ => {
            eprintln!("songpigeon-vectors refusal_vectors|packet_vectors");
            process::exit(2);
        }
    }
}
