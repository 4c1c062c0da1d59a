//! Reads a ticket and prints its tree, or why it is refused and where:
//!
//!     rust/cargo.sh run --release --example read -- 'plate[0][page]=4&caption=Fog+at+dawn'

use qs::{Buffers, Ticket};
use std::process::ExitCode;

const USUAL: &str =
    "plate[0][page]=4&plate[0][inks][]=cyan&plate[0][inks][]=black&caption=Fog+at+dawn&proof";

fn main() -> ExitCode {
    let input = std::env::args().nth(1).unwrap_or(USUAL.to_owned());

    // As much as the ticket can need. Who reads many tickets makes the buffers once, for the
    // longest.
    let mut buffers = Buffers::for_len(input.len());

    match Ticket::new(&input).parse(&mut buffers) {
        Ok(reading) => {
            println!("{}", reading.tree());
            ExitCode::SUCCESS
        }
        Err(refused) => {
            eprintln!("refused: {refused}");
            ExitCode::FAILURE
        }
    }
}
