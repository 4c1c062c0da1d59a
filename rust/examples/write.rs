//! Writes a ticket again, a pair for each value in the order of keys; read again it has the same
//! tree.
//!
//!     rust/cargo.sh run --release --example write -- 'b=2&a=1&a=Fog at dawn'

use qs::{Buffers, Ticket};
use std::io::{self, Write};
use std::process::ExitCode;

const USUAL: &str =
    "plate[0][page]=4&plate[0][inks][]=cyan&plate[0][inks][]=black&caption=Fog%20at%20dawn";

fn main() -> io::Result<ExitCode> {
    let input = std::env::args().nth(1).unwrap_or(USUAL.to_owned());
    let mut buffers = Buffers::for_len(input.len());
    let mut out = vec![0; qs::write_room(input.len())];

    match Ticket::new(&input).write(&mut buffers, &mut out) {
        Ok(written) => {
            // Bytes and no text: what isn't UTF-8 in a ticket is written as it is.
            io::stdout().write_all(written)?;
            println!();
            Ok(ExitCode::SUCCESS)
        }
        Err(refused) => {
            eprintln!("refused: {refused}");
            Ok(ExitCode::FAILURE)
        }
    }
}
