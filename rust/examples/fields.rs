//! Reads fields of a ticket: a text, a list, and many names from one reading.
//!
//!     rust/cargo.sh run --release --example fields

use qs::{Buffers, NamesBuf, Refused, Ticket};

fn main() -> Result<(), Refused> {
    let ticket = Ticket::new("caption=Fog+at+dawn&inks[]=cyan&inks[]=black&plate[0][page]=4");
    let mut buffers = Buffers::for_len(ticket.input.len());

    let caption = ticket.text("caption", &mut buffers)?;
    println!("the caption is {caption}");

    let mut list = vec![0; qs::list_room(ticket.input.len())];
    let inks = ticket.list("inks", &mut buffers, &mut list)?;
    println!("there are {} inks", inks.len());
    for ink in inks {
        println!("  {ink}");
    }

    // The names are laid out once, and serve for any number of tickets.
    let names = ["caption", "inks", "plate", "weight"];
    let laid = NamesBuf::of(&names);
    let mut answers = laid.answers();
    let fields = ticket.fields(&laid, &mut buffers, &mut answers)?;
    for (name, field) in names.iter().zip(fields) {
        match field {
            Ok(text) => println!("{name}: {text}"),
            Err(refusal) => println!("{name}: {refusal} ({})", refusal.number()),
        }
    }
    Ok(())
}
