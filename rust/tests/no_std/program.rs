//! A program that has neither `std` nor `alloc`: it makes each call of a ticket in arrays of its
//! own. Its exit status is 0 where every answer is the expected one, and else the number of the
//! first that isn't.

#![no_std]
#![no_main]

use core::panic::PanicInfo;
use qs::{Key, Lent, Names, Refusal, Ticket, ANSWER_WORDS};

extern "C" {
    fn abort() -> !;
}

#[panic_handler]
fn panic(_: &PanicInfo) -> ! {
    // SAFETY: it may be called at any time.
    unsafe { abort() }
}

/// `core` as it is installed names this, which `std` has; nothing unwinds here, so that it is never
/// called.
#[no_mangle]
pub extern "C" fn rust_eh_personality() {}

const INPUT: &str = "h[]=10&h[]=9&w=fog";
const LENGTH: usize = INPUT.len();
const ROOM: (usize, usize) = qs::room(LENGTH);

#[no_mangle]
pub extern "C" fn main() -> i32 {
    let (mut records, mut text) = ([0; ROOM.0], [0; ROOM.1]);
    let mut lent = Lent {
        records: &mut records,
        text: &mut text,
    };
    let checks: [fn(Ticket, &mut Lent) -> bool; 6] = [parse, text_of, list, fields, sheet, write];
    let ticket = Ticket::new(INPUT);
    let wrong = checks.iter().position(|check| !check(ticket, &mut lent));
    wrong.map_or(0, |check| check as i32 + 1)
}

fn parse(ticket: Ticket, lent: &mut Lent) -> bool {
    let refused = Ticket::new("h[").parse(&mut *lent).err();
    let refused = refused.map(|why| (why.refusal, why.place));
    let reading = ticket.parse(lent);
    let keys = [Key::from("h"), Key::from("w")];
    refused == Some((Refusal::EndAfterOpening, 3))
        && reading.is_ok_and(|reading| reading.tree().entries().map(|(key, _)| key).eq(keys))
}

fn text_of(ticket: Ticket, lent: &mut Lent) -> bool {
    ticket.text("w", lent) == Ok("fog")
}

fn list(ticket: Ticket, lent: &mut Lent) -> bool {
    let mut list = [0; qs::list_room(LENGTH)];
    let texts = ticket.list("h", lent, &mut list);
    texts.is_ok_and(|texts| texts.eq(["10", "9"]))
}

fn fields(ticket: Ticket, lent: &mut Lent) -> bool {
    let names = Names {
        bytes: b"wx",
        ends: &[1, 2],
    };
    let mut answers = [0; 2 * ANSWER_WORDS];
    let fields = ticket.fields(names, lent, &mut answers);
    fields.is_ok_and(|fields| fields.eq([Ok("fog"), Err(Refusal::NoSuchField)]))
}

fn sheet(ticket: Ticket, lent: &mut Lent) -> bool {
    let mut page = [0; qs::sheet_room(LENGTH)];
    let sheet = ticket.sheet(lent, &mut page);
    sheet.is_ok_and(|sheet| sheet.lines().count() == 5)
}

fn write(ticket: Ticket, lent: &mut Lent) -> bool {
    let mut out = [0; qs::write_room(LENGTH)];
    ticket.write(lent, &mut out) == Ok(INPUT.as_bytes())
}
