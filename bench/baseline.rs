//! A hand-written lister in plain Rust, as a baseline for `bufr ls`. It maps the file into memory, searches
//! for messages 64 octets at a time, checks the sections, and writes the same lines as `bufr ls` through one
//! buffer. It has no proofs or tests, and cannot read from a pipe.
mod by_hand;
use by_hand::{mapped, Message, Messages, Out, Pen};

#[inline(always)]
fn put_line(pen: &mut Pen, message: &Message) {
    let [
        master, centre, subcentre, update, category, subcategory, local, version, local_version, year, month, day,
        hour, minute, second,
    ] = message.head();
    pen.put(b"offset=");
    pen.put_number(message.offset as u64);
    pen.put(b" length=");
    pen.put_number(message.length as u64);
    pen.put(b" edition=");
    pen.put_number(message.edition.into());
    pen.put(b" centre=");
    pen.put_number(centre);
    pen.put(b"/");
    pen.put_number(subcentre);
    pen.put(b" update=");
    pen.put_number(update);
    pen.put(b" category=");
    pen.put_number(category);
    pen.put(b"/");
    pen.put_number(subcategory);
    pen.put(b"/");
    pen.put_number(local);
    pen.put(b" tables=");
    pen.put_number(master);
    pen.put(b"/");
    pen.put_number(version);
    pen.put(b"/");
    pen.put_number(local_version);
    pen.put(b" time=");
    pen.put_padded(year, 4);
    pen.put(b"-");
    pen.put_padded(month, 2);
    pen.put(b"-");
    pen.put_padded(day, 2);
    pen.put(b"T");
    pen.put_padded(hour, 2);
    pen.put(b":");
    pen.put_padded(minute, 2);
    pen.put(b":");
    pen.put_padded(second, 2);
    pen.put(b" subsets=");
    pen.put_number(message.subsets() as u64);
    pen.put(b" observed=");
    pen.put_number(message.observed().into());
    pen.put(b" compressed=");
    pen.put_number(message.compressed().into());
    pen.put(b" optional=");
    pen.put_number(message.optional.into());
    pen.put(b" descriptors=");
    pen.put_number(message.descriptors().len() as u64 / 2);
    pen.put(b"\n");
}

fn main() {
    let name = std::env::args().nth(1).expect("a file");
    let mut messages = Messages::of(mapped(&name));
    let mut out = Out::to(1);
    while let Some(message) = messages.next() {
        out.line(|pen| put_line(pen, &message));
    }
}
