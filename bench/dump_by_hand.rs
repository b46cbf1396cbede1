//! A hand-written dumper in plain Rust, as a baseline for `bufr dump`. It maps the file into memory and
//! writes the same text as `bufr dump` for plain and compressed messages in editions 3 and 4. It prepares the
//! beginning and the end of each line, reuses a template while the descriptors stay the same, and builds a
//! line of compressed data only once if all subsets share it. Templates can contain elements, replications,
//! sequences and 2 03; in compressed data, neither 2 03 nor delayed replication is supported. Section 2 is
//! not supported either. Numbers must fit in 64 bits. The only check of the data is that they do not end too
//! early. The dumper has no proofs.
mod by_hand;
use by_hand::{blocks, end_subset, least_first, mapped, number, KEYS};
use by_hand::{Block, Element, Message, Messages, Out, Pen, Step, Tables};

/// Returns a field of 1 to 63 bits.
#[inline(always)]
fn field(octets: &[u8], at: usize, width: u32) -> u64 {
    match octets.get(at / 8..at / 8 + 8) {
        Some(eight) if width <= 57 => {
            let window = u64::from_be_bytes(eight.try_into().expect("eight"));
            window << (at % 8) >> (64 - width)
        }
        _ => field_by_octets(octets, at, width),
    }
}

/// Returns a field that is wider than 57 bits or near the end of the file.
#[cold]
fn field_by_octets(octets: &[u8], at: usize, width: u32) -> u64 {
    let end = at + width as usize;
    let octets = octets[at / 8..end.div_ceil(8)].iter();
    let window = octets.fold(0u128, |n, octet| n << 8 | u128::from(*octet));
    (window >> ((8 - end % 8) % 8)) as u64 & ((1 << width) - 1)
}

/// Writes a string of `many` octets, which can begin at any bit.
fn put_text(pen: &mut Pen, data: &[u8], at: usize, many: usize) {
    let mut octets = [0; 256];
    for (i, four) in octets[..many].chunks_mut(4).enumerate() {
        let window = field(data, at + 32 * i, 8 * four.len() as u32) << (32 - 8 * four.len());
        four.copy_from_slice(&(window as u32).to_be_bytes()[..four.len()]);
    }
    put_octets(pen, &octets[..many]);
}

fn put_octets(pen: &mut Pen, octets: &[u8]) {
    if octets.iter().all(|octet| *octet == 255) {
        return pen.put(b"MISSING");
    }
    let is_plain = |octet: &u8| (32..=126).contains(octet) && *octet != b'"' && *octet != b'\\';
    pen.put(b"\"");
    if octets.iter().fold(true, |plain, octet| plain & is_plain(octet)) {
        pen.put_all(octets);
    } else {
        octets.iter().for_each(|octet| put_octet(pen, *octet));
    }
    pen.put(b"\"");
}

fn put_octet(pen: &mut Pen, octet: u8) {
    match octet {
        b'"' | b'\\' => pen.put(&[b'\\', octet]),
        32..=126 => pen.put(&[octet]),
        _ => {
            pen.put(b"\\x");
            put_hex(pen, octet);
        }
    }
}

fn put_hex(pen: &mut Pen, octet: u8) {
    const DIGITS: &[u8; 16] = b"0123456789ABCDEF";
    pen.put(&[DIGITS[usize::from(octet >> 4)], DIGITS[usize::from(octet & 15)]]);
}

#[inline(always)]
fn put_number(pen: &mut Pen, element: &Element, raw: u64) {
    if raw == element.missing {
        pen.put_first(b"MISSING ", 7);
    } else {
        pen.put_scaled(raw as i64 + element.reference.get(), element.scale);
    }
}

/// Writes an item's line: the descriptor, the value and the comment.
#[inline(always)]
fn put_item(pen: &mut Pen, element: &Element, put_value: impl FnOnce(&mut Pen)) {
    pen.put_first(&element.fxy.to_le_bytes(), 7);
    put_value(pen);
    pen.put_blocks(&element.blocks, element.comment.len());
}

/// A descriptor list, its lines in a dump, and the steps that decode its data.
struct Plan<'t> {
    descriptors: &'static [u8],
    lines: Vec<u8>,
    steps: Vec<Step<'t>>,
}

fn planned<'t>(descriptors: &'static [u8], tables: &'t Tables) -> Plan<'t> {
    let list: Vec<u16> = descriptors.chunks_exact(2).map(|two| number(two) as u16).collect();
    let mut lines = String::new();
    for eight in list.chunks(8) {
        lines += "descriptors";
        eight.iter().for_each(|d| lines += &format!(" {}{:02}{:03}", d >> 14, d >> 8 & 63, d & 255));
        lines += "\n";
    }
    Plan { descriptors, lines: lines.into_bytes(), steps: tables.steps_of(&list) }
}

fn put_header(out: &mut Out, message: &Message, plan: &Plan) {
    assert!(!message.optional, "no section 2");
    let flags = [message.observed().into(), message.compressed().into(), 0, message.subsets() as u64];
    out.line(|pen| {
        pen.put(b"message\nedition ");
        pen.put_number(message.edition.into());
        for ((key, many), value) in KEYS.iter().zip(message.head().into_iter().chain(flags)) {
            pen.put_first(key, *many);
            pen.put_number(value);
        }
        pen.put(b"\n");
    });
    for octets in message.section(8)[least_first(message.edition)..].chunks(32) {
        out.line(|pen| {
            pen.put(b"local1 ");
            octets.iter().for_each(|octet| put_hex(pen, *octet));
            pen.put(b"\n");
        });
    }
    out.put_all(&plan.lines);
}

fn put_subset(out: &mut Out, subset: usize) {
    out.line(|pen| {
        pen.put(b"subset ");
        pen.put_number(subset as u64);
        pen.put(b"\n");
    });
}

/// Writes a redefined reference value, and applies it to the items that follow.
fn put_reference(out: &mut Out, step: &Step, raw: u64) {
    let reference = step.reference(raw);
    step.element.reference.set(reference);
    out.line(|pen| {
        pen.put(b"R ");
        pen.put_first(&step.element.fxy.to_le_bytes(), 7);
        pen.put_scaled(reference, 0);
        pen.put(b"\n");
    });
}

/// Writes the items whose data begin at bit `at`. Returns the position of the first bit after them.
fn put_plain(out: &mut Out, data: &[u8], mut at: usize, steps: &[Step]) -> usize {
    for step in steps {
        let element = step.element;
        if step.new > 0 {
            put_reference(out, step, field(data, at, step.new));
            at += step.new as usize;
        } else if element.is_text {
            let many = element.width as usize / 8;
            out.line(|pen| put_item(pen, element, |pen| put_text(pen, data, at, many)));
            at += element.width as usize;
        } else {
            let raw = field(data, at, element.width);
            out.line(|pen| put_item(pen, element, |pen| put_number(pen, element, raw)));
            at += element.width as usize;
            if !step.is_number {
                at = put_group(out, data, at, &step.group, raw);
            }
        }
    }
    at
}

/// Writes a group the given number of times. Returns the position of the first bit after the last repetition.
#[inline(never)]
fn put_group(out: &mut Out, data: &[u8], at: usize, group: &[Step], times: u64) -> usize {
    (0..times).fold(at, |at, _| put_plain(out, data, at, group))
}

/// An item of compressed data: the line that all subsets share, or the position of the first increment.
struct Column<'t> {
    element: &'t Element,
    shared: Vec<Block>,
    many: usize,
    base: u64,
    at: usize,
    step: u32,
    missing: u64,
}

/// Reads the item that begins at bit `at`. Returns the item and the position of the first bit after it.
fn column<'t>(out: &mut Out, data: &[u8], at: usize, element: &'t Element, subsets: usize) -> (Column<'t>, usize) {
    let first = at + element.width as usize + 6;
    let mut step = field(data, first - 6, 6) as u32 * if element.is_text { 8 } else { 1 };
    let next = first + subsets * step as usize;
    let base = if element.is_text { 0 } else { field(data, at, element.width) };
    if base == element.missing {
        step = 0;
    }
    let line = match (step, element.is_text) {
        (0, true) => {
            let many = element.width as usize / 8;
            out.made(|pen| put_item(pen, element, |pen| put_text(pen, data, at, many)))
        }
        (0, false) => out.made(|pen| put_item(pen, element, |pen| put_number(pen, element, base))),
        _ => &[],
    };
    let missing = if element.missing == u64::MAX { u64::MAX } else { (1 << step.min(63)) - 1 };
    (Column { element, shared: blocks(line), many: line.len(), base, at: first, step, missing }, next)
}

/// Writes one subset's string, which is padded with spaces unless it is missing.
fn put_short_text(pen: &mut Pen, data: &[u8], at: usize, many: usize, whole: usize) {
    let mut octets = [b' '; 256];
    for (i, octet) in octets[..many].iter_mut().enumerate() {
        *octet = field(data, at + 8 * i, 8) as u8;
    }
    let is_missing = octets[..many].iter().all(|octet| *octet == 255);
    put_octets(pen, if is_missing { &octets[..many] } else { &octets[..whole] });
}

/// Writes the line of one subset for an item that has increments.
#[inline(always)]
fn put_increased(out: &mut Out, data: &[u8], column: &Column, subset: usize) {
    let (element, at) = (column.element, column.at + subset * column.step as usize);
    if element.is_text {
        let (many, whole) = (column.step as usize / 8, element.width as usize / 8);
        out.line(|pen| put_item(pen, element, |pen| put_short_text(pen, data, at, many, whole)));
    } else {
        let more = field(data, at, column.step);
        let raw = if more == column.missing { element.missing } else { column.base + more };
        out.line(|pen| put_item(pen, element, |pen| put_number(pen, element, raw)));
    }
}

fn put_compressed(out: &mut Out, data: &[u8], most: usize, steps: &[Step], subsets: usize) {
    let mut at = 0;
    let mut columns = Vec::with_capacity(steps.len());
    for step in steps {
        assert!(step.is_number || step.element.is_text, "no delayed replication, no new reference");
        assert!(at + step.element.width as usize + 6 <= most, "data that do not end");
        let (column, next) = column(out, data, at, step.element, subsets);
        columns.push(column);
        at = next;
    }
    assert!(at <= most, "data that do not end");
    for subset in 0..subsets {
        put_subset(out, subset + 1);
        for column in &columns {
            match column.step {
                0 => out.line(|pen| pen.put_blocks(&column.shared, column.many)),
                _ => put_increased(out, data, column, subset),
            }
        }
    }
}

fn main() {
    let names: Vec<String> = std::env::args().skip(1).collect();
    let tables = Tables::read(&names[0], &names[1]);
    let mut messages = Messages::of(mapped(&names[2]));
    let mut out = Out::to(1);
    let mut plan = planned(&[], &tables);
    while let Some(message) = messages.next() {
        if message.descriptors() != plan.descriptors {
            plan = planned(message.descriptors(), &tables);
        }
        let data = &message.octets[message.four + 4..];
        let (most, subsets) = (8 * (message.section(message.four).len() - 4), message.subsets());
        put_header(&mut out, &message, &plan);
        if message.compressed() {
            put_compressed(&mut out, data, most, &plan.steps, subsets);
        } else {
            let mut at = 0;
            for subset in 1..=subsets {
                put_subset(&mut out, subset);
                at = put_plain(&mut out, data, at, &plan.steps);
                end_subset(&plan.steps);
            }
            assert!(at <= most, "data that do not end");
        }
        out.put_all(b"end\n");
    }
}
