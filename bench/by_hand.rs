//! Code shared by the hand-written lister, dumper and encoder. It maps files into memory, finds messages,
//! reads section 1 and the tables, expands descriptor lists into steps, and buffers output.
#![allow(dead_code)] // each program uses only part of it
use std::cell::{Cell, OnceCell};
use std::fs::File;
use std::io::Write as _;
use std::mem::ManuallyDrop;
use std::os::fd::{AsRawFd, FromRawFd};

extern "C" {
    fn mmap(at: *mut u8, length: usize, access: i32, flags: i32, file: i32, offset: i64) -> *mut u8;
}

/// Maps a file into memory and returns its octets.
pub fn mapped(name: &str) -> &'static [u8] {
    let file = File::open(name).expect("a file that opens");
    let length = file.metadata().expect("its length").len() as usize;
    if length == 0 {
        return &[];
    }
    unsafe {
        let at = mmap(std::ptr::null_mut(), length, 1, 2, file.as_raw_fd(), 0);
        assert!(at as isize != -1, "a file that can be mapped");
        std::slice::from_raw_parts(at, length)
    }
}

pub fn number(octets: &[u8]) -> usize {
    octets.iter().fold(0, |n, octet| n << 8 | usize::from(*octet))
}

// ---------------------------------------------------------------- the output

/// The buffer is flushed as soon as it contains at least HELD octets. LINE is the maximum length of a line.
const HELD: usize = 1 << 16;
const LINE: usize = 1 << 13;

/// A piece of text that is always copied as a whole, even if only part of it is used.
pub type Block = [u8; 32];

/// Splits text into blocks. The last block is padded with zeros.
pub fn blocks(text: &[u8]) -> Vec<Block> {
    let filled = |piece: &[u8]| {
        let mut block = [0; 32];
        block[..piece.len()].copy_from_slice(piece);
        block
    };
    text.chunks(32).map(filled).collect()
}

/// Eight `0` digits.
const ZEROS: u64 = 0x3030_3030_3030_3030;

/// Returns the eight digits of a number below 100,000,000 as values from 0 to 9, with the first digit in the
/// lowest octet. Splits the number into two four-digit numbers, then into four two-digit numbers, and then
/// into digits. Each step handles all parts in parallel.
#[inline(always)]
fn eight_digits(n: u32) -> u64 {
    let fours = u64::from(n / 10_000) | u64::from(n % 10_000) << 32;
    let hundreds = fours * 10_486 >> 20 & 0x0000_007F_0000_007F;
    let twos = hundreds | (fours - 100 * hundreds) << 16;
    let tens = twos * 103 >> 10 & 0x000F_000F_000F_000F;
    tens | (twos - 10 * tens) << 8
}

/// The buffer in which lines are built.
type Room = [u8; HELD + LINE];

/// Writes lines to a buffer. A pen has its own copy of the write position, so that the compiler can keep the
/// position in a register.
pub struct Pen<'r> {
    room: &'r mut Room,
    at: usize,
}

impl Pen<'_> {
    /// Copies all N octets, but advances only past the first `many`.
    #[inline(always)]
    pub fn put_first<const N: usize>(&mut self, octets: &[u8; N], many: usize) {
        self.room[self.at..][..N].copy_from_slice(octets);
        self.at += many;
    }

    #[inline(always)]
    pub fn put<const N: usize>(&mut self, octets: &[u8; N]) {
        self.put_first(octets, N);
    }

    /// Copies whole blocks, but advances only past the first `many` octets.
    #[inline(always)]
    pub fn put_blocks(&mut self, blocks: &[Block], many: usize) {
        let mut place = self.at;
        for block in blocks {
            self.room[place..][..32].copy_from_slice(block);
            place += 32;
        }
        self.at += many;
    }

    #[inline(always)]
    pub fn put_all(&mut self, octets: &[u8]) {
        self.room[self.at..][..octets.len()].copy_from_slice(octets);
        self.at += octets.len();
    }

    #[inline(always)]
    pub fn put_number(&mut self, n: u64) {
        self.put_padded(n, 1);
    }

    /// Writes a number with at least `least` digits, from one to eight.
    #[inline(always)]
    pub fn put_padded(&mut self, n: u64, least: u32) {
        if n < 100_000_000 {
            self.put_decimal(n as u32, 0, least);
        } else {
            self.at = put_long(self.room, self.at, n, 0);
        }
    }

    /// Writes a number below 100,000,000 with at least `least` digits. If `after` is not 0, writes a decimal
    /// point before the last `after` digits.
    #[inline(always)]
    fn put_decimal(&mut self, n: u32, after: u32, least: u32) {
        let digits = eight_digits(n);
        let many = (8 - digits.trailing_zeros() / 8).max(least);
        let text = (digits | ZEROS) >> (8 * (8 - many));
        self.put_first(&text.to_le_bytes(), (many - after) as usize);
        if after > 0 {
            self.put(b".");
            self.put_first(&(text >> (8 * (many - after))).to_le_bytes(), after as usize);
        }
    }

    /// Writes n / 10^scale as a decimal number.
    #[inline(always)]
    pub fn put_scaled(&mut self, n: i64, scale: i32) {
        self.put_first(b"-", usize::from(n < 0));
        if !(-7..8).contains(&scale) || n.unsigned_abs() >= 100_000_000 {
            self.at = put_long(self.room, self.at, n.unsigned_abs(), scale);
            return;
        }
        let after = scale.max(0) as u32;
        self.put_decimal(n.unsigned_abs() as u32, after, after + 1);
        if scale < 0 && n != 0 {
            self.put_first(&ZEROS.to_le_bytes(), -scale as usize);
        }
    }
}

/// Writes n / 10^scale as a decimal number, for any n and any scale in the tables. Returns the new write position.
#[cold]
fn put_long(room: &mut Room, at: usize, n: u64, scale: i32) -> usize {
    let mut pen = Pen { room, at };
    let mut digits = [b'0'; 160];
    let eights = [n / 10_000_000_000_000_000, n / 100_000_000 % 100_000_000, n % 100_000_000];
    for (place, eight) in digits[136..].chunks_exact_mut(8).zip(eights) {
        place.copy_from_slice(&(eight_digits(eight as u32) | ZEROS).to_le_bytes());
    }
    let point = 160 - scale.max(0) as usize;
    let first = digits.iter().position(|digit| *digit != b'0').unwrap_or(160).min(point - 1);
    pen.put_all(&digits[first..point]);
    if scale > 0 {
        pen.put(b".");
        pen.put_all(&digits[point..]);
    } else if n > 0 {
        (0..-scale).for_each(|_| pen.put(b"0"));
    }
    pen.at
}

/// A buffered writer to a file.
pub struct Out {
    room: Box<Room>,
    at: usize,
    file: ManuallyDrop<File>,
}

impl Out {
    /// Returns a writer for an open file descriptor: 1 is standard output, 2 is standard error.
    pub fn to(descriptor: i32) -> Out {
        let room = vec![0; HELD + LINE].into_boxed_slice().try_into().expect("of this size");
        let file = ManuallyDrop::new(unsafe { File::from_raw_fd(descriptor) });
        Out { room, at: 0, file }
    }

    pub fn flush_buf(&mut self) {
        self.file.write_all(&self.room[..self.at]).expect("written");
        self.at = 0;
    }

    /// Writes one or more lines of at most LINE octets in total, and flushes the buffer if it is full.
    #[inline(always)]
    pub fn line(&mut self, put: impl FnOnce(&mut Pen)) {
        let mut pen = Pen { room: &mut self.room, at: self.at };
        put(&mut pen);
        self.at = pen.at;
        if self.at >= HELD {
            self.flush_buf();
        }
    }

    /// Builds a line and returns it without writing it.
    pub fn made(&mut self, put: impl FnOnce(&mut Pen)) -> &[u8] {
        let mut pen = Pen { room: &mut self.room, at: self.at };
        put(&mut pen);
        let end = pen.at;
        &self.room[self.at..end]
    }

    /// Writes any number of octets.
    pub fn put_all(&mut self, octets: &[u8]) {
        if octets.len() <= LINE {
            return self.line(|pen| pen.put_all(octets));
        }
        self.flush_buf();
        self.file.write_all(octets).expect("written");
    }
}

impl Drop for Out {
    fn drop(&mut self) {
        self.flush_buf();
    }
}

// ---------------------------------------------------------------- the messages in a stream

/// Returns whether `BU` begins at one of the first 64 octets.
fn may_begin(octets: &[u8; 65]) -> bool {
    let mut found = 0;
    for place in 0..64 {
        found |= u8::from(octets[place] == b'B') & u8::from(octets[place + 1] == b'U');
    }
    found != 0
}

/// Returns the position of the next `BUFR`.
fn find(octets: &[u8], from: usize) -> Option<usize> {
    let mut at = from;
    if octets[at..].starts_with(b"BUFR") {
        return Some(at);
    }
    while let Some(piece) = octets[at..].first_chunk::<65>() {
        if may_begin(piece) {
            let piece = &octets[at..octets.len().min(at + 67)];
            if let Some(ahead) = piece.windows(4).position(|four| four == b"BUFR") {
                return Some(at + ahead);
            }
        }
        at += 64;
    }
    octets[at..].windows(4).position(|four| four == b"BUFR").map(|ahead| at + ahead)
}

/// Writes a fault line: the offset, `text`, the number `inside` (if any), and `rest`.
fn put_fault(out: &mut Out, offset: usize, text: &str, inside: Option<u8>, rest: &str) {
    out.line(|pen| {
        pen.put(b"offset ");
        pen.put_number(offset as u64);
        pen.put(b": ");
        pen.put_all(text.as_bytes());
        if let Some(n) = inside {
            pen.put_number(n.into());
        }
        pen.put_all(rest.as_bytes());
        pen.put(b"\n");
    });
}

/// A message. `octets` also contains everything after the message. `three` and `four` are the positions of
/// sections 3 and 4.
pub struct Message {
    pub offset: usize,
    pub length: usize,
    pub octets: &'static [u8],
    pub edition: u8,
    pub optional: bool,
    pub three: usize,
    pub four: usize,
}

/// Finds the messages in a stream and writes fault lines.
pub struct Messages {
    octets: &'static [u8],
    at: usize,
    faults: Out,
}

impl Messages {
    pub fn of(octets: &'static [u8]) -> Messages {
        Messages { octets, at: 0, faults: Out::to(2) }
    }

    fn refuse(&mut self, offset: usize, text: &str) {
        put_fault(&mut self.faults, offset, text, None, "");
    }

    pub fn next(&mut self) -> Option<Message> {
        loop {
            let offset = find(self.octets, self.at)?;
            self.at = offset + 4;
            let rest = &self.octets[offset..];
            let stated = if rest.len() < 8 { usize::MAX } else { number(&rest[4..7]) };
            if stated > rest.len() {
                self.refuse(offset, "1 cut");
            } else if stated < 12 {
                self.refuse(offset, "2 short length");
            } else if &rest[stated - 4..stated] != b"7777" {
                self.refuse(offset, "3 no end");
            } else {
                self.at = offset + stated;
                if let Some(message) = self.sections(offset, rest, stated) {
                    return Some(message);
                }
            }
        }
    }

    /// Finds the sections of a message. If they are invalid, writes a fault line and returns None.
    fn sections(&mut self, offset: usize, octets: &'static [u8], length: usize) -> Option<Message> {
        let edition = octets[7];
        let faults = &mut self.faults;
        if edition != 3 && edition != 4 {
            put_fault(faults, offset, "10 edition ", Some(edition), "");
            return None;
        }
        let (end, mut place, mut places, mut optional, mut odd) = (length - 4, 8, [0; 5], false, false);
        for (section, least) in [(1, least_first(edition)), (2, 4), (3, 7), (4, 4)] {
            if section == 2 && !optional {
                continue;
            }
            let stated = if place + 3 > end { usize::MAX } else { number(&octets[place..place + 3]) };
            if stated < least {
                put_fault(faults, offset, "11 section ", Some(section), " short");
                return None;
            }
            if stated > end - place {
                put_fault(faults, offset, "12 section ", Some(section), " past the end");
                return None;
            }
            if section == 1 {
                optional = octets[place + if edition == 3 { 7 } else { 9 }] & 128 != 0;
            }
            odd |= section > 2 && stated % 2 == 1;
            places[usize::from(section)] = place;
            place += stated;
        }
        if place != end {
            put_fault(faults, offset, "13 sections do not meet the end", None, "");
            return None;
        }
        if edition == 3 && odd && length > 16_777_213 {
            put_fault(faults, offset, "14 edition 3 length", None, "");
            return None;
        }
        let [_, _, _, three, four] = places;
        Some(Message { offset, length, octets, edition, optional, three, four })
    }
}

/// Returns the minimum length of section 1: its length without octets for local use.
pub fn least_first(edition: u8) -> usize {
    if edition == 3 { 17 } else { 22 }
}

impl Message {
    /// Returns the section that begins at this position.
    pub fn section(&self, place: usize) -> &'static [u8] {
        &self.octets[place..place + number(&self.octets[place..place + 3])]
    }

    /// Returns the numbers in section 1 in the order of a dump's header, from `master` to `second`.
    pub fn head(&self) -> [u64; 15] {
        let s: &[u8; 22] = self.octets[8..].first_chunk().expect("more after section 1");
        let one = |at: usize| u64::from(s[at]);
        let two = |at: usize| u64::from(s[at]) << 8 | u64::from(s[at + 1]);
        if self.edition == 3 {
            [
                one(3), one(5), one(4), one(6), one(8), one(9), 0, one(10), one(11), one(12), one(13), one(14),
                one(15), one(16), 0,
            ]
        } else {
            [
                one(3), two(4), two(6), one(8), one(10), one(11), one(12), one(13), one(14), two(15), one(17),
                one(18), one(19), one(20), one(21),
            ]
        }
    }

    /// Returns the number of subsets.
    pub fn subsets(&self) -> usize {
        number(&self.octets[self.three + 4..self.three + 6])
    }

    pub fn observed(&self) -> bool {
        self.octets[self.three + 6] & 128 != 0
    }

    pub fn compressed(&self) -> bool {
        self.octets[self.three + 6] & 64 != 0
    }

    /// Returns the octets that contain the descriptors.
    pub fn descriptors(&self) -> &'static [u8] {
        let listed = &self.section(self.three)[7..];
        &listed[..listed.len() / 2 * 2]
    }
}

// ---------------------------------------------------------------- the header of a dump

/// The text that comes before each number in a header, and its length. The text begins with a line feed, and is
/// padded to 24 octets. The length does not include the padding.
pub const KEYS: [([u8; 24], usize); 19] = padded_keys();

const fn padded_keys() -> [([u8; 24], usize); 19] {
    let keys = [
        "\nmaster ", "\ncentre ", "\nsubcentre ", "\nupdate ", "\ncategory ", "\nsubcategory ", "\nlocalsubcategory ",
        "\nmasterversion ", "\nlocalversion ", "\nyear ", "\nmonth ", "\nday ", "\nhour ", "\nminute ", "\nsecond ",
        "\nobserved ", "\ncompressed ", "\noptional ", "\nsubsets ",
    ];
    let mut padded = [([0; 24], 0); 19];
    let mut key = 0;
    while key < 19 {
        let text = keys[key].as_bytes();
        while padded[key].1 < text.len() {
            padded[key].0[padded[key].1] = text[padded[key].1];
            padded[key].1 += 1;
        }
        key += 1;
    }
    padded
}

// ---------------------------------------------------------------- the tables

/// The properties of an element that are needed to read and write item lines.
pub struct Element {
    /// The descriptor's six digits and a space, with the first digit in the lowest octet.
    pub fxy: u64,
    /// The comment at the end of the line, including the line feed.
    pub comment: Vec<u8>,
    pub blocks: Vec<Block>,
    pub is_text: bool,
    pub scale: i32,
    /// The reference value from Table B or, until the end of a subset, a redefined one.
    pub reference: Cell<i64>,
    pub width: u32,
    /// The raw number that means missing: all ones or, for elements without a missing value, a number that
    /// does not fit in the field.
    pub missing: u64,
}

/// Converts the six digits of a descriptor to its 16-bit number.
pub fn word(six: &[u8]) -> u16 {
    let n = digits(six) as u32;
    ((n / 100_000) << 14 | (n / 1000 % 100) << 8 | n % 1000) as u16
}

pub fn digits(text: &[u8]) -> u64 {
    text.iter().fold(0, |n, digit| {
        assert!(digit.is_ascii_digit(), "a digit");
        10 * n + u64::from(digit - b'0')
    })
}

/// Returns the fields of a CSV row.
fn fields(row: &[u8]) -> Vec<String> {
    let row = std::str::from_utf8(row).expect("UTF-8");
    let (mut out, mut quoted, mut before) = (vec![String::new()], false, ',');
    for c in row.chars() {
        match c {
            '"' => {
                quoted = !quoted;
                if quoted && before == '"' {
                    out.last_mut().expect("a field").push('"');
                }
            }
            ',' if !quoted => out.push(String::new()),
            c => out.last_mut().expect("a field").push(c),
        }
        before = c;
    }
    out
}

fn element(row: &[u8]) -> Element {
    let f = fields(row);
    let comment = format!("  # {} [{}]\n", f[1], f[2]).into_bytes();
    let width: u32 = f[5].parse().expect("a width");
    let is_text = f[2].eq_ignore_ascii_case("CCITT IA5");
    let always = is_text || f[0].starts_with("031");
    Element {
        fxy: f[0].bytes().rev().fold(b' '.into(), |n, digit| n << 8 | u64::from(digit)),
        blocks: blocks(&comment),
        comment,
        is_text,
        scale: f[3].parse().expect("a scale"),
        reference: Cell::new(f[4].parse().expect("a reference")),
        width,
        missing: if always { u64::MAX } else { (1 << width) - 1 },
    }
}

/// An item of a template. If the item is a replication factor, `group` contains the items that it repeats.
/// Otherwise, `group` is empty. If `new` is not 0, the item is a redefined reference value of `new` bits, which
/// replaces `old` until the end of the subset.
pub struct Step<'t> {
    pub element: &'t Element,
    /// False if the item is a replication factor, a redefined reference value or a string.
    pub is_number: bool,
    pub group: Vec<Step<'t>>,
    pub new: u32,
    pub old: i64,
}

impl<'t> Step<'t> {
    fn of(element: &'t Element, group: Vec<Step<'t>>, new: u32) -> Step<'t> {
        let is_number = !element.is_text && group.is_empty() && new == 0;
        Step { element, is_number, group, new, old: element.reference.get() }
    }

    /// Converts a redefined reference value, whose first bit is the sign, to a number.
    pub fn reference(&self, raw: u64) -> i64 {
        let sign = 1 << (self.new - 1);
        if raw & sign == 0 { raw as i64 } else { -((raw ^ sign) as i64) }
    }
}

/// Ends a subset by restoring the reference values from Table B.
pub fn end_subset(steps: &[Step]) {
    steps.iter().filter(|step| step.new > 0).for_each(|step| step.element.reference.set(step.old));
}

/// Tables B and D. Rows and sequences are indexed by X and Y, and each element is created on first use.
pub struct Tables {
    rows: Vec<&'static [u8]>,
    elements: Vec<OnceCell<Box<Element>>>,
    sequences: Vec<(u32, u32)>,
    members: Vec<u16>,
}

impl Tables {
    pub fn read(table_b: &str, table_d: &str) -> Tables {
        let mut tables = Tables {
            rows: vec![&[]; 1 << 14],
            elements: (0..1 << 14).map(|_| OnceCell::new()).collect(),
            sequences: vec![(0, 0); 1 << 14],
            members: Vec::new(),
        };
        let rows = |name: &str| mapped(name).split(|octet| *octet == b'\n').skip(1);
        for row in rows(table_b).filter(|row| !row.is_empty()) {
            tables.rows[usize::from(word(&row[..6]))] = row;
        }
        for row in rows(table_d).filter(|row| !row.is_empty()) {
            let sequence = &mut tables.sequences[usize::from(word(&row[..6])) & 0x3FFF];
            if sequence.1 == 0 {
                *sequence = (tables.members.len() as u32, tables.members.len() as u32);
            }
            sequence.1 += 1;
            tables.members.push(word(&row[7..13]));
        }
        tables
    }

    fn element(&self, descriptor: u16) -> &Element {
        let place = usize::from(descriptor);
        self.elements[place].get_or_init(|| Box::new(element(self.rows[place])))
    }

    /// Appends the steps of a descriptor list to `steps`.
    fn add_steps<'t>(&'t self, list: &[u16], steps: &mut Vec<Step<'t>>) {
        let (mut at, mut new) = (0, 0);
        while at < list.len() {
            let d = list[at];
            at += 1;
            match d >> 14 {
                0 => steps.push(Step::of(self.element(d), Vec::new(), new)),
                1 => {
                    let delayed = usize::from(d & 255 == 0);
                    let group = &list[at + delayed..][..usize::from(d >> 8 & 63)];
                    if delayed == 1 {
                        steps.push(Step::of(self.element(list[at]), self.steps_of(group), 0));
                    } else {
                        (0..d & 255).for_each(|_| self.add_steps(group, steps));
                    }
                    at += delayed + group.len();
                }
                2 => {
                    assert!(d >> 8 & 63 == 3 && d & 255 > 0, "no operator but 2 03");
                    new = u32::from(d & 255) % 255;
                }
                _ => {
                    let (from, end) = self.sequences[usize::from(d & 0x3FFF)];
                    assert!(from < end, "a sequence of Table D");
                    self.add_steps(&self.members[from as usize..end as usize], steps);
                }
            }
        }
    }

    /// Returns the steps of a descriptor list.
    pub fn steps_of<'t>(&'t self, list: &[u16]) -> Vec<Step<'t>> {
        let mut steps = Vec::new();
        self.add_steps(list, &mut steps);
        steps
    }
}
