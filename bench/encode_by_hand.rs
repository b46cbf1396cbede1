//! A hand-written encoder in plain Rust, as a baseline for `bufr encode`. It maps a dump into memory and
//! reads it once. For the output of `bufr dump`, plain or compressed, in edition 3 or 4, it writes the same
//! octets as `bufr encode`. It reuses a template as long as the descriptors stay the same. Templates can
//! contain elements, replications, sequences and operator 2 03; in compressed data, neither 2 03 nor delayed
//! replication is supported. Section 2 and comments between lines are not supported either. Numbers must fit
//! in 64 bits. The encoder panics if the input is invalid. It has no proofs.
mod by_hand;
use by_hand::{digits, end_subset, least_first, mapped, word, Element, Out, Step, Tables, KEYS};

/// The raw number that stands for a missing value.
const MISSING: u64 = u64::MAX;

/// A text and the current read position.
struct Text {
    octets: &'static [u8],
    at: usize,
}

impl Text {
    fn rest(&self) -> &'static [u8] {
        &self.octets[self.at..]
    }

    fn skip(&mut self, what: &[u8]) -> bool {
        let there = self.rest().starts_with(what);
        self.at += if there { what.len() } else { 0 };
        there
    }

    fn expect(&mut self, what: &[u8]) {
        assert!(self.skip(what), "{:?} at {}", String::from_utf8_lossy(what), self.at);
    }

    /// Returns the rest of the line, and skips the line feed.
    fn line(&mut self) -> &'static [u8] {
        let rest = self.rest();
        let end = rest.iter().position(|octet| *octet == b'\n').expect("a line feed");
        self.at += end + 1;
        &rest[..end]
    }

    fn number(&mut self) -> u64 {
        let rest = self.rest();
        let end = rest.iter().position(|octet| !octet.is_ascii_digit()).unwrap_or(rest.len());
        assert!(0 < end && end < 19, "a number");
        self.at += end;
        digits(&rest[..end])
    }

    /// Checks the descriptor of an item, and skips it and the space after it.
    #[inline(always)]
    fn item(&mut self, element: &Element) {
        let eight = self.rest().first_chunk().expect("an item");
        let fxy = u64::from_le_bytes(*eight);
        assert!((fxy ^ element.fxy) << 8 == 0, "the descriptor that comes next, at {}", self.at);
        self.at += 7;
    }

    /// Skips the comment of an item and the line feed.
    #[inline(always)]
    fn comment(&mut self, element: &Element) {
        if !self.skip(&element.comment) {
            let rest = self.line();
            assert!(rest.trim_ascii_start().first().is_none_or(|octet| *octet == b'#'), "a comment");
        }
    }

    /// Reads the value of an item in one pass, and returns its raw number or MISSING.
    #[inline(always)]
    fn raw(&mut self, element: &Element) -> u64 {
        let rest = self.rest();
        if rest[0] == b'M' {
            self.expect(b"MISSING");
            assert!(element.missing != u64::MAX, "no missing value");
            return MISSING;
        }
        let is_negative = rest[0] == b'-';
        let (mut n, mut place, mut point) = (0i64, usize::from(is_negative), usize::MAX);
        loop {
            let octet = rest[place];
            if octet.is_ascii_digit() {
                n = 10 * n + i64::from(octet - b'0');
            } else if octet == b'.' && point == usize::MAX {
                point = place + 1;
            } else {
                break;
            }
            place += 1;
        }
        assert!(0 < place && place < 19, "a number of 64 bits");
        self.at += place;
        let after = if point == usize::MAX { 0 } else { (place - point) as i32 };
        let n = if after == element.scale { n } else { scaled(n, after, element.scale) };
        let raw = (if is_negative { -n } else { n } - element.reference.get()) as u64;
        assert!(raw >> element.width == 0 && raw != element.missing, "in the element's width");
        raw
    }

    /// Skips the string of an item.
    fn pass_quoted(&mut self) {
        if self.skip(b"MISSING") {
            return;
        }
        self.expect(b"\"");
        while self.octets[self.at] != b'"' {
            self.at += if self.octets[self.at] == b'\\' { 2 } else { 1 };
        }
        self.at += 1;
    }

    /// Reads an item's string and appends it as `many` octets: padded with spaces, or all ones if missing.
    fn quoted(&mut self, many: usize, octets: &mut Vec<u8>) {
        let whole = octets.len() + many;
        if self.skip(b"MISSING") {
            return octets.resize(whole, 255);
        }
        self.expect(b"\"");
        loop {
            let rest = self.rest();
            let plain = rest.iter().position(|octet| matches!(octet, b'"' | b'\\')).expect("a quote");
            octets.extend_from_slice(&rest[..plain]);
            self.at += plain + 1;
            match (rest[plain], rest[plain + 1]) {
                (b'"', _) => break,
                (_, b'x') => {
                    octets.extend(hex(&rest[plain + 2..plain + 4]));
                    self.at += 3;
                }
                (_, other) => {
                    octets.push(other);
                    self.at += 1;
                }
            }
        }
        assert!(octets.len() <= whole, "room for the text");
        octets.resize(whole, b' ');
    }
}

/// Rescales a number from `after` decimal places to `scale` decimal places.
#[cold]
fn scaled(mut n: i64, after: i32, scale: i32) -> i64 {
    for _ in after..scale {
        n = n.checked_mul(10).expect("64 bits");
    }
    for _ in scale..after {
        assert!(n % 10 == 0, "of the element's scale");
        n /= 10;
    }
    n
}

/// Bits that have been written, the most significant bit of each number first.
#[derive(Default)]
struct Bits {
    octets: Vec<u8>,
    window: u64,
    count: u32,
}

impl Bits {
    /// Appends a number of 1 to 63 bits.
    #[inline(always)]
    fn put(&mut self, number: u64, width: u32) {
        let free = 64 - self.count;
        if width < free {
            self.window |= number << (free - width);
            self.count += width;
        } else {
            self.count = width - free;
            self.octets.extend_from_slice(&(self.window | number >> self.count).to_be_bytes());
            self.window = if self.count == 0 { 0 } else { number << (64 - self.count) };
        }
    }

    fn put_octets(&mut self, octets: &[u8]) {
        let (fours, rest) = octets.as_chunks::<4>();
        fours.iter().for_each(|four| self.put(u32::from_be_bytes(*four).into(), 32));
        rest.iter().for_each(|octet| self.put((*octet).into(), 8));
    }

    fn end(&mut self) {
        let rest = self.window.to_be_bytes();
        self.octets.extend_from_slice(&rest[..self.count.div_ceil(8) as usize]);
        (self.window, self.count) = (0, 0);
    }
}

/// Writes the numbers of a compressed item: the minimum, the width of the increments, and the increments.
fn put_numbers(bits: &mut Bits, values: &[u64], element: &Element) {
    let (mut least, mut most, mut lacks) = (u64::MAX, 0, false);
    for value in values {
        let is_missing = *value == MISSING;
        lacks |= is_missing;
        least = least.min(*value);
        most = most.max(if is_missing { 0 } else { *value });
    }
    if least == MISSING {
        bits.put((1 << element.width) - 1, element.width);
        return bits.put(0, 6);
    }
    bits.put(least, element.width);
    if least == most && !lacks {
        return bits.put(0, 6);
    }
    let all_ones = u64::from(element.missing != u64::MAX);
    let width = (u64::BITS - (most - least + all_ones).leading_zeros()).max(1);
    bits.put(width.into(), 6);
    for value in values {
        bits.put((value - least).min((1 << width) - 1), width);
    }
}

/// Returns the number of octets that a string needs without its trailing spaces. A string that would
/// otherwise read as missing needs one more.
fn needed(text: &[u8]) -> usize {
    let many = text.iter().rposition(|octet| *octet != b' ').map_or(0, |last| last + 1);
    many + usize::from(text[..many].iter().all(|octet| *octet == 255))
}

/// Writes a compressed item whose strings are at these positions in the text.
fn put_texts(bits: &mut Bits, text: &mut Text, places: &[u64], element: &Element) {
    let (next, whole) = (text.at, element.width as usize / 8);
    let mut texts = Vec::with_capacity(whole * places.len());
    for place in places {
        text.at = *place as usize;
        text.quoted(whole, &mut texts);
    }
    text.at = next;
    let texts = || texts.chunks_exact(whole);
    let first = texts().next().unwrap_or(&[]);
    if texts().all(|text| text == first) {
        bits.put_octets(first);
        return bits.put(0, 6);
    }
    let many = texts().map(|text| if text.iter().all(|octet| *octet == 255) { 1 } else { needed(text) });
    let many = many.max().expect("texts");
    assert!(many <= 63, "texts that can be compressed");
    (0..whole).for_each(|_| bits.put(0, 8));
    bits.put(many as u64, 6);
    texts().for_each(|text| bits.put_octets(&text[..many]));
}

/// Writes a redefined reference value, and uses it for the items that follow.
fn put_reference(bits: &mut Bits, text: &mut Text, step: &Step) {
    text.expect(b"R ");
    text.item(step.element);
    let sign = u64::from(text.skip(b"-")) << (step.new - 1);
    let raw = sign | text.number();
    text.expect(b"\n");
    step.element.reference.set(step.reference(raw));
    bits.put(raw, step.new);
}

/// Writes the items of an uncompressed subset.
fn put_plain(bits: &mut Bits, text: &mut Text, steps: &[Step], quoted: &mut Vec<u8>) {
    for step in steps {
        if step.is_number {
            put_number(bits, text, step.element);
        } else {
            put_other(bits, text, step, quoted);
        }
    }
}

/// Writes a number, and returns its raw value.
#[inline(always)]
fn put_number(bits: &mut Bits, text: &mut Text, element: &Element) -> u64 {
    text.item(element);
    let raw = text.raw(element);
    bits.put(if raw == MISSING { element.missing } else { raw }, element.width);
    text.comment(element);
    raw
}

/// Writes a redefined reference value, a string, or a replication factor with its group.
#[inline(never)]
fn put_other(bits: &mut Bits, text: &mut Text, step: &Step, quoted: &mut Vec<u8>) {
    let element = step.element;
    if step.new > 0 {
        put_reference(bits, text, step);
    } else if element.is_text {
        text.item(element);
        quoted.clear();
        text.quoted(element.width as usize / 8, quoted);
        bits.put_octets(quoted);
        text.comment(element);
    } else {
        let times = put_number(bits, text, element);
        (0..times).for_each(|_| put_plain(bits, text, &step.group, quoted));
    }
}

fn begin_subset(text: &mut Text, subset: usize) {
    text.expect(b"subset ");
    assert_eq!(text.number(), subset as u64);
    text.expect(b"\n");
}

/// Writes the items of compressed subsets, after collecting the numbers or string positions of each item.
fn put_compressed(bits: &mut Bits, text: &mut Text, steps: &[Step], subsets: usize, columns: &mut Vec<u64>) {
    let is_known = |step: &Step| step.is_number || step.element.is_text;
    assert!(steps.iter().all(is_known), "no delayed replication, no new reference");
    columns.resize(steps.len() * subsets, 0);
    for subset in 0..subsets {
        begin_subset(text, subset + 1);
        for (at, &Step { element, .. }) in steps.iter().enumerate() {
            text.item(element);
            columns[at * subsets + subset] = if element.is_text {
                let place = text.at as u64;
                text.pass_quoted();
                place
            } else {
                text.raw(element)
            };
            text.comment(element);
        }
    }
    for (values, &Step { element, .. }) in columns.chunks_exact(subsets.max(1)).zip(steps) {
        match element.is_text {
            true => put_texts(bits, text, values, element),
            false => put_numbers(bits, values, element),
        }
    }
}

fn three(n: usize) -> [u8; 3] {
    let [.., a, b, c] = n.to_be_bytes();
    [a, b, c]
}

/// Returns the length of a section: `many` octets, rounded up to an even number in edition 3.
fn even(edition: u8, many: usize) -> usize {
    if edition == 3 { many + many % 2 } else { many }
}

/// Writes section 1, except its length and the octets for local use.
fn put_head(out: &mut Vec<u8>, edition: u8, values: &[u64; 19]) {
    let one = |at: usize| u8::try_from(values[at]).expect("an octet");
    let two = |at: usize| u16::try_from(values[at]).expect("two octets").to_be_bytes();
    if edition == 3 {
        assert!(values[6] == 0 && values[14] == 0, "no local sub-category and no second");
        out.extend([one(0), one(2), one(1), one(3), 0, one(4), one(5), one(7), one(8)]);
        out.extend([9, 10, 11, 12, 13].map(one));
    } else {
        out.push(one(0));
        out.extend([1, 2].map(two).as_flattened());
        out.extend([one(3), 0]);
        out.extend([4, 5, 6, 7, 8].map(one));
        out.extend(two(9));
        out.extend([10, 11, 12, 13, 14].map(one));
    }
}

/// Writes everything before the data, whose length in octets is `data`.
fn put_head_sections(out: &mut Vec<u8>, edition: u8, values: &[u64; 19], local: &[u8], list: &[u16], data: usize) {
    assert!(edition == 3 || edition == 4, "edition 3 or 4");
    let first = least_first(edition) + local.len();
    let (third, fourth) = (even(edition, 7 + 2 * list.len()), even(edition, 4 + data));
    out.extend(b"BUFR");
    out.extend(three(8 + first + third + fourth + 4));
    out.push(edition);
    out.extend(three(first));
    put_head(out, edition, values);
    out.extend(local);
    let end = out.len() + third;
    out.extend(three(third));
    out.push(0);
    out.extend((values[18] as u16).to_be_bytes());
    out.push((values[15] << 7 | values[16] << 6) as u8);
    out.extend(list.iter().flat_map(|d| d.to_be_bytes()));
    out.resize(end, 0);
    out.extend(three(fourth));
    out.push(0);
}

/// Converts hexadecimal digits to octets.
fn hex(digits: &[u8]) -> impl Iterator<Item = u8> + '_ {
    digits.chunks(2).map(|two| u8::from_str_radix(std::str::from_utf8(two).expect("digits"), 16).expect("digits"))
}

/// A descriptor list: its lines, its descriptors, and the steps that it expands to.
struct Plan<'t> {
    lines: &'static [u8],
    list: Vec<u16>,
    steps: Vec<Step<'t>>,
}

/// Reads descriptor lines. The plan changes only if the lines are different from those in the plan.
fn read_plan<'t>(text: &mut Text, tables: &'t Tables, plan: &mut Plan<'t>) {
    if text.rest().starts_with(plan.lines) && !text.octets[text.at + plan.lines.len()..].starts_with(b"descriptors ") {
        text.at += plan.lines.len();
        return;
    }
    let from = text.at;
    plan.list.clear();
    while text.skip(b"descriptors ") {
        plan.list.extend(text.line().split(|octet| *octet == b' ').map(word));
    }
    plan.lines = &text.octets[from..text.at];
    plan.steps = tables.steps_of(&plan.list);
}

fn encode(octets: &'static [u8], tables: &Tables) {
    let mut out = Out::to(1);
    let mut text = Text { octets, at: 0 };
    let mut plan = Plan { lines: b"none", list: Vec::new(), steps: Vec::new() };
    let (mut local, mut head, mut quoted, mut columns) = (Vec::new(), Vec::new(), Vec::new(), Vec::new());
    let mut bits = Bits::default();
    while text.at < octets.len() {
        text.expect(b"message\nedition ");
        let edition = text.number() as u8;
        let mut values = [0; 19];
        for (value, (key, many)) in values.iter_mut().zip(&KEYS) {
            text.expect(&key[..*many]);
            *value = text.number();
        }
        text.expect(b"\n");
        local.clear();
        while text.skip(b"local1 ") {
            local.extend(hex(text.line()));
        }
        read_plan(&mut text, tables, &mut plan);
        bits.octets.clear();
        match values[16] {
            0 => (1..=values[18] as usize).for_each(|subset| {
                begin_subset(&mut text, subset);
                put_plain(&mut bits, &mut text, &plan.steps, &mut quoted);
                end_subset(&plan.steps);
            }),
            _ => put_compressed(&mut bits, &mut text, &plan.steps, values[18] as usize, &mut columns),
        }
        text.expect(b"end\n");
        bits.end();
        let many = bits.octets.len();
        bits.octets.resize(even(edition, many), 0);
        head.clear();
        put_head_sections(&mut head, edition, &values, &local, &plan.list, many);
        out.put_all(&head);
        out.put_all(&bits.octets);
        out.put_all(b"7777");
    }
}

fn main() {
    let names: Vec<String> = std::env::args().skip(1).collect();
    encode(mapped(&names[2]), &Tables::read(&names[0], &names[1]));
}
