//! Job files with damaged bytes.

use super::faulty::faulty_job;
use super::random::Random;
use super::small::small_job;

/// Bytes that a careless reader might let pass or trip over.
const TROUBLE: &[u8] = b"\0\t\r\n\n  ()#+-.,0019/:;aeEJ\x0b\x7f\x80\xc3\xff";

/// A valid or faulty job with one to three damages.
pub fn damaged_job(random: &mut Random) -> Vec<u8> {
    let mut job = if random.one_in(4) {
        faulty_job(random)
    } else {
        small_job(random)
    };
    for _ in 0..random.between(1, 3) {
        damage(random, &mut job);
    }
    job
}

/// Damages a file in one way.
fn damage(random: &mut Random, file: &mut Vec<u8>) {
    let place = random.index(file.len() + 1);
    match random.below(11) {
        0 => flip(random, file, place),
        1 => delete(random, file, place),
        2 => file.insert(place, random.pick(TROUBLE)),
        3 => file.truncate(place),
        4 => double_a_line(random, file),
        5 => swap_two_lines(random, file),
        6 => spoil_a_line_end(random, file),
        7 => spoil_a_number(random, file),
        8 => exchange(random, file),
        9 => file.extend_from_slice(random.pick(&[&b"(end)"[..], b"(end)\n", b"\n", b" ", b"\0"])),
        _ => replace(random, file, place),
    }
}

fn flip(random: &mut Random, file: &mut [u8], place: usize) {
    if let Some(byte) = file.get_mut(place) {
        *byte ^= 1 << random.below(8);
    }
}

fn replace(random: &mut Random, file: &mut [u8], place: usize) {
    if let Some(byte) = file.get_mut(place) {
        *byte = random.pick(TROUBLE);
    }
}

fn delete(random: &mut Random, file: &mut Vec<u8>, place: usize) {
    let end = (place + 1 + random.index(3)).min(file.len());
    file.drain(place.min(end)..end);
}

fn raw_lines(file: &[u8]) -> Vec<Vec<u8>> {
    file.split_inclusive(|&byte| byte == b'\n')
        .map(<[u8]>::to_vec)
        .collect()
}

fn double_a_line(random: &mut Random, file: &mut Vec<u8>) {
    let mut lines = raw_lines(file);
    if !lines.is_empty() {
        let place = random.index(lines.len());
        lines.insert(place, lines[place].clone());
        *file = lines.concat();
    }
}

fn swap_two_lines(random: &mut Random, file: &mut Vec<u8>) {
    let mut lines = raw_lines(file);
    if !lines.is_empty() {
        let (one, other) = (random.index(lines.len()), random.index(lines.len()));
        lines.swap(one, other);
        *file = lines.concat();
    }
}

/// Takes the line feed away, doubles it, or puts something before it.
fn spoil_a_line_end(random: &mut Random, file: &mut Vec<u8>) {
    if let Some(end) = pick_place(random, file, |rest| rest[0] == b'\n') {
        let instead: &[u8] = random.pick(&[&b""[..], b"\n\n", b"\r\n", b" \n", b"\t\n", b"\0\n"]);
        file.splice(end..=end, instead.iter().copied());
    }
}

/// What may be put before a digit. A single digit becomes 65535 or 65536, or one
/// near the longest side; with the last two it has 13 and 14 digits.
const BEFORE_DIGITS: [&str; 10] = [
    "0",
    "00",
    "-",
    "+",
    " ",
    "1",
    "6553",
    "100000",
    "999999999999",
    "1234567890123",
];

/// Puts digits or signs before a digit.
fn spoil_a_number(random: &mut Random, file: &mut Vec<u8>) {
    if let Some(digit) = pick_place(random, file, |rest| rest[0].is_ascii_digit()) {
        let before = random.pick(&BEFORE_DIGITS);
        file.splice(digit..digit, before.bytes());
    }
}

/// Texts of a file, each with some that are as good there, or nearly so.
const EXCHANGES: &[(&str, &[&str])] = &[
    ("(rect ", &["(dummy ", "(dummy ", "(fill ", "(rec "]),
    (
        "(dummy ",
        &["(rect ", "(fill ", "(Dummy ", "(dumm ", "(dummy"],
    ),
    (
        "(gap ",
        &["(gap 0 ", "(gap 1 ", "(gap 1000001 ", "(gap  ", "(gap 1 2 "],
    ),
    (
        ") (bounds",
        &[
            " 0) (bounds",
            " 2) (bounds",
            " 1000001) (bounds",
            " ) (bounds",
        ],
    ),
];

fn exchange(random: &mut Random, file: &mut Vec<u8>) {
    let (text, others) = random.pick(EXCHANGES);
    if let Some(place) = pick_place(random, file, |rest| rest.starts_with(text.as_bytes())) {
        let other = random.pick(others);
        file.splice(place..place + text.len(), other.bytes());
    }
}

/// A place of the file from which on it is as meant, if there is one.
fn pick_place(random: &mut Random, file: &[u8], is_meant: impl Fn(&[u8]) -> bool) -> Option<usize> {
    let places: Vec<usize> = (0..file.len()).filter(|&p| is_meant(&file[p..])).collect();
    (!places.is_empty()).then(|| random.pick(&places))
}
