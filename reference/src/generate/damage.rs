//! Faults put into a sheet's text: bytes and lines altered, lost, swapped or added, numbers spelt otherwise, too many
//! bytes.

use crate::random::Random;
use crate::sheet::MOST_BYTES;

/// One fault put into a sheet's text.
pub fn damage(random: &mut Random, mut text: Vec<u8>) -> Vec<u8> {
    if text.is_empty() {
        return vec![random.bits() as u8];
    }
    let place = random.below(text.len());
    match random.below(16) {
        0 => text[place] = random.bits() as u8,
        1 => text[place] = random.of(b"0123456789-=\nn"),
        2 => drop(text.remove(place)),
        3 => text.insert(place, random.of(b"0123456789-=\n +\r")),
        4 => text.truncate(place),
        5 => text.extend((0..random.even(1..=3)).map(|_| random.of(b"\n0n="))),
        6 => swap_lines(random, &mut text),
        7 => lengthen(random, &mut text),
        _ => respell_number(random, &mut text),
    }
    text
}

fn swap_lines(random: &mut Random, text: &mut Vec<u8>) {
    let mut lines: Vec<&[u8]> = text.split_inclusive(|&byte| byte == b'\n').collect();
    let (one, other) = (random.below(lines.len()), random.below(lines.len()));
    lines.swap(one, other);
    *text = lines.concat();
}

/// Brings the text to the most bytes that a sheet may have, or to one more, or beyond.
pub fn lengthen(random: &mut Random, text: &mut Vec<u8>) {
    let length = MOST_BYTES + random.of(&[0, 0, 0, 1, 1, 1, 2, 1000]);
    let filling = random.of(b"\n0n");
    let anywhere = random.below(text.len() + 1);
    let place = random.of(&[0, anywhere, text.len()]);
    let missing = length.saturating_sub(text.len());
    text.splice(place..place, std::iter::repeat(filling).take(missing));
}

/// Puts another number, at or beyond the edge of some range or oddly spelt, into a line: one of the head
/// every second time, since few of a long sheet's lines are the head's.
fn respell_number(random: &mut Random, text: &mut Vec<u8>) {
    const HEAD_LINES: usize = 5;
    const SPELLINGS: &str = "0 1 2 7 8 9 32 33 240 241 16777216 16777217 268435456 268435457 \
        536870912 536870913 999999999 1000000000 4294967297 18446744073709551617 \
        -0 -1 -2 -16777216 -16777217 -268435456 -268435457 -536870912 -536870913 \
        -999999999 -1000000000 007 00 -07 +1 1.0 1e3 none";
    let mut lines: Vec<Vec<u8>> = text
        .split_inclusive(|&byte| byte == b'\n')
        .map(<[u8]>::to_vec)
        .collect();
    let head = lines.len().min(HEAD_LINES);
    let among = random.of(&[head, lines.len()]);
    let line = random.below(among);
    let spellings: Vec<&str> = SPELLINGS.split_whitespace().chain([""]).collect();
    let spelling = random.of(&spellings);
    let key = lines[line].iter().position(|&byte| byte == b'=');
    let key = key.map_or(0, |place| place + 1);
    lines[line].truncate(key);
    lines[line].extend(spelling.bytes().chain([b'\n']));
    *text = lines.concat();
}
