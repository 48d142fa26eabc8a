//! Damaged scripts: a season with bytes, digits, lines and counts spoilt.

use super::random::Random;
use super::settings;

/// A season damaged at random; now and then nothing but random bytes.
pub fn damaged(seed: u64) -> Vec<u8> {
    let mut random = Random::new(seed ^ 0xDA3A_6ED0);
    if random.one_in(50) {
        let length = random.below(3_000);
        return (0..length).map(|_| random.bits() as u8).collect();
    }
    let mut script = super::season(random.bits());
    for _ in 0..random.between(1, 8) {
        damage(&mut random, &mut script);
    }
    script
}

/// One damage.
fn damage(random: &mut Random, script: &mut Vec<u8>) {
    if script.is_empty() {
        return;
    }
    match random.up_to(15) {
        0 => flip(random, script),
        1 => cut(random, script),
        2 => double(random, script),
        3 => insert(random, script),
        4 => change_digit(random, script),
        5 => remove_lf(random, script),
        6 => add_cr(random, script),
        7 => script.truncate(random.below(script.len() + 1)),
        8 | 9 => count_off_by_one(random, script),
        10 | 11 => damage_settings(random, script),
        kind => damage_lines(random, script, kind),
    }
}

/// A stretch of the script, mostly short.
fn stretch(random: &mut Random, script: &[u8]) -> std::ops::Range<usize> {
    let start = random.below(script.len());
    let most = if random.one_in(20) { script.len() } else { 40 };
    let end = (start + 1 + random.below(most)).min(script.len());
    start..end
}

fn flip(random: &mut Random, script: &mut [u8]) {
    let place = random.below(script.len());
    script[place] ^= 1 << random.below(8);
}

fn cut(random: &mut Random, script: &mut Vec<u8>) {
    let range = stretch(random, script);
    script.drain(range);
}

fn double(random: &mut Random, script: &mut Vec<u8>) {
    let range = stretch(random, script);
    let copy = script[range.clone()].to_vec();
    script.splice(range.start..range.start, copy);
}

fn insert(random: &mut Random, script: &mut Vec<u8>) {
    let place = random.below(script.len());
    let any = random.bits() as u8;
    let byte = random.select(&[b',', b'\n', b'0', b'9', b' ', b'-', 0, 255, any]);
    script.insert(place, byte);
}

/// Places of the bytes that a test picks.
fn places(script: &[u8], test: impl Fn(u8) -> bool) -> Vec<usize> {
    (0..script.len()).filter(|&at| test(script[at])).collect()
}

fn change_digit(random: &mut Random, script: &mut [u8]) {
    let digits = places(script, |byte| byte.is_ascii_digit());
    if !digits.is_empty() {
        script[random.select(&digits)] = b'0' + random.up_to(9) as u8;
    }
}

fn remove_lf(random: &mut Random, script: &mut Vec<u8>) {
    let ends = places(script, |byte| byte == b'\n');
    if !ends.is_empty() {
        script.remove(random.select(&ends));
    }
}

fn add_cr(random: &mut Random, script: &mut Vec<u8>) {
    let ends = places(script, |byte| byte == b'\n');
    if !ends.is_empty() {
        script.insert(random.select(&ends), b'\r');
    }
}

/// The last number of a head that counts lines, one more or one less.
fn count_off_by_one(random: &mut Random, script: &mut Vec<u8>) {
    let mut lines = lines_of(script);
    let heads: Vec<usize> = (0..lines.len())
        .filter(|&at| lines[at].starts_with(b"load,") || lines[at].starts_with(b"migrate,"))
        .collect();
    if heads.is_empty() {
        return;
    }
    let line = &mut lines[random.select(&heads)];
    let text = String::from_utf8_lossy(line).into_owned();
    let Some((start, count)) = text.trim_end().rsplit_once(',') else {
        return;
    };
    let Ok(count) = count.parse::<u64>() else {
        return;
    };
    let count = if random.one_in(2) {
        count + 1
    } else {
        count.saturating_sub(1)
    };
    *line = format!("{start},{count}\n").into_bytes();
    *script = lines.concat();
}

/// A `set` line taken from its place, one more of it, or one where there is none;
/// often close to the end of the book lines.
fn damage_settings(random: &mut Random, script: &mut Vec<u8>) {
    let mut lines = lines_of(script);
    let found = lines.iter().position(|line| line.starts_with(b"set,"));
    let line = match found {
        Some(place) if random.one_in(2) => lines.remove(place),
        Some(place) => lines[place].clone(),
        None => settings::any_line(random).into_bytes(),
    };
    let words: [&[u8]; 4] = [b"book,", b"holder,", b"sink,", b"path,"];
    let of_the_book = |line: &&Vec<u8>| words.iter().any(|word| line.starts_with(word));
    let book_lines = lines.iter().take_while(of_the_book).count();
    let place = match random.one_in(3) {
        true => random.below(lines.len() + 1),
        false => book_lines.saturating_sub(1) + random.below(3),
    };
    lines.insert(place.min(lines.len()), line);
    *script = lines.concat();
}

/// Lines swapped, dropped or said twice.
fn damage_lines(random: &mut Random, script: &mut Vec<u8>, kind: u64) {
    let mut lines = lines_of(script);
    let place = random.below(lines.len());
    match kind {
        12 => {
            let other = random.below(lines.len());
            lines.swap(place, other);
        }
        13 => {
            lines.remove(place);
        }
        _ => lines.insert(place, lines[place].clone()),
    }
    *script = lines.concat();
}

/// The lines with their LF.
fn lines_of(script: &[u8]) -> Vec<Vec<u8>> {
    let lines = script.split_inclusive(|&byte| byte == b'\n');
    lines.map(<[u8]>::to_vec).collect()
}
