//! Damage to a text: one line, value or byte is changed.

use crate::inputs::problems::joined;
use crate::inputs::random::Random;

const NUMERALS: [&str; 34] = [
    "0",
    "1",
    "-0",
    "-1",
    "00",
    "01",
    "007",
    "",
    "-",
    "+1",
    "--1",
    "-05",
    "1 ",
    "x",
    "48",
    "49",
    "32",
    "33",
    "65535",
    "65536",
    "10000",
    "10001",
    "320000",
    "320001",
    "10000000",
    "10000001",
    "1000",
    "1001",
    "-1000",
    "-1001",
    "1000000000",
    "1000000001",
    "18446744073709551616",
    "-99999999999999999999999999",
];

const BYTES: [u8; 16] = [
    b'0', b'1', b'9', b'-', b',', b'=', b'\n', b'\r', b' ', b'+', b'.', b'e', b'E', 0, 127, 255,
];

/// The text with one thing changed.
pub fn damaged(random: &mut Random, text: &str) -> Vec<u8> {
    match random.below(20) {
        0..=2 => change_byte(random, text.as_bytes().to_vec()),
        3 => text.as_bytes()[..random.below(text.len())].to_vec(),
        4 => noise(random),
        5..=9 => change_lines(random, text),
        _ => change_value(random, text),
    }
}

fn change_byte(random: &mut Random, mut bytes: Vec<u8>) -> Vec<u8> {
    let at = random.below(bytes.len());
    let byte = random.pick(&BYTES);
    match random.below(3) {
        0 => bytes[at] = byte,
        1 => bytes.insert(at, byte),
        _ => {
            bytes.remove(at);
        }
    }
    bytes
}

/// Bytes that were never a text.
pub fn noise(random: &mut Random) -> Vec<u8> {
    let length = random.below(40);
    let mut bytes: Vec<u8> = (0..length).map(|_| random.between(0, 255) as u8).collect();
    if random.chance(50) {
        bytes.push(b'\n');
    }
    bytes
}

fn change_lines(random: &mut Random, text: &str) -> Vec<u8> {
    let mut lines: Vec<String> = text.lines().map(str::to_string).collect();
    let at = random.below(lines.len());
    match random.below(7) {
        0 => {
            lines.remove(at);
        }
        1 => lines.insert(at, lines[at].clone()),
        2 => {
            let other = random.below(lines.len());
            lines.swap(at, other);
        }
        3 => lines[at].push('\r'),
        4 => lines[at].clear(),
        5 => lines.insert(at, String::new()),
        _ => lines[at] = other_key(random, &lines[at]),
    }
    let mut bytes = lines.join("\n").into_bytes();
    if !bytes.is_empty() && random.chance(95) {
        bytes.push(b'\n');
    }
    bytes
}

fn other_key(random: &mut Random, line: &str) -> String {
    let keys = [
        "kind",
        "end",
        "unit",
        "run",
        "split",
        "count",
        "short",
        "stuck",
        "crowd",
        "price",
        "rampprice",
        "reserve",
        "up",
        "down",
        "Run",
        "",
    ];
    let value = line.split_once('=').map_or("", |(_, value)| value);
    format!("{}={value}", random.pick(&keys))
}

/// One value of one line replaced, added, doubled, exchanged with another, or taken away.
fn change_value(random: &mut Random, text: &str) -> Vec<u8> {
    let mut lines: Vec<String> = text.lines().map(str::to_string).collect();
    let at = random.below(lines.len());
    if let Some((key, joined)) = lines[at].split_once('=') {
        let mut values: Vec<String> = joined.split(',').map(str::to_string).collect();
        let place = random.below(values.len());
        let other = random.below(values.len());
        match random.below(10) {
            0 => {
                values.remove(place);
            }
            1 => values.insert(place, values[place].clone()),
            2..=3 => values.swap(place, other),
            4 => values[place] = "9".repeat(random.below(300)),
            5..=6 => values[place] = nudged(random, &values[place]),
            _ => values[place] = random.pick(&NUMERALS).to_string(),
        }
        lines[at] = format!("{key}={}", values.join(","));
    }
    (lines.join("\n") + "\n").into_bytes()
}

/// A value one more, one less, or its negative.
fn nudged(random: &mut Random, value: &str) -> String {
    match value.parse::<i64>() {
        Ok(number) => random.pick(&[number + 1, number - 1, -number]).to_string(),
        Err(_) => value.to_string(),
    }
}

/// A problem text with pL and pU, or Hsc and Csc, of one unit exchanged or one apart.
pub fn crossed_limits(random: &mut Random, text: &str) -> Vec<u8> {
    change_unit_line(random, text, |random, values| {
        let (low, high) = random.pick(&[(3, 4), (10, 11)]);
        match random.chance(50) {
            true => values.swap(low, high),
            false => values[low] = values[high] + 1,
        }
    })
}

/// A problem text in which the p0 of one unit misses its limits by one, does not go with Tini, is
/// out of range or missing, or has another value after it.
pub fn wrong_initial_output(random: &mut Random, text: &str) -> Vec<u8> {
    change_unit_line(random, text, |random, values| {
        let (least, most, was_on) = (values[3], values[4], values[7] > 0);
        match random.below(8) {
            0 => values[14] = 10_001,
            1 => {
                values.pop();
            }
            2 => values.push(random.pick(&[0, most])),
            _ if was_on => values[14] = random.pick(&[least - 1, most + 1, 0]),
            _ => values[14] = random.pick(&[1, least, most]),
        }
    })
}

/// A problem text with the values of one of its unit lines changed.
fn change_unit_line(
    random: &mut Random,
    text: &str,
    change: fn(&mut Random, &mut Vec<i64>),
) -> Vec<u8> {
    let mut lines: Vec<String> = text.lines().map(str::to_string).collect();
    let units: Vec<usize> = (0..lines.len())
        .filter(|&at| lines[at].starts_with("unit="))
        .collect();
    let at = random.pick(&units);
    let mut values: Vec<i64> = lines[at]["unit=".len()..]
        .split(',')
        .map(|numeral| numeral.parse().expect("a problem text before any damage"))
        .collect();
    change(random, &mut values);
    lines[at] = format!("unit={}", joined(&values));
    (lines.join("\n") + "\n").into_bytes()
}
