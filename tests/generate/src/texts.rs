//! Timetable texts, good and damaged.

use crate::days::Day;
use crate::Rng;

/// A code of `len` bytes, none of them refused.
pub fn code(rng: &mut Rng, len: u32) -> Vec<u8> {
    (0..len).map(|_| rng.between(33, 126) as u8).collect()
}

/// `count` different codes, of lengths that make whole comparison matter: some
/// share all but the last byte, some are the beginning of another.
pub fn codes(rng: &mut Rng, count: u32) -> Vec<Vec<u8>> {
    let mut all: Vec<Vec<u8>> = Vec::new();
    let style = rng.below(5);
    while (all.len() as u32) < count {
        let i = all.len() as u32;
        let next = match style {
            0 => format!("S{i}").into_bytes(),
            1 => {
                let len = rng.between(1, 64);
                code(rng, len)
            }
            2 => {
                // Long and equal but for the end.
                let mut c = vec![b'x'; 61];
                c.extend(format!("{i:03}").bytes());
                c
            }
            3 if i > 0 && rng.one_in(2) => {
                let mut c = all[rng.below(i) as usize].clone();
                c.push(rng.between(33, 126) as u8);
                c.truncate(64);
                c
            }
            3 => code(rng, 1),
            // Codes that look like the words and numbers of the text.
            _ => match rng.below(5) {
                0 => rng.pick(&["end", "run", "stop", "timetable", "early", "0", "1"]).into(),
                _ => format!("{}", rng.below(100_000)).into_bytes(),
            },
        };
        if !all.contains(&next) {
            all.push(next);
        } else {
            let len = rng.between(1, 64);
            let other = code(rng, len);
            if !all.contains(&other) {
                all.push(other);
            }
        }
    }
    all
}

/// The text of a day; a stop number without a code is written as its number.
pub fn text(day: &Day, codes: &[Vec<u8>]) -> Vec<u8> {
    let mut text = b"timetable 1\n".to_vec();
    for code in codes {
        text.extend(b"stop ");
        text.extend(code);
        text.push(b'\n');
    }
    for run in &day.runs {
        text.extend(b"run ");
        for stop in &run[..2] {
            match codes.get(*stop as usize) {
                Some(code) => text.extend(code),
                None => text.extend(format!("{stop}").bytes()),
            }
            text.push(b' ');
        }
        text.extend(format!("{} {} {}\n", run[2], run[3], run[4]).bytes());
    }
    text.extend(b"end\n");
    text
}

/// The text of a day with codes drawn for it.
pub fn text_of(rng: &mut Rng, day: &Day) -> Vec<u8> {
    let codes = codes(rng, day.stops);
    text(day, &codes)
}

/// The text of T when a change of it is wanted: every prefix of a text.
pub fn prefixes(text: &[u8]) -> impl Iterator<Item = &[u8]> {
    (0..text.len()).map(|len| &text[..len])
}

/// Every text that differs from this one in a single byte.
pub fn byte_changes(text: &[u8], mut see: impl FnMut(&[u8])) {
    let mut changed = text.to_vec();
    for at in 0..text.len() {
        for byte in 0..=255u8 {
            if byte != text[at] {
                changed[at] = byte;
                see(&changed);
            }
        }
        changed[at] = text[at];
    }
}

/// Every text with one byte taken out, and with one of some bytes put in.
pub fn byte_moves(text: &[u8], mut see: impl FnMut(&[u8])) {
    for at in 0..=text.len() {
        if at < text.len() {
            let mut shorter = text.to_vec();
            shorter.remove(at);
            see(&shorter);
        }
        for byte in [b' ', b'\n', b'\r', b'\t', b'0', b'1', b'9', b'A', 0, 127, 255] {
            let mut longer = text.to_vec();
            longer.insert(at, byte);
            see(&longer);
        }
    }
}

/// Every text with one line taken out, doubled, or moved to another place.
pub fn line_moves(text: &[u8], mut see: impl FnMut(&[u8])) {
    let lines: Vec<&[u8]> = text.split_inclusive(|b| *b == b'\n').collect();
    for i in 0..lines.len() {
        let mut without = lines.clone();
        let line = without.remove(i);
        see(&without.concat());
        for j in 0..=without.len() {
            let mut moved = without.clone();
            moved.insert(j, line);
            see(&moved.concat());
            let mut doubled = lines.clone();
            doubled.insert(j, line);
            see(&doubled.concat());
        }
    }
}

/// A line of any kind, often a little wrong.
pub fn odd_line(rng: &mut Rng, codes: &[Vec<u8>]) -> Vec<u8> {
    let pick = |rng: &mut Rng| -> Vec<u8> {
        match rng.below(8) {
            0 => b"".to_vec(),
            1 => b"no-such".to_vec(),
            2 => rng.pick(&["caf\u{e9}", "A\tB", "\u{7f}", "a\rb", " "]).as_bytes().to_vec(),
            _ if !codes.is_empty() => codes[rng.below(codes.len() as u32) as usize].clone(),
            _ => b"A".to_vec(),
        }
    };
    let number = |rng: &mut Rng| -> String {
        match rng.below(12) {
            0 => rng.pick(&["", "00", "01", "000000", "100000", "-1", "+1", "1x", " 1"]).into(),
            1 => rng.pick(&["0", "2879", "2880", "9999", "65535", "65536", "99999"]).into(),
            _ => format!("{}", rng.below(2_880)),
        }
    };
    let mut line = Vec::new();
    match rng.below(10) {
        0 => line.extend(b"timetable 1"),
        1 => line.extend(b"end"),
        2 => line.extend(rng.pick(&["", " ", "stop", "run", "end ", " end", "END", "enD"]).bytes()),
        3 | 4 | 5 => {
            line.extend(b"stop ");
            line.extend(pick(rng));
            if rng.one_in(8) {
                line.extend(vec![b'z'; rng.between(58, 66) as usize]);
            }
        }
        _ => {
            line.extend(b"run ");
            line.extend(pick(rng));
            line.push(b' ');
            line.extend(pick(rng));
            for _ in 0..if rng.one_in(12) { rng.below(6) } else { 3 } {
                line.push(b' ');
                line.extend(number(rng).bytes());
            }
        }
    }
    if rng.one_in(30) {
        line.push(rng.pick(b" \r\t\0"));
    }
    line
}

/// A good text with some lines put in, changed or cut.
pub fn damaged(rng: &mut Rng, day: &Day) -> Vec<u8> {
    let count = if rng.one_in(8) { 0 } else { day.stops };
    let codes = codes(rng, count);
    let good = text(day, &codes);
    let mut lines: Vec<Vec<u8>> =
        good.split_inclusive(|b| *b == b'\n').map(|l| l.to_vec()).collect();
    for _ in 0..rng.between(1, 3) {
        let at = rng.below(lines.len() as u32 + 1) as usize;
        match rng.below(6) {
            0 if at < lines.len() => {
                lines.remove(at);
            }
            1 if at < lines.len() => {
                let len = lines[at].len() as u32;
                if len > 0 {
                    let byte = rng.below(len) as usize;
                    lines[at][byte] = rng.pick(&[b' ', b'\n', b'0', b'9', 31, 33, 126, 127, 200]);
                }
            }
            2 if at < lines.len() => {
                lines[at].pop();
            }
            3 if !lines.is_empty() => {
                let other = rng.below(lines.len() as u32) as usize;
                let line = lines[other].clone();
                lines.insert(at, line);
            }
            _ => {
                let mut line = odd_line(rng, &codes);
                if !rng.one_in(20) {
                    line.push(b'\n');
                }
                lines.insert(at, line);
            }
        }
    }
    let mut text = lines.concat();
    if rng.one_in(10) {
        let len = rng.below(text.len() as u32 + 1) as usize;
        text.truncate(len);
    }
    text
}

/// The greatest good text there can be: 255 codes of 64 bytes that differ only
/// at their ends, and 4,096 runs with five digits for each trip.
pub fn greatest_good(rng: &mut Rng) -> Vec<u8> {
    let codes: Vec<Vec<u8>> = (0..255)
        .map(|i| {
            let mut code = vec![b'Q'; 61];
            code.extend(format!("{i:03}").bytes());
            code
        })
        .collect();
    let runs = (0..4_096)
        .map(|_| {
            let from = rng.between(128, 254);
            let to = rng.between(1, 127);
            let dep = rng.between(1_000, 2_800);
            [from, to, dep, dep + rng.between(1, 79), rng.between(10_000, 65_535)]
        })
        .collect();
    text(&Day { stops: 255, runs }, &codes)
}

/// A text of exactly `len` bytes that is read to its end before it is refused:
/// the greatest good text, without its end line, and then one line of filling.
pub fn filled_to(rng: &mut Rng, len: usize) -> Vec<u8> {
    let mut text = greatest_good(rng);
    text.truncate(text.len() - 4);
    text.resize(len, b'x');
    text
}
