//! Outside vectors for the leaf crates: inputs, and the answers that Rust's std gives to them.
//! Our own rule stands where std has none: the escapes, U+FFFD of one byte for a stray byte, a missing word at the text's end.
//!
//! Writes a stream of records to standard output. A record: operation u8, set u8 (0 ASCII, 1 Unicode),
//! number u16, length of the input u16, length of the answer u16 (all little-endian), input, answer.
//! Yes and no are the digits 1 and 0, numbers are decimal.

use std::io::Write;

const SEED: u64 = 20261115;
const ASCII: u8 = 0;
const UNICODE: u8 = 1;

/// The operations, in the order of the program that replays them.
#[derive(Clone, Copy)]
enum Op {
    IsUtf8,
    FirstChar,
    Boundaries,
    White,
    AsciiWhite,
    TrimStart,
    TrimEnd,
    Trim,
    Blank,
    FirstWord,
    AfterWord,
    NthWord,
    LastWord,
    EscapeText,
    EscapeValue,
    Decimal,
    FindByte,
    FindPair,
    Begins,
    Same,
    Part,
    NextWord,
}

struct Records(Vec<u8>);

impl Records {
    fn add(&mut self, op: Op, set: u8, n: u16, input: &[u8], answer: &[u8]) {
        self.0.extend([op as u8, set]);
        for x in [n, input.len() as u16, answer.len() as u16] {
            self.0.extend(x.to_le_bytes());
        }
        self.0.extend(input);
        self.0.extend(answer);
    }
}

struct Random(u64);

impl Random {
    fn next(&mut self, below: usize) -> usize {
        self.0 ^= self.0 << 13;
        self.0 ^= self.0 >> 7;
        self.0 ^= self.0 << 17;
        (self.0 >> 11) as usize % below
    }
}

fn yes(b: bool) -> &'static [u8] {
    if b { b"1" } else { b"0" }
}

// ---- UTF-8

/// The rows of table 3-7.
const ROWS: [&[(u8, u8)]; 9] = [
    &[(0x00, 0x7F)],
    &[(0xC2, 0xDF), (0x80, 0xBF)],
    &[(0xE0, 0xE0), (0xA0, 0xBF), (0x80, 0xBF)],
    &[(0xE1, 0xEC), (0x80, 0xBF), (0x80, 0xBF)],
    &[(0xED, 0xED), (0x80, 0x9F), (0x80, 0xBF)],
    &[(0xEE, 0xEF), (0x80, 0xBF), (0x80, 0xBF)],
    &[(0xF0, 0xF0), (0x90, 0xBF), (0x80, 0xBF), (0x80, 0xBF)],
    &[(0xF1, 0xF3), (0x80, 0xBF), (0x80, 0xBF), (0x80, 0xBF)],
    &[(0xF4, 0xF4), (0x80, 0x8F), (0x80, 0xBF), (0x80, 0xBF)],
];

/// Each row with every byte at either end of its range and one step outside it, one byte outside at a time.
fn boundary_texts() -> Vec<Vec<u8>> {
    let mut texts = vec![vec![]];
    for row in ROWS {
        for ends in 0..1usize << row.len() {
            let good: Vec<u8> = (0..row.len())
                .map(|i| if ends >> i & 1 == 0 { row[i].0 } else { row[i].1 })
                .collect();
            for i in 0..row.len() {
                for x in [row[i].0.wrapping_sub(1), row[i].1.wrapping_add(1)] {
                    let mut bad = good.clone();
                    bad[i] = x;
                    texts.push(bad);
                }
                texts.push(good[..i].to_vec());
            }
            let mut followed = good.clone();
            followed.push(b'a');
            texts.push(followed);
            texts.push(good);
        }
    }
    for x in 0..=255u8 {
        texts.push(vec![x]);
        texts.push(vec![b'a', x, b'b']);
    }
    texts.sort();
    texts.dedup();
    texts
}

/// The first character by std; U+FFFD of one byte where std finds none, and of no bytes at the end.
fn first_char(s: &[u8]) -> (u32, usize) {
    for k in 1..=s.len().min(4) {
        if let Ok(t) = std::str::from_utf8(&s[..k]) {
            return (t.chars().next().unwrap() as u32, k);
        }
    }
    if s.is_empty() { (0, 0) } else { (0xFFFD, 1) }
}

fn utf8(out: &mut Records) {
    for t in boundary_texts() {
        out.add(Op::IsUtf8, 0, 0, &t, yes(std::str::from_utf8(&t).is_ok()));
        let (code, width) = first_char(&t);
        out.add(Op::FirstChar, 0, 0, &t, format!("{code} {width}").as_bytes());
        if let Ok(s) = std::str::from_utf8(&t) {
            let places: Vec<u8> = (0..s.len() + 2).map(|i| yes(s.is_char_boundary(i))[0]).collect();
            out.add(Op::Boundaries, 0, s.len() as u16 + 2, &t, &places);
        }
    }
}

// ---- white space

/// All code points below 0x3100, 64 to a record, and the last of each plane's edges.
fn white(out: &mut Records) {
    let mut starts: Vec<u32> = (0..0x3100).step_by(64).collect();
    starts.extend([0xD7C0, 0xD800, 0xFE00, 0xFEC0, 0xFFC0, 0x10000, 0x1F3C0, 0x10FFC0]);
    for start in starts {
        let answer: Vec<u8> = (start..start + 64)
            .map(|c| yes(char::from_u32(c).is_some_and(char::is_whitespace))[0])
            .collect();
        out.add(Op::White, 0, 64, &start.to_le_bytes(), &answer);
    }
    for start in (0..256u32).step_by(64) {
        let answer: Vec<u8> = (start..start + 64).map(|c| yes((c as u8).is_ascii_whitespace())[0]).collect();
        out.add(Op::AsciiWhite, 0, 64, &start.to_le_bytes(), &answer);
    }
}

// ---- words and trims

/// Where a part of s starts, and its length; a missing word stands at the end of s.
fn place(s: &[u8], word: Option<&[u8]>) -> Vec<u8> {
    let (start, len) = match word {
        Some(w) => (w.as_ptr() as usize - s.as_ptr() as usize, w.len()),
        None => (s.len(), 0),
    };
    format!("{start} {len}").into_bytes()
}

fn unicode_words(out: &mut Records, s: &str) {
    let t = s.as_bytes();
    let words: Vec<&[u8]> = s.split_whitespace().map(str::as_bytes).collect();
    let started = s.trim_start();
    let after = started.find(char::is_whitespace).map_or("", |i| &started[i..]);
    out.add(Op::TrimStart, UNICODE, 0, t, started.as_bytes());
    out.add(Op::TrimEnd, UNICODE, 0, t, s.trim_end().as_bytes());
    out.add(Op::Trim, UNICODE, 0, t, s.trim().as_bytes());
    out.add(Op::Blank, UNICODE, 0, t, yes(s.trim().is_empty()));
    out.add(Op::AfterWord, UNICODE, 0, t, after.as_bytes());
    all_words(out, UNICODE, t, &words);
}

fn ascii_words(out: &mut Records, t: &[u8]) {
    let words: Vec<&[u8]> = t.split(u8::is_ascii_whitespace).filter(|w| !w.is_empty()).collect();
    let started = t.trim_ascii_start();
    let after = started.iter().position(u8::is_ascii_whitespace).map_or(&b""[..], |i| &started[i..]);
    out.add(Op::TrimStart, ASCII, 0, t, started);
    out.add(Op::TrimEnd, ASCII, 0, t, t.trim_ascii_end());
    out.add(Op::Trim, ASCII, 0, t, t.trim_ascii());
    out.add(Op::Blank, ASCII, 0, t, yes(t.trim_ascii().is_empty()));
    out.add(Op::AfterWord, ASCII, 0, t, after);
    all_words(out, ASCII, t, &words);
}

fn all_words(out: &mut Records, set: u8, t: &[u8], words: &[&[u8]]) {
    out.add(Op::FirstWord, set, 0, t, words.first().copied().unwrap_or(b""));
    out.add(Op::LastWord, set, 0, t, words.last().copied().unwrap_or(b""));
    for n in 0..words.len() + 1 {
        out.add(Op::NthWord, set, n as u16, t, &place(t, words.get(n).copied()));
    }
    let Some(first) = words.first() else { return };
    let end = first.as_ptr() as usize - t.as_ptr() as usize + first.len();
    out.add(Op::NextWord, set, end as u16, t, &place(t, words.get(1).copied()));
}

/// White space of both sets, its neighbours, and other characters of every length.
const ALPHABET: &[u32] = &[
    0x61, 0x62, 0x20, 0x20, 0x09, 0x0A, 0x0B, 0x0C, 0x0D, 0x08, 0x0E, 0x1F, 0x21, 0x84, 0x85, 0x86, 0x9F, 0xA0, 0xA1, 0xE9,
    0x167F, 0x1680, 0x1681, 0x1FFF, 0x2000, 0x2003, 0x200A, 0x200B, 0x2027, 0x2028, 0x2029, 0x202A, 0x202E, 0x202F, 0x2030,
    0x205E, 0x205F, 0x2060, 0x2FFF, 0x3000, 0x3001, 0xFEFF, 0xFFFD, 0x10000, 0x10FFFF, 0x7E, 0x2F, 0x7C, 0x3D, 0x22,
];

fn texts(random: &mut Random) -> Vec<String> {
    let mut all = vec![String::new()];
    let small = [0x61, 0x20, 0xA0, 0x3000, 0xE9];
    for n in 1..=3u32 {
        for k in 0..5usize.pow(n) {
            let digits = (0..n).map(|i| small[k / 5usize.pow(i) % 5]);
            all.push(digits.map(|c| char::from_u32(c).unwrap()).collect());
        }
    }
    for &c in ALPHABET {
        all.push(format!("x{0}y{0}", char::from_u32(c).unwrap()));
    }
    for _ in 0..120 {
        let n = 4 + random.next(20);
        all.push((0..n).map(|_| char::from_u32(ALPHABET[random.next(ALPHABET.len())]).unwrap()).collect());
    }
    all
}

fn words(out: &mut Records, random: &mut Random) {
    for s in texts(random) {
        unicode_words(out, &s);
        ascii_words(out, s.as_bytes());
    }
    for _ in 0..60 {
        let n = random.next(12);
        let t: Vec<u8> = (0..n).map(|_| [9, 32, 32, 97, 0xC2, 0xA0, 0xE2, 0x80, 0xFF][random.next(9)]).collect();
        ascii_words(out, &t);
    }
}

// ---- escapes, digits, parts

fn escapes(out: &mut Records, random: &mut Random) {
    let mut all: Vec<Vec<u8>> = (0..=255u8).map(|x| vec![x]).collect();
    for _ in 0..100 {
        let n = random.next(40);
        all.push((0..n).map(|_| b"<>&\"'ab;"[random.next(8)]).collect());
    }
    for t in all {
        let text = t.iter().map(|&x| match x {
            b'<' => b"&lt;".to_vec(),
            b'>' => b"&gt;".to_vec(),
            b'&' => b"&amp;".to_vec(),
            _ => vec![x],
        });
        let text: Vec<u8> = text.flatten().collect();
        let value: Vec<u8> = text.iter().flat_map(|&x| if x == b'"' { b"&quot;".to_vec() } else { vec![x] }).collect();
        out.add(Op::EscapeText, 0, 0, &t, &text);
        out.add(Op::EscapeValue, 0, 0, &t, &value);
    }
}

fn decimals(out: &mut Records, random: &mut Random) {
    let mut all = vec![0, u32::MAX, u32::MAX - 1];
    for k in 0..10 {
        let p = 10u32.pow(k);
        all.extend([p - 1, p, p + 1, p.wrapping_mul(4)]);
    }
    for _ in 0..60 {
        all.push((random.next(1 << 32) as u32) >> random.next(32));
    }
    for n in all {
        out.add(Op::Decimal, 0, 0, &n.to_le_bytes(), n.to_string().as_bytes());
    }
}

/// Searches and parts; the number is the byte, the start, or the length of the word at the front.
fn parts(out: &mut Records, random: &mut Random) {
    for _ in 0..200 {
        let n = random.next(12);
        let t: Vec<u8> = (0..n).map(|_| b"/=a"[random.next(3)]).collect();
        let byte = t.iter().position(|&x| x == b'=').unwrap_or(n);
        let pair = t.windows(2).position(|w| w == b"//").unwrap_or(n);
        out.add(Op::FindByte, 0, b'=' as u16, &t, byte.to_string().as_bytes());
        out.add(Op::FindPair, 0, b'/' as u16, &t, pair.to_string().as_bytes());
        let cut = random.next(n + 1);
        let (word, rest) = t.split_at(cut);
        out.add(Op::Begins, 0, cut as u16, &t, yes(rest.starts_with(word)));
        out.add(Op::Same, 0, cut as u16, &t, yes(rest == word));
        let part = &t[cut.min(n)..(cut + 3).min(n)];
        out.add(Op::Part, 0, cut as u16, &t, part);
    }
    out.add(Op::Part, 0, 65535, b"abc", b"");
}

fn main() -> std::io::Result<()> {
    let mut out = Records(Vec::new());
    let mut random = Random(SEED);
    utf8(&mut out);
    white(&mut out);
    words(&mut out, &mut random);
    escapes(&mut out, &mut random);
    decimals(&mut out, &mut random);
    parts(&mut out, &mut random);
    std::io::stdout().write_all(&out.0)
}
