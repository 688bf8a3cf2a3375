//! Frames in few bytes: positions in 65,535ths of the strand's room, each frame as its difference from the one before, small
//! differences in one byte, in base 64.

use crate::shapes::Point;
use crate::view::Bounds;

const PARTS: f64 = 65535.0;

/// Packed frames, with the corner and the unit that positions are counted from and in.
pub struct Packed {
    pub corner: Point,
    pub part: f64,
    pub text: String,
}

pub fn pack<'a>(frames: impl Iterator<Item = &'a [Point]> + Clone) -> Packed {
    let bounds = Bounds::of(frames.clone().flatten().copied()).unwrap_or(Bounds { low: [0.0; 3], high: [0.0; 3] });
    let size = (0..3).map(|k| bounds.high[k] - bounds.low[k]).fold(0.0, f64::max);
    let part = if size > 0.0 { size / PARTS } else { 1.0 };
    let mut bytes = vec![];
    let mut before: Vec<i64> = vec![];
    for frame in frames {
        let now: Vec<i64> = frame.iter().flat_map(|p| counted(*p, bounds.low, part)).collect();
        before.resize(now.len(), 0);
        now.iter().zip(&before).for_each(|(a, b)| varied(&mut bytes, a - b));
        before = now;
    }
    Packed { corner: bounds.low, part, text: base64(&bytes) }
}

fn counted(p: Point, corner: Point, part: f64) -> [i64; 3] {
    [0, 1, 2].map(|k| ((p[k] - corner[k]) / part).round() as i64)
}

/// Seven bits a byte, lowest first, the eighth where more follow; the sign is the lowest bit.
fn varied(bytes: &mut Vec<u8>, x: i64) {
    let mut rest = ((x << 1) ^ (x >> 63)) as u64;
    while rest >= 128 {
        bytes.push(rest as u8 | 128);
        rest >>= 7;
    }
    bytes.push(rest as u8);
}

fn base64(bytes: &[u8]) -> String {
    const DIGITS: &[u8; 64] = b"ABCDEFGHIJKLMNOPQRSTUVWXYZabcdefghijklmnopqrstuvwxyz0123456789+/";
    let mut text = String::with_capacity(bytes.len() * 4 / 3 + 4);
    for chunk in bytes.chunks(3) {
        let word = chunk.iter().fold(0u32, |w, b| w << 8 | *b as u32) << (8 * (3 - chunk.len()));
        for k in 0..4 {
            let digit = DIGITS[(word >> (18 - 6 * k)) as usize & 63] as char;
            text.push(if k <= chunk.len() { digit } else { '=' });
        }
    }
    text
}

#[cfg(test)]
mod tests {
    use super::*;

    fn unbase64(text: &str) -> Vec<u8> {
        let digit = |c: u8| match c {
            b'A'..=b'Z' => c - b'A',
            b'a'..=b'z' => c - b'a' + 26,
            b'0'..=b'9' => c - b'0' + 52,
            b'+' => 62,
            _ => 63,
        };
        let mut bytes = vec![];
        for four in text.as_bytes().chunks(4) {
            let kept = four.iter().filter(|c| **c != b'=').count();
            let word = four.iter().fold(0u32, |w, c| w << 6 | if *c == b'=' { 0 } else { digit(*c) as u32 });
            bytes.extend(&word.to_be_bytes()[1..kept]);
        }
        bytes
    }

    #[test]
    fn known_texts() {
        assert_eq!(base64(b""), "");
        assert_eq!(base64(b"M"), "TQ==");
        assert_eq!(base64(b"Ma"), "TWE=");
        assert_eq!(base64(b"Man"), "TWFu");
    }

    #[test]
    fn frames_come_back_to_within_half_a_part() {
        let frame = |k: usize| (0..5).map(|i| [i as f64, (k * i) as f64 * 0.3, -(k as f64)]).collect::<Vec<Point>>();
        let frames: Vec<Vec<Point>> = (0..7).map(frame).collect();
        let packed = pack(frames.iter().map(|f| &f[..]));
        let bytes = unbase64(&packed.text);
        let mut next = bytes.iter();
        let mut before = [0i64; 15];
        for frame in &frames {
            for (k, x) in frame.concat().into_iter().enumerate() {
                let (mut word, mut shift) = (0u64, 0);
                loop {
                    let b = *next.next().expect("a byte") as u64;
                    word |= (b & 127) << shift;
                    shift += 7;
                    if b < 128 {
                        break;
                    }
                }
                before[k] += (word >> 1) as i64 ^ -((word & 1) as i64);
                let back = packed.corner[k % 3] + packed.part * before[k] as f64;
                assert!((back - x).abs() <= packed.part * 0.5000001);
            }
        }
        assert!(next.next().is_none());
    }
}
