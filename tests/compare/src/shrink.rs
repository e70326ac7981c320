//! Making a script that shows a disagreement short.

use crate::bench::{read_hex_field, write_hex};
use crate::image::{self, Image};
use crate::packet::checksum;

/// A script: its operations.
pub type Script = Vec<Vec<u8>>;

/// Looks for the shortest script that still shows a disagreement: operations
/// are dropped, then each one is made simpler. `first` tells the place of the
/// first disagreement of a script, `tries` how often it may be asked.
pub fn shrink(script: Script, tries: usize, first: impl FnMut(&[Vec<u8>]) -> Option<usize>) -> Script {
    let mut shrinker = Shrinker { script, tries, first };
    loop {
        let dropped = shrinker.drop_operations();
        let joined = shrinker.join_feeds();
        let simpler = shrinker.simplify_operations();
        if !dropped && !joined && !simpler {
            return shrinker.script;
        }
    }
}

struct Shrinker<F> {
    script: Script,
    tries: usize,
    first: F,
}

impl<F: FnMut(&[Vec<u8>]) -> Option<usize>> Shrinker<F> {
    /// Keeps the candidate, up to its disagreement, if it has one.
    fn keep(&mut self, mut candidate: Script) -> bool {
        if self.tries == 0 {
            return false;
        }
        self.tries -= 1;
        let Some(place) = (self.first)(&candidate) else {
            return false;
        };
        candidate.truncate(place + 1);
        self.script = candidate;
        true
    }

    /// Drops runs of operations, long ones first; whether any was dropped.
    fn drop_operations(&mut self) -> bool {
        let mut dropped = false;
        let mut size = self.script.len().div_ceil(2);
        while size > 0 {
            let mut place = 0;
            while place < self.script.len() {
                if self.keep(without(&self.script, place, size)) {
                    dropped = true;
                } else {
                    place += size;
                }
            }
            size /= 2;
        }
        dropped
    }

    /// Makes one feed of two; whether any were joined.
    fn join_feeds(&mut self) -> bool {
        let mut joined = false;
        let mut place = 0;
        while place + 1 < self.script.len() {
            let both = join(&self.script[place], &self.script[place + 1]);
            let kept = both.is_some_and(|both| {
                let mut candidate = self.script.clone();
                candidate.splice(place..place + 2, [both]);
                self.keep(candidate)
            });
            joined |= kept;
            place += usize::from(!kept);
        }
        joined
    }

    /// Puts simpler operations in place of each; whether any was taken.
    fn simplify_operations(&mut self) -> bool {
        let mut changed = false;
        let mut place = 0;
        while place < self.script.len() {
            if self.simplify(place) {
                changed = true;
            } else {
                place += 1;
            }
        }
        changed
    }

    fn simplify(&mut self, place: usize) -> bool {
        simpler(&self.script[place]).into_iter().any(|operation| {
            let mut candidate = self.script.clone();
            candidate[place] = operation;
            self.keep(candidate)
        })
    }
}

/// One feed of the bytes of two.
fn join(first: &[u8], second: &[u8]) -> Option<Vec<u8>> {
    let first = read_hex_field(first.strip_prefix(b"feed ")?)?;
    let second = read_hex_field(second.strip_prefix(b"feed ")?)?;
    Some(with_hex(b"feed", &[first, second].concat()))
}

/// The items without some of them.
fn without<T: Clone>(items: &[T], place: usize, size: usize) -> Vec<T> {
    let end = (place + size).min(items.len());
    [&items[..place], &items[end..]].concat()
}

/// All ways to leave out a run of items, long runs first.
fn shorter<T: Clone>(items: &[T]) -> Vec<Vec<T>> {
    let sizes = std::iter::successors(Some(items.len()), |size| Some(size / 2)).take_while(|&size| size > 0);
    sizes
        .flat_map(|size| (0..items.len()).step_by(size).map(move |place| without(items, place, size)))
        .collect()
}

/// Shorter bytes: runs left out, then one or two commands, as a `g` and its
/// `G`.
fn shorter_bytes(bytes: &[u8]) -> Vec<Vec<u8>> {
    const FEW: usize = 30;
    let mut found = shorter(bytes);
    let begins = |place: &usize| *place == 0 || !bytes[*place].is_ascii_digit();
    let places: Vec<usize> = (0..bytes.len()).filter(begins).chain([bytes.len()]).collect();
    let words: Vec<&[u8]> = places.windows(2).map(|ends| &bytes[ends[0]..ends[1]]).collect();
    if words.len() <= FEW {
        for first in 0..words.len() {
            let one = without(&words, first, 1);
            found.extend((first..one.len()).map(|second| without(&one, second, 1).concat()));
            found.push(one.concat());
        }
    }
    found
}

/// Simpler operations than this one, the simplest first.
fn simpler(operation: &[u8]) -> Vec<Vec<u8>> {
    if let Some(line) = operation.strip_suffix(b"\r") {
        return vec![line.to_vec()];
    }
    if let Some(line) = operation.strip_prefix(b"/") {
        return shorter_bytes(line).into_iter().map(|line| [b"/", &line[..]].concat()).collect();
    }
    let mut fields: Vec<&[u8]> = operation.split(|&byte| byte == b' ').collect();
    let word = fields.remove(0);
    match (word, &fields[..]) {
        (b"image", [hex]) => simpler_image(hex),
        (b"feed" | b"line" | b"text" | b"read" | b"count", [hex]) => simpler_bytes(word, hex),
        (b"listen" | b"older" | b"newer", [hex]) => simpler_bytes(word, hex),
        (b"write", [slot, run, list @ ..]) => simpler_list(slot, run, list),
        (b"oem", [sequence, text @ ..]) => simpler_oem(sequence, &text.join(&b' ')),
        _ => simpler_numbers(word, &fields),
    }
}

fn simpler_bytes(word: &[u8], hex: &[u8]) -> Vec<Vec<u8>> {
    let Some(bytes) = read_hex_field(hex) else {
        return Vec::new();
    };
    let mut found = shorter_bytes(&bytes);
    found.extend(shorter_frames(&bytes));
    found.iter().map(|bytes| with_hex(word, bytes)).collect()
}

/// Bytes in which the body of an OEM frame, or the data of an OEM answer, is
/// shorter and its checksum right again.
fn shorter_frames(bytes: &[u8]) -> Vec<Vec<u8>> {
    const HEAD: usize = 3;
    let mut found = Vec::new();
    for (place, _) in bytes.iter().enumerate().filter(|&(_, &byte)| byte == 0x02) {
        let (before, frame) = bytes.split_at(place);
        let Some(end) = frame.iter().position(|&byte| byte == 0x03).filter(|&end| end >= HEAD) else {
            continue;
        };
        let (frame, rest) = frame.split_at(end + 1);
        if rest.first() != Some(&checksum(frame)) {
            continue;
        }
        for body in shorter_bytes(&frame[HEAD..end]) {
            let frame = [&frame[..HEAD], &body, &[0x03]].concat();
            found.push([before, &frame[..], &[checksum(&frame)], &rest[1..]].concat());
        }
    }
    found
}

/// The same frame with less of its body.
fn simpler_oem(sequence: &[u8], text: &[u8]) -> Vec<Vec<u8>> {
    let written = |text: Vec<u8>| [&b"oem"[..], sequence, &text[..]].join(&b' ');
    shorter_bytes(text).into_iter().map(written).collect()
}

fn with_hex(word: &[u8], bytes: &[u8]) -> Vec<u8> {
    let mut operation = [word, b" "].concat();
    write_hex(bytes, &mut operation);
    operation
}

/// The empty image, no image, and the image with one slot less.
fn simpler_image(hex: &[u8]) -> Vec<Vec<u8>> {
    let Some(bytes) = read_hex_field(hex).filter(|bytes| !bytes.is_empty()) else {
        return Vec::new();
    };
    let mut found = vec![b"image empty".to_vec(), b"image -".to_vec()];
    if let Ok(old) = Image::try_from(bytes) {
        for slot in 0..image::SLOTS {
            let mut new = old;
            image::store(&mut new, slot, b"");
            if new != old {
                found.push(with_hex(b"image", &new));
            }
        }
    }
    found
}

fn simpler_list(slot: &[u8], run: &[u8], list: &[&[u8]]) -> Vec<Vec<u8>> {
    let pairs: Vec<&[&[u8]]> = list.chunks(2).collect();
    let written = |pairs: Vec<&[&[u8]]>| {
        let head = [&b"write"[..], slot, run];
        [&head[..], &pairs.concat()].concat().join(&b' ')
    };
    shorter(&pairs).into_iter().map(written).collect()
}

/// The operation with one of its numbers smaller.
fn simpler_numbers(word: &[u8], fields: &[&[u8]]) -> Vec<Vec<u8>> {
    let mut found = Vec::new();
    for (place, field) in fields.iter().enumerate() {
        let number = std::str::from_utf8(field).ok().and_then(|field| field.parse::<u64>().ok());
        let Some(number) = number else {
            continue;
        };
        let smaller = [0, 1, number / 2, number.saturating_sub(1)];
        for number in smaller.into_iter().filter(|&smaller| smaller < number) {
            let number = number.to_string();
            let mut fields = fields.to_vec();
            fields[place] = number.as_bytes();
            found.push([&[word], &fields[..]].concat().join(&b' '));
        }
    }
    found
}

#[cfg(test)]
mod tests {
    use super::*;

    fn script(lines: &[&str]) -> Script {
        lines.iter().map(|line| line.as_bytes().to_vec()).collect()
    }

    #[test]
    fn down_to_what_matters() {
        let long =
            script(&["room 5", "feed 2f31", "turn 15 3 100", "unit", "feed aabbccdd", "turn 7 1 9", "store"]);
        let matters = |script: &[Vec<u8>]| {
            let seen = script
                .iter()
                .position(|line| line.starts_with(b"feed") && line.windows(2).any(|w| w == b"cc"))?;
            let turn = script[seen..].iter().position(|line| line.starts_with(b"turn"))?;
            Some(seen + turn)
        };
        assert_eq!(shrink(long, 1000, matters), script(&["feed cc", "turn 0 0 0"]));
    }

    #[test]
    fn each_form_gets_simpler() {
        let one = |line: &str, keep: &str| {
            let keep = keep.as_bytes().to_vec();
            let has = |line: &Vec<u8>| line.windows(keep.len()).any(|part| part == keep);
            let short = shrink(script(&[line]), 1000, |script| script.iter().position(has));
            String::from_utf8(short.concat()).unwrap()
        };
        assert_eq!(one("/1A500R", "5"), "/5");
        let pair = |script: &[Vec<u8>]| {
            let line = script.first()?;
            let count = |byte| line.iter().filter(|&&found| found == byte).count();
            (count(b'g') == count(b'G') && line.ends_with(b"R")).then_some(0)
        };
        assert_eq!(shrink(script(&["/1A1gP2gG3G4R"]), 1000, pair), script(&["/R"]));
        assert_eq!(one("write - R A 5 g - P 7 G 3", "P 7"), "write - R P 7");
        assert_eq!(one("unit\r", "unit"), "unit");
        assert_eq!(one("image aabb", "image"), "image empty");
        assert_eq!(one("ramp 100 200 endless", "endless"), "ramp 0 0 endless");
        assert_eq!(one("oem 31 A500 R", "5"), "oem 31 5");
    }

    #[test]
    fn a_frame_keeps_its_checksum() {
        let right = |script: &[Vec<u8>]| {
            let bytes = read_hex_field(script.first()?.strip_prefix(b"feed ")?)?;
            let [frame @ .., sum] = &bytes[..] else { return None };
            let oem = matches!(frame, [0x02, b'1', b'1', .., 0x03]);
            (oem && frame.contains(&b'R') && *sum == checksum(frame)).then_some(0)
        };
        let long = with_hex(b"feed", b"/2Q\r\x0211A12345R\x03\x23");
        let short = with_hex(b"feed", b"\x0211R\x03\x53");
        assert_eq!(shrink(vec![long], 1000, right), vec![short]);
    }

    #[test]
    fn feeds_are_joined() {
        let cut = script(&["feed aa", "feed -", "feed bbcc", "turn 1 1 1"]);
        let whole = |script: &[Vec<u8>]| {
            let bytes: Vec<u8> = script
                .iter()
                .filter_map(|line| read_hex_field(line.strip_prefix(b"feed ")?))
                .flatten()
                .collect();
            (bytes == [0xaa, 0xbb, 0xcc]).then(|| script.len() - 1)
        };
        assert_eq!(shrink(cut, 1000, whole), script(&["feed aabbcc"]));
    }

    #[test]
    fn tries_are_bounded() {
        let mut asked = 0;
        let long = vec![b"unit".to_vec(); 100];
        shrink(long, 7, |script| {
            asked += 1;
            script.len().checked_sub(1)
        });
        assert_eq!(asked, 7);
    }
}
