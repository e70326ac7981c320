//! The image of the stored programs.
//!
//! "16 entries (start, length; 16 bits, low byte first), then 16 bodies of 256
//! bytes."

use crate::line::is_stored_text;
use crate::old::was_stored_text;
use crate::BODY;

/// How many slots there are.
pub const SLOTS: usize = 16;
/// Bytes of the contents.
pub const CONTENTS: usize = 4 * SLOTS;
/// Bytes of an image.
pub const IMAGE: usize = CONTENTS + SLOTS * BODY;

/// An image of the right length.
pub type Image = [u8; IMAGE];

/// "Start of slot k is 64 + 256k, also when empty."
fn start(slot: usize) -> usize {
    CONTENTS + BODY * slot
}

/// The text of a slot, if "its entry or body, unused bytes included" keeps
/// the image's rules.
pub fn text(image: &Image, slot: usize) -> Option<&[u8]> {
    held(image, slot).filter(|text| is_stored_text(text))
}

/// What a slot holds, whatever text that is, if its entry and its unused bytes
/// keep the rules.
pub fn held(image: &Image, slot: usize) -> Option<&[u8]> {
    let [s0, s1, l0, l1] = image[4 * slot..][..4] else {
        return None;
    };
    if usize::from(u16::from_le_bytes([s0, s1])) != start(slot) {
        return None;
    }
    let length = usize::from(u16::from_le_bytes([l0, l1]));
    let body = &image[start(slot)..][..BODY];
    let (text, unused) = body.split_at_checked(length)?;
    let unused = unused.iter().fold(0, |bits, byte| bits | byte);
    (unused == 0).then_some(text)
}

/// "The image is good when every start is that, every length at most 256,
/// every body passes the check for stored text, and unused bytes are 0."
pub fn is_good(image: &Image) -> bool {
    (0..SLOTS).all(|slot| text(image, slot).is_some())
}

/// Whether the image is good but for operands of more than ten digits, which
/// E9 bears "at start".
pub fn was_good(image: &Image) -> bool {
    (0..SLOTS).all(|slot| held(image, slot).is_some_and(was_stored_text))
}

/// "`s` rewrites one entry and one body".
pub fn store(image: &mut Image, slot: usize, text: &[u8]) {
    let [s0, s1] = (start(slot) as u16).to_le_bytes();
    let [l0, l1] = (text.len() as u16).to_le_bytes();
    image[4 * slot..][..4].copy_from_slice(&[s0, s1, l0, l1]);
    let (used, unused) = image[start(slot)..][..BODY].split_at_mut(text.len());
    used.copy_from_slice(text);
    unused.fill(0);
}

/// "`?9` writes the good image with all slots empty."
pub fn clear(image: &mut Image) {
    (0..SLOTS).for_each(|slot| store(image, slot, b""));
}

/// The good image with all slots empty.
pub fn empty() -> Image {
    let mut image = [0; IMAGE];
    clear(&mut image);
    image
}

#[cfg(test)]
mod tests {
    use super::*;

    #[test]
    fn form() {
        let mut image = empty();
        assert_eq!(IMAGE, 4160);
        assert_eq!(image[..8], [64, 0, 0, 0, 64, 1, 0, 0]);
        assert_eq!(image[60..64], [64, 15, 0, 0]);
        assert!(is_good(&image));
        store(&mut image, 1, b"A5");
        assert_eq!(image[4..8], [64, 1, 2, 0]);
        assert_eq!(image[320..323], *b"A5\0");
        assert_eq!(text(&image, 1), Some(&b"A5"[..]));
        store(&mut image, 15, &[&b"A"[..], &[b'0'; 255]].concat());
        assert_eq!(image[60..64], [64, 15, 0, 1]);
        assert!(was_good(&image) && !is_good(&image));
        assert_eq!(text(&image, 15), None);
        store(&mut image, 15, b"");
        store(&mut image, 1, b"");
        assert_eq!(image, empty());
    }

    #[test]
    fn any_byte_of_an_empty_image_matters() {
        for place in 0..IMAGE {
            let mut image = empty();
            image[place] ^= 1;
            assert!(!is_good(&image) && !was_good(&image), "{place}");
            let slot = if place < CONTENTS { place / 4 } else { (place - CONTENTS) / BODY };
            for other in 0..SLOTS {
                assert_eq!(text(&image, other).is_some(), other != slot);
            }
        }
    }

    #[test]
    fn bad_slots() {
        for bad in ["A", "R", "g", "HHHHHHHHHHHHHHH"] {
            let mut image = empty();
            store(&mut image, 3, bad.as_bytes());
            assert_eq!(text(&image, 3), None, "{bad}");
        }
        let mut image = empty();
        image[2..4].copy_from_slice(&257u16.to_le_bytes());
        assert_eq!(text(&image, 0), None);
        image[2..4].copy_from_slice(&65_535u16.to_le_bytes());
        assert_eq!(text(&image, 0), None);
    }
}
