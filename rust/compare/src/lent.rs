//! Texts and buffers lent out of larger pieces of memory. Every byte of a
//! buffer's piece is known before the call and looked at after it.

use crate::random::Random;

/// Longer than a line, so that one written beside the buffer is seen.
const GUARD: usize = 160;

/// A program that reads past its text would meet these.
const BEFORE: &[u8] = b"4\t0\tq\n1";
const AFTER: &[u8] = b"\n3\t0\tq\n0\t0\tq\n";

/// A text to be read.
pub struct Held {
    held: Vec<u8>,
    start: usize,
}

impl Held {
    pub fn new(text: &[u8], random: &mut Random) -> Held {
        let start = random.between(0, BEFORE.len());
        Held {
            held: [&BEFORE[..start], text, AFTER].concat(),
            start,
        }
    }

    pub fn text(&self) -> &[u8] {
        &self.held[self.start..self.held.len() - AFTER.len()]
    }
}

/// A buffer to be written.
#[derive(Clone)]
pub struct Lent {
    held: Vec<u8>,
    /// Where the buffer starts in what is held.
    start: usize,
    room: usize,
    key: u8,
}

impl Lent {
    pub fn new(room: usize, random: &mut Random) -> Lent {
        // The buffer starts at even and odd addresses in turn.
        let start = GUARD + random.below(16);
        let key = random.byte();
        Lent {
            held: filled(start + room + GUARD, key),
            start,
            room,
            key,
        }
    }

    pub fn buffer(&mut self) -> &mut [u8] {
        &mut self.held[self.start..][..self.room]
    }

    /// The first byte that is not as wanted, if any: these bytes from the start
    /// of the buffer, and everywhere else what was there before.
    pub fn first_wrong(&self, written: &[u8]) -> Option<String> {
        let mut wanted = filled(self.held.len(), self.key);
        wanted[self.start..][..written.len()].copy_from_slice(written);
        self.first_not(&wanted)
    }

    /// The first byte that is not as in the other, which was once a clone of
    /// this one.
    pub fn first_unlike(&self, other: &Lent) -> Option<String> {
        self.first_not(&other.held)
    }

    fn first_not(&self, wanted: &[u8]) -> Option<String> {
        if self.held == wanted {
            return None;
        }
        let place = (0..wanted.len()).find(|&place| self.held[place] != wanted[place])?;
        Some(format!(
            "{}: {:#04x} wanted, {:#04x} found",
            self.named(place),
            wanted[place],
            self.held[place]
        ))
    }

    fn named(&self, place: usize) -> String {
        let end = self.start + self.room;
        if place < self.start {
            format!("{} before the buffer", self.start - place)
        } else if place < end {
            format!("byte {} of the buffer", place - self.start)
        } else {
            format!("{} after the buffer's last", place - end + 1)
        }
    }
}

/// Different bytes side by side, and others for each key, so that a byte that
/// was written, moved or left is not taken for the one that belongs there.
fn filled(length: usize, key: u8) -> Vec<u8> {
    let mut bytes = vec![0; length];
    for (block, bytes) in bytes.chunks_mut(256).enumerate() {
        let mut byte = key.wrapping_add((block as u8).wrapping_mul(59));
        for place in bytes {
            *place = byte;
            byte = byte.wrapping_add(167);
        }
    }
    bytes
}

#[cfg(test)]
mod tests {
    use super::*;

    fn lent(room: usize) -> Lent {
        Lent::new(room, &mut Random::new(1))
    }

    /// What is wrong after this change to a byte, counted from the buffer's
    /// start, of a buffer of 10 bytes of which 4 were to be written.
    fn wrong_after(place: isize, byte: impl Fn(u8) -> u8) -> Option<String> {
        let mut lent = lent(10);
        lent.buffer()[..4].copy_from_slice(b"abcd");
        let place = lent.start.wrapping_add_signed(place);
        lent.held[place] = byte(lent.held[place]);
        lent.first_wrong(b"abcd")
    }

    #[test]
    fn all_as_wanted() {
        assert_eq!(lent(0).first_wrong(b""), None);
        assert_eq!(lent(70_000).first_wrong(b""), None);
        assert_eq!(wrong_after(0, |byte| byte), None);
    }

    #[test]
    fn every_byte_counts() {
        let end = 10 + GUARD as isize;
        for place in -(GUARD as isize)..end {
            assert!(wrong_after(place, |byte| byte ^ 1).is_some(), "{place}");
        }
    }

    #[test]
    fn places_are_named() {
        let named = |place| wrong_after(place, |_| b'~').unwrap_or_default();
        assert!(named(-1).starts_with("1 before the buffer: "));
        assert_eq!(named(3), "byte 3 of the buffer: 0x64 wanted, 0x7e found");
        assert!(named(4).starts_with("byte 4 of the buffer: "));
        assert!(named(10).starts_with("1 after the buffer's last: "));
    }

    #[test]
    fn a_form_not_written() {
        assert!(lent(10).first_wrong(b"abcd").is_some());
        assert!(lent(4).first_wrong(b"abcd").is_some());
    }

    #[test]
    fn neighbours_differ() {
        for key in 0..=255 {
            let bytes = filled(1_000, key);
            assert!(bytes.windows(2).all(|pair| pair[0] != pair[1]));
        }
    }
}
