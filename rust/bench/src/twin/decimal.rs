//! Numbers in decimal, written eight bytes at a time.

const TAB: u8 = 9;

/// The place after the tab that follows the digits.
#[inline(always)]
pub fn write_decimal(number: u16, written: &mut [u8], place: usize) -> usize {
    let (word, length) = decimal_and_tab(number);
    let bytes = word.to_le_bytes();
    // What is written too far is written over by what comes next.
    match written.get_mut(place..place + 8) {
        Some(eight) => eight.copy_from_slice(&bytes),
        None => written[place..place + length].copy_from_slice(&bytes[..length]),
    }
    place + length
}

/// How many digits a number has.
#[inline(always)]
pub fn digits(number: u16) -> usize {
    1 + usize::from(number > 9)
        + usize::from(number > 99)
        + usize::from(number > 999)
        + usize::from(number > 9_999)
}

/// The digits and the tab after them, the first lowest, and how many bytes that
/// is.
#[inline(always)]
fn decimal_and_tab(number: u16) -> (u64, usize) {
    let number = u64::from(number);
    let (first, last_four) = (number / 10_000, number % 10_000);
    // Two by two at once; 103 / 1,024 is a tenth for those below 100.
    let pairs = (last_four / 100) | ((last_four % 100) << 16);
    let tens = ((pairs * 103) >> 10) & 0x000f_000f;
    let four = tens | ((pairs - 10 * tens) << 8);
    let five = first | (four << 8);
    // The last digit stays even if it is 0.
    let zeros = ((five | (1 << 32)).trailing_zeros() / 8) as usize;
    let word = five | 0x30_3030_3030 | (u64::from(TAB) << 40);
    (word >> (8 * zeros), 6 - zeros)
}

#[cfg(test)]
mod tests {
    use super::{decimal_and_tab, digits};

    #[test]
    fn every_number() {
        for number in 0..=u16::MAX {
            let (word, length) = decimal_and_tab(number);
            let bytes = word.to_le_bytes();
            assert_eq!(bytes[..length], *format!("{number}\t").as_bytes());
            assert_eq!(digits(number), length - 1);
        }
    }
}
