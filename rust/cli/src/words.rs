//! Whole numbers, as words spell them.

use std::str::{from_utf8, FromStr};

/// The number of a word of digits, with a minus before them or without. The
/// standard parser would take a plus as well, which a path text may not have.
pub fn whole<T: FromStr>(word: &[u8]) -> Option<T> {
    match word {
        [b'+', ..] => None,
        word => from_utf8(word).ok()?.parse().ok(),
    }
}

#[cfg(test)]
mod tests {
    use super::whole;

    #[test]
    fn digits_and_a_minus_alone() {
        assert_eq!(whole(b"-2147483648"), Some(i32::MIN));
        assert_eq!(whole(b"007"), Some(7u32));
        for word in [&b""[..], b"-", b"+1", b"1.5", b"1,", b" 1", b"\xff"] {
            assert_eq!(whole::<i32>(word), None, "{word:?}");
        }
        assert_eq!(whole::<i32>(b"2147483648"), None);
        assert_eq!(whole::<u32>(b"-1"), None);
    }
}
