//! Bytes as text: two hexadecimal digits each.

/// In lower case.
pub fn write(bytes: &[u8]) -> String {
    bytes.iter().map(|byte| format!("{byte:02x}")).collect()
}

/// In upper and lower case, or nothing if the text is none.
pub fn read(text: &[u8]) -> Option<Vec<u8>> {
    let (pairs, odd) = text.as_chunks();
    let byte = |&[high, low]: &[u8; 2]| Some(digit(high)? << 4 | digit(low)?);
    odd.is_empty().then(|| pairs.iter().map(byte).collect())?
}

fn digit(character: u8) -> Option<u8> {
    char::from(character).to_digit(16).map(|digit| digit as u8)
}

#[cfg(test)]
mod tests {
    use super::*;

    #[test]
    fn bytes_come_back() {
        let bytes: Vec<u8> = (0..=255).collect();
        let text = write(&bytes);
        assert_eq!(&text[..6], "000102");
        assert_eq!(&text[506..], "fdfeff");
        assert_eq!(read(text.as_bytes()), Some(bytes.clone()));
        assert_eq!(read(text.to_uppercase().as_bytes()), Some(bytes));
        assert_eq!(read(b"aBAb"), Some(vec![0xab, 0xab]));
        assert_eq!(read(b""), Some(vec![]));
    }

    #[test]
    fn what_is_no_text_is_refused() {
        for text in ["0", "012", "+1", "0x", "g0", "0G", " 0", "0\u{661}"] {
            assert_eq!(read(text.as_bytes()), None, "{text:?}");
        }
        for other in 0..=u8::MAX {
            let is_digit = other.is_ascii_hexdigit();
            assert_eq!(read(&[b'0', other]).is_some(), is_digit);
            assert_eq!(read(&[other, b'0']).is_some(), is_digit);
        }
    }
}
