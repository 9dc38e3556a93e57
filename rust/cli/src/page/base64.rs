//! Bytes as text of 64 letters.

const LETTERS: &[u8; 64] = b"ABCDEFGHIJKLMNOPQRSTUVWXYZabcdefghijklmnopqrstuvwxyz0123456789+/";

pub fn base64(bytes: &[u8]) -> String {
    let mut text = String::with_capacity(bytes.len().div_ceil(3) * 4);
    for part in bytes.chunks(3) {
        let byte = |at: usize| u32::from(part.get(at).copied().unwrap_or(0));
        let bits = byte(0) << 16 | byte(1) << 8 | byte(2);
        for letter in 0..4 {
            let number = (bits >> (18 - 6 * letter) & 63) as usize;
            text.push(if letter <= part.len() { char::from(LETTERS[number]) } else { '=' });
        }
    }
    text
}

#[cfg(test)]
mod tests {
    use super::base64;

    /// Those of RFC 4648.
    #[test]
    fn texts() {
        let texts = ["", "f", "fo", "foo", "foob", "fooba", "foobar"];
        let due = ["", "Zg==", "Zm8=", "Zm9v", "Zm9vYg==", "Zm9vYmE=", "Zm9vYmFy"];
        assert_eq!(texts.map(|text| base64(text.as_bytes())), due);
        assert_eq!(base64(b"\xff\xfe\xfb\xef"), "//777w==");
    }
}
