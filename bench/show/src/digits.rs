//! HEX: two lower-case digits a byte.

#[cfg(not(feature = "table"))]
mod by_crate {
    /// The bytes of these digits. `false` says that they are none such.
    pub fn decode(word: &[u8], bytes: &mut Vec<u8>) -> bool {
        bytes.clear();
        if word.iter().any(u8::is_ascii_uppercase) {
            return false;
        }
        bytes.resize(word.len() / 2, 0);
        hex::decode_to_slice(word, bytes).is_ok()
    }

    /// Appends the digits of these bytes.
    pub fn encode(bytes: &[u8], text: &mut Vec<u8>) {
        let start = text.len();
        text.resize(start + 2 * bytes.len(), 0);
        hex::encode_to_slice(bytes, &mut text[start..]).expect("the room fits");
    }
}

#[cfg(feature = "table")]
mod by_table {
    const NONE: u8 = 255;

    const VALUES: [u8; 256] = {
        let mut values = [NONE; 256];
        let mut value = 0;
        while value < 16 {
            values[b"0123456789abcdef"[value] as usize] = value as u8;
            value += 1;
        }
        values
    };

    const DIGITS: [[u8; 2]; 256] = {
        let mut digits = [[0; 2]; 256];
        let mut byte = 0;
        while byte < 256 {
            let of = b"0123456789abcdef";
            digits[byte] = [of[byte >> 4], of[byte & 15]];
            byte += 1;
        }
        digits
    };

    /// The bytes of these digits. `false` says that they are none such.
    pub fn decode(word: &[u8], bytes: &mut Vec<u8>) -> bool {
        bytes.clear();
        if word.len() % 2 != 0 {
            return false;
        }
        let mut wrong = 0;
        bytes.extend(word.chunks_exact(2).map(|pair| {
            let (high, low) = (VALUES[pair[0] as usize], VALUES[pair[1] as usize]);
            wrong |= high | low;
            high << 4 | low & 15
        }));
        wrong < 16
    }

    /// Appends the digits of these bytes.
    pub fn encode(bytes: &[u8], text: &mut Vec<u8>) {
        text.extend(bytes.iter().flat_map(|byte| DIGITS[*byte as usize]));
    }
}

#[cfg(not(feature = "table"))]
pub use by_crate::{decode, encode};
#[cfg(feature = "table")]
pub use by_table::{decode, encode};
