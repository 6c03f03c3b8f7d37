//! Byte strings as the file writes them; its top says how.

/// So many equal bytes in a row, or more, are written by their count.
const LEAST_COUNTED: usize = 8;

/// A text of more characters than this is not written out where there is
/// another way to say it.
const LONGEST: usize = 200;

/// Hex, and rows of equal bytes by their count; `-` for no byte. With more than
/// `longest` characters it is left at that.
fn front_of(bytes: &[u8], longest: usize) -> String {
    if bytes.is_empty() {
        return "-".to_string();
    }
    let mut text = String::new();
    let mut counted_before = false;
    let mut rest = bytes;
    while let Some(first) = rest.first().filter(|_| text.len() <= longest) {
        let count = rest.iter().take_while(|byte| *byte == first).count();
        let counted = count >= LEAST_COUNTED;
        if !text.is_empty() && (counted || counted_before) {
            text.push(' ');
        }
        if counted {
            text += &format!("{:02x}*{}", first, count);
        } else {
            text += &format!("{:02x}", first).repeat(count);
        }
        counted_before = counted;
        rest = &rest[count..];
    }
    text
}

/// The whole text.
pub fn plain(bytes: &[u8]) -> String {
    front_of(bytes, usize::MAX)
}

/// The whole text if it is not too long.
fn short(bytes: &[u8]) -> Option<String> {
    Some(front_of(bytes, LONGEST)).filter(|text| text.len() <= LONGEST)
}

/// FNV-1a with 64 bits.
fn sum_of(bytes: &[u8]) -> u64 {
    let start = 0xcbf2_9ce4_8422_2325;
    bytes.iter().fold(start, |sum: u64, byte| {
        (sum ^ u64::from(*byte)).wrapping_mul(0x0100_0000_01b3)
    })
}

/// What a room holds after a call: if that is long, by its length and sum.
pub fn plain_or_sum(bytes: &[u8]) -> String {
    short(bytes).unwrap_or_else(|| format!("sum {} {:016x}", bytes.len(), sum_of(bytes)))
}

/// A body or a run: if it is long, by the record before, which gave it.
pub fn plain_or_last(bytes: &[u8], last: &[u8]) -> String {
    short(bytes).unwrap_or_else(|| {
        assert!(bytes == last, "a long text that no record gave");
        "last".to_string()
    })
}
