//! Bytes as text for people.
use crate::Id;

/// The first bytes of an identifier, enough to tell one from another.
pub(crate) fn id(id: &Id) -> String {
    format!("{}..", hex(&id[..4]))
}

/// A content: in quotes where it is printable, else in hexadecimal, its first 16 bytes and how many there are.
pub(crate) fn content(bytes: &[u8]) -> String {
    if bytes.iter().all(|b| b.is_ascii_graphic() || *b == b' ') {
        return format!("\"{}\"", bytes.escape_ascii());
    }
    match bytes.len() {
        n if n > 16 => format!("{}.. ({n} bytes)", hex(&bytes[..16])),
        _ => hex(bytes),
    }
}

pub(crate) fn hex(bytes: &[u8]) -> String {
    bytes.iter().map(|b| format!("{b:02x}")).collect()
}
