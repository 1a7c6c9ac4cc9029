//! The kinds of calls, and calls on a tape.
use super::{Call, NUMBERS};

/// The kinds of the tape's list with the bytes of each number in the body.
pub const KINDS: [(u8, &str, &[usize]); 33] = [
    (0x01, "task create", &[1, 1, 2]),
    (0x02, "task delete", &[1]),
    (0x03, "change priority", &[1, 1]),
    (0x04, "suspend", &[1]),
    (0x05, "resume", &[1]),
    (0x06, "yield", &[]),
    (0x07, "delay", &[4]),
    (0x08, "delay resume", &[1]),
    (0x09, "lock", &[]),
    (0x0A, "unlock", &[]),
    (0x0B, "tick", &[]),
    (0x0D, "default quantum", &[2]),
    (0x10, "semaphore create", &[1, 4]),
    (0x11, "semaphore delete", &[1, 1]),
    (0x12, "semaphore wait", &[1, 1, 4]),
    (0x13, "semaphore post", &[1]),
    (0x14, "semaphore abort", &[1]),
    (0x20, "mutex create", &[1]),
    (0x21, "mutex delete", &[1, 1]),
    (0x22, "mutex wait", &[1, 1, 4]),
    (0x23, "mutex post", &[1]),
    (0x24, "mutex abort", &[1]),
    (0x30, "group create", &[1, 4]),
    (0x31, "group delete", &[1, 1]),
    (0x32, "group wait", &[1, 1, 4, 4, 1, 1]),
    (0x33, "group post", &[1, 4, 1]),
    (0x34, "group abort", &[1]),
    (0x40, "channel create", &[1, 1]),
    (0x41, "channel delete", &[1, 1]),
    (0x42, "channel wait", &[1, 1, 4]),
    (0x43, "channel post", &[1, 4, 1]),
    (0x44, "channel abort", &[1]),
    (0x45, "channel flush", &[1]),
];

/// The widths of a kind's numbers on the tape; none for an unknown kind. "Kind plus 80h: made by an
/// interrupt."
pub fn body(kind: u8) -> Option<&'static [usize]> {
    KINDS.iter().find(|known| known.0 == kind & 0x7F).map(|known| known.2)
}

/// The next call of a tape and what is left of it; none at "an unknown kind or a cut body".
pub fn read_call(tape: &[u8]) -> Option<(Call, &[u8])> {
    let (&kind, mut rest) = tape.split_first()?;
    let mut numbers = [0; NUMBERS];
    for (place, &width) in body(kind)?.iter().enumerate() {
        if rest.len() < width {
            return None;
        }
        // "Numbers above a byte are little-endian."
        numbers[place] = rest[..width].iter().rev().fold(0, |n, &byte| n << 8 | u32::from(byte));
        rest = &rest[width..];
    }
    Some((Call { kind, numbers }, rest))
}

/// A call as the bytes of a tape; none where a number is too large for it or the kind unknown.
pub fn write_call(call: Call) -> Option<Vec<u8>> {
    let mut bytes = vec![call.kind];
    for (&width, n) in body(call.kind)?.iter().zip(call.numbers) {
        let all = n.to_le_bytes();
        if all[width..].iter().any(|&byte| byte != 0) {
            return None;
        }
        bytes.extend_from_slice(&all[..width]);
    }
    Some(bytes)
}
