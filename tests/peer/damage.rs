// Damaged traces: unknown tags, wrong lengths, fields cut short, bytes that are no trace.
use crate::random::Random;
use crate::trace::{field, split, two};

/// Lengths of a value, right for some tag or one off.
const LENGTHS: [usize; 14] = [0, 1, 2, 3, 4, 5, 6, 66, 67, 68, 69, 255, 256, 300];

/// Bytes that mostly are no trace.
pub fn garbage(random: &mut Random) -> Vec<u8> {
    let length = random.below(24);
    let mut bytes = random.bytes(length);
    for byte in bytes.iter_mut().take(2) {
        *byte = random.pick(*byte, &[*byte % 8]);
    }
    bytes
}

/// Spoils one field of a trace, or its end.
pub fn spoil(random: &mut Random, trace: &mut Vec<u8>) {
    let starts = starts(trace);
    let start = starts.get(random.below(starts.len())).copied().unwrap_or(0);
    let Some((tag, value, after)) = split(&trace[start..]) else { return };
    let (whole, after) = (3 + value.len(), after.to_vec());
    match random.below(6) {
        0 => trace[start] = random.pick(0, &[8, 9, 16, 128, 255]),
        1 => trace.truncate(start + 1 + random.below(2)),
        2 => trace.truncate(start + random.below(whole)),
        3 => {
            let length = random.pick(7, &LENGTHS);
            let value = random.bytes(length);
            trace.truncate(start);
            trace.extend(field(tag, &value));
            trace.extend(after);
        }
        4 => {
            let length = random.pick(65535, &LENGTHS);
            trace[start + 1..start + 3].copy_from_slice(&two(length));
        }
        _ => trace.extend(garbage(random)),
    }
}

/// Where each whole field starts.
fn starts(trace: &[u8]) -> Vec<usize> {
    let mut starts = Vec::new();
    let mut rest = trace;
    while let Some((_, _, after)) = split(rest) {
        starts.push(trace.len() - rest.len());
        rest = after;
    }
    starts
}
