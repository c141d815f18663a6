//! Logs to time the judge on that no run need have written; none of them has an unordered access, so that each is judged to its end.

use crate::random::Random;

const COUNT: usize = 4096;

fn record(kind: u32, thread: usize, object: usize, field: usize) -> [u8; 3] {
    let bits = kind << 20 | (thread as u32) << 17 | (object as u32) << 12 | (field as u32) << 7;
    bits.to_be_bytes()[1..].try_into().expect("three bytes")
}

/// So many plain reads, each of another field of another object.
pub fn scattered(count: usize) -> Vec<u8> {
    (0..count).flat_map(|i| record(2, i % 8, i % 32, 1 + i / 32 % 31)).collect()
}

/// Reads of eight threads, of any fields.
fn reads() -> Vec<u8> {
    let random = &mut Random::new(1);
    (0..COUNT).flat_map(|_| record(2, random.below(8), random.below(32), 1 + random.below(31))).collect()
}

/// A thread takes an object's monitor, reads and writes some of its fields, and gives the monitor back.
fn guarded() -> Vec<u8> {
    let random = &mut Random::new(2);
    let mut log = vec![];
    while log.len() < 3 * (COUNT - 16) {
        let (thread, object) = (random.below(8), random.below(32));
        log.extend(record(6, thread, object, 0));
        for _ in 0..random.below(8) {
            log.extend(record(2 + random.below(2) as u32, thread, object, 1 + random.below(31)));
        }
        log.extend(record(7, thread, object, 0));
    }
    log
}

/// Reads and writes of volatile fields, by eight threads.
fn volatile() -> Vec<u8> {
    let random = &mut Random::new(3);
    (0..COUNT).flat_map(|_| record(4 + random.below(2) as u32, random.below(8), random.below(32), 1 + random.below(31))).collect()
}

/// With the version that the judge is told.
pub fn timed() -> Vec<(&'static str, u64, Vec<u8>)> {
    vec![("any reads", 1, reads()), ("any guarded accesses", 1, guarded()), ("any volatile accesses", 1, volatile())]
}
