//! Times the proved functions, called as a C program calls them, beside plain Rust that does the
//! same, in turns on one input; says the best of each and the ratio. Both answers are compared.

mod plain;

use std::hint::black_box;
use std::time::Instant;

unsafe extern "C" {
    fn bodunkwa_digest(pages: *const u8, pages_len: usize, digest: *mut u8, digest_len: usize) -> u32;
    fn bodunkwa_stamp_checks(
        key: *const u8,
        key_len: usize,
        statement: *const u8,
        statement_len: usize,
        stamp: *const u8,
        stamp_len: usize,
    ) -> u32;
    fn measure_stamps(key: *const u8, key_len: usize, turns: u32, memory: *mut u8, memory_len: usize);
}

fn proved_digest(pages: &[u8]) -> [u8; 32] {
    let mut digest = [0u8; 32];
    let answer = unsafe { bodunkwa_digest(pages.as_ptr(), pages.len(), digest.as_mut_ptr(), 32) };
    assert_eq!(answer, 0);
    digest
}

fn proved_stamp_checks(key: &[u8], statement: &[u8], stamp: &[u8]) -> bool {
    let answer = unsafe {
        bodunkwa_stamp_checks(key.as_ptr(), key.len(), statement.as_ptr(), statement.len(), stamp.as_ptr(), stamp.len())
    };
    assert!(answer <= 1);
    answer == 1
}

/// So many stamps under one prepared key, each of a statement that begins with the stamp before.
fn proved_chain(key: &[u8], turns: u32) -> [u8; 36] {
    let mut statement = [0u8; 36];
    unsafe { measure_stamps(key.as_ptr(), key.len(), turns, statement.as_mut_ptr(), statement.len()) };
    statement
}

fn plain_chain(key: &[u8], turns: u32) -> [u8; 36] {
    let key = plain::PreparedKey::new(key);
    let mut statement = [0u8; 36];
    for _ in 0..turns {
        let stamp = key.stamp(&statement);
        statement[..32].copy_from_slice(&stamp);
    }
    statement
}

/// Seconds that `turns` calls take.
fn time<T>(turns: usize, mut call: impl FnMut() -> T) -> f64 {
    let start = Instant::now();
    for _ in 0..turns {
        black_box(call());
    }
    start.elapsed().as_secs_f64()
}

/// The least times of two calls over several runs, one after the other in each.
fn side_by_side<T>(turns: usize, mut proved: impl FnMut() -> T, mut plain: impl FnMut() -> T) -> (f64, f64) {
    let mut best = (f64::MAX, f64::MAX);
    for _ in 0..9 {
        best.0 = best.0.min(time(turns, &mut proved));
        best.1 = best.1.min(time(turns, &mut plain));
    }
    best
}

/// Bytes without a visible pattern.
fn some_bytes(count: u32) -> Vec<u8> {
    (0..count).map(|i| (i.wrapping_mul(2_654_435_761) >> 24) as u8).collect()
}

fn digests() {
    let pages = some_bytes(65_536);
    for length in (0..1_000).chain([4_096, 65_535, 65_536]) {
        assert_eq!(proved_digest(&pages[..length]), plain::digest(&pages[..length]), "length {length}");
    }
    let turns = 200;
    let (proved, plain) = side_by_side(turns, || proved_digest(black_box(&pages)), || plain::digest(black_box(&pages)));
    let rate = |seconds: f64| (turns * pages.len()) as f64 / seconds / 1e6;
    println!("digest of 65,536 bytes: proved {:.0} MB/s, plain Rust {:.0} MB/s, ratio {:.2}", rate(proved), rate(plain), plain / proved);
}

/// A check prepares the key, makes the statement's stamp and compares.
fn stamps() {
    let bytes = some_bytes(1_000);
    for at in 0..900 {
        let (key, statement) = (&bytes[at..at + 32], &bytes[at + 32..at + 68]);
        let mut stamp = plain::PreparedKey::new(key).stamp(statement);
        let both = |stamp: &[u8]| (proved_stamp_checks(key, statement, stamp), plain::stamp_checks(key, statement, stamp));
        assert_eq!(both(&stamp), (true, true), "right stamp at {at}");
        stamp[at % 32] ^= 1 << (at % 8);
        assert_eq!(both(&stamp), (false, false), "wrong stamp at {at}");
    }
    let (key, statement) = (&bytes[..32], &bytes[32..68]);
    let stamp = plain::PreparedKey::new(key).stamp(statement);
    let turns = 20_000;
    let (proved, plain) = side_by_side(
        turns,
        || proved_stamp_checks(black_box(key), black_box(statement), black_box(&stamp)),
        || plain::stamp_checks(black_box(key), black_box(statement), black_box(&stamp)),
    );
    let rate = |seconds: f64| turns as f64 / seconds / 1e3;
    println!(
        "check of a stamp: proved {:.0} thousand/s, plain Rust {:.0} thousand/s, ratio {:.2}",
        rate(proved),
        rate(plain),
        plain / proved
    );
}

/// Making stamps of 36-byte statements under a key that is prepared once.
fn making() {
    let key = some_bytes(32);
    for turns in 0..200 {
        assert_eq!(proved_chain(&key, turns), plain_chain(&key, turns), "{turns} stamps");
    }
    let turns = 20_000;
    let (proved, plain) = side_by_side(1, || proved_chain(black_box(&key), turns), || plain_chain(black_box(&key), turns));
    let rate = |seconds: f64| turns as f64 / seconds / 1e3;
    println!(
        "making a stamp, key prepared: proved {:.0} thousand/s, plain Rust {:.0} thousand/s, ratio {:.2}",
        rate(proved),
        rate(plain),
        plain / proved
    );
}

fn main() {
    digests();
    stamps();
    making();
}
