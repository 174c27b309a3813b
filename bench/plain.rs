//! SHA-256 and HMAC in plain Rust, of the same shape as the proved ones: the schedule is worked out
//! sixteen words ahead of the rounds, the state is eight words, whole blocks are hashed where they
//! lie, stamps go on from the states after the key's blocks, and no hash instructions are used. It is
//! the measure for the proved ones, and nothing else uses it.

const K: [u32; 64] = [
    0x428a2f98, 0x71374491, 0xb5c0fbcf, 0xe9b5dba5, 0x3956c25b, 0x59f111f1, 0x923f82a4, 0xab1c5ed5,
    0xd807aa98, 0x12835b01, 0x243185be, 0x550c7dc3, 0x72be5d74, 0x80deb1fe, 0x9bdc06a7, 0xc19bf174,
    0xe49b69c1, 0xefbe4786, 0x0fc19dc6, 0x240ca1cc, 0x2de92c6f, 0x4a7484aa, 0x5cb0a9dc, 0x76f988da,
    0x983e5152, 0xa831c66d, 0xb00327c8, 0xbf597fc7, 0xc6e00bf3, 0xd5a79147, 0x06ca6351, 0x14292967,
    0x27b70a85, 0x2e1b2138, 0x4d2c6dfc, 0x53380d13, 0x650a7354, 0x766a0abb, 0x81c2c92e, 0x92722c85,
    0xa2bfe8a1, 0xa81a664b, 0xc24b8b70, 0xc76c51a3, 0xd192e819, 0xd6990624, 0xf40e3585, 0x106aa070,
    0x19a4c116, 0x1e376c08, 0x2748774c, 0x34b0bcb5, 0x391c0cb3, 0x4ed8aa4a, 0x5b9cca4f, 0x682e6ff3,
    0x748f82ee, 0x78a5636f, 0x84c87814, 0x8cc70208, 0x90befffa, 0xa4506ceb, 0xbef9a3f7, 0xc67178f2,
];

#[derive(Clone, Copy)]
pub struct State {
    a: u32,
    b: u32,
    c: u32,
    d: u32,
    e: u32,
    f: u32,
    g: u32,
    h: u32,
}

pub const INITIAL: State = State {
    a: 0x6a09e667,
    b: 0xbb67ae85,
    c: 0x3c6ef372,
    d: 0xa54ff53a,
    e: 0x510e527f,
    f: 0x9b05688c,
    g: 0x1f83d9ab,
    h: 0x5be0cd19,
};

fn ahead(w: &mut [u32; 64], t: usize) {
    let early = w[t + 1];
    let late = w[t + 14];
    let s0 = early.rotate_right(7) ^ early.rotate_right(18) ^ (early >> 3);
    let s1 = late.rotate_right(17) ^ late.rotate_right(19) ^ (late >> 10);
    w[t + 16] = s1.wrapping_add(w[t + 9]).wrapping_add(s0).wrapping_add(w[t]);
}

fn round(s: State, k: u32, w: u32) -> State {
    let upper1 = s.e.rotate_right(6) ^ s.e.rotate_right(11) ^ s.e.rotate_right(25);
    let choose = (s.e & s.f) ^ (!s.e & s.g);
    let t1 = s.h.wrapping_add(upper1).wrapping_add(choose).wrapping_add(k).wrapping_add(w);
    let upper0 = s.a.rotate_right(2) ^ s.a.rotate_right(13) ^ s.a.rotate_right(22);
    let majority = (s.a & s.b) | (s.c & (s.a | s.b));
    State {
        a: t1.wrapping_add(upper0.wrapping_add(majority)),
        b: s.a,
        c: s.b,
        d: s.c,
        e: s.d.wrapping_add(t1),
        f: s.e,
        g: s.f,
        h: s.g,
    }
}

pub fn compress(start: State, block: &[u8]) -> State {
    let mut w = [0u32; 64];
    for (word, bytes) in w.iter_mut().zip(block.chunks_exact(4)) {
        *word = u32::from_be_bytes([bytes[0], bytes[1], bytes[2], bytes[3]]);
    }
    let mut s = start;
    for t in 0..48 {
        ahead(&mut w, t);
        s = round(s, K[t], w[t]);
    }
    for t in 48..64 {
        s = round(s, K[t], w[t]);
    }
    State {
        a: start.a.wrapping_add(s.a),
        b: start.b.wrapping_add(s.b),
        c: start.c.wrapping_add(s.c),
        d: start.d.wrapping_add(s.d),
        e: start.e.wrapping_add(s.e),
        f: start.f.wrapping_add(s.f),
        g: start.g.wrapping_add(s.g),
        h: start.h.wrapping_add(s.h),
    }
}

/// The digest of a message of which `before` blocks are hashed already, into `start`.
pub fn finish(start: State, before: u64, rest: &[u8]) -> [u8; 32] {
    let mut s = start;
    let blocks = rest.chunks_exact(64);
    let end = blocks.remainder();
    for block in blocks {
        s = compress(s, block);
    }
    let mut tail = [0u8; 128];
    let length_at = if end.len() < 56 { 56 } else { 120 };
    tail[..end.len()].copy_from_slice(end);
    tail[end.len()] = 0x80;
    let bits = before.wrapping_mul(512).wrapping_add((rest.len() as u64).wrapping_mul(8));
    tail[length_at..length_at + 8].copy_from_slice(&bits.to_be_bytes());
    for block in tail[..length_at + 8].chunks_exact(64) {
        s = compress(s, block);
    }
    let mut bytes = [0u8; 32];
    for (to, word) in bytes.chunks_exact_mut(4).zip([s.a, s.b, s.c, s.d, s.e, s.f, s.g, s.h]) {
        to.copy_from_slice(&word.to_be_bytes());
    }
    bytes
}

pub fn digest(pages: &[u8]) -> [u8; 32] {
    finish(INITIAL, 0, pages)
}

/// A key's hash states after its block under each pad.
pub struct PreparedKey {
    inner: State,
    outer: State,
}

impl PreparedKey {
    pub fn new(key: &[u8]) -> PreparedKey {
        let mut block = [0u8; 64];
        if key.len() > 64 {
            block[..32].copy_from_slice(&digest(key));
        } else {
            block[..key.len()].copy_from_slice(key);
        }
        PreparedKey {
            inner: compress(INITIAL, &block.map(|byte| byte ^ 0x36)),
            outer: compress(INITIAL, &block.map(|byte| byte ^ 0x5c)),
        }
    }

    pub fn stamp(&self, message: &[u8]) -> [u8; 32] {
        finish(self.outer, 1, &finish(self.inner, 1, message))
    }

    /// Compares all the bytes, wherever they differ.
    pub fn checks(&self, message: &[u8], stamp: &[u8]) -> bool {
        let right = self.stamp(message);
        stamp.len() == right.len() && stamp.iter().zip(&right).fold(0, |diff, (a, b)| diff | (a ^ b)) == 0
    }
}

/// Whether the stamp is that of a statement of 36 bytes under a key of 32.
pub fn stamp_checks(key: &[u8], statement: &[u8], stamp: &[u8]) -> bool {
    key.len() == 32 && statement.len() == 36 && PreparedKey::new(key).checks(statement, stamp)
}
