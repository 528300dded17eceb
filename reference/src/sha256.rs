//! SHA-256 as FIPS 180-4 writes it, plain and scalar.

pub type Id = [u8; 32];

const BLOCK: usize = 64;
const LENGTH_FIELD: usize = 8;

/// 4.2.2: the first 32 bits of the fractional parts of the cube roots of the
/// first 64 primes, worked out from that sentence.
const K: [u32; 64] = {
    let primes = first_primes();
    let mut words = [0; 64];
    let mut t = 0;
    while t < 64 {
        words[t] = cube_root_fraction(primes[t]);
        t += 1;
    }
    words
};

/// 5.3.3: the same of the square roots of the first eight primes.
const START: [u32; 8] = {
    let primes = first_primes();
    let mut words = [0; 8];
    let mut t = 0;
    while t < 8 {
        words[t] = square_root_fraction(primes[t]);
        t += 1;
    }
    words
};

const fn first_primes() -> [u128; 64] {
    let mut primes = [0; 64];
    let mut found = 0;
    let mut candidate = 2;
    while found < 64 {
        let mut i = 0;
        while i < found && candidate % primes[i] != 0 {
            i += 1;
        }
        if i == found {
            primes[found] = candidate;
            found += 1;
        }
        candidate += 1;
    }
    primes
}

/// The largest x with x³ ≤ prime · 2⁹⁶ is the cube root with 32 fractional bits.
const fn cube_root_fraction(prime: u128) -> u32 {
    let mut root: u128 = 0;
    let mut bit: u128 = 1 << 35;
    while bit > 0 {
        let next = root | bit;
        if next * next * next <= prime << 96 {
            root = next;
        }
        bit >>= 1;
    }
    root as u32
}

/// The largest x with x² ≤ prime · 2⁶⁴.
const fn square_root_fraction(prime: u128) -> u32 {
    let mut root: u128 = 0;
    let mut bit: u128 = 1 << 37;
    while bit > 0 {
        let next = root | bit;
        if next * next <= prime << 64 {
            root = next;
        }
        bit >>= 1;
    }
    root as u32
}

// 4.1.2, equations 4.2 to 4.7.

fn ch(x: u32, y: u32, z: u32) -> u32 {
    (x & y) ^ (!x & z)
}

fn maj(x: u32, y: u32, z: u32) -> u32 {
    (x & y) ^ (x & z) ^ (y & z)
}

fn big_sigma0(x: u32) -> u32 {
    x.rotate_right(2) ^ x.rotate_right(13) ^ x.rotate_right(22)
}

fn big_sigma1(x: u32) -> u32 {
    x.rotate_right(6) ^ x.rotate_right(11) ^ x.rotate_right(25)
}

fn small_sigma0(x: u32) -> u32 {
    x.rotate_right(7) ^ x.rotate_right(18) ^ (x >> 3)
}

fn small_sigma1(x: u32) -> u32 {
    x.rotate_right(17) ^ x.rotate_right(19) ^ (x >> 10)
}

/// 6.2.2, steps 1 to 4, for one block.
fn compress(hash: &mut [u32; 8], block: &[u8]) {
    let mut w = [0u32; 64];
    for (word, bytes) in w.iter_mut().zip(block.chunks_exact(4)) {
        *word = u32::from_be_bytes([bytes[0], bytes[1], bytes[2], bytes[3]]);
    }
    for t in 16..64 {
        w[t] = small_sigma1(w[t - 2])
            .wrapping_add(w[t - 7])
            .wrapping_add(small_sigma0(w[t - 15]))
            .wrapping_add(w[t - 16]);
    }
    let [mut a, mut b, mut c, mut d, mut e, mut f, mut g, mut h] = *hash;
    for t in 0..64 {
        let t1 = h
            .wrapping_add(big_sigma1(e))
            .wrapping_add(ch(e, f, g))
            .wrapping_add(K[t])
            .wrapping_add(w[t]);
        let t2 = big_sigma0(a).wrapping_add(maj(a, b, c));
        h = g;
        g = f;
        f = e;
        e = d.wrapping_add(t1);
        d = c;
        c = b;
        b = a;
        a = t1.wrapping_add(t2);
    }
    for (word, sum) in hash.iter_mut().zip([a, b, c, d, e, f, g, h]) {
        *word = word.wrapping_add(sum);
    }
}

/// The digest of a message. 5.1.1: a one bit, zeros, and the length in bits
/// complete the last block, or the last two.
pub fn sha256(message: &[u8]) -> Id {
    let mut hash = START;
    let blocks = message.chunks_exact(BLOCK);
    let rest = blocks.remainder();
    for block in blocks {
        compress(&mut hash, block);
    }
    let mut last = [0u8; 2 * BLOCK];
    last[..rest.len()].copy_from_slice(rest);
    last[rest.len()] = 0x80;
    let end = if rest.len() + 1 + LENGTH_FIELD <= BLOCK { BLOCK } else { 2 * BLOCK };
    let bits = (message.len() as u64).wrapping_mul(8);
    last[end - LENGTH_FIELD..end].copy_from_slice(&bits.to_be_bytes());
    for block in last[..end].chunks_exact(BLOCK) {
        compress(&mut hash, block);
    }
    let mut digest = [0; 32];
    for (bytes, word) in digest.chunks_exact_mut(4).zip(hash) {
        bytes.copy_from_slice(&word.to_be_bytes());
    }
    digest
}
