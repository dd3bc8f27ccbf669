//! SHA-256.

/// The first 64 primes: their roots' fractions are the constants of the digest.
fn primes() -> [u64; 64] {
    let mut found = [0; 64];
    let mut count = 0;
    let mut n = 2;
    while count < 64 {
        if found[..count].iter().all(|p| n % p != 0) {
            found[count] = n;
            count += 1;
        }
        n += 1;
    }
    found
}

/// The first 32 bits of the fraction of `n`'s root of the given degree, 2 or 3.
fn fraction_of_root(n: u64, degree: u32) -> u32 {
    let scaled = u128::from(n) << (32 * degree);
    let mut root: u128 = 0;
    for bit in (0..40).rev() {
        let longer = root | 1 << bit;
        if longer.pow(degree) <= scaled {
            root = longer;
        }
    }
    root as u32
}

/// The message with its end mark, zeros and length, a whole number of 64-byte chunks.
fn padded(message: &[u8]) -> Vec<u8> {
    let mut bytes = message.to_vec();
    bytes.push(0x80);
    while bytes.len() % 64 != 56 {
        bytes.push(0);
    }
    bytes.extend((message.len() as u64 * 8).to_be_bytes());
    bytes
}

/// The 64 words that a chunk is spread to.
fn schedule(chunk: &[u8]) -> [u32; 64] {
    let mut w = [0u32; 64];
    for (i, b) in chunk.chunks_exact(4).enumerate() {
        w[i] = u32::from_be_bytes([b[0], b[1], b[2], b[3]]);
    }
    for i in 16..64 {
        let (a, b) = (w[i - 15], w[i - 2]);
        let s0 = a.rotate_right(7) ^ a.rotate_right(18) ^ (a >> 3);
        let s1 = b.rotate_right(17) ^ b.rotate_right(19) ^ (b >> 10);
        w[i] = w[i - 16].wrapping_add(s0).wrapping_add(w[i - 7]).wrapping_add(s1);
    }
    w
}

/// The state after one more chunk.
fn compressed(state: [u32; 8], chunk: &[u8], constants: &[u32; 64]) -> [u32; 8] {
    let [mut a, mut b, mut c, mut d, mut e, mut f, mut g, mut h] = state;
    for (w, k) in schedule(chunk).iter().zip(constants) {
        let s1 = e.rotate_right(6) ^ e.rotate_right(11) ^ e.rotate_right(25);
        let choice = (e & f) ^ (!e & g);
        let t1 = h.wrapping_add(s1).wrapping_add(choice).wrapping_add(*k).wrapping_add(*w);
        let s0 = a.rotate_right(2) ^ a.rotate_right(13) ^ a.rotate_right(22);
        let majority = (a & b) ^ (a & c) ^ (b & c);
        (h, g, f, e) = (g, f, e, d.wrapping_add(t1));
        (d, c, b, a) = (c, b, a, t1.wrapping_add(s0).wrapping_add(majority));
    }
    let mixed = [a, b, c, d, e, f, g, h];
    std::array::from_fn(|i| state[i].wrapping_add(mixed[i]))
}

/// The digest in 64 hexadecimal digits.
pub fn hex(message: &[u8]) -> String {
    let primes = primes();
    let constants: [u32; 64] = std::array::from_fn(|i| fraction_of_root(primes[i], 3));
    let first: [u32; 8] = std::array::from_fn(|i| fraction_of_root(primes[i], 2));
    let state = padded(message)
        .chunks_exact(64)
        .fold(first, |state, chunk| compressed(state, chunk, &constants));
    state.iter().map(|word| format!("{word:08x}")).collect()
}
