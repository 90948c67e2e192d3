//! SHA-256 (FIPS 180-4): what `sha256sum` prints of a file.

/// The first 32 bits after the point of the n-th root of each of the first `count` primes (n = 2 or 3).
fn roots(count: usize, n: u32) -> Vec<u32> {
    let prime = |p: &u128| (2..*p).all(|d| p % d != 0);
    // The largest r with r^n <= p 2^(32 n); its low 32 bits.
    let root = |p: u128| {
        let (mut low, mut high) = (0u128, 1 << 37);
        while high - low > 1 {
            let middle = (low + high) / 2;
            if middle.pow(n) <= p << (32 * n) {
                low = middle;
            } else {
                high = middle;
            }
        }
        low as u32
    };
    (2..).filter(prime).take(count).map(root).collect()
}

/// One block of 64 bytes.
fn step(state: &mut [u32], constants: &[u32], block: &[u8]) {
    let mut w: Vec<u32> = block.chunks(4).map(|c| u32::from_be_bytes(c.try_into().unwrap())).collect();
    for t in 16..64 {
        let s0 = w[t - 15].rotate_right(7) ^ w[t - 15].rotate_right(18) ^ (w[t - 15] >> 3);
        let s1 = w[t - 2].rotate_right(17) ^ w[t - 2].rotate_right(19) ^ (w[t - 2] >> 10);
        w.push(w[t - 16].wrapping_add(s0).wrapping_add(w[t - 7]).wrapping_add(s1));
    }
    let mut v: Vec<u32> = state.to_vec();
    for t in 0..64 {
        let s1 = v[4].rotate_right(6) ^ v[4].rotate_right(11) ^ v[4].rotate_right(25);
        let choice = (v[4] & v[5]) ^ (!v[4] & v[6]);
        let one = v[7].wrapping_add(s1).wrapping_add(choice).wrapping_add(constants[t]).wrapping_add(w[t]);
        let s0 = v[0].rotate_right(2) ^ v[0].rotate_right(13) ^ v[0].rotate_right(22);
        let majority = (v[0] & v[1]) ^ (v[0] & v[2]) ^ (v[1] & v[2]);
        v.rotate_right(1);
        v[4] = v[4].wrapping_add(one);
        v[0] = one.wrapping_add(s0).wrapping_add(majority);
    }
    for (sum, word) in state.iter_mut().zip(v) {
        *sum = sum.wrapping_add(word);
    }
}

/// The hash as 64 hexadecimal digits.
pub fn digits(bytes: &[u8]) -> String {
    let (mut state, constants) = (roots(8, 2), roots(64, 3));
    let mut padded = bytes.to_vec();
    padded.push(0x80);
    while padded.len() % 64 != 56 {
        padded.push(0);
    }
    padded.extend((8 * bytes.len() as u64).to_be_bytes());
    for block in padded.chunks(64) {
        step(&mut state, &constants, block);
    }
    state.iter().map(|word| format!("{word:08x}")).collect()
}
