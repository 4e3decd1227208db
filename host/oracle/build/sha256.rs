//! SHA-256, so that the pinned checksums are those of the command `sha256sum`.

/// The fractional parts of the `power`-th roots of the first `count` primes, 32 bits each.
fn root_fractions(count: usize, power: u32) -> Vec<u32> {
    let primes = (2u128..).filter(|n| (2..*n).take_while(|d| d * d <= *n).all(|d| n % d != 0));
    // floor(root(p) * 2^32) by bisection; its low 32 bits are the fraction
    let root = |p: u128| {
        let (mut low, mut high) = (0u128, 1 << 37);
        while high - low > 1 {
            let middle = (low + high) / 2;
            if middle.pow(power) <= p << (32 * power) {
                low = middle;
            } else {
                high = middle;
            }
        }
        low as u32
    };
    primes.take(count).map(root).collect()
}

fn rounds(state: &[u32], block: &[u8], k: &[u32]) -> Vec<u32> {
    let mut w: Vec<u32> = block.chunks(4).map(|b| u32::from_be_bytes(b.try_into().unwrap())).collect();
    for i in 16..64 {
        let (a, b) = (w[i - 15], w[i - 2]);
        let s0 = a.rotate_right(7) ^ a.rotate_right(18) ^ (a >> 3);
        let s1 = b.rotate_right(17) ^ b.rotate_right(19) ^ (b >> 10);
        w.push(w[i - 16].wrapping_add(s0).wrapping_add(w[i - 7]).wrapping_add(s1));
    }
    let mut v = state.to_vec();
    for i in 0..64 {
        let (a, e) = (v[0], v[4]);
        let s1 = e.rotate_right(6) ^ e.rotate_right(11) ^ e.rotate_right(25);
        let choice = (e & v[5]) ^ (!e & v[6]);
        let t1 = v[7].wrapping_add(s1).wrapping_add(choice).wrapping_add(k[i]).wrapping_add(w[i]);
        let s0 = a.rotate_right(2) ^ a.rotate_right(13) ^ a.rotate_right(22);
        let majority = (a & v[1]) ^ (a & v[2]) ^ (v[1] & v[2]);
        v.rotate_right(1);
        v[4] = v[4].wrapping_add(t1);
        v[0] = t1.wrapping_add(s0).wrapping_add(majority);
    }
    v.iter().zip(state).map(|(new, old)| new.wrapping_add(*old)).collect()
}

pub fn hex(data: &[u8]) -> String {
    let k = root_fractions(64, 3);
    let mut padded = data.to_vec();
    padded.push(0x80);
    while padded.len() % 64 != 56 {
        padded.push(0);
    }
    padded.extend((data.len() as u64 * 8).to_be_bytes());
    let state = padded.chunks(64).fold(root_fractions(8, 2), |state, block| rounds(&state, block, &k));
    state.iter().map(|word| format!("{word:08x}")).collect()
}
