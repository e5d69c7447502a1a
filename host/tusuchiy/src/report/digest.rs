//! SHA-256 (FIPS 180-4) and base64: what the page's content policy names its own style and script by, and a file its bytes.

/// The first 64 primes: the constants are made from their roots.
const PRIMES: [u64; 64] = [
    2, 3, 5, 7, 11, 13, 17, 19, 23, 29, 31, 37, 41, 43, 47, 53, 59, 61, 67, 71, 73, 79, 83, 89, 97, 101, 103, 107, 109,
    113, 127, 131, 137, 139, 149, 151, 157, 163, 167, 173, 179, 181, 191, 193, 197, 199, 211, 223, 227, 229, 233, 239,
    241, 251, 257, 263, 269, 271, 277, 281, 283, 293, 307, 311,
];

/// The first 32 bits behind the point of a prime's root: the square root for power 2, the cube root for power 3.
fn root(prime: u64, power: u32) -> u32 {
    let wanted = u128::from(prime) << (32 * power);
    let mut root: u128 = 0;
    for bit in (0..37).rev() {
        let tried = root | 1 << bit;
        if tried.pow(power) <= wanted {
            root = tried;
        }
    }
    root as u32
}

/// The 32 bytes that stand for these.
pub fn sha256(bytes: &[u8]) -> [u8; 32] {
    let constants = PRIMES.map(|prime| root(prime, 3));
    let mut state: [u32; 8] = std::array::from_fn(|place| root(PRIMES[place], 2));
    let whole = bytes.chunks_exact(64);
    // The rest, the bit 1, zeros, and the length in bits up to a full block.
    let mut rest = whole.remainder().to_vec();
    rest.push(0x80);
    rest.resize((rest.len() + 8).next_multiple_of(64) - 8, 0);
    rest.extend((bytes.len() as u64 * 8).to_be_bytes());
    for block in whole.chain(rest.chunks_exact(64)) {
        mix(&mut state, block, &constants);
    }
    let mut digest = [0; 32];
    for (to, word) in digest.chunks_exact_mut(4).zip(state) {
        to.copy_from_slice(&word.to_be_bytes());
    }
    digest
}

/// The message schedule of a block.
fn schedule(block: &[u8]) -> [u32; 64] {
    let mut words = [0; 64];
    for (word, bytes) in words.iter_mut().zip(block.chunks_exact(4)) {
        *word = bytes.iter().fold(0, |word, byte| word << 8 | u32::from(*byte));
    }
    for place in 16..64 {
        let [early, late] = [words[place - 15], words[place - 2]];
        let first = early.rotate_right(7) ^ early.rotate_right(18) ^ early >> 3;
        let second = late.rotate_right(17) ^ late.rotate_right(19) ^ late >> 10;
        words[place] = words[place - 16].wrapping_add(first).wrapping_add(words[place - 7]).wrapping_add(second);
    }
    words
}

/// Takes one block into the state.
fn mix(state: &mut [u32; 8], block: &[u8], constants: &[u32; 64]) {
    let words = schedule(block);
    let [mut a, mut b, mut c, mut d, mut e, mut f, mut g, mut h] = *state;
    for (word, constant) in words.iter().zip(constants) {
        let upper = e.rotate_right(6) ^ e.rotate_right(11) ^ e.rotate_right(25);
        let choice = e & f ^ !e & g;
        let first = h.wrapping_add(upper).wrapping_add(choice).wrapping_add(*constant).wrapping_add(*word);
        let lower = a.rotate_right(2) ^ a.rotate_right(13) ^ a.rotate_right(22);
        let second = lower.wrapping_add(a & b ^ a & c ^ b & c);
        (h, g, f, e, d, c, b, a) = (g, f, e, d.wrapping_add(first), c, b, a, first.wrapping_add(second));
    }
    for (kept, new) in state.iter_mut().zip([a, b, c, d, e, f, g, h]) {
        *kept = kept.wrapping_add(new);
    }
}

/// Bytes as hexadecimal digits.
pub fn hex(bytes: &[u8]) -> String {
    bytes.iter().map(|byte| format!("{byte:02x}")).collect()
}

/// Bytes as base64 (RFC 4648, with padding).
pub fn base64(bytes: &[u8]) -> String {
    const SIGNS: &[u8; 64] = b"ABCDEFGHIJKLMNOPQRSTUVWXYZabcdefghijklmnopqrstuvwxyz0123456789+/";
    let four = |three: &[u8]| {
        let bits = (0..3).fold(0, |bits, place| bits << 8 | usize::from(three.get(place).copied().unwrap_or(0)));
        let sign = move |place: usize| char::from(SIGNS[bits >> (18 - 6 * place) & 63]);
        let signs: String = (0..=three.len()).map(sign).collect();
        format!("{signs:=<4}")
    };
    bytes.chunks(3).map(four).collect()
}

#[cfg(test)]
mod tests {
    use super::*;

    /// The examples of FIPS 180-4 and RFC 4648, and lengths around a block's end by what `sha256sum` says.
    #[test]
    fn known_digests() {
        let known = [
            (&b""[..], "e3b0c44298fc1c149afbf4c8996fb92427ae41e4649b934ca495991b7852b855"),
            (b"abc", "ba7816bf8f01cfea414140de5dae2223b00361a396177a9cb410ff61f20015ad"),
            (
                b"abcdbcdecdefdefgefghfghighijhijkijkljklmklmnlmnomnopnopq",
                "248d6a61d20638b8e5c026930c3e6039a33ce45964ff2167f6ecedd419db06c1",
            ),
            (&[b'a'; 55], "9f4390f8d30c2dd92ec9f095b65e2b9ae9b0a925a5258e241c9f1e910f734318"),
            (&[b'a'; 64], "ffe054fe7ae0cb6dc65c3af9b61d5209f439851db43d0ba5997337df154668eb"),
        ];
        for (bytes, wanted) in known {
            assert_eq!(hex(&sha256(bytes)), wanted);
        }
    }

    #[test]
    fn known_base64() {
        let known = ["", "Zg==", "Zm8=", "Zm9v", "Zm9vYg==", "Zm9vYmE=", "Zm9vYmFy"];
        for (length, wanted) in known.into_iter().enumerate() {
            assert_eq!(base64(&b"foobar"[..length]), wanted);
        }
    }
}
