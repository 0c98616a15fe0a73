//! SHA-256, for the digests of nets.

/// The first 32 bits of the fractional parts of the `root`-th roots of the first primes, in whole numbers:
/// the root of p times 2^32 is the whole root of p times 2^(32 root).
fn root_bits<const N: usize>(root: u32) -> [u32; N] {
    let is_prime = |n: &u128| (2..*n).take_while(|d| d * d <= *n).all(|d| !n.is_multiple_of(d));
    let mut primes = (2..).filter(is_prime);
    [0; N].map(|_: u32| whole_root(primes.next().expect("there is no last prime") << (32 * root), root) as u32)
}

fn whole_root(n: u128, root: u32) -> u64 {
    let (mut low, mut high) = (0u64, 1 << 37);
    while high - low > 1 {
        let middle = low + (high - low) / 2;
        if (middle as u128).pow(root) <= n { low = middle } else { high = middle }
    }
    low
}

fn pad(bytes: &[u8]) -> Vec<u8> {
    let mut padded = bytes.to_vec();
    padded.push(0x80);
    while padded.len() % 64 != 56 {
        padded.push(0);
    }
    padded.extend((bytes.len() as u64 * 8).to_be_bytes());
    padded
}

fn schedule(chunk: &[u8]) -> [u32; 64] {
    let mut words = [0; 64];
    for (word, bytes) in words.iter_mut().zip(chunk.chunks(4)) {
        *word = u32::from_be_bytes([bytes[0], bytes[1], bytes[2], bytes[3]]);
    }
    for i in 16..64 {
        let (early, late) = (words[i - 15], words[i - 2]);
        let s0 = early.rotate_right(7) ^ early.rotate_right(18) ^ (early >> 3);
        let s1 = late.rotate_right(17) ^ late.rotate_right(19) ^ (late >> 10);
        words[i] = words[i - 16].wrapping_add(s0).wrapping_add(words[i - 7]).wrapping_add(s1);
    }
    words
}

fn compress(state: &[u32; 8], words: &[u32; 64], constants: &[u32; 64]) -> [u32; 8] {
    let [mut a, mut b, mut c, mut d, mut e, mut f, mut g, mut h] = *state;
    for (word, constant) in words.iter().zip(constants) {
        let s1 = e.rotate_right(6) ^ e.rotate_right(11) ^ e.rotate_right(25);
        let choice = (e & f) ^ (!e & g);
        let first = h.wrapping_add(s1).wrapping_add(choice).wrapping_add(*constant).wrapping_add(*word);
        let s0 = a.rotate_right(2) ^ a.rotate_right(13) ^ a.rotate_right(22);
        let majority = (a & b) ^ (a & c) ^ (b & c);
        let second = s0.wrapping_add(majority);
        (h, g, f, e) = (g, f, e, d.wrapping_add(first));
        (d, c, b, a) = (c, b, a, first.wrapping_add(second));
    }
    let mut next = [a, b, c, d, e, f, g, h];
    for (next, old) in next.iter_mut().zip(state) {
        *next = next.wrapping_add(*old);
    }
    next
}

pub fn hex_digest(bytes: &[u8]) -> String {
    let constants = root_bits(3);
    let start = root_bits(2);
    let state = pad(bytes).chunks(64).fold(start, |state, chunk| compress(&state, &schedule(chunk), &constants));
    state.iter().map(|word| format!("{word:08x}")).collect()
}

#[test]
fn published_digests() {
    assert_eq!(hex_digest(b""), "e3b0c44298fc1c149afbf4c8996fb92427ae41e4649b934ca495991b7852b855");
    assert_eq!(hex_digest(b"abc"), "ba7816bf8f01cfea414140de5dae2223b00361a396177a9cb410ff61f20015ad");
    let two_chunks = b"abcdbcdecdefdefgefghfghighijhijkijkljklmklmnlmnomnopnopq";
    assert_eq!(hex_digest(two_chunks), "248d6a61d20638b8e5c026930c3e6039a33ce45964ff2167f6ecedd419db06c1");
}
