//! The two files of the original are what they were: held to their SHA-256, which is computed here (FIPS 180-4), so
//! that no outside crate or tool is wanted.

const SLIDING_MAPPER: &str = "e1f89a1f01773ecd64e95d8f5239f7da83a3797f45c05d57ce566d0423e66481";
const CANDIDATE_WINDOW: &str = "645f48a4ad5d5819245ffdc0d44daca721dafe068242d284d02125499ea1a217";

#[test]
fn sliding_mapper_is_unchanged() {
    let bytes = include_bytes!("../turboani/sliding_mapper.rs");
    assert_eq!(sha256(bytes), SLIDING_MAPPER);
}

#[test]
fn candidate_window_is_unchanged() {
    let bytes = include_bytes!("../turboani/candidate_window.rs");
    assert_eq!(sha256(bytes), CANDIDATE_WINDOW);
}

/// The standard's own examples, one of them longer than a block.
#[test]
fn the_hash_is_sha256() {
    assert_eq!(
        sha256(b"abc"),
        "ba7816bf8f01cfea414140de5dae2223b00361a396177a9cb410ff61f20015ad"
    );
    assert_eq!(
        sha256(b"abcdbcdecdefdefgefghfghighijhijkijkljklmklmnlmnomnopnopq"),
        "248d6a61d20638b8e5c026930c3e6039a33ce45964ff2167f6ecedd419db06c1"
    );
}

fn sha256(message: &[u8]) -> String {
    let mut padded = message.to_vec();
    padded.push(0x80);
    while padded.len() % 64 != 56 {
        padded.push(0);
    }
    padded.extend((8 * message.len() as u64).to_be_bytes());

    let constants = primes::<64>().map(|p| fraction(p, 3));
    let mut state = primes::<8>().map(|p| fraction(p, 2));
    for block in padded.chunks(64) {
        compress(&mut state, &constants, block);
    }
    state.iter().map(|word| format!("{word:08x}")).collect()
}

fn primes<const N: usize>() -> [u128; N] {
    let is_prime = |n: &u128| (2..*n).all(|d| !n.is_multiple_of(d));
    let mut primes = (2..).filter(is_prime);
    std::array::from_fn(|_| primes.next().expect("primes do not end"))
}

/// The first 32 bits of the fraction of the prime's square or cube root, by bisection on whole numbers.
fn fraction(prime: u128, degree: u32) -> u32 {
    let scaled = prime << (32 * degree);
    let (mut low, mut high) = (0u128, 1 << 40);
    while high - low > 1 {
        let middle = (low + high) / 2;
        if middle.pow(degree) <= scaled {
            low = middle;
        } else {
            high = middle;
        }
    }
    low as u32
}

fn compress(state: &mut [u32; 8], constants: &[u32; 64], block: &[u8]) {
    let mut w = [0u32; 64];
    for (word, bytes) in w.iter_mut().zip(block.chunks(4)) {
        *word = u32::from_be_bytes(bytes.try_into().expect("four bytes"));
    }
    for i in 16..64 {
        let (a, b) = (w[i - 15], w[i - 2]);
        let s0 = a.rotate_right(7) ^ a.rotate_right(18) ^ (a >> 3);
        let s1 = b.rotate_right(17) ^ b.rotate_right(19) ^ (b >> 10);
        w[i] = sum(&[w[i - 16], s0, w[i - 7], s1]);
    }
    let [mut a, mut b, mut c, mut d, mut e, mut f, mut g, mut h] = *state;
    for i in 0..64 {
        let s1 = e.rotate_right(6) ^ e.rotate_right(11) ^ e.rotate_right(25);
        let t1 = sum(&[h, s1, (e & f) ^ (!e & g), constants[i], w[i]]);
        let s0 = a.rotate_right(2) ^ a.rotate_right(13) ^ a.rotate_right(22);
        let t2 = sum(&[s0, (a & b) ^ (a & c) ^ (b & c)]);
        (h, g, f, e) = (g, f, e, sum(&[d, t1]));
        (d, c, b, a) = (c, b, a, sum(&[t1, t2]));
    }
    for (word, value) in state.iter_mut().zip([a, b, c, d, e, f, g, h]) {
        *word = sum(&[*word, value]);
    }
}

fn sum(words: &[u32]) -> u32 {
    words.iter().fold(0, |sum, &word| sum.wrapping_add(word))
}
