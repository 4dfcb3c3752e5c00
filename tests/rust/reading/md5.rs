//! MD5 (RFC 1321), written from the paper's text: the message padded whole, then block by block; and a state that takes
//! one byte after the other. Slow and short.

/// T[i] is the integer part of 4,294,967,296 times |sin i|, i in radians.
fn sine(i: u32) -> u32 {
    (4_294_967_296.0 * f64::from(i).sin().abs()) as u32
}

/// Of each round: the rotations of its four kinds of steps, and which word step k takes.
const ROTATIONS: [[u32; 4]; 4] = [[7, 12, 17, 22], [5, 9, 14, 20], [4, 11, 16, 23], [6, 10, 15, 21]];
const WORDS: [fn(usize) -> usize; 4] = [|k| k, |k| (5 * k + 1) % 16, |k| (3 * k + 5) % 16, |k| 7 * k % 16];
const MIXES: [fn(u32, u32, u32) -> u32; 4] =
    [|x, y, z| x & y | !x & z, |x, y, z| x & z | y & !z, |x, y, z| x ^ y ^ z, |x, y, z| y ^ (x | !z)];

/// A, B, C and D before any block.
const START: [u32; 4] = [0x6745_2301, 0xEFCD_AB89, 0x98BA_DCFE, 0x1032_5476];

/// The four words after a block of 64 bytes.
fn block(state: [u32; 4], bytes: &[u8]) -> [u32; 4] {
    let mut words = [0; 16];
    for (word, four) in words.iter_mut().zip(bytes.chunks_exact(4)) {
        *word = u32::from_le_bytes([four[0], four[1], four[2], four[3]]);
    }
    let [mut a, mut b, mut c, mut d] = state;
    for i in 0..64 {
        let (round, k) = (i / 16, i % 16);
        let mixed = MIXES[round](b, c, d);
        let sum = a.wrapping_add(mixed).wrapping_add(words[WORDS[round](k)]).wrapping_add(sine(i as u32 + 1));
        let next = b.wrapping_add(sum.rotate_left(ROTATIONS[round][k % 4]));
        (a, d, c, b) = (d, c, b, next);
    }
    let [p, q, r, s] = state;
    [p.wrapping_add(a), q.wrapping_add(b), r.wrapping_add(c), s.wrapping_add(d)]
}

/// What follows so many bytes: a bit 1, bits 0 until 64 bits are missing, and the length in bits, low byte first.
fn padding(length: u64) -> Vec<u8> {
    let mut bytes = vec![0x80];
    while (length % 64 + bytes.len() as u64) % 64 != 56 {
        bytes.push(0x00);
    }
    bytes.extend(length.wrapping_mul(8).to_le_bytes());
    bytes
}

/// The four words, low byte first.
fn digest_of(words: [u32; 4]) -> [u8; 16] {
    let mut digest = [0; 16];
    for (four, word) in digest.chunks_exact_mut(4).zip(words) {
        four.copy_from_slice(&word.to_le_bytes());
    }
    digest
}

/// The digest of a message.
pub fn md5(message: &[u8]) -> [u8; 16] {
    let padded = [message, &padding(message.len() as u64)].concat();
    digest_of(padded.chunks_exact(64).fold(START, block))
}

/// What is kept between the pieces of a message: the words after its whole blocks, how many bytes it has so far, modulo
/// 2^64, and the block in which they wait, each at its place.
#[derive(Clone, Debug, PartialEq, Eq)]
pub struct State {
    pub words: [u32; 4],
    pub count: u64,
    pub block: [u8; 64],
}

impl State {
    pub fn new() -> State {
        State { words: START, count: 0, block: [0; 64] }
    }

    /// With the 64th byte a block is taken in, and zeroed.
    pub fn feed(&mut self, piece: &[u8]) {
        for byte in piece {
            let place = (self.count % 64) as usize;
            self.block[place] = *byte;
            self.count = self.count.wrapping_add(1);
            if place == 63 {
                self.words = block(self.words, &self.block);
                self.block = [0; 64];
            }
        }
    }

    /// The digest; the padding is fed to a copy.
    pub fn finish(&self) -> [u8; 16] {
        let mut last = self.clone();
        last.feed(&padding(self.count));
        digest_of(last.words)
    }
}
