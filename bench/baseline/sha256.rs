//! SHA-256 in portable code.

pub const DIGEST_BYTES: usize = 32;

const BLOCK_BYTES: usize = 64;
const LENGTH_BYTES: usize = 8;

const START: [u32; 8] = [
    0x6a09e667, 0xbb67ae85, 0x3c6ef372, 0xa54ff53a, 0x510e527f, 0x9b05688c, 0x1f83d9ab, 0x5be0cd19,
];

const ROUND_CONSTANTS: [u32; 64] = [
    0x428a2f98, 0x71374491, 0xb5c0fbcf, 0xe9b5dba5, 0x3956c25b, 0x59f111f1, 0x923f82a4, 0xab1c5ed5,
    0xd807aa98, 0x12835b01, 0x243185be, 0x550c7dc3, 0x72be5d74, 0x80deb1fe, 0x9bdc06a7, 0xc19bf174,
    0xe49b69c1, 0xefbe4786, 0x0fc19dc6, 0x240ca1cc, 0x2de92c6f, 0x4a7484aa, 0x5cb0a9dc, 0x76f988da,
    0x983e5152, 0xa831c66d, 0xb00327c8, 0xbf597fc7, 0xc6e00bf3, 0xd5a79147, 0x06ca6351, 0x14292967,
    0x27b70a85, 0x2e1b2138, 0x4d2c6dfc, 0x53380d13, 0x650a7354, 0x766a0abb, 0x81c2c92e, 0x92722c85,
    0xa2bfe8a1, 0xa81a664b, 0xc24b8b70, 0xc76c51a3, 0xd192e819, 0xd6990624, 0xf40e3585, 0x106aa070,
    0x19a4c116, 0x1e376c08, 0x2748774c, 0x34b0bcb5, 0x391c0cb3, 0x4ed8aa4a, 0x5b9cca4f, 0x682e6ff3,
    0x748f82ee, 0x78a5636f, 0x84c87814, 0x8cc70208, 0x90befffa, 0xa4506ceb, 0xbef9a3f7, 0xc67178f2,
];

pub fn sha256(message: &[u8]) -> [u8; DIGEST_BYTES] {
    let mut state = START;
    let (blocks, rest) = message.as_chunks();
    for block in blocks {
        compress(&mut state, block);
    }
    let mut tail = [[0; BLOCK_BYTES]; 2];
    for block in pad(&mut tail, rest, message.len()) {
        compress(&mut state, block);
    }
    let mut digest = [0; DIGEST_BYTES];
    for (bytes, word) in digest.chunks_exact_mut(4).zip(state) {
        bytes.copy_from_slice(&word.to_be_bytes());
    }
    digest
}

/// Ends the message with a set bit, zeros and its length in bits, in one or two blocks.
fn pad<'a>(
    tail: &'a mut [[u8; BLOCK_BYTES]; 2],
    rest: &[u8],
    length: usize,
) -> &'a [[u8; BLOCK_BYTES]] {
    let blocks = if rest.len() < BLOCK_BYTES - LENGTH_BYTES {
        1
    } else {
        2
    };
    let tail = &mut tail[..blocks];
    let bytes = tail.as_flattened_mut();
    bytes[..rest.len()].copy_from_slice(rest);
    bytes[rest.len()] = 0x80;
    let end = bytes.len() - LENGTH_BYTES;
    bytes[end..].copy_from_slice(&(8 * length as u64).to_be_bytes());
    tail
}

/// So many steps bring each word of the state back to its own place.
const TURN: usize = 8;

fn compress(state: &mut [u32; 8], block: &[u8; BLOCK_BYTES]) {
    let words = schedule(block);
    let (turns, _) = words.as_chunks::<TURN>();
    let (constants, _) = ROUND_CONSTANTS.as_chunks::<TURN>();
    let mut mixed = *state;
    // Unrolled over a whole turn, the steps need not move the state about.
    for (words, constants) in turns.iter().zip(constants) {
        for at in 0..TURN {
            mixed = step(mixed, words[at].wrapping_add(constants[at]));
        }
    }
    for (word, add) in state.iter_mut().zip(mixed) {
        *word = word.wrapping_add(add);
    }
}

#[inline(always)]
fn step([a, b, c, d, e, f, g, h]: [u32; 8], word: u32) -> [u32; 8] {
    let sum_e = e.rotate_right(6) ^ e.rotate_right(11) ^ e.rotate_right(25);
    let choose = g ^ (e & (f ^ g));
    let sum_a = a.rotate_right(2) ^ a.rotate_right(13) ^ a.rotate_right(22);
    let majority = (a & b) | (c & (a | b));
    let added = h
        .wrapping_add(sum_e)
        .wrapping_add(choose)
        .wrapping_add(word);
    let first = added.wrapping_add(sum_a).wrapping_add(majority);
    [first, a, b, c, d.wrapping_add(added), e, f, g]
}

fn schedule(block: &[u8; BLOCK_BYTES]) -> [u32; 64] {
    let mut words = [0; 64];
    let (chunks, _) = block.as_chunks();
    for (word, bytes) in words.iter_mut().zip(chunks) {
        *word = u32::from_be_bytes(*bytes);
    }
    for t in 16..64 {
        let (near, far): (u32, u32) = (words[t - 2], words[t - 15]);
        let sigma_near = near.rotate_right(17) ^ near.rotate_right(19) ^ (near >> 10);
        let sigma_far = far.rotate_right(7) ^ far.rotate_right(18) ^ (far >> 3);
        words[t] = sigma_near
            .wrapping_add(words[t - 7])
            .wrapping_add(sigma_far)
            .wrapping_add(words[t - 16]);
    }
    words
}
