//! CTR (NIST SP 800-38A) and CMAC (NIST SP 800-38B) over any function on blocks.

use crate::cipher::Block;

/// Exclusive or, byte by byte, as far as the shorter one goes.
pub fn xor(a: &[u8], b: &[u8]) -> Vec<u8> {
    a.iter().zip(b).map(|(x, y)| x ^ y).collect()
}

pub fn xor_blocks(a: &Block, b: &Block) -> Block {
    xor(a, b).try_into().unwrap()
}

/// SP 800-38A, section 6.5: the text in blocks, of which the last may be short, each XOR as many
/// bytes of its encrypted counter block. Encrypting and decrypting are the same.
pub fn ctr(mut encrypt: impl FnMut(&Block) -> Block, counter: impl Fn(u32) -> Block, text: &[u8]) -> Vec<u8> {
    let mut result = Vec::new();
    for (i, piece) in text.chunks(16).enumerate() {
        result.extend(xor(piece, &encrypt(&counter(i as u32))));
    }
    result
}

/// SP 800-38B, section 6.1, steps 2 and 3: the block moved left by one bit and, if the bit that
/// falls out is 1, XOR a block of zeros with 87 hexadecimal at its end.
pub fn doubled(block: &Block) -> Block {
    let mut result = [0; 16];
    for i in 0..16 {
        let from_right = if i < 15 { block[i + 1] >> 7 } else { 0 };
        result[i] = block[i] << 1 | from_right;
    }
    if block[0] & 0x80 != 0 {
        result[15] ^= 0x87;
    }
    result
}

/// SP 800-38B, section 6.1.
pub fn subkeys(mut encrypt: impl FnMut(&Block) -> Block) -> (Block, Block) {
    let l = encrypt(&[0; 16]);
    let k1 = doubled(&l);
    let k2 = doubled(&k1);
    (k1, k2)
}

/// SP 800-38B, section 6.2, with the whole last block as the tag.
pub fn cmac(mut encrypt: impl FnMut(&Block) -> Block, message: &[u8]) -> Block {
    let (k1, k2) = subkeys(&mut encrypt);
    let mut blocks: Vec<Vec<u8>> = message.chunks(16).map(<[u8]>::to_vec).collect();
    if blocks.is_empty() {
        blocks.push(Vec::new());
    }
    let last = blocks.last_mut().unwrap();
    if last.len() == 16 {
        *last = xor(last, &k1);
    } else {
        last.push(0x80);
        last.resize(16, 0);
        *last = xor(last, &k2);
    }
    let mut chain = [0; 16];
    for block in blocks {
        chain = encrypt(&xor(&chain, &block).try_into().unwrap());
    }
    chain
}
