//! The vectors that the BAKSHEESH paper prints (Table 14).
//!
//! Where the printed table repeats one digit, as in vectors 1 to 5, copies of it have lost or
//! gained digits; here each key and block has its 32. Only these give the printed ciphertexts.

use crate::cipher::{self, Block};
use crate::hex;
use crate::tally::Tally;

pub struct Vector {
    pub key: &'static str,
    pub plaintext: &'static str,
    pub ciphertext: &'static str,
}

pub const PUBLISHED: [Vector; 8] = [
    Vector {
        key: "00000000000000000000000000000000",
        plaintext: "00000000000000000000000000000000",
        ciphertext: "c002be5e64c78a72ab9a3439518352aa",
    },
    Vector {
        key: "00000000000000000000000000000000",
        plaintext: "00000000000000000000000000000007",
        ciphertext: "6f7d7746eaf0d97a154079f6bd846438",
    },
    Vector {
        key: "00000000000000000000000000000000",
        plaintext: "70000000000000000000000000000000",
        ciphertext: "1ba3363734c09a29f67c23bbb2cccc05",
    },
    Vector {
        key: "00000000000000000000000000000000",
        plaintext: "44444444444444444444444444444444",
        ciphertext: "7ad3303667b2af6deef434dd110d7fb8",
    },
    Vector {
        key: "ffffffffffffffffffffffffffffffff",
        plaintext: "11111111111111111111111111111111",
        ciphertext: "806f0cf45b94f0370206975fe78ac10f",
    },
    Vector {
        key: "76543210032032032032032032032032",
        plaintext: "789a789a789a789a789a789a789a789a",
        ciphertext: "ae654b5333b876584f8e8dd54f4e490a",
    },
    Vector {
        key: "23023023023023023023023001234567",
        plaintext: "b6e4789ab6e4789ab6e4789ab6e4789a",
        ciphertext: "3dbbdf7fe254cc0be396a753442dccad",
    },
    Vector {
        key: "5920effb52bc61e33a98425321e76915",
        plaintext: "e6517531abf63f3d7805e126943a081c",
        ciphertext: "fc7e61fee3d587308ca7bc594ebf3244",
    },
];

impl Vector {
    /// Key, plaintext and ciphertext as bytes.
    pub fn blocks(&self) -> (Block, Block, Block) {
        let block = |digits| hex::block(digits).expect("32 digits");
        (block(self.key), block(self.plaintext), block(self.ciphertext))
    }
}

/// The cipher of these tests gives the published ciphertexts, and back.
pub fn own_cipher(tally: &mut Tally) {
    for (i, vector) in PUBLISHED.iter().enumerate() {
        let (key, plaintext, ciphertext) = vector.blocks();
        let number = i + 1;
        tally.same(format_args!("vector {number}, encrypt"), &cipher::encrypt(&key, &plaintext), &ciphertext);
        tally.same(format_args!("vector {number}, decrypt"), &cipher::decrypt(&key, &ciphertext), &plaintext);
    }
}
