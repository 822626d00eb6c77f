//! The eight algorithms (000, 6.5 to 7.9, and document 01's table), over counted cipher calls.

use crate::call::Agreement;
use crate::derive::in_use;
use crate::padding;
use crate::sm4::{self, Block, RoundKeys};

/// Places of K, K' and K'' in the engine.
const K: usize = 0;
const K1: usize = 1;
const K2: usize = 2;

pub fn two_keys(algorithm: u64) -> bool {
    matches!(algorithm, 2 | 3 | 4 | 6)
}

/// Algorithms 5, 7 and 8 take padding 4, the others 1 to 3.
pub fn padding_fits(algorithm: u64, padding: u64) -> bool {
    if matches!(algorithm, 5 | 7 | 8) {
        padding == 4
    } else {
        (1..=3).contains(&padding)
    }
}

pub fn m_limit(algorithm: u64) -> u64 {
    if algorithm == 7 {
        63
    } else {
        128
    }
}

/// K'' of K': every second group of four bits complemented, beginning with the first.
pub fn alternate(key: &Block) -> Block {
    key.map(|byte| byte ^ 0xF0)
}

/// Shift left by one; a 1 shifted out turns hex 87 in the last byte.
pub fn double(block: &Block) -> Block {
    let x = u128::from_be_bytes(*block);
    ((x << 1) ^ if x >> 127 == 1 { 0x87 } else { 0 }).to_be_bytes()
}

/// Rotation by one bit: right for a complete message, else left.
pub fn turn(complete: bool, block: &Block) -> Block {
    let x = u128::from_be_bytes(*block);
    (if complete { x.rotate_right(1) } else { x.rotate_left(1) }).to_be_bytes()
}

pub fn xor(a: &Block, b: &Block) -> Block {
    std::array::from_fn(|i| a[i] ^ b[i])
}

/// The leftmost m bits (1 to 128) at the left, zeros after them.
pub fn leftmost(m: u64, block: &Block) -> Block {
    (u128::from_be_bytes(*block) >> (128 - m) << (128 - m)).to_be_bytes()
}

/// The rightmost m bits (1 to 128) moved to the left, zeros after them.
pub fn rightmost(m: u64, block: &Block) -> Block {
    (u128::from_be_bytes(*block) << (128 - m)).to_be_bytes()
}

/// The tag of G in the first ⌈m/8⌉ bytes, zeros after its m bits.
pub fn truncate(algorithm: u64, m: u64, bits: u64, g: &Block) -> Block {
    if algorithm == 7 && !padding::complete(bits) {
        rightmost(m, g)
    } else {
        leftmost(m, g)
    }
}

pub fn key_at(keys: &[u8], place: usize) -> Block {
    std::array::from_fn(|i| keys[16 * place + i])
}

/// The keys in use of one algorithm, and how often the cipher was called, for them and since.
pub struct Engine {
    algorithm: u64,
    keys: [RoundKeys; 3],
    pub calls: u64,
}

impl Engine {
    /// `keys` holds at least the bytes that these settings take.
    pub fn new(agreement: Agreement, keys: &[u8]) -> Engine {
        let (algorithm, used) = (agreement.algorithm, in_use(agreement, keys));
        let mut engine = Engine { algorithm, keys: [[0; 32]; 3], calls: used.calls };
        engine.keys[K] = sm4::round_keys(&used.keys[K]);
        if two_keys(algorithm) {
            engine.keys[K1] = sm4::round_keys(&used.keys[K1]);
        }
        if algorithm == 4 {
            engine.keys[K2] = sm4::round_keys(&used.keys[K2]);
        }
        engine
    }

    fn e(&mut self, key: usize, block: &Block) -> Block {
        self.calls += 1;
        sm4::encrypt(&self.keys[key], block)
    }

    fn d(&mut self, key: usize, block: &Block) -> Block {
        self.calls += 1;
        sm4::decrypt(&self.keys[key], block)
    }

    /// H0.
    pub fn begin(&mut self) -> Block {
        if self.algorithm == 8 {
            self.e(K, &[0; 16])
        } else {
            [0; 16]
        }
    }

    /// H(i) from H(i-1) and D(i) for i < q; `first` for i = 1.
    pub fn step(&mut self, first: bool, h: &Block, d: &Block) -> Block {
        let next = self.e(K, &xor(h, d));
        if first && self.algorithm == 4 {
            self.e(K2, &next)
        } else {
            next
        }
    }

    /// G from H(q-1) and D(q).
    pub fn last(&mut self, complete: bool, h: &Block, d: &Block) -> Block {
        let z = xor(h, d);
        match self.algorithm {
            1 | 7 => self.e(K, &z),
            2 | 4 => {
                let hq = self.e(K, &z);
                self.e(K1, &hq)
            }
            3 => {
                let hq = self.e(K, &z);
                let inner = self.d(K1, &hq);
                self.e(K, &inner)
            }
            5 => {
                let mask = self.mask(complete);
                self.e(K, &xor(&z, &mask))
            }
            6 => self.e(K1, &z),
            _ => self.e(K, &turn(complete, &z)),
        }
    }

    /// What algorithm 5 puts onto the last block.
    fn mask(&mut self, complete: bool) -> Block {
        let mask = double(&self.e(K, &[0; 16]));
        if complete {
            mask
        } else {
            double(&mask)
        }
    }

    /// H(i-1) xor D(i) from H(i) for i < q; `first` for i = 1.
    pub fn undo_step(&mut self, first: bool, h: &Block) -> Block {
        if first && self.algorithm == 4 {
            let inner = self.d(K2, h);
            self.d(K, &inner)
        } else {
            self.d(K, h)
        }
    }

    /// H(q-1) xor D(q) from G.
    pub fn undo_last(&mut self, complete: bool, g: &Block) -> Block {
        match self.algorithm {
            1 | 7 => self.d(K, g),
            2 | 4 => {
                let hq = self.d(K1, g);
                self.d(K, &hq)
            }
            3 => {
                let inner = self.d(K, g);
                let hq = self.e(K1, &inner);
                self.d(K, &hq)
            }
            5 => {
                let mask = self.mask(complete);
                xor(&self.d(K, g), &mask)
            }
            6 => self.d(K1, g),
            _ => turn(!complete, &self.d(K, g)),
        }
    }
}

/// G and the number of cipher calls, for inputs that refusals 1 to 5 and 7 to 9 let pass.
pub fn output(agreement: Agreement, keys: &[u8], message: &[u8], bits: u64) -> (Block, u64) {
    let (padding, mut engine) = (agreement.padding, Engine::new(agreement, keys));
    let q = padding::q(padding, bits);
    let mut h = engine.begin();
    for i in 1..q {
        h = engine.step(i == 1, &h, &padding::block(padding, message, bits, i));
    }
    let g = engine.last(padding::complete(bits), &h, &padding::block(padding, message, bits, q));
    (g, engine.calls)
}
