//! SM4 as document 01 describes it, byte by byte through one table of 256 bytes.

pub type Block = [u8; 16];
pub type RoundKeys = [u32; 32];

/// The byte table, one row per high digit.
const ROWS: [u128; 16] = [
    0xD690E9FECCE13DB716B614C228FB2C05,
    0x2B679A762ABE04C3AA44132649860699,
    0x9C4250F491EF987A33540B43EDCFAC62,
    0xE4B31CA9C908E89580DF94FA758F3FA6,
    0x4707A7FCF37317BA83593C19E6854FA8,
    0x686B81B27164DA8BF8EB0F4B70569D35,
    0x1E240E5E6358D1A225227C3B01217887,
    0xD40046579FD327524C3602E7A0C4C89E,
    0xEABF8AD240C738B5A3F7F2CEF96115A1,
    0xE0AE5DA49B341A55AD933230F58CB1E3,
    0x1DF6E22E8266CA60C02923AB0D534E6F,
    0xD5DB3745DEFD8E2F03FF6A726D6C5B51,
    0x8D1BAF92BBDDBC7F11D95C411F105AD8,
    0x0AC13188A5CD7BBD2D74D012B8E5B4B0,
    0x8969974A0C96777E65B9F109C56EC684,
    0x18F07DEC3ADC4D2079EE5F3ED7CB3948,
];

static TABLE: [u8; 256] = {
    let mut table = [0; 256];
    let mut i = 0;
    while i < 256 {
        table[i] = ROWS[i / 16].to_be_bytes()[i % 16];
        i += 1;
    }
    table
};

const FK: [u32; 4] = [0xA3B1BAC6, 0x56AA3350, 0x677D9197, 0xB27022DC];

/// Byte j of CK(i) is (4i + j) * 7 mod 256.
static CK: [u32; 32] = {
    let mut words = [0; 32];
    let mut k = 0;
    while k < 128 {
        words[k / 4] = words[k / 4] << 8 | (k as u32 * 7 % 256);
        k += 1;
    }
    words
};

fn through_table(word: u32) -> u32 {
    u32::from_be_bytes(word.to_be_bytes().map(|byte| TABLE[byte as usize]))
}

fn mix(word: u32) -> u32 {
    let b = through_table(word);
    b ^ b.rotate_left(2) ^ b.rotate_left(10) ^ b.rotate_left(18) ^ b.rotate_left(24)
}

fn mix_key(word: u32) -> u32 {
    let b = through_table(word);
    b ^ b.rotate_left(13) ^ b.rotate_left(23)
}

fn words(block: &Block) -> [u32; 4] {
    [0, 4, 8, 12].map(|i| u32::from_be_bytes([block[i], block[i + 1], block[i + 2], block[i + 3]]))
}

/// The 32 round keys of a key.
pub fn round_keys(key: &Block) -> RoundKeys {
    let mut k = words(key);
    for i in 0..4 {
        k[i] ^= FK[i];
    }
    let mut keys = [0; 32];
    for i in 0..32 {
        keys[i] = k[0] ^ mix_key(k[1] ^ k[2] ^ k[3] ^ CK[i]);
        k = [k[1], k[2], k[3], keys[i]];
    }
    keys
}

pub fn encrypt(keys: &RoundKeys, block: &Block) -> Block {
    #[cfg(test)]
    tests::CALLS.with(|calls| calls.set(calls.get() + 1));
    let mut x = words(block);
    for key in keys {
        x = [x[1], x[2], x[3], x[0] ^ mix(x[1] ^ x[2] ^ x[3] ^ key)];
    }
    let mut out = [0; 16];
    for i in 0..4 {
        out[4 * i..4 * i + 4].copy_from_slice(&x[3 - i].to_be_bytes());
    }
    out
}

/// Encryption with the round keys backwards.
pub fn decrypt(keys: &RoundKeys, block: &Block) -> Block {
    let mut backwards = *keys;
    backwards.reverse();
    encrypt(&backwards, block)
}

#[cfg(test)]
pub mod tests {
    use std::cell::Cell;
    thread_local! {
        /// All cipher calls of this thread, to hold the reported counts against.
        pub static CALLS: Cell<u64> = const { Cell::new(0) };
    }
}
