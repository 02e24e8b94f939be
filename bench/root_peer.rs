//! The peer of `directoryd root` in `bench/root.sh`: the same program in plain Rust, with its std alone and a portable
//! SHA-256, which takes one digest at a time.
//!
//! ```text
//! root_peer [--hash sha256] [--nonce HEX] < ITEMS
//! ```
//!
//! It reads the same lines, prints the same root and tells the same faults. docs/FORMATS.md has the lines, and the
//! texts of the tree's nodes.

use std::env;
use std::io::{self, BufRead, Write};
use std::process::ExitCode;

const USAGE: &str = "usage: root_peer [--hash sha256] [--nonce HEX] < ITEMS";

/// A digest, an index, a prefix of one, a commitment or a nonce.
type Hash = [u8; 32];

// SHA-256, by FIPS 180-4.

/// The constants: section 4.2.2.
const K: [u32; 64] = [
    0x428a2f98, 0x71374491, 0xb5c0fbcf, 0xe9b5dba5, 0x3956c25b, 0x59f111f1, 0x923f82a4, 0xab1c5ed5,
    0xd807aa98, 0x12835b01, 0x243185be, 0x550c7dc3, 0x72be5d74, 0x80deb1fe, 0x9bdc06a7, 0xc19bf174,
    0xe49b69c1, 0xefbe4786, 0x0fc19dc6, 0x240ca1cc, 0x2de92c6f, 0x4a7484aa, 0x5cb0a9dc, 0x76f988da,
    0x983e5152, 0xa831c66d, 0xb00327c8, 0xbf597fc7, 0xc6e00bf3, 0xd5a79147, 0x06ca6351, 0x14292967,
    0x27b70a85, 0x2e1b2138, 0x4d2c6dfc, 0x53380d13, 0x650a7354, 0x766a0abb, 0x81c2c92e, 0x92722c85,
    0xa2bfe8a1, 0xa81a664b, 0xc24b8b70, 0xc76c51a3, 0xd192e819, 0xd6990624, 0xf40e3585, 0x106aa070,
    0x19a4c116, 0x1e376c08, 0x2748774c, 0x34b0bcb5, 0x391c0cb3, 0x4ed8aa4a, 0x5b9cca4f, 0x682e6ff3,
    0x748f82ee, 0x78a5636f, 0x84c87814, 0x8cc70208, 0x90befffa, 0xa4506ceb, 0xbef9a3f7, 0xc67178f2,
];

/// The initial hash value: section 5.3.3.
const INITIAL: [u32; 8] = [
    0x6a09e667, 0xbb67ae85, 0x3c6ef372, 0xa54ff53a, 0x510e527f, 0x9b05688c, 0x1f83d9ab, 0x5be0cd19,
];

/// The bytes of a block, and those of the message's length at the end of the last one.
const BLOCK: usize = 64;
const LENGTH: usize = 8;

// The functions: section 4.1.2.

fn ch(x: u32, y: u32, z: u32) -> u32 {
    (x & y) ^ (!x & z)
}

fn maj(x: u32, y: u32, z: u32) -> u32 {
    (x & y) ^ (x & z) ^ (y & z)
}

fn big_sigma_0(x: u32) -> u32 {
    x.rotate_right(2) ^ x.rotate_right(13) ^ x.rotate_right(22)
}

fn big_sigma_1(x: u32) -> u32 {
    x.rotate_right(6) ^ x.rotate_right(11) ^ x.rotate_right(25)
}

fn small_sigma_0(x: u32) -> u32 {
    x.rotate_right(7) ^ x.rotate_right(18) ^ (x >> 3)
}

fn small_sigma_1(x: u32) -> u32 {
    x.rotate_right(17) ^ x.rotate_right(19) ^ (x >> 10)
}

/// The message schedule of a block: section 6.2.2, step 1.
fn schedule(block: &[u8]) -> [u32; 64] {
    let mut w = [0; 64];
    for (word, bytes) in w.iter_mut().zip(block.chunks_exact(4)) {
        *word = u32::from_be_bytes([bytes[0], bytes[1], bytes[2], bytes[3]]);
    }
    for t in 16..64 {
        w[t] = small_sigma_1(w[t - 2])
            .wrapping_add(w[t - 7])
            .wrapping_add(small_sigma_0(w[t - 15]))
            .wrapping_add(w[t - 16]);
    }
    w
}

/// Takes one block into the hash value: section 6.2.2. The rounds stand in eights, after which each letter is in its
/// own register again: the compiler then moves none.
fn take_block(value: &mut [u32; 8], block: &[u8]) {
    let w = schedule(block);
    let [mut a, mut b, mut c, mut d, mut e, mut f, mut g, mut h] = *value;
    for (k, w) in K.chunks_exact(8).zip(w.chunks_exact(8)) {
        for t in 0..8 {
            let t1 = h
                .wrapping_add(big_sigma_1(e))
                .wrapping_add(ch(e, f, g))
                .wrapping_add(k[t])
                .wrapping_add(w[t]);
            let t2 = big_sigma_0(a).wrapping_add(maj(a, b, c));
            (h, g, f, e) = (g, f, e, d.wrapping_add(t1));
            (d, c, b, a) = (c, b, a, t1.wrapping_add(t2));
        }
    }
    for (word, letter) in value.iter_mut().zip([a, b, c, d, e, f, g, h]) {
        *word = word.wrapping_add(letter);
    }
}

/// The digest of a message, padded as section 5.1.1 says.
fn sha256(message: &[u8]) -> Hash {
    let mut value = INITIAL;
    let blocks = message.chunks_exact(BLOCK);
    let rest = blocks.remainder();
    for block in blocks {
        take_block(&mut value, block);
    }
    let mut last = [0; BLOCK];
    last[..rest.len()].copy_from_slice(rest);
    last[rest.len()] = 0x80;
    if rest.len() >= BLOCK - LENGTH {
        take_block(&mut value, &last);
        last = [0; BLOCK];
    }
    last[BLOCK - LENGTH..].copy_from_slice(&(8 * message.len() as u64).to_be_bytes());
    take_block(&mut value, &last);
    let mut digest = [0; 32];
    for (bytes, word) in digest.chunks_exact_mut(4).zip(value) {
        bytes.copy_from_slice(&word.to_be_bytes());
    }
    digest
}

// The tree.

/// An item, and the number of its line. In order, items of one index stand as their lines do.
#[derive(PartialEq, Eq, PartialOrd, Ord)]
struct Item {
    index: Hash,
    line: usize,
    commitment: Hash,
}

fn empty_node(nonce: &Hash, prefix: &Hash, level: usize) -> Hash {
    let mut text = [0; 69];
    text[0] = b'E';
    text[1..33].copy_from_slice(nonce);
    text[33..65].copy_from_slice(prefix);
    text[65..].copy_from_slice(&(level as u32).to_be_bytes());
    sha256(&text)
}

fn leaf(nonce: &Hash, item: &Item, level: usize) -> Hash {
    let mut text = [0; 101];
    text[0] = b'L';
    text[1..33].copy_from_slice(nonce);
    text[33..65].copy_from_slice(&item.index);
    text[65..69].copy_from_slice(&(level as u32).to_be_bytes());
    text[69..].copy_from_slice(&item.commitment);
    sha256(&text)
}

fn interior_node(zero_side: &Hash, one_side: &Hash) -> Hash {
    let mut text = [0; 64];
    text[..32].copy_from_slice(zero_side);
    text[32..].copy_from_slice(one_side);
    sha256(&text)
}

/// The hash of the node at a prefix of `level` bits, with these items below it. They differ, and are in order.
fn node(nonce: &Hash, items: &[Item], prefix: &Hash, level: usize) -> Hash {
    match items {
        [] => empty_node(nonce, prefix, level),
        [item] => leaf(nonce, item, level),
        _ => {
            let (byte, bit) = (level / 8, 0x80 >> (level % 8));
            let middle = items.partition_point(|item| item.index[byte] & bit == 0);
            let (zeros, ones) = items.split_at(middle);
            let mut one_prefix = *prefix;
            one_prefix[byte] |= bit;
            let zero_side = node(nonce, zeros, prefix, level + 1);
            let one_side = node(nonce, ones, &one_prefix, level + 1);
            interior_node(&zero_side, &one_side)
        }
    }
}

// The lines.

/// What `VALUES` has for a byte that is no digit: more than any digit.
const NO_DIGIT: u8 = 0xff;

/// The value of each byte that is a hexadecimal digit, of either case.
const VALUES: [u8; 256] = {
    let mut values = [NO_DIGIT; 256];
    let mut value = 0;
    while value < 16 {
        values[b"0123456789abcdef"[value] as usize] = value as u8;
        values[b"0123456789ABCDEF"[value] as usize] = value as u8;
        value += 1;
    }
    values
};

/// The hash that 64 digits spell.
fn hash_of(digits: &[u8]) -> Option<Hash> {
    let mut hash = [0; 32];
    if digits.len() != 2 * hash.len() {
        return None;
    }
    let mut bits = 0;
    for (byte, pair) in hash.iter_mut().zip(digits.chunks_exact(2)) {
        let [high, low] = [0, 1].map(|place| VALUES[usize::from(pair[place])]);
        *byte = high << 4 | low;
        bits |= high | low;
    }
    (bits != NO_DIGIT).then_some(hash)
}

/// The item of a line, which may have its LF.
fn item_of(text: &[u8], line: usize) -> Option<Item> {
    let text = text.strip_suffix(b"\n").unwrap_or(text);
    if text.len() != 129 || text[64] != b' ' {
        return None;
    }
    let (index, commitment) = (hash_of(&text[..64])?, hash_of(&text[65..])?);
    Some(Item {
        index,
        line,
        commitment,
    })
}

/// The items of an input, in order; or the fault of its first faulty line.
fn read_items(mut input: impl BufRead) -> Result<Vec<Item>, String> {
    let (mut items, mut text, mut bad_line) = (Vec::new(), Vec::new(), None);
    loop {
        text.clear();
        let read = input.read_until(b'\n', &mut text);
        if read.map_err(|_| "cannot read")? == 0 {
            break;
        }
        let line = items.len() + 1;
        let Some(item) = item_of(&text, line) else {
            bad_line = Some(line);
            break;
        };
        items.push(item);
    }
    items.sort_unstable();
    let pairs = items.windows(2);
    let repeats = pairs.filter(|pair| pair[0].index == pair[1].index);
    if let Some(line) = repeats.map(|pair| pair[1].line).min() {
        return Err(format!("line {line}: index repeated"));
    }
    match bad_line {
        Some(line) => Err(format!("line {line}: bad item")),
        None => Ok(items),
    }
}

fn root(nonce: &Hash) -> Result<(), String> {
    let items = read_items(io::stdin().lock())?;
    let mut line = String::from("root ");
    for byte in node(nonce, &items, &[0; 32], 0) {
        line += &format!("{byte:02x}");
    }
    writeln!(io::stdout(), "{line}").map_err(|_| "cannot write".into())
}

/// The nonce that the options give; or the fault and the status to end with.
fn nonce_of(options: &[String]) -> Result<Hash, (&str, u8)> {
    let mut nonce = [0; 32];
    for option in options.chunks(2) {
        match option {
            [name, value] if name == "--hash" && value == "sha256" => {}
            [name, value] if name == "--nonce" => {
                nonce = hash_of(value.as_bytes()).ok_or(("bad hex", 1))?;
            }
            _ => return Err((USAGE, 2)),
        }
    }
    Ok(nonce)
}

fn main() -> ExitCode {
    let options: Vec<String> = env::args().skip(1).collect();
    let fault = match nonce_of(&options) {
        Ok(nonce) => root(&nonce).map_err(|fault| (fault, 1)),
        Err((fault, status)) => Err((fault.into(), status)),
    };
    match fault {
        Ok(()) => ExitCode::SUCCESS,
        Err((fault, status)) => {
            eprintln!("{fault}");
            ExitCode::from(status)
        }
    }
}
