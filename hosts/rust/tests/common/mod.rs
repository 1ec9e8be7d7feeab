//! What tests share: the one table, places in a saved store, and a sum of their own. Each of them uses a part of this.
#![allow(dead_code)]

use region_store::Store;
use std::fs;
use std::path::PathBuf;

const TABLE: &str = include_str!("../../../store.txt");

/// The bytes in front of the state.
pub const HEAD: usize = 20;

/// The fields of the table's lines that begin with a word, without that word.
pub fn rows(word: &str) -> Vec<Vec<&'static str>> {
    let lines = TABLE.lines().filter(|line| !line.starts_with('#'));
    let fields = lines.map(|line| line.split('|').map(str::trim).collect::<Vec<_>>());
    fields
        .filter(|f| f[0] == word)
        .map(|f| f[1..].to_vec())
        .collect()
}

/// Where one of the state's numbers stands in a saved store.
pub fn place_of_number(name: &str) -> usize {
    let place = rows("number").iter().position(|row| row[0] == name);
    HEAD + 4 * place.expect("a number of the table")
}

/// Where one of the state's arrays stands in a saved store; behind all of them stands the heap.
pub fn place_of_array(name: &str) -> usize {
    let mut place = HEAD + 4 * rows("number").len();
    for row in rows("array") {
        if row[0] == name {
            break;
        }
        let [width, length] = [row[1], row[2]].map(|n| n.parse::<usize>().unwrap());
        place += width * length;
    }
    place
}

/// CRC-32, bit by bit.
pub fn sum(bytes: &[u8]) -> u32 {
    let mut sum = !0u32;
    for &byte in bytes {
        sum ^= u32::from(byte);
        for _ in 0..8 {
            sum = if sum & 1 == 1 {
                (sum >> 1) ^ 0xEDB8_8320
            } else {
                sum >> 1
            };
        }
    }
    !sum
}

/// Writes a number into a saved store, and puts the sum right.
pub fn patch(bytes: &mut [u8], place: usize, number: u32) {
    bytes[place..place + 4].copy_from_slice(&number.to_le_bytes());
    let end = bytes.len() - 4;
    let sum = sum(&bytes[..end]);
    bytes[end..].copy_from_slice(&sum.to_le_bytes());
}

/// An empty folder for a test, in the folder that cargo builds in.
pub fn folder(test: &str) -> PathBuf {
    let folder = PathBuf::from(env!("CARGO_TARGET_TMPDIR")).join(test);
    let _ = fs::remove_dir_all(&folder);
    fs::create_dir_all(&folder).unwrap();
    folder
}

/// State and heap, to compare.
pub fn memory(store: &Store) -> (Vec<u8>, Vec<u32>) {
    (store.state_bytes(), store.heap().to_vec())
}
