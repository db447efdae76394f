//! Records of four bytes and their limits.

pub const MOST_BYTES: usize = 4160;
pub const MARKED: u8 = 1;
pub const FIRST: u8 = 2;

pub type Record = [u8; 4];

/// "The largest value of each byte for each kind is read from one table of limits."
const LIMITS: [[u8; 3]; 4] = [[7, 3, 0], [7, 1, 0], [7, 7, 7], [7, 7, 7]];

pub fn records(bytes: &[u8]) -> Vec<Record> {
    bytes.chunks_exact(4).map(|part| [part[0], part[1], part[2], part[3]]).collect()
}

pub fn of_kind(records: &[Record], kind: u8) -> impl Iterator<Item = &Record> {
    records.iter().filter(move |record| record[0] == kind)
}

pub fn fits_limits(record: &Record) -> bool {
    if record[0] < 1 || record[0] > 4 {
        return false;
    }
    let limits = LIMITS[record[0] as usize - 1];
    (0..3).all(|byte| record[byte + 1] <= limits[byte])
}
