//! Descriptors made by chance from a seed.

/// A row of numbers that a seed determines (SplitMix64).
pub struct Chance {
    state: u64,
}

impl Chance {
    pub fn new(seed: u64) -> Chance {
        Chance { state: seed }
    }

    fn next(&mut self) -> u64 {
        self.state = self.state.wrapping_add(0x9e37_79b9_7f4a_7c15);
        let mixed = (self.state ^ (self.state >> 30)).wrapping_mul(0xbf58_476d_1ce4_e5b9);
        let mixed = (mixed ^ (mixed >> 27)).wrapping_mul(0x94d0_49bb_1331_11eb);
        mixed ^ (mixed >> 31)
    }

    pub fn below(&mut self, end: u64) -> u64 {
        self.next() % end
    }

    pub fn bytes(&mut self, length: usize) -> Vec<u8> {
        (0..length).map(|_| self.below(256) as u8).collect()
    }

    fn one_of<T: Copy>(&mut self, all: &[T]) -> T {
        all[self.below(all.len() as u64) as usize]
    }

    fn is_one_in(&mut self, count: u64) -> bool {
        self.below(count) == 0
    }
}

/// A descriptor that the Rust crate can list in little memory; a quarter of them with damaged bytes.
pub fn descriptor(chance: &mut Chance) -> Vec<u8> {
    loop {
        let mut bytes = whole(chance);
        if chance.is_one_in(4) {
            for _ in 0..=chance.below(2) {
                damage(chance, &mut bytes);
            }
        }
        if is_modest(&bytes) {
            return bytes;
        }
    }
}

/// Items in groups: each group changes some of what is in force and ends, mostly, with a data item.
fn whole(chance: &mut Chance) -> Vec<u8> {
    let mut bytes = vec![];
    if !chance.is_one_in(12) {
        let page = chance.one_of(&[0x01u32, 0x07, 0x08, 0x09, 0x0c, 0xff00]);
        item(chance, &mut bytes, 0x04, page);
    }
    let groups = 1 + chance.below(5);
    for _ in 0..groups {
        structure(chance, &mut bytes);
        globals(chance, &mut bytes);
        locals(chance, &mut bytes);
        if !chance.is_one_in(8) {
            data_item(chance, &mut bytes);
        }
    }
    structure(chance, &mut bytes);
    bytes
}

/// An item with data of a width that holds the number, mostly the least.
fn item(chance: &mut Chance, bytes: &mut Vec<u8>, prefix: u8, number: u32) {
    let least = match number {
        0..=0xff => 1,
        0x100..=0xffff => 2,
        _ => 3,
    };
    let code = if chance.is_one_in(6) { chance.one_of(&[least, 2, 3]).max(least) } else { least };
    bytes.push(prefix + code);
    let width = [0, 1, 2, 4][usize::from(code)];
    bytes.extend_from_slice(&number.to_le_bytes()[..width]);
}

/// Push, Pop, Collection, EndCollection and reserved items, a few of each.
fn structure(chance: &mut Chance, bytes: &mut Vec<u8>) {
    for _ in 0..chance.below(3) {
        match chance.below(9) {
            0 | 1 => bytes.push(0xa4),
            2 => bytes.push(0xb4),
            3 | 4 | 5 => {
                if !chance.is_one_in(3) {
                    locals(chance, bytes);
                }
                let kind = chance.one_of(&[0u8, 1, 2, 3, 4, 5, 6, 7, 0x7f, 0x80, 0xff]);
                bytes.extend_from_slice(&[0xa1, kind]);
            }
            6 | 7 => bytes.push(0xc0),
            _ => {
                let header = chance.one_of(&[0xc4, 0xd4, 0xe4, 0xf4, 0xfc, 0x0c, 0x5c]);
                bytes.push(header);
            }
        }
    }
}

fn globals(chance: &mut Chance, bytes: &mut Vec<u8>) {
    let size = chance.one_of(&[0u32, 1, 1, 2, 3, 4, 5, 7, 8, 8, 8, 12, 16, 16, 17, 24, 31, 32, 33]);
    let count = chance.one_of(&[0u32, 1, 1, 1, 2, 2, 3, 4, 5, 8]);
    if !chance.is_one_in(6) {
        item(chance, bytes, 0x74, size);
    }
    if !chance.is_one_in(6) {
        item(chance, bytes, 0x94, count);
    }
    for _ in 0..chance.below(4) {
        match chance.below(9) {
            0 | 1 => {
                let id = chance.below(4) as u32;
                item(chance, bytes, 0x84, id);
            }
            2 => item_of_any_width(chance, bytes, 0x54),
            3 => item_of_any_width(chance, bytes, 0x64),
            4 => item_of_any_width(chance, bytes, 0x34),
            5 => item_of_any_width(chance, bytes, 0x44),
            6 => item_of_any_width(chance, bytes, 0x14),
            7 => item_of_any_width(chance, bytes, 0x24),
            _ => {
                let page = chance.one_of(&[0x01u32, 0x09, 0x0c, 0xff00, 0x1_0001]);
                item(chance, bytes, 0x04, page);
            }
        }
    }
}

fn item_of_any_width(chance: &mut Chance, bytes: &mut Vec<u8>, prefix: u8) {
    let code = chance.below(4) as u8;
    bytes.push(prefix + code);
    let data = chance.bytes([0, 1, 2, 4][usize::from(code)]);
    bytes.extend_from_slice(&data);
}

fn locals(chance: &mut Chance, bytes: &mut Vec<u8>) {
    for _ in 0..chance.below(4) {
        let id = chance.below(0x140) as u32;
        match chance.below(10) {
            0..=4 => item(chance, bytes, 0x08, id),
            5 => {
                let page = chance.one_of(&[1u32, 7, 0xff00]);
                item(chance, bytes, 0x08, page << 16 | id);
            }
            6 | 7 => {
                let last = (id + chance.one_of(&[0u32, 1, 2, 4, 9])).saturating_sub(chance.below(2) as u32);
                item(chance, bytes, 0x18, id);
                if !chance.is_one_in(8) {
                    item(chance, bytes, 0x28, last);
                }
            }
            8 => item(chance, bytes, 0x28, id),
            _ => {
                let prefix = chance.one_of(&[
                    0x38, 0x48, 0x58, 0x68, 0x78, 0x88, 0x98, 0xa8, 0xb8, 0xc8, 0xd8, 0xe8, 0xf8,
                ]);
                item(chance, bytes, prefix, id);
            }
        }
    }
}

fn data_item(chance: &mut Chance, bytes: &mut Vec<u8>) {
    let prefix = chance.one_of(&[0x80u8, 0x80, 0x80, 0x90, 0xb0]);
    let flags = match chance.below(8) {
        0..=2 => 0x02,
        3 => 0x00,
        4 => 0x01,
        5 => chance.below(0x200) as u32 | 0x02,
        6 => chance.below(0x200) as u32 & !0x01,
        _ => chance.below(0x1_0000) as u32,
    };
    item(chance, bytes, prefix, flags);
}

/// Changes, takes out or puts in one byte.
fn damage(chance: &mut Chance, bytes: &mut Vec<u8>) {
    let place = chance.below(bytes.len() as u64 + 1) as usize;
    let byte = chance.below(256) as u8;
    match chance.below(3) {
        0 => bytes.insert(place, byte),
        _ if place == bytes.len() => {}
        1 => bytes[place] = byte,
        _ => {
            bytes.remove(place);
        }
    }
}

/// Whether no count and no range of usages is so large that the Rust crate would list more than a few thousand.
fn is_modest(bytes: &[u8]) -> bool {
    let mut place = 0;
    let (mut least, mut greatest) = (u64::MAX, 0);
    while place < bytes.len() {
        let width = [0, 1, 2, 4][usize::from(bytes[place] & 3)];
        let Some(data) = bytes.get(place + 1..place + 1 + width) else {
            return true;
        };
        let number = data.iter().rev().fold(0u64, |word, byte| word << 8 | u64::from(*byte));
        match bytes[place] & 0xfc {
            0x74 | 0x94 if number > 1000 => return false,
            0x18 => least = least.min(number),
            0x28 => greatest = greatest.max(number),
            _ => {}
        }
        place += 1 + width;
    }
    greatest <= least.saturating_add(3000)
}
