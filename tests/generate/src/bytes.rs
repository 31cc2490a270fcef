//! Damage that needs to know nothing of a file's layout.

use crate::random::Random;

/// Puts bytes over others; what falls outside the file is passed over.
pub fn put(file: &mut [u8], place: usize, bytes: &[u8]) {
    let end = place.saturating_add(bytes.len());
    if let Some(here) = file.get_mut(place..end) {
        here.copy_from_slice(bytes);
    }
}

pub fn cut_after(file: &mut Vec<u8>, start: usize, random: &mut Random) {
    if start < file.len() {
        let len = start + random.below(file.len() - start);
        file.truncate(len);
    }
}

pub fn flip_bit(file: &mut [u8], random: &mut Random) {
    if !file.is_empty() {
        let place = random.below(file.len());
        file[place] ^= 1 << random.below(8);
    }
}

pub fn set_byte(file: &mut [u8], random: &mut Random) {
    if !file.is_empty() {
        let place = random.below(file.len());
        file[place] = random.byte();
    }
}

pub fn drop_byte(file: &mut Vec<u8>, random: &mut Random) {
    if !file.is_empty() {
        file.remove(random.below(file.len()));
    }
}

pub fn add_byte(file: &mut Vec<u8>, random: &mut Random) {
    let place = random.below(file.len() + 1);
    file.insert(place, random.byte());
}

pub fn leave_over(file: &mut Vec<u8>, random: &mut Random) {
    let len = 1 + random.below(20);
    let bytes = if random.one_in(2) {
        vec![0; len]
    } else {
        random.bytes(len)
    };
    file.extend(bytes);
}

pub fn noise(random: &mut Random) -> Vec<u8> {
    let len = random.below(40);
    random.bytes(len)
}

pub fn one_off(count: u32, random: &mut Random) -> u32 {
    if random.one_in(2) {
        count.wrapping_add(1)
    } else {
        count.wrapping_sub(1)
    }
}
