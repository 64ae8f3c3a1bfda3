//! Made drills with their bytes damaged: what a fuzzer feeds.

use second::make::by_seed;
use second::random::Random;

/// The file of a seed: a made drill, damaged once to six times.
pub fn mutant(seed: u64) -> Vec<u8> {
    let mut random = Random::new(seed);
    for _ in 0..8 {
        random.draw(1);
    }
    let mut file = some_drill(&mut random);
    for _ in 0..random.between(1, 6) {
        damage(&mut random, &mut file);
    }
    file
}

fn some_drill(random: &mut Random) -> Vec<u8> {
    by_seed(u64::from(random.draw(1_000_000)))
}

fn place(random: &mut Random, file: &[u8]) -> usize {
    random.draw(file.len() as u32 + 1) as usize
}

/// Two places, the lower first, mostly near each other.
fn part(random: &mut Random, file: &[u8]) -> (usize, usize) {
    let start = place(random, file);
    let end = if random.once_in(4) {
        place(random, file)
    } else {
        (start + random.draw(16) as usize).min(file.len())
    };
    (start.min(end), start.max(end))
}

/// A byte that means something, or any.
fn byte(random: &mut Random) -> u8 {
    match random.draw(4) {
        0 => random.draw(256) as u8,
        1 => random.pick(&[0x00, 0x7F, 0x80, 0x81, 0xFF]),
        _ => random.draw(6) as u8,
    }
}

fn damage(random: &mut Random, file: &mut Vec<u8>) {
    match random.draw(8) {
        0 | 1 => flip(random, file),
        2 => {
            let at = place(random, file);
            file.truncate(at);
        }
        3 => {
            let (start, end) = part(random, file);
            file.drain(start..end);
        }
        4 => splice(random, file),
        5 => {
            let at = place(random, file);
            let count = random.between(1, 5);
            let bytes: Vec<u8> = (0..count).map(|_| byte(random)).collect();
            file.splice(at..at, bytes);
        }
        6 => {
            let (start, end) = part(random, file);
            let again = file[start..end].to_vec();
            let at = place(random, file);
            file.splice(at..at, again);
        }
        _ => {
            let at = place(random, file);
            let new = byte(random);
            if let Some(old) = file.get_mut(at) {
                *old = new;
            }
        }
    }
}

fn flip(random: &mut Random, file: &mut [u8]) {
    for _ in 0..random.between(1, 4) {
        let at = place(random, file);
        let bit = random.draw(8);
        if let Some(byte) = file.get_mut(at) {
            *byte ^= 1 << bit;
        }
    }
}

/// The front of this file, and the back of another.
fn splice(random: &mut Random, file: &mut Vec<u8>) {
    let other = some_drill(random);
    let front = place(random, file);
    let back = place(random, &other);
    file.truncate(front);
    file.extend_from_slice(&other[back..]);
}
