//! Inputs: random numbers, every short list, lengths around a boundary.

use fetulombo::{Class, Order};

/// Both classes in both orders.
pub const KINDS: [(Class, Order); 4] = [
    (Class::Elf32, Order::Little),
    (Class::Elf32, Order::Big),
    (Class::Elf64, Order::Little),
    (Class::Elf64, Order::Big),
];

pub fn is64(class: Class) -> bool {
    class == Class::Elf64
}

pub fn big(order: Order) -> bool {
    order == Order::Big
}

/// Numbers from a seed (splitmix64).
pub struct Random(u64);

impl Random {
    pub fn new(seed: u64) -> Self {
        Random(seed)
    }

    pub fn next(&mut self) -> u64 {
        self.0 = self.0.wrapping_add(0x9e37_79b9_7f4a_7c15);
        let mut z = self.0;
        z = (z ^ (z >> 30)).wrapping_mul(0xbf58_476d_1ce4_e5b9);
        z = (z ^ (z >> 27)).wrapping_mul(0x94d0_49bb_1331_11eb);
        z ^ (z >> 31)
    }

    /// A number below `end`, which is not 0.
    pub fn below(&mut self, end: usize) -> usize {
        (self.next() % end as u64) as usize
    }

    /// One of some.
    pub fn of<T: Copy>(&mut self, some: &[T]) -> T {
        some[self.below(some.len())]
    }

    /// Bytes of which about one in `zeros` is 0; the rest are any.
    pub fn bytes(&mut self, length: usize, zeros: usize) -> Vec<u8> {
        (0..length)
            .map(|_| match self.below(zeros) {
                0 => 0,
                _ => self.next() as u8,
            })
            .collect()
    }

    /// A number at, just below or just above one of some, or any number.
    pub fn near(&mut self, some: &[u64]) -> u64 {
        match self.below(8) {
            0 => self.next(),
            1 => self.next() >> 32,
            2 => u64::from(u32::MAX) - self.next() % 3,
            _ => self.of(some).wrapping_add(self.next() % 5).wrapping_sub(2),
        }
    }

    /// A copy with some bytes changed, and now and then cut short.
    pub fn damaged(&mut self, bytes: &[u8]) -> Vec<u8> {
        let mut damaged = bytes.to_vec();
        if damaged.is_empty() {
            return damaged;
        }
        for _ in 0..=self.below(8) {
            let at = self.below(damaged.len());
            damaged[at] = self.of(&[0, 1, 0x24, 0x7f, 0x80, 0xff, self.0 as u8]);
        }
        if self.below(4) == 0 {
            damaged.truncate(self.below(bytes.len() + 1));
        }
        damaged
    }
}

/// Every list of at most `length` bytes of `alphabet`.
pub fn lists(alphabet: &[u8], length: usize) -> Vec<Vec<u8>> {
    let mut all = vec![Vec::new()];
    let mut start = 0;
    for _ in 0..length {
        let end = all.len();
        for i in start..end {
            for &byte in alphabet {
                let mut longer = all[i].clone();
                longer.push(byte);
                all.push(longer);
            }
        }
        start = end;
    }
    all
}
