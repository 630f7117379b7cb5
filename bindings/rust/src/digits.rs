//! The decimal digits of a magnitude of any length.

use alloc::{vec, vec::Vec};
use core::iter::repeat;

/// Nine digits are a group, a number below this; groups stand the least significant first.
const GROUP: u64 = 1_000_000_000;

/// A magnitude is read by so many bytes at a time.
const BLOCK: usize = 64;

/// Up to so many groups are multiplied each by each.
const FEW: usize = 48;

/// So many products of two groups, and what is carried, are below 2^64.
const SUMS: usize = 16;

/// The groups of a magnitude, whose most significant byte comes first.
///
/// Blocks of bytes are read each by itself. Then neighbours are joined, the higher times what it stands above, until one
/// is left: the cost is that of the longest product.
pub(crate) fn groups(first: u8, rest: &[u8]) -> Vec<u32> {
    let (high, low) = rest.split_at(rest.len() % BLOCK);
    let mut blocks: Vec<_> = low.rchunks(BLOCK).map(|block| read(0, block)).collect();
    blocks.push(read(first, high));
    let mut above = read(1, &[0; BLOCK]);
    while blocks.len() > 1 {
        blocks = blocks.chunks(2).map(|pair| join(pair, &above)).collect();
        if blocks.len() > 1 {
            above = product(&above, &above);
        }
    }
    blocks.pop().unwrap_or_default()
}

/// The groups of few bytes.
fn read(first: u8, bytes: &[u8]) -> Vec<u32> {
    let mut groups = vec![u32::from(first)];
    for byte in bytes {
        let mut carry = u64::from(*byte);
        for group in &mut groups {
            let all = u64::from(*group) * 256 + carry;
            *group = (all % GROUP) as u32;
            carry = all / GROUP;
        }
        if carry > 0 {
            groups.push(carry as u32);
        }
    }
    groups
}

/// Two neighbours in one, or the one that has none.
fn join(pair: &[Vec<u32>], above: &[u32]) -> Vec<u32> {
    match pair {
        [low, high] => {
            let mut all = product(high, above);
            add(&mut all, 0, low);
            all
        }
        _ => pair.concat(),
    }
}

/// The product, without zeros in front. By Karatsuba's way three products of the halves do instead of four, so that
/// the cost grows with the length to the power 1.6.
fn product(a: &[u32], b: &[u32]) -> Vec<u32> {
    if a.len().min(b.len()) <= FEW {
        return each_by_each(a, b);
    }
    let half = a.len().max(b.len()).div_ceil(2);
    let (a_low, a_high) = a.split_at(half.min(a.len()));
    let (b_low, b_high) = b.split_at(half.min(b.len()));
    let low = product(a_low, b_low);
    let high = product(a_high, b_high);
    let mut middle = product(&sum(a_low, a_high), &sum(b_low, b_high));
    take(&mut middle, &low);
    take(&mut middle, &high);
    let mut all = low;
    add(&mut all, half, &middle);
    add(&mut all, 2 * half, &high);
    without_zeros(all)
}

fn each_by_each(a: &[u32], b: &[u32]) -> Vec<u32> {
    #[cfg(test)]
    tests::count(a.len() * b.len());
    let mut sums = vec![0; a.len() + b.len()];
    for (place, group) in a.iter().enumerate() {
        for (sum, other) in sums.iter_mut().skip(place).zip(b) {
            *sum += u64::from(*group) * u64::from(*other);
        }
        if place % SUMS == SUMS - 1 {
            carry(&mut sums);
        }
    }
    carry(&mut sums);
    without_zeros(sums.into_iter().map(|sum| sum as u32).collect())
}

/// Makes groups of sums.
fn carry(sums: &mut [u64]) {
    let mut carried = 0;
    for sum in sums {
        let all = *sum + carried;
        carried = all / GROUP;
        *sum = all % GROUP;
    }
}

fn sum(a: &[u32], b: &[u32]) -> Vec<u32> {
    let mut all = a.to_vec();
    add(&mut all, 0, b);
    all
}

/// Adds groups from a place on.
fn add(to: &mut Vec<u32>, place: usize, groups: &[u32]) {
    to.resize(to.len().max(place + groups.len()), 0);
    let mut carry = 0;
    for (to, group) in to.iter_mut().skip(place).zip(groups.iter().chain(repeat(&0))) {
        let all = *to + group + carry;
        carry = u32::from(all >= GROUP as u32);
        *to = all - carry * GROUP as u32;
    }
    if carry > 0 {
        to.push(carry);
    }
}

/// Takes groups off that are no more than what is there.
fn take(from: &mut [u32], groups: &[u32]) {
    let mut borrowed = 0;
    for (from, group) in from.iter_mut().zip(groups.iter().chain(repeat(&0))) {
        let taken = group + borrowed;
        borrowed = u32::from(*from < taken);
        *from = *from + borrowed * GROUP as u32 - taken;
    }
}

fn without_zeros(mut groups: Vec<u32>) -> Vec<u32> {
    while groups.last() == Some(&0) {
        groups.pop();
    }
    groups
}

#[cfg(test)]
mod tests {
    extern crate std;

    use super::*;
    use std::cell::Cell;

    std::thread_local! {
        static PRODUCTS: Cell<usize> = const { Cell::new(0) };
    }

    /// Counts products of two groups.
    pub(super) fn count(products: usize) {
        PRODUCTS.set(PRODUCTS.get() + products);
    }

    /// How many products of two groups the digits of so many bytes take.
    fn products(length: usize) -> usize {
        PRODUCTS.set(0);
        groups(0, &vec![0xA5; length]);
        PRODUCTS.get()
    }

    /// Twice the length takes thrice the products and some more, and not four times.
    #[test]
    fn below_the_square() {
        let counts: Vec<_> = (6..11).map(|doublings| products(BLOCK << doublings)).collect();
        for pair in counts.windows(2) {
            assert!(pair[1] * 10 < pair[0] * 33, "{counts:?}");
        }
    }

    /// The largest groups there are, few and many: (10^n - 1)^2 is n - 1 nines, 8, n - 1 zeros, 1.
    #[test]
    fn nines() {
        for length in [1, 2, SUMS - 1, SUMS, SUMS + 1, FEW, FEW + 1, 2 * FEW, 2 * FEW + 1, 1000] {
            let largest = GROUP as u32 - 1;
            let mut square = vec![0; length];
            square[0] = 1;
            square.push(largest - 1);
            square.resize(2 * length, largest);
            let nines = vec![largest; length];
            assert_eq!(product(&nines, &nines), square);
            assert_eq!(each_by_each(&nines, &nines), square);
        }
    }
}
