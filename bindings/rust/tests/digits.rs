//! Decimals as text: the digits of coefficients of any length, and what they cost.

#![cfg(feature = "alloc")]

use ion_map::decimal;
use std::hint::black_box;
use std::time::{Duration, Instant};

/// The digits of a magnitude by the plain way, a byte after the other, whose cost grows with the square of its length.
fn plain(magnitude: &[u8]) -> String {
    const GROUP: u64 = 1_000_000_000;
    let mut groups = vec![0];
    for byte in magnitude {
        let mut carry = u64::from(*byte);
        for group in &mut groups {
            let sum = *group * 256 + carry;
            *group = sum % GROUP;
            carry = sum / GROUP;
        }
        if carry > 0 {
            groups.push(carry);
        }
    }
    let text: String = groups.iter().rev().map(|group| format!("{group:09}")).collect();
    match text.trim_start_matches('0') {
        "" => "0".to_string(),
        digits => digits.to_string(),
    }
}

/// A decimal's body with the exponent 0 and this magnitude.
fn body(negative: bool, magnitude: &[u8]) -> Vec<u8> {
    let first = if negative { 0x80 } else { 0 };
    [&[0x80, first], magnitude].concat()
}

fn text(body: &[u8]) -> String {
    decimal(body, 0..body.len()).unwrap().to_string()
}

fn bytes(length: usize, seed: u64) -> Vec<u8> {
    let mut state = seed;
    let mut next = || {
        state = state
            .wrapping_mul(6364136223846793005)
            .wrapping_add(1442695040888963407);
        (state >> 33) as u8
    };
    (0..length).map(|_| next()).collect()
}

#[test]
fn of_any_length() {
    for length in (0..300).chain([319, 320, 321, 511, 512, 513, 1000, 1023, 1024, 1025, 2000]) {
        let mut one = vec![0; length];
        if let Some(first) = one.first_mut() {
            *first = 1;
        }
        let mut low = vec![0; length];
        if let Some(last) = low.last_mut() {
            *last = 7;
        }
        for magnitude in [bytes(length, 1), vec![0xFF; length], vec![0; length], one, low] {
            assert_eq!(
                text(&body(false, &magnitude)),
                format!("{}d0", plain(&magnitude)),
                "{magnitude:02X?}"
            );
        }
    }
    let magnitude = bytes(300, 2);
    assert_eq!(text(&body(true, &magnitude)), format!("-{}d0", plain(&magnitude)));
}

/// Powers of ten and their neighbours, in which zeros and nines run over all groups.
#[test]
fn of_powers_of_ten() {
    let mut power = vec![1];
    for zeros in 1..600 {
        let mut carry = 0;
        for byte in power.iter_mut().rev() {
            let product = u32::from(*byte) * 10 + carry;
            (*byte, carry) = (product as u8, product >> 8);
        }
        if carry > 0 {
            power.insert(0, carry as u8);
        }
        assert_eq!(text(&body(false, &power)), format!("1{}d0", "0".repeat(zeros)));
        let mut less = power.clone();
        for byte in less.iter_mut().rev() {
            let borrowed;
            (*byte, borrowed) = byte.overflowing_sub(1);
            if !borrowed {
                break;
            }
        }
        assert_eq!(text(&body(false, &less)), format!("{}d0", "9".repeat(zeros)));
    }
}

/// 80 KB take less than half of what the plain way takes, which is 64 times what it takes for an eighth of it. (It is a tenth
/// and less; both are measured one beside the other, so that a slow or a busy machine changes neither much.)
#[test]
fn of_a_long_coefficient() {
    let fastest = |times: usize, call: &dyn Fn() -> usize| -> Duration {
        let time = |_| {
            let began = Instant::now();
            black_box(call());
            began.elapsed()
        };
        (0..times).map(time).min().unwrap()
    };
    let eighth = bytes(10_000, 3);
    let long = body(false, &bytes(80_000, 4));
    let by_plain = fastest(3, &|| plain(&eighth).len()) * 64;
    let by_display = fastest(2, &|| text(&long).len());
    assert!(by_display < by_plain / 2, "{by_display:?} of {by_plain:?}");
    assert_eq!(text(&body(false, &eighth)), format!("{}d0", plain(&eighth)));
}
