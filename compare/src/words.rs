//! Words at a place, against endian.rs: where all bytes stand, and where the rest counts as 0.

use crate::Run;
use crate::inputs::{big, lists};
use crate::limits;
use crate::report::hex;
use fetulombo::{LIMIT, Order};
use oracle::endian::{Endianness, U16, U32, U64};

pub fn compare(run: &mut Run) {
    for bytes in lists(&[0, 1, 0x80, 0xff], 5) {
        for at in 0..=6 {
            one(run, &bytes, at);
        }
    }
    for _ in 0..run.times(1_000_000) {
        let length = run.random.below(20);
        let bytes = run.random.bytes(length, 8);
        let at = run.random.near(&[0, length as u64, u64::MAX]) as usize;
        one(run, &bytes, at);
    }
}

pub fn limits(run: &mut Run, parts: &mut limits::Parts) {
    for &length in run.limits.lengths() {
        parts.zeros[..8].fill(7);
        parts.zeros[length - 8..length].fill(7);
        for at in [0, length - 7, length - 1, length, usize::MAX] {
            one(run, &parts.zeros[..length], at);
        }
        parts.zeros.renew();
    }
}

fn one(run: &mut Run, bytes: &[u8], at: usize) {
    // The bytes from the place on, and zeros.
    let mut eight = [0; 8];
    for (to, from) in eight.iter_mut().zip(bytes.get(at..).unwrap_or(&[])) {
        *to = *from;
    }
    let [a, b, c, d, ..] = eight;
    let fits = bytes.len() <= LIMIT;
    for order in [Order::Little, Order::Big] {
        let endian = match big(order) {
            true => Endianness::Big,
            false => Endianness::Little,
        };
        let input = || format!("{order:?} {} at {at}", hex(bytes));
        let ours = fetulombo::u16_at(order, bytes, at).map_err(|r| r.number());
        let theirs = if fits {
            Ok(U16::<Endianness>::from_bytes([a, b]).get(endian))
        } else {
            Err(1)
        };
        run.report.same("u16_at", ours, theirs, |_| "word", input);
        let ours = fetulombo::u32_at(order, bytes, at).map_err(|r| r.number());
        let theirs = if fits {
            Ok(U32::<Endianness>::from_bytes([a, b, c, d]).get(endian))
        } else {
            Err(1)
        };
        run.report.same("u32_at", ours, theirs, |_| "word", input);
        let ours = fetulombo::u64_at(order, bytes, at).map_err(|r| r.number());
        let theirs = if fits {
            Ok(U64::<Endianness>::from_bytes(eight).get(endian))
        } else {
            Err(1)
        };
        run.report.same("u64_at", ours, theirs, |_| "word", input);
    }
}
