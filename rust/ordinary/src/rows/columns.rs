//! An order's columns out of its rows.

use super::{Rows, Set};

/// The columns of an order of `count` events: the rows as a square of bits, turned over its diagonal.
/// Every block of bits is exchanged with the one across the diagonal, then in each block likewise;
/// beyond the events there are only zeros, so the first block is no greater than they need.
pub fn columns(rows: &Rows, count: usize) -> Rows {
    let mut turned = *rows;
    let side = count.next_power_of_two();
    let square = &mut turned[..side];
    if side > 32 {
        exchange::<32>(square);
    }
    if side > 16 {
        exchange::<16>(square);
    }
    if side > 8 {
        exchange::<8>(square);
    }
    if side > 4 {
        exchange::<4>(square);
    }
    if side > 2 {
        exchange::<2>(square);
    }
    if side > 1 {
        exchange::<1>(square);
    }
    turned
}

/// Exchanges the two blocks beside the diagonal in every square of twice their size.
#[inline(always)]
fn exchange<const SIZE: usize>(rows: &mut [Set]) {
    let low = Set::MAX / ((1 << SIZE) + 1);
    for square in rows.chunks_exact_mut(2 * SIZE) {
        let (upper, lower) = square.split_at_mut(SIZE);
        for (upper, lower) in upper.iter_mut().zip(lower) {
            let other = (*upper >> SIZE ^ *lower) & low;
            *upper ^= other << SIZE;
            *lower ^= other;
        }
    }
}
