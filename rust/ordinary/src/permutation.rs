//! The permutations of the labels 0, 1, 2, 3, numbered in dictionary order.

use crate::limits::LABELS;

/// How many there are.
pub const COUNT: u64 = factorial(LABELS as u64);

const fn factorial(n: u64) -> u64 {
    if n == 0 {
        1
    } else {
        n * factorial(n - 1)
    }
}

/// Where each label goes.
pub type Images = [usize; LABELS];

/// The images of permutation `q`. A number that is no permutation's moves nothing.
pub fn images(q: u64) -> Images {
    let mut left: Vec<usize> = (0..LABELS).collect();
    let mut rest = if q < COUNT { q } else { 0 };
    std::array::from_fn(|i| {
        let later = factorial((LABELS - 1 - i) as u64);
        let image = left.remove((rest / later) as usize);
        rest %= later;
        image
    })
}

/// The number of a permutation.
pub fn numbered(images: Images) -> u64 {
    let same = |&q: &u64| self::images(q) == images;
    (0..COUNT).find(same).expect("a permutation")
}

/// First one and then the other.
pub fn composite(first: u64, then: u64) -> u64 {
    let (first, then) = (images(first), images(then));
    numbered(std::array::from_fn(|x| then[first[x]]))
}

/// The permutation that undoes `q`.
pub fn inverse(q: u64) -> u64 {
    let mut back = [0; LABELS];
    for (x, image) in images(q).into_iter().enumerate() {
        back[image] = x;
    }
    numbered(back)
}

/// Whether `q` is a permutation number that maps the labels below `n` onto themselves.
pub fn fits(q: u64, n: usize) -> bool {
    q < COUNT && images(q)[..n.min(LABELS)].iter().all(|&image| image < n)
}
