//! Areas by an ordinary implementation: slices are copied and filled as a whole.

use ordinary::area::{BLANK, FINISHED};
use ordinary::rows;

/// How many frames are finished, and where the last of them ends; None where the log has a fault.
pub fn walked(area: &[u8]) -> Option<(usize, usize)> {
    let (mut count, mut end) = (0, 0);
    while let Some(&flag) = area.get(end).filter(|&&flag| flag != BLANK) {
        if flag != FINISHED {
            return None;
        }
        end += 1 + rows::read(&area[end + 1..]).ok()?.length;
        count += 1;
    }
    Some((count, end))
}

/// Appends a record by as many stores as are allowed, and gives those made.
pub fn append(area: &mut [u8], bytes: &[u8], allowed: usize) -> Option<usize> {
    let (_, end) = walked(area)?;
    let length = rows::read(bytes).ok()?.length;
    let free = &mut area[end..];
    if free.len() <= length || free.iter().any(|&byte| byte != BLANK) {
        return None;
    }
    let front = allowed.min(length);
    free[1..][..front].copy_from_slice(&bytes[..front]);
    if allowed > length {
        free[0] = FINISHED;
    }
    Some(allowed.min(length + 1))
}

/// Repairs an area, and gives how many bytes were not blank.
pub fn repair(area: &mut [u8]) -> Option<usize> {
    let (_, end) = walked(area)?;
    let free = &mut area[end..];
    let count = free.iter().filter(|&&byte| byte != BLANK).count();
    free.fill(BLANK);
    Some(count)
}
