//! Numbers read one after the other, quickly where they take one byte.

use crate::answer::{Refusal, ENDS, FORM, RANGE};
use crate::limits::GROUPS;

pub struct Reader<'a> {
    pub bytes: &'a [u8],
    pub place: usize,
}

impl Reader<'_> {
    pub fn new(bytes: &[u8]) -> Reader<'_> {
        Reader { bytes, place: 0 }
    }

    /// A number from `least` to `most`.
    #[inline(always)]
    pub fn number(&mut self, least: u32, most: u32) -> Result<u32, Refusal> {
        match self.bytes.get(self.place) {
            Some(&byte) if byte < 128 => {
                let value = u32::from(byte);
                if value < least || value > most {
                    return refuse(RANGE, self.place);
                }
                self.place += 1;
                Ok(value)
            }
            _ => self.long_number(least, most),
        }
    }

    fn long_number(&mut self, least: u32, most: u32) -> Result<u32, Refusal> {
        let mut value = 0u64;
        for group in 0..GROUPS {
            let Some(&byte) = self.bytes.get(self.place + group) else {
                return refuse(ENDS, self.place);
            };
            value |= u64::from(byte & 127) << (7 * group);
            if byte < 128 {
                if group > 0 && byte == 0 {
                    return refuse(FORM, self.place);
                }
                if value < u64::from(least) || value > u64::from(most) {
                    return refuse(RANGE, self.place);
                }
                self.place += group + 1;
                return Ok(value as u32);
            }
        }
        refuse(FORM, self.place)
    }

    /// A number below `count`; below 0 there is none.
    #[inline(always)]
    pub fn below(&mut self, count: usize) -> Result<usize, Refusal> {
        let place = self.place;
        match self.number(0, u32::MAX)? as usize {
            number if number < count => Ok(number),
            _ => refuse(RANGE, place),
        }
    }
}

pub fn refuse<T>(number: u32, place: usize) -> Result<T, Refusal> {
    Err(Refusal { number, place })
}
