//! Reading a request line: a name, then whole numbers, each after one space.
//! A number has at most one minus and a size that fits 64 bits.

use crate::Instead;

const MOST: usize = 11;

pub struct Numbers {
    count: usize,
    held: [i128; MOST],
}

impl Numbers {
    /// The numbers, if there are just as many as the request wants.
    pub fn all<const N: usize>(&self) -> Result<[i128; N], Instead> {
        self.held[..self.count]
            .try_into()
            .map_err(|_| Instead::Unread)
    }

    /// The same in two parts.
    pub fn parts<const M: usize, const N: usize>(&self) -> Result<([i128; M], [i128; N]), Instead> {
        let all = &self.held[..self.count];
        let (first, others) = all.split_first_chunk().ok_or(Instead::Unread)?;
        Ok((*first, others.try_into().map_err(|_| Instead::Unread)?))
    }
}

/// The name and the numbers of a line.
pub fn split(line: &[u8]) -> Result<(&[u8], Numbers), Instead> {
    let mut fields = line.split(|&byte| byte == b' ');
    let name = fields.next().unwrap_or(b"");
    let mut numbers = Numbers {
        count: 0,
        held: [0; MOST],
    };
    for field in fields {
        let place = numbers.held.get_mut(numbers.count).ok_or(Instead::Unread)?;
        *place = number(field).ok_or(Instead::Unread)?;
        numbers.count += 1;
    }
    Ok((name, numbers))
}

fn number(field: &[u8]) -> Option<i128> {
    let (below, digits) = match field {
        [b'-', rest @ ..] => (true, rest),
        _ => (false, field),
    };
    if digits.is_empty() {
        return None;
    }
    let mut size: u64 = 0;
    for &byte in digits {
        if !byte.is_ascii_digit() {
            return None;
        }
        size = size.checked_mul(10)?.checked_add(u64::from(byte - b'0'))?;
    }
    let size = i128::from(size);
    Some(if below { -size } else { size })
}
