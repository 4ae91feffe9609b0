//! Text into a lent buffer.

/// A buffer, and how much of it is written.
pub struct Text<'a> {
    out: &'a mut [u8],
    at: usize,
}

impl Text<'_> {
    pub fn new(out: &mut [u8]) -> Text<'_> {
        Text { out, at: 0 }
    }

    /// How many bytes are written.
    pub fn length(&self) -> usize {
        self.at
    }

    /// Writes bytes, if there is room.
    pub fn put<const N: usize>(&mut self, bytes: &[u8; N]) -> Option<()> {
        let place = self.out.get_mut(self.at..)?.first_chunk_mut()?;
        *place = *bytes;
        self.at += N;
        Some(())
    }

    /// Writes a label and a number, if there is room.
    pub fn put_field<const N: usize>(&mut self, label: &[u8; N], number: u32) -> Option<()> {
        self.put(label)?;
        self.put_number(number)
    }

    fn put_number(&mut self, mut number: u32) -> Option<()> {
        if number < 10 {
            return self.put(&[b'0' + number as u8]);
        }
        let length = number.ilog10() as usize + 1;
        let digits = self.out.get_mut(self.at..self.at + length)?;
        let (one, pairs) = digits.as_rchunks_mut::<2>();
        for pair in pairs.iter_mut().rev() {
            *pair = PAIRS[number as usize % 100];
            number /= 100;
        }
        if let [digit] = one {
            *digit = b'0' + number as u8;
        }
        self.at += length;
        Some(())
    }
}

/// The digits of the numbers below 100.
const PAIRS: [[u8; 2]; 100] = {
    let mut pairs = [[0; 2]; 100];
    let mut n = 0;
    while n < 100 {
        pairs[n] = [b'0' + n as u8 / 10, b'0' + n as u8 % 10];
        n += 1;
    }
    pairs
};
