//! Sets of records as rows of words, one bit for each record.

const BITS: usize = u64::BITS as usize;

/// Record n is bit n mod 64 of word n div 64.
#[derive(Clone, Copy, PartialEq, Eq)]
pub struct Row<const W: usize>([u64; W]);

impl<const W: usize> Row<W> {
    pub const EMPTY: Row<W> = Row([0; W]);

    /// Every number from this one on.
    #[inline(always)]
    pub fn from(least: usize) -> Row<W> {
        Row(std::array::from_fn(|k| match least.saturating_sub(BITS * k) {
            below @ 0..BITS => u64::MAX << below,
            _ => 0,
        }))
    }

    // The remainder by W changes no number that is in range, and spares the test whether it is.

    #[inline(always)]
    pub fn has(&self, number: usize) -> bool {
        self.0[number / BITS % W] >> (number % BITS) & 1 != 0
    }

    #[inline(always)]
    pub fn add(&mut self, number: usize) {
        self.0[number / BITS % W] |= 1 << (number % BITS);
    }

    #[inline(always)]
    pub fn remove(&mut self, number: usize) {
        self.0[number / BITS % W] &= !(1 << (number % BITS));
    }

    #[inline(always)]
    pub fn with(mut self, number: usize) -> Row<W> {
        self.add(number);
        self
    }

    #[inline(always)]
    pub fn or(self, other: Row<W>) -> Row<W> {
        Row(std::array::from_fn(|k| self.0[k] | other.0[k]))
    }

    #[inline(always)]
    pub fn and(self, other: Row<W>) -> Row<W> {
        Row(std::array::from_fn(|k| self.0[k] & other.0[k]))
    }

    #[inline(always)]
    pub fn without(self, other: Row<W>) -> Row<W> {
        Row(std::array::from_fn(|k| self.0[k] & !other.0[k]))
    }

    #[inline(always)]
    pub fn is_empty(&self) -> bool {
        self.0.iter().fold(0, |all, word| all | word) == 0
    }

    #[inline(always)]
    pub fn lowest(&self) -> Option<usize> {
        let k = (0..W).find(|&k| self.0[k] != 0)?;
        Some(BITS * k + self.0[k].trailing_zeros() as usize)
    }

    #[inline(always)]
    pub fn highest(&self) -> Option<usize> {
        let k = (0..W).rev().find(|&k| self.0[k] != 0)?;
        Some(BITS * k + self.0[k].ilog2() as usize)
    }

    #[inline(always)]
    pub fn each(self, mut with: impl FnMut(usize)) {
        for (k, mut word) in self.0.into_iter().enumerate() {
            while word != 0 {
                with(BITS * k + word.trailing_zeros() as usize);
                word &= word - 1;
            }
        }
    }

    #[inline(always)]
    pub fn each_downward(self, mut with: impl FnMut(usize)) {
        for (k, mut word) in self.0.into_iter().enumerate().rev() {
            while word != 0 {
                let bit = word.ilog2() as usize;
                with(BITS * k + bit);
                word ^= 1 << bit;
            }
        }
    }
}

#[cfg(test)]
mod tests {
    use super::Row;

    fn row(numbers: &[usize]) -> Row<4> {
        numbers.iter().fold(Row::EMPTY, |row, &number| row.with(number))
    }

    #[test]
    fn a_row_holds_what_was_added() {
        let numbers = [0, 63, 64, 127, 128, 199, 255];
        let mut upward = Vec::new();
        row(&numbers).each(|number| upward.push(number));
        assert_eq!(upward, numbers);
        let mut downward = Vec::new();
        row(&numbers).each_downward(|number| downward.insert(0, number));
        assert_eq!(downward, numbers);
        assert_eq!((row(&numbers).lowest(), row(&numbers).highest()), (Some(0), Some(255)));
        assert_eq!((row(&[]).lowest(), row(&[]).highest()), (None, None));
    }

    #[test]
    fn from_a_number_on() {
        for least in [0, 1, 63, 64, 65, 199, 255, 256] {
            let from = Row::<4>::from(least);
            assert!((0..256).all(|number| from.has(number) == (number >= least)), "{least}");
        }
    }
}
