//! A relation on the records of a table as a flat matrix, one byte for each two of them.

#[derive(Clone)]
pub struct Matrix {
    pub size: usize,
    /// Byte `a * size + b` says whether a is related to b.
    cells: Vec<u8>,
}

impl Matrix {
    pub fn empty(size: usize) -> Matrix {
        Matrix { size, cells: vec![0; size * size] }
    }

    /// The matrix of a question about two records.
    pub fn of(size: usize, holds: impl Fn(usize, usize) -> bool) -> Matrix {
        let mut matrix = Matrix::empty(size);
        for a in 0..size {
            for b in 0..size {
                matrix.cells[a * size + b] = holds(a, b) as u8;
            }
        }
        matrix
    }

    pub fn has(&self, a: usize, b: usize) -> bool {
        self.cells[a * self.size + b] != 0
    }

    pub fn set(&mut self, a: usize, b: usize) {
        self.cells[a * self.size + b] = 1;
    }

    /// One or more steps.
    pub fn closure(mut self) -> Matrix {
        let size = self.size;
        for middle in 0..size {
            for a in 0..size {
                if self.has(a, middle) {
                    for b in 0..size {
                        self.cells[a * size + b] |= self.cells[middle * size + b];
                    }
                }
            }
        }
        self
    }

    /// A step of this relation, then one of the other.
    pub fn then(&self, other: &Matrix) -> Matrix {
        let size = self.size;
        let mut both = Matrix::empty(size);
        for a in 0..size {
            for middle in 0..size {
                if self.has(a, middle) {
                    for b in 0..size {
                        both.cells[a * size + b] |= other.cells[middle * size + b];
                    }
                }
            }
        }
        both
    }
}
