//! Stand-in for the crate `bit_matrix`: rows of bits, one behind the other. Symbol s is bit s % 64, from the low end, of block s / 64 of a row.

use std::ops::{Deref, DerefMut, Index, IndexMut, Range};

const BITS: usize = 64;

#[derive(Clone)]
pub struct BitMatrix {
    blocks: Vec<u64>,
    columns: usize,
}

#[repr(transparent)]
pub struct BitRow {
    blocks: [u64],
}

impl BitMatrix {
    pub fn new(rows: usize, columns: usize) -> Self {
        let mut matrix = BitMatrix { blocks: vec![], columns };
        matrix.grow(rows, false);
        matrix
    }

    fn row_blocks(&self) -> usize {
        (self.columns + BITS - 1) / BITS
    }

    fn place(&self, row: usize) -> Range<usize> {
        row * self.row_blocks()..(row + 1) * self.row_blocks()
    }

    pub fn grow(&mut self, more_rows: usize, value: bool) {
        assert!(!value, "the recognizer grows by zero rows only");
        let length = self.blocks.len() + more_rows * self.row_blocks();
        self.blocks.resize(length, 0);
    }

    pub fn truncate(&mut self, rows: usize) {
        let length = rows * self.row_blocks();
        self.blocks.truncate(length);
    }

    pub fn set(&mut self, row: usize, column: usize, value: bool) {
        assert!(column < self.columns);
        let block = &mut self[row].blocks[column / BITS];
        let bit = 1 << (column % BITS);
        if value {
            *block |= bit;
        } else {
            *block &= !bit;
        }
    }

    pub fn transitive_closure(&mut self) {
        let rows = self.columns;
        for middle in 0..rows {
            let reached = self[middle].to_vec();
            for row in 0..rows {
                if self[row].get(middle) {
                    for (to, from) in self[row].iter_mut().zip(&reached) {
                        *to |= *from;
                    }
                }
            }
        }
    }

    pub fn iter_row(&self, row: usize) -> row::Iter {
        row::Iter::new(&self[row], self.columns)
    }
}

impl Index<usize> for BitMatrix {
    type Output = BitRow;

    fn index(&self, row: usize) -> &BitRow {
        // A row is laid out as its blocks.
        unsafe { &*(&self.blocks[self.place(row)] as *const [u64] as *const BitRow) }
    }
}

impl IndexMut<usize> for BitMatrix {
    fn index_mut(&mut self, row: usize) -> &mut BitRow {
        let place = self.place(row);
        unsafe { &mut *(&mut self.blocks[place] as *mut [u64] as *mut BitRow) }
    }
}

impl BitRow {
    pub fn get(&self, column: usize) -> bool {
        self.blocks[column / BITS] >> (column % BITS) & 1 == 1
    }
}

impl Index<usize> for BitRow {
    type Output = bool;

    fn index(&self, column: usize) -> &bool {
        static YES: bool = true;
        static NO: bool = false;
        if self.get(column) { &YES } else { &NO }
    }
}

impl Deref for BitRow {
    type Target = [u64];

    fn deref(&self) -> &[u64] {
        &self.blocks
    }
}

impl DerefMut for BitRow {
    fn deref_mut(&mut self) -> &mut [u64] {
        &mut self.blocks
    }
}

pub mod row {
    use super::BitRow;

    pub struct Iter<'a> {
        row: &'a BitRow,
        column: usize,
        columns: usize,
    }

    impl<'a> Iter<'a> {
        pub(super) fn new(row: &'a BitRow, columns: usize) -> Self {
            Iter { row, column: 0, columns }
        }
    }

    impl<'a> Iterator for Iter<'a> {
        type Item = bool;

        fn next(&mut self) -> Option<bool> {
            if self.column == self.columns {
                return None;
            }
            self.column += 1;
            Some(self.row.get(self.column - 1))
        }
    }
}
