//! Stand-in for the crate `cfg`: its symbol, a number of 32 bits.

pub use self::symbol::Symbol;

pub mod symbol {
    #[derive(Clone, Copy, Debug, Eq, PartialEq, Ord, PartialOrd)]
    pub struct Symbol(u32);

    impl Symbol {
        pub fn usize(self) -> usize {
            self.0 as usize
        }
    }

    impl From<u32> for Symbol {
        fn from(number: u32) -> Self {
            Symbol(number)
        }
    }

    impl From<usize> for Symbol {
        fn from(number: usize) -> Self {
            Symbol(number as u32)
        }
    }
}
