//! A set of the names 0 to 255.

use std::ops::{BitOr, Sub};

#[derive(Clone, Copy, PartialEq, Eq, Default, Debug)]
pub struct Names([u64; 4]);

impl Names {
    pub fn with(mut self, name: usize) -> Names {
        self.0[name / 64] |= 1 << (name % 64);
        self
    }

    pub fn without(mut self, name: usize) -> Names {
        self.0[name / 64] &= !(1 << (name % 64));
        self
    }

    pub fn has(self, name: usize) -> bool {
        self.0[name / 64] >> (name % 64) & 1 == 1
    }

    /// The names, lowest first.
    pub fn rising(self) -> impl Iterator<Item = usize> {
        (0..256).filter(move |name| self.has(*name))
    }
}

impl FromIterator<usize> for Names {
    fn from_iter<I: IntoIterator<Item = usize>>(names: I) -> Names {
        names.into_iter().fold(Names::default(), Names::with)
    }
}

impl BitOr for Names {
    type Output = Names;

    fn bitor(self, other: Names) -> Names {
        Names([0, 1, 2, 3].map(|i| self.0[i] | other.0[i]))
    }
}

impl Sub for Names {
    type Output = Names;

    fn sub(self, other: Names) -> Names {
        Names([0, 1, 2, 3].map(|i| self.0[i] & !other.0[i]))
    }
}
