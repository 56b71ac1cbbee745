//! Small sets of numbers as bits, with number 0 as the highest bit, which is the form that universe files have.

use std::ops::{BitAnd, BitOr, BitOrAssign, Sub, SubAssign};

macro_rules! bit_set {
    ($(#[$doc:meta])* $name:ident, $bits:ty) => {
        $(#[$doc])*
        #[derive(Clone, Copy, PartialEq, Eq, Default, Debug)]
        pub struct $name($bits);

        impl $name {
            pub const EMPTY: Self = Self(0);

            pub const fn from_bits(bits: $bits) -> Self {
                Self(bits)
            }

            pub const fn bits(self) -> $bits {
                self.0
            }

            /// All numbers below `count`.
            pub fn below(count: u8) -> Self {
                Self(!<$bits>::MAX.checked_shr(count.into()).unwrap_or(0))
            }

            /// The set of one number, which has to be less than the number of bits.
            pub const fn one(number: u8) -> Self {
                Self((1 << (<$bits>::BITS - 1)) >> number)
            }

            pub const fn contains(self, number: u8) -> bool {
                self.0 & Self::one(number).0 != 0
            }

            pub const fn is_empty(self) -> bool {
                self.0 == 0
            }

            pub const fn len(self) -> u32 {
                self.0.count_ones()
            }

            pub fn insert(&mut self, number: u8) {
                self.0 |= Self::one(number).0;
            }

            pub fn remove(&mut self, number: u8) {
                self.0 &= !Self::one(number).0;
            }

            /// The lowest number.
            pub fn first(self) -> Option<u8> {
                (!self.is_empty()).then(|| self.0.leading_zeros() as u8)
            }

            /// The numbers, ascending.
            pub fn iter(mut self) -> impl Iterator<Item = u8> {
                std::iter::from_fn(move || {
                    let number = self.first()?;
                    self.remove(number);
                    Some(number)
                })
            }
        }

        impl BitOr for $name {
            type Output = Self;

            fn bitor(self, other: Self) -> Self {
                Self(self.0 | other.0)
            }
        }

        impl BitAnd for $name {
            type Output = Self;

            fn bitand(self, other: Self) -> Self {
                Self(self.0 & other.0)
            }
        }

        /// What is in the first and not in the second.
        impl Sub for $name {
            type Output = Self;

            fn sub(self, other: Self) -> Self {
                Self(self.0 & !other.0)
            }
        }

        impl BitOrAssign for $name {
            fn bitor_assign(&mut self, other: Self) {
                *self = *self | other;
            }
        }

        impl SubAssign for $name {
            fn sub_assign(&mut self, other: Self) {
                *self = *self - other;
            }
        }
    };
}

bit_set! {
    /// States of one type.
    States, u8
}

bit_set! {
    /// Ports.
    Ports, u32
}

bit_set! {
    /// Pairs by their index, or by their rank.
    Pairs, u128
}

/// A set of instance numbers from 0 to 255.
#[derive(Clone, Copy, PartialEq, Eq, Default, Debug)]
pub struct Numbers([u64; 4]);

impl Numbers {
    pub fn insert(&mut self, number: u8) {
        self.0[usize::from(number / 64)] |= 1 << (number % 64);
    }

    pub fn remove(&mut self, number: u8) {
        self.0[usize::from(number / 64)] &= !(1 << (number % 64));
    }

    pub fn is_empty(&self) -> bool {
        self.0 == [0; 4]
    }

    /// The numbers, ascending.
    pub fn iter(self) -> impl Iterator<Item = u8> {
        let mut words = (0u8..).zip(self.0);
        let (mut place, mut word) = (0, 0u64);
        std::iter::from_fn(move || {
            while word == 0 {
                (place, word) = words.next()?;
            }
            let bit = word.trailing_zeros() as u8;
            word &= word - 1;
            Some(64 * place + bit)
        })
    }
}
