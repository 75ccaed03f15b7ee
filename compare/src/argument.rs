//! The arguments of cases and calls in a script, most significant byte first.

use std::fmt::LowerHex;
use std::marker::PhantomData;

/// An argument: a number with a fixed number of bits, or a list of such numbers.
pub trait Argument: Sized {
    /// Reads the argument from the front of a script; `None` if it is cut short.
    fn read(script: &mut &[u8]) -> Option<Self>;

    fn write(&self, script: &mut Vec<u8>);

    /// A readable form: signed and small numbers in decimal, others in hexadecimal.
    fn shown(&self) -> String;
}

macro_rules! numbers {
    ($($t:ty)*) => {
        $(
            impl Argument for $t {
                fn read(script: &mut &[u8]) -> Option<Self> {
                    let (bytes, rest) = script.split_first_chunk()?;
                    *script = rest;
                    Some(Self::from_be_bytes(*bytes))
                }

                fn write(&self, script: &mut Vec<u8>) {
                    script.extend_from_slice(&self.to_be_bytes());
                }

                fn shown(&self) -> String {
                    if Self::MIN == 0 && i128::from(*self) >= 1000 {
                        format!("{self:#x}")
                    } else {
                        format!("{self}")
                    }
                }
            }
        )*
    };
}

numbers!(u8 u16 u32 u64 i32);

/// How many numbers of a list are shown.
const SHOWN: usize = 255;

/// Numbers of one type, with their number before them as an `N`.
#[derive(Clone, Debug, PartialEq)]
pub struct List<N, T>(Vec<T>, PhantomData<N>);

/// Units of 16 bits.
pub type Units<N> = List<N, u16>;

impl<N: TryFrom<usize>, T> List<N, T> {
    /// The list; `None` if there are too many.
    pub fn new(numbers: Vec<T>) -> Option<Self> {
        N::try_from(numbers.len()).is_ok().then_some(Self(numbers, PhantomData))
    }
}

impl<N, T> List<N, T> {
    pub fn as_slice(&self) -> &[T] {
        &self.0
    }
}

impl<N, T> Argument for List<N, T>
where
    N: Argument + TryFrom<usize> + Into<u64>,
    T: Argument + LowerHex,
{
    fn read(script: &mut &[u8]) -> Option<Self> {
        let count = N::read(script)?;
        let numbers = (0..count.into()).map(|_| T::read(script));
        numbers.collect::<Option<_>>().and_then(Self::new)
    }

    fn write(&self, script: &mut Vec<u8>) {
        let count = N::try_from(self.0.len()).ok();
        count.expect("there are not too many").write(script);
        self.0.iter().for_each(|number| number.write(script));
    }

    fn shown(&self) -> String {
        let first = &self.0[..self.0.len().min(SHOWN)];
        let more = self.0.len() - first.len();
        let more = if more == 0 { String::new() } else { format!(" and {more} more") };
        let first: Vec<String> = first.iter().map(|number| format!("{number:x}")).collect();
        format!("[{}]{more}", first.join(", "))
    }
}

#[cfg(test)]
mod tests {
    use super::*;

    #[test]
    fn units_are_written_and_read() {
        let units = Units::<u8>::new(vec![0x41, 0xD800]).unwrap();
        let mut script = Vec::new();
        units.write(&mut script);
        assert_eq!(script, [2, 0, 0x41, 0xD8, 0]);
        assert_eq!(Units::read(&mut script.as_slice()), Some(units.clone()));
        assert_eq!(Units::<u8>::read(&mut &script[..4]), None);
        assert_eq!(units.shown(), "[41, d800]");
        assert_eq!(Units::<u8>::new(vec![0; 256]), None);
    }

    #[test]
    fn their_number_may_be_longer() {
        let units = Units::<u32>::new(vec![0x41; 256]).unwrap();
        let mut script = Vec::new();
        units.write(&mut script);
        assert_eq!(script[..6], [0, 0, 1, 0, 0, 0x41]);
        assert_eq!(Units::read(&mut script.as_slice()), Some(units.clone()));
        assert_eq!(Units::<u32>::read(&mut [0xFF; 20].as_slice()), None);
        assert!(units.shown().ends_with(", 41] and 1 more"));
    }
}
