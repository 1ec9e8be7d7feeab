//! Arrays of numbers as bytes, little-endian.

/// A number of a state's array.
pub(crate) trait Number: Copy + Default {
    fn write(self, out: &mut Vec<u8>);
    /// The number in front of bytes, which go on after it; there are enough of them.
    fn read(bytes: &mut &[u8]) -> Self;
}

macro_rules! number {
    ($type:ty) => {
        impl Number for $type {
            fn write(self, out: &mut Vec<u8>) {
                out.extend_from_slice(&self.to_le_bytes());
            }

            fn read(bytes: &mut &[u8]) -> Self {
                let (first, rest) = bytes.split_first_chunk().expect("lengths were tested");
                *bytes = rest;
                Self::from_le_bytes(*first)
            }
        }
    };
}

number!(u8);
number!(u16);
number!(u32);

pub(crate) fn write_numbers<T: Number>(out: &mut Vec<u8>, numbers: &[T]) {
    for n in numbers {
        n.write(out);
    }
}

pub(crate) fn read_numbers<T: Number, const N: usize>(bytes: &mut &[u8]) -> [T; N] {
    let mut numbers = [T::default(); N];
    for n in &mut numbers {
        *n = T::read(bytes);
    }
    numbers
}
