//! The part of `std::simd` that the proved sources use: eight bytes are compared at a time, within a u64, on any target.

/// N bytes, a multiple of 8.
#[derive(Clone, Copy)]
pub struct Simd<T, const N: usize>([T; N]);

#[allow(non_camel_case_types)]
pub type u8x16 = Simd<u8, 16>;

/// The results of a comparison: bit i is that of lane i.
#[derive(Clone, Copy)]
pub struct Mask(u64);

impl Mask {
    #[inline(always)]
    pub fn to_bitmask(self) -> u64 {
        self.0
    }
}

/// The highest bit of each byte.
const HIGH: u64 = 0x8080_8080_8080_8080;

impl<const N: usize> Simd<u8, N> {
    #[inline(always)]
    pub fn from_slice(bytes: &[u8]) -> Self {
        let mut lanes = [0; N];
        lanes.copy_from_slice(&bytes[..N]);
        Simd(lanes)
    }

    #[inline(always)]
    pub fn splat(byte: u8) -> Self {
        Simd([byte; N])
    }

    /// Compares 8 lanes at a time.
    #[inline(always)]
    pub fn simd_eq(self, other: Self) -> Mask {
        let mut bits = 0;
        for i in 0..N / 8 {
            let high = !differ(eight(&self.0, i), eight(&other.0, i)) & HIGH;
            // Moves bit 8 j of a byte to bit 56 + j, and to no bit that another byte reaches.
            bits |= ((high >> 7).wrapping_mul(0x0102_0408_1020_4080) >> 56) << (8 * i);
        }
        Mask(bits)
    }
}

/// Sets the highest bit of each byte in which the two words differ.
#[inline(always)]
fn differ(a: u64, b: u64) -> u64 {
    let bits = a ^ b;
    ((bits & !HIGH) + !HIGH) | bits
}

#[inline(always)]
fn eight(bytes: &[u8], i: usize) -> u64 {
    let mut eight = [0; 8];
    eight.copy_from_slice(&bytes[8 * i..8 * i + 8]);
    u64::from_le_bytes(eight)
}

#[cfg(test)]
mod tests {
    use super::Simd;

    #[test]
    fn each_pair_of_bytes_is_compared() {
        for a in 0..=u8::MAX {
            for b in 0..=u8::MAX {
                let mut lanes = [b; 8];
                lanes[(a ^ b) as usize % 8] = a;
                let (x, y) = (Simd::<u8, 8>::from_slice(&lanes), Simd::splat(b));
                let bits = |holds: fn(&u8, &u8) -> bool| {
                    (0..8).map(|i| u64::from(holds(&lanes[i], &b)) << i).sum::<u64>()
                };
                assert_eq!(x.simd_eq(y).to_bitmask(), bits(|a, b| a == b));
            }
        }
    }
}
