//! What Rust's integers have since 1.87: casts that keep the bits, and whether one is a multiple of another.

pub trait RattleSigned {
    type Unsigned;
    fn rattle_cast_unsigned(self) -> Self::Unsigned;
}

pub trait RattleUnsigned {
    type Signed;
    fn rattle_cast_signed(self) -> Self::Signed;
    fn rattle_is_multiple_of(self, other: Self) -> bool;
}

macro_rules! casts {
    ($($signed:ident $unsigned:ident;)*) => {
        $(
            impl RattleSigned for $signed {
                type Unsigned = $unsigned;

                #[inline(always)]
                fn rattle_cast_unsigned(self) -> $unsigned {
                    self as $unsigned
                }
            }

            impl RattleUnsigned for $unsigned {
                type Signed = $signed;

                #[inline(always)]
                fn rattle_cast_signed(self) -> $signed {
                    self as $signed
                }

                #[inline(always)]
                fn rattle_is_multiple_of(self, other: $unsigned) -> bool {
                    self.checked_rem(other).unwrap_or(self) == 0
                }
            }
        )*
    };
}

casts! {
    i32 u32;
    i64 u64;
}
