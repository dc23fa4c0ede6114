// Integers at the ends of their types, and signs that stand beside each other.
const LEAST = -2147483647i - 1;
const NO_REST = LEAST % -1;
const REST = LEAST % -3;
const ABSTRACT_REST = -2147483648 % -1;
const TWO_SIGNS = --4;
const TWICE_NEGATIVE = - -4;
const NO_DIFFERENCE = 4--4;
const DIFFERENCE = 4- -4;
const LEAST_ABSTRACT = -1 << 63;
const NOTHING = 0 << 63;
const TOO_LARGE = 1 << 63;
const TOO_FAR = 0 << 64;
const SIGN_LOST = 1i << 31;
const LAST_BIT = 1u << 31;
struct Negative { @size(TWO_SIGNS) a: f32 }
struct Subtracted { @size(NO_DIFFERENCE) a: f32 }
struct Signs { @size(--8) a: f32 }
struct Kept { a: ref<function, i32> }
struct Sized {
    @size(TWICE_NEGATIVE) a: f32,
    @size(DIFFERENCE) b: f32,
    @size(16 + NOTHING + (LEAST_ABSTRACT >> 63)) c: f32,
    @size((LAST_BIT >> 27) + 4) d: f32,
    @size(14 + REST) e: f32,
    @size(8 + ABSTRACT_REST) f: f32,
}
