// Numbers as the 16 bits of an f16, and back.

const SMALLEST_NORMAL = 2 ** -14;
const ROUNDED_UP = 65520; // from here on the nearest f16 is infinity

/** The bits of a number as an f16, rounded to the nearest one, and to the even one of two. */
export function bitsOfF16(value) {
  const sign = value < 0 || Object.is(value, -0) ? 0x8000 : 0, magnitude = Math.abs(value);
  if (Number.isNaN(value)) return 0x7e00;
  if (magnitude >= ROUNDED_UP) return sign | 0x7c00;
  if (magnitude < SMALLEST_NORMAL) return sign | roundEven(magnitude * 2 ** 24);
  const exponent = exponentOf(magnitude);
  return sign | (((exponent + 14) << 10) + roundEven(magnitude * 2 ** (10 - exponent)));
}

/** The greatest power of two that is not above a number between 2^-14 and 2^16. */
function exponentOf(magnitude) {
  let exponent = -14;
  while (2 ** (exponent + 1) <= magnitude) exponent++;
  return exponent;
}

function roundEven(n) {
  const low = Math.floor(n), rest = n - low;
  return rest > 0.5 || (rest === 0.5 && low % 2 === 1) ? low + 1 : low;
}

/** The number that 16 bits are as an f16. */
export function valueOfF16(bits) {
  const sign = bits & 0x8000 ? -1 : 1, exponent = (bits >> 10) & 31, fraction = bits & 1023;
  if (exponent === 31) return fraction ? NaN : sign * Infinity;
  return sign * (exponent ? (1 + fraction / 1024) * 2 ** (exponent - 15) : fraction * 2 ** -24);
}
