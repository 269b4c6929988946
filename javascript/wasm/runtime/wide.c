#include "wide.h"

enum { HALF = 32, WORD = 64 };

static u64 low_half(u64 a) { return (u32)a; }
static u64 high_half(u64 a) { return a >> HALF; }
static _Bool is_less(wide a, wide b) { return a.high < b.high || (a.high == b.high && a.low < b.low); }
static wide difference(wide a, wide b) { return (wide){a.low - b.low, a.high - b.high - (a.low < b.low)}; }

// The whole product of two words.
static wide product_of_words(u64 a, u64 b) {
  const u64 low = low_half(a) * low_half(b);
  const u64 middle = high_half(a) * low_half(b) + high_half(low);
  const u64 other = low_half(a) * high_half(b) + low_half(middle);
  return (wide){(other << HALF) | low_half(low), high_half(a) * high_half(b) + high_half(middle) + high_half(other)};
}

wide wide_product(wide a, wide b) {
  wide product = product_of_words(a.low, b.low);
  product.high += a.low * b.high + a.high * b.low;
  return product;
}

// One digit of 32 bits of a quotient, as Knuth's algorithm D finds it: `rest` holds a dividend below the divisor, whose highest bit
// is set; behind it comes the digit `next`.
static u64 digit_of_quotient(u64 *rest, u64 next, u64 divisor) {
  u64 digit = *rest / high_half(divisor);
  u64 left = *rest - digit * high_half(divisor);
  while (high_half(digit) || digit * low_half(divisor) > ((left << HALF) | next)) {
    digit--;
    left += high_half(divisor);
    if (high_half(left)) break;
  }
  *rest = (*rest << HALF) + next - digit * divisor;
  return digit;
}

// The quotient by a word that is greater than the dividend's high one, so that it is a word as well.
static u64 quotient_of_word(wide dividend, u64 divisor, u64 *rest) {
  const u32 shift = (u32)__builtin_clzll(divisor);
  const wide shifted = wide_shifted_left(dividend, shift);
  u64 left = shifted.high;
  const u64 high = digit_of_quotient(&left, high_half(shifted.low), divisor << shift);
  const u64 low = digit_of_quotient(&left, low_half(shifted.low), divisor << shift);
  *rest = left >> shift;
  return (high << HALF) + low;
}

static wide quotient_by_word(wide dividend, u64 divisor, wide *rest) {
  const u64 high = dividend.high / divisor;
  u64 left = 0;
  const u64 low = quotient_of_word((wide){dividend.low, dividend.high % divisor}, divisor, &left);
  *rest = (wide){left, 0};
  return (wide){low, high};
}

// The quotient by a number of more than a word, which has one word itself. Half the dividend by the divisor's upper word gives a guess
// that is right or 1 too large (Warren, Hacker's Delight, 9-5); it is taken less 1, and what is left says whether that was too little.
static wide quotient_by_wide(wide dividend, wide divisor, wide *rest) {
  const u32 shift = (u32)__builtin_clzll(divisor.high);
  const wide half = wide_shifted_right(dividend, 1);
  u64 unused = 0;
  const u64 guess = quotient_of_word(half, wide_shifted_left(divisor, shift).high, &unused) >> (WORD - 1 - shift);
  u64 quotient = guess ? guess - 1 : 0;
  wide left = difference(dividend, wide_product((wide){quotient, 0}, divisor));
  if (!is_less(left, divisor)) {
    quotient++;
    left = difference(left, divisor);
  }
  *rest = left;
  return (wide){quotient, 0};
}

wide wide_quotient(wide dividend, wide divisor, wide *rest) {
  if (!divisor.high && !divisor.low) __builtin_trap();
  if (is_less(dividend, divisor)) {
    *rest = dividend;
    return (wide){0, 0};
  }
  return divisor.high ? quotient_by_wide(dividend, divisor, rest) : quotient_by_word(dividend, divisor.low, rest);
}

wide wide_shifted_left(wide a, u32 by) {
  if (by >= WORD) return (wide){0, a.low << (by - WORD)};
  return by ? (wide){a.low << by, (a.high << by) | (a.low >> (WORD - by))} : a;
}

// Shifts right, with what comes in from above.
static wide shifted_right(wide a, u32 by, u64 above) {
  const u32 rest = by % WORD;
  const u64 low = by >= WORD ? a.high : a.low;
  const u64 high = by >= WORD ? above : a.high;
  return rest ? (wide){(low >> rest) | (high << (WORD - rest)), (high >> rest) | (above << (WORD - rest))} : (wide){low, high};
}

wide wide_shifted_right(wide a, u32 by) { return shifted_right(a, by, 0); }

wide wide_shifted_right_signed(wide a, u32 by) { return shifted_right(a, by, a.high >> (WORD - 1) ? ~(u64)0 : 0); }
