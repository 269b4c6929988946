// 5 to the power n is made of 1 by n products, and one over it of a power of 2 by n quotients: a quotient of a quotient, each cut off, is the
// whole quotient cut off, so that the highest bits are exact.
#include "powers.h"

// Digits of 32 bits, the lowest first. 1 stands four digits above the lowest one, so that there are five to read from each number's first.
enum { DIGITS = 30, ONE = 4, DIGIT = 32 };

_Alignas(16) wide powers_of_five[POWERS];

static void multiply(u32 *digits) {
  u64 carried = 0;
  for (int k = 0; k < DIGITS; k++) {
    carried += (u64)digits[k] * 5;
    digits[k] = (u32)carried;
    carried >>= DIGIT;
  }
}

static void divide(u32 *digits) {
  u64 left = 0;
  for (int k = DIGITS - 1; k >= 0; k--) {
    left = (left << DIGIT) | digits[k];
    digits[k] = (u32)(left / 5);
    left %= 5;
  }
}

static void put_highest(const u32 *digits, int power) {
  int first = DIGITS - 1;
  while (!digits[first]) first--;
  const u32 *at = digits + first;
  const u32 shift = (u32)__builtin_clz(*at);
  const wide four = {((u64)at[-2] << DIGIT) | at[-3], ((u64)at[0] << DIGIT) | at[-1]};
  wide highest = wide_shifted_left(four, shift);
  highest.low |= (u64)at[-4] >> (DIGIT - shift);
  powers_of_five[power - LEAST_POWER] = highest;
}

void make_powers_of_five(void) {
  u32 whole[DIGITS] = {[ONE] = 1};
  for (int power = 0; power <= MOST_POWER; power++) {
    put_highest(whole, power);
    multiply(whole);
  }
  u32 part[DIGITS] = {[DIGITS - 1] = 1};
  for (int power = -1; power >= LEAST_POWER; power--) {
    divide(part);
    put_highest(part, power);
  }
}
