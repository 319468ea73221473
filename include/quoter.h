/* The Black volatility of a quote, the price of a volatility, ladders and sheets of quotes, the cable window, and the functions that these are
   computed with: the static library of the crate `exports`, for x86-64 Linux. docs/REQUIREMENTS.md says what each call computes; section numbers
   below are its.

   Every function takes any bits and ends. It keeps no state, so that threads may call it at once, uses no heap, and calls nothing of its
   caller's.

   Floating point. A call's results are those of IEEE 754 binary64, bit for bit, on a processor that is set to
     - round to nearest, ties to even;
     - keep subnormal numbers: no flush to zero, no denormals-are-zero;
     - mask every floating-point exception
   (x86-64: MXCSR 0x1F80, its status bits aside, as a C program starts). In any other mode nothing is promised, and bits do differ. A call may
   set status bits. A test at power-on: side 0, price 0x1p-1074, forward 0x6p-1074, strike 0x8p-1074, time 1, factor 1 has the total
   0x3FE55B9D616C1408 and 9 evaluations; another rounding, or subnormals lost, shows there.
   Where a result is NaN, only that is promised. On x86-64 it is 0x7FF8000000000000, 0xFFF8000000000000, or an argument's pattern, whose sign
   may be turned and whose quiet bit may be set: it may be signalling. No total, no volatility and no price is NaN.

   Memory. A pointer to numbers is aligned, bytes need no alignment, and a pointer is not null unless a length of 0 comes with it; then nothing
   is read or written there. A length is 64 bits wide on every processor. What a call writes to overlaps nothing else that the call is given.

   Linking. The archive needs memcpy and nothing else. The same code compiled for another processor may need memset, memmove and helpers of
   the compiler: for 64-bit integers on 32-bit ones (__aeabi_ul2d, __aeabi_uldivmod, __floatundidf), and where there is no unit for doubles
   its floating-point helpers, which must then round and keep subnormals as asked above. */
#ifndef QUOTER_H
#define QUOTER_H

#include <stdint.h>

#ifdef __cplusplus
extern "C" {
#endif

/* Arithmetic (section 7). mul_add is x * a + b, rounded once; ln_1p is ln(1 + u), and NaN for u below -0.25 or above 1.5. */
double quoter_sqrt(double x);
double quoter_mul_add(double x, double a, double b);
double quoter_exp(double x);
double quoter_ln(double x);
double quoter_ln_1p(double u);
double quoter_trunc(double x);

/* Special functions (section 8). erfcx is exp(x * x) * erfc(x); norm_pdf takes the square of its point. */
double quoter_erf_cody(double x);
double quoter_erfc_cody(double x);
double quoter_erfcx_cody(double x);
double quoter_erfinv(double e);
double quoter_norm_pdf(double x2);
double quoter_norm_cdf(double z);
double quoter_inverse_norm_cdf(double p);

/* The normalised Black price (section 9) of total volatility s, with m = -|ln(forward / strike)|: x is m / 2, h is m / s and t is s / 2. And m. */
double quoter_normalised_black(double x, double h, double t);
double quoter_negative_abs_log_moneyness(double f, double k);

/* The inverse Gaussian distribution with mean mu (section 10.6): the probability up to x, and above x. A call of either that a search makes is
   an evaluation. */
double quoter_inverse_gaussian_cdf(double x, double mu);
double quoter_inverse_gaussian_survival(double x, double mu);

/* A quote's volatility, and the volatility of a log-moneyness and a normalised price (sections 5, 6, 10 and 14.7).
   After tests 1 to 4 and 15 the price is divided by `factor`, its discount factor, and rounded once; from there on the quotient is the price. A
   quotient that overflows gives 5 at time zero; at a time above 0 it gives 6 if it is positive and 7 if it is negative. The factor 1 leaves the price
   as it is.
   Returns 0 for an answer: total volatility, and volatility, which is the total divided by the root of time, are written, both of which may be
   infinite and are 0 at time zero; and so is the number of evaluations that the search made, at most 2,263.
   Otherwise returns the number of a refusal: the number of evaluations is written, and the two figures stay as they were. The first of these
   that applies:
     1  side is neither 0 (call) nor 1 (put)
     2  a figure is NaN or infinite, the factor too
     3  forward or strike is not above 0
     4  time is below 0
    15  factor is not above 0
     5  time is zero, and the price is not the intrinsic value, or 0 where that is below 0
     6  price is above the forward (call) or the strike (put)
     7  the normalised time value is below 0; to quoter_normalised, the price
     8  the normalised price is above its bound, exp(-|log-moneyness| / 2)
     9  no volatility was found
    10  of a sheet: under 4 bytes, more than 1,000 quotes, or not 4 + 44 times their number of bytes
    11  of quoter_price alone: volatility is below 0
    12  of a ladder: not all six lengths are equal
    13  of a ladder: more than 500 strikes
    14  of a window: the offset is no multiple of 4, or not writable
   Refusals other than 9 have 0 evaluations. quoter_normalised returns 0, 2, 7, 8 or 9, and answers as at time 1. */
uint32_t quoter_quote(uint32_t side, double price, double forward, double strike, double time, double factor,
                      double *total, double *volatility, uint64_t *count);
uint32_t quoter_normalised(double log_moneyness, double price, double *total, double *volatility, uint64_t *count);

/* The price of a volatility (section 14.1).
   Returns 0 for a price: it is written. Where volatility times the root of time is 0, it is the intrinsic value, or 0 where that is below 0.
   It is never NaN. Rounding may take it past its bound, the forward of a call or the strike of a put, so that quoter_quote refuses it with 6 (1,004 units
   in the last place are the most that was met), and past the largest number, so that it is infinite.
   Otherwise returns the number of a refusal: nothing is written. Of the refusals above 1 to 4 come first, 2 for the volatility too, and then 11:
   minus zero is not below 0. */
uint32_t quoter_price(uint32_t side, double volatility, double forward, double strike, double time, double *price);

/* A ladder (section 14.3): quotes that share side, forward and time, each with a strike and a price. A length, in places, comes after each of the six
   pointers.
   Returns 0 where the ladder is solved. Each place then holds what quoter_quote gives for its quote by itself with the factor 1: total volatility,
   volatility and number of evaluations, and in `refusals` 0; or where that quote is refused 0 in `totals` and in `volatilities`, its number of
   evaluations, and the number of its refusal. The number of strikes whose root was taken is written to `roots`: one for each place that passes tests
   1 to 4 at a time above 0 with a price below its bound, the forward of a call or the strike of a put.
   Otherwise returns 12 or 13, the first that applies: nothing is written. */
uint32_t quoter_ladder(uint32_t side, double forward, double time,
                       const double *strikes, uint64_t strikes_length, const double *prices, uint64_t prices_length,
                       double *totals, uint64_t totals_length, double *volatilities, uint64_t volatilities_length,
                       uint64_t *counts, uint64_t counts_length, uint32_t *refusals, uint64_t refusals_length, uint64_t *roots);

/* The number of quotes in a sheet (section 11), whose bytes are in XDR (RFC 4506), the highest byte first: the number of its quotes in 4 bytes,
   then 44 bytes a quote: side in 4, price, forward, strike, time and factor in 8 each.
   Returns 0 where the sheet is accepted: the number of quotes is written. Returns 10 where it is refused: nothing is written. */
uint32_t quoter_sheet_size(const uint8_t *sheet, uint64_t length, uint32_t *quotes);

/* The quote of a sheet that has `index` quotes before it. Returns, and writes, as quoter_quote does; or 10, with 0 evaluations written, where the
   sheet is refused; or QUOTER_NO_QUOTE, with nothing written, where the sheet is accepted and has no such quote. */
#define QUOTER_NO_QUOTE UINT32_C(0xFFFFFFFF)
uint32_t quoter_sheet_quote(const uint8_t *sheet, uint64_t length, uint64_t index,
                            double *total, double *volatility, uint64_t *count);

/* The line of a sheet's text (sections 11 and 14.5) that comes after those of so many finite answers, infinite answers and refusals; an answer is
   infinite where its volatility is. Start the three numbers at 0, hand each call what the one before left, and stop after 'T', the last line, or
   'S', a refused sheet. Of other numbers the sum says which quote's line comes, and the last line has them as they are given.
   Returns the line's letter, 'V' for an answer, 'R' for a refusal, 'T' or 'S': the line, at most 46 bytes with a newline at its end and no zero
   byte, is written to the start of `text`, the rest of which stays as it was, and its number of bytes to `count`. After 'V' and 'R' the line's
   quote has been counted in its number; after 'T' and 'S' the three are as they were.
   Returns 0 where `room` is less than the line's number of bytes: nothing is written, and the three too are as they were. */
uint32_t quoter_sheet_line(const uint8_t *sheet, uint64_t length, uint32_t *finite, uint32_t *infinite, uint32_t *refusals,
                           uint8_t *text, uint64_t room, uint64_t *count);

/* A word written to the cable window (section 14.6), which shows a quote and the results of its last solve in 64 bytes: 16 words of XDR, in the
   window the highest byte first. `word` is a number, in the machine's own byte order. Bit 0 of a word is the least significant.
      0  command. Bit 1 clears the interrupt, then bit 0 solves; its other bits do nothing. It reads as 0 after every command
      4  status. Bit 0 done, bit 1 refused, bit 2 interrupt, bits 8 to 15 the number of the refusal or 0. A solve sets all of them, and the others to 0;
         a clear changes bit 2 alone
      8  side
     12  price, 20 forward, 28 strike, 36 time: doubles in two words each, the high one first, written in any order
     44  total volatility, 52 volatility: doubles, 0 where the last solve was refused
     60  the number of evaluations of the last solve
   Start from 64 zeros; they may also be any other bytes. Write side and figures, write 1 at 0, and read. A solve is quoter_quote of the window's side
   and doubles, of any bits, with the factor 1, and is finished when the call returns; it stores an answer by its bits. Its results, but for the
   interrupt, stay until the next solve: bit 0 is still 1 after another quote was written. A NaN pattern stays as it was written.
   Returns 0 for the offsets 8, 12, .. 40: the word was written there, and every other word is as it was. Returns 0 for the offset 0: the command was
   carried out, and side and figures are as they were.
   Returns 14 for any other offset: nothing of the window was read or written.
   One call at a time for a window: until it returns nobody else, not even an interrupt handler, may read or write the 64 bytes. */
#define QUOTER_WINDOW_BYTES 64
uint32_t quoter_window_write(uint8_t window[QUOTER_WINDOW_BYTES], uint32_t offset, uint32_t word);

#ifdef __cplusplus
}
#endif

#endif
