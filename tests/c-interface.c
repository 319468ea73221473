/* Calls every function of include/quoter.h.

   usage: c-interface             values known from docs/REQUIREMENTS.md: refusals, the sample sheet, tallies, keystrokes, prices, ladders, a host's
                                  words to a window
          c-interface vectors     the interface of `vectors` but for signum, max and min
          c-interface lines       the interface of `sheet`, by quoter_sheet_line
          c-interface quotes      the same, by quoter_sheet_size and quoter_sheet_quote, and each quote by quoter_quote
          c-interface prices      the interface of `prices`
          c-interface ladders     the interface of `ladders`
          c-interface windows     the interface of `windows`

   Exit status: 0 all well, 1 a known value differs or a refusal wrote something, 2 bad usage. */
#include "quoter.h"

#include <float.h>
#include <inttypes.h>
#include <math.h>
#include <stdio.h>
#include <string.h>
#include <xmmintrin.h>

static const double UNTOUCHED = -12345.0;
static unsigned run, differ;

static uint64_t bits(double x)
{
    uint64_t b;
    memcpy(&b, &x, sizeof b);
    return b;
}

static uint64_t word(const uint8_t *s, int bytes)
{
    uint64_t w = 0;
    for (int i = 0; i < bytes; i++)
        w = w << 8 | s[i];
    return w;
}

static double figure(const uint8_t *s)
{
    uint64_t b = word(s, 8);
    double x;
    memcpy(&x, &b, sizeof x);
    return x;
}

static void put(uint8_t *s, uint64_t w, int bytes)
{
    for (int i = bytes - 1; i >= 0; i--, w >>= 8)
        s[i] = (uint8_t)w;
}

/* The text of a reply, as a sheet prints it after the quote's number. */
static void print_reply(uint32_t number, double total, double volatility, uint64_t count)
{
    if (number == 0)
        printf("V %016" PRIx64 " %016" PRIx64 " %" PRIu64 "\n", bits(total), bits(volatility), count);
    else
        printf("R %" PRIu32 " %" PRIu64 "\n", number, count);
}

static void check(const char *what, int right)
{
    run++;
    if (!right) {
        differ++;
        printf("%s differs\n", what);
    }
}

static void value(const char *what, double found, double right)
{
    check(what, bits(found) == bits(right));
}

/* A refusal leaves the figures as they were; refusals known here and the answers known here count 0. */
static void discounted(const char *what, uint32_t side, double price, double forward, double strike, double time, double factor, uint32_t number,
                       double figures)
{
    double total = UNTOUCHED, volatility = UNTOUCHED, right = number == 0 ? figures : UNTOUCHED;
    uint64_t count = 7;
    uint32_t found = quoter_quote(side, price, forward, strike, time, factor, &total, &volatility, &count);
    check(what, found == number && bits(total) == bits(right) && bits(volatility) == bits(right) && count == 0);
}

static void quote(const char *what, uint32_t side, double price, double forward, double strike, double time, uint32_t number, double figures)
{
    discounted(what, side, price, forward, strike, time, 1.0, number, figures);
}

static void normalised(const char *what, double log_moneyness, double price, uint32_t number)
{
    double total = UNTOUCHED, volatility = UNTOUCHED;
    uint64_t count = 7;
    uint32_t found = quoter_normalised(log_moneyness, price, &total, &volatility, &count);
    check(what, found == number && total == UNTOUCHED && volatility == UNTOUCHED && count == 0);
}

static void known_values(void)
{
    value("root of 4", quoter_sqrt(4.0), 2.0);
    value("root of 2^-1074", quoter_sqrt(0x1p-1074), 0x1p-537);
    value("fused product", quoter_mul_add(1.0 + 0x1p-30, 1.0 - 0x1p-30, -1.0), -0x1p-60);
    value("truncation of -0.5", quoter_trunc(-0.5), -0.0);
    value("exp 0", quoter_exp(0.0), 1.0);
    value("ln 1", quoter_ln(1.0), 0.0);
    value("price at t = 0", quoter_normalised_black(-1.0, -1.0, 0.0), 0.0);
    check("root of -1", isnan(quoter_sqrt(-1.0)));
    check("ln_1p outside", isnan(quoter_ln_1p(2.0)));
    value("forward 5 and strike 2 units of 2^-1074", quoter_negative_abs_log_moneyness(0x5p-1074, 0x2p-1074), -quoter_ln_1p(1.5));
}

static void known_replies(void)
{
    quote("price zero", 0, 0.0, 100.0, 120.0, 1.0, 0, 0.0);
    quote("price at its bound", 0, 100.0, 100.0, 120.0, 1.0, 0, INFINITY);
    quote("intrinsic at time zero", 0, 20.0, 120.0, 100.0, 0.0, 0, 0.0);
    quote("intrinsic at time minus zero", 0, 20.0, 120.0, 100.0, -0.0, 0, 0.0);
    quote("refusal 1", 2, 1.0, 100.0, 100.0, 1.0, 1, 0.0);
    quote("refusal 2", 0, NAN, 100.0, 100.0, 1.0, 2, 0.0);
    quote("refusal 2, infinite", 0, 1.0, 100.0, INFINITY, 1.0, 2, 0.0);
    quote("refusal 3", 0, 1.0, 0.0, 100.0, 1.0, 3, 0.0);
    quote("refusal 4", 0, 1.0, 100.0, 100.0, -1.0, 4, 0.0);
    quote("refusal 5", 0, 19.0, 120.0, 100.0, 0.0, 5, 0.0);
    quote("refusal 6", 0, 101.0, 100.0, 120.0, 1.0, 6, 0.0);
    quote("one unit above", 0, 100.0 + 0x1p-46, 100.0, 120.0, 1.0, 6, 0.0);
    quote("refusal 7", 1, 5.0, 100.0, 120.0, 1.0, 7, 0.0);
    quote("refusal 8", 1, 92.07499999999999, 184.15, 92.075, 1.0, 8, 0.0);
    normalised("refusal 2, normalised", INFINITY, 0.5, 2);
    normalised("refusal 7, normalised", 0.0, -1.0, 7);
    normalised("refusal 8, normalised", 0.0, 2.0, 8);
    normalised("refusal 9, normalised", 0x1p-1074, 0.5, 9);
}

/* By the words: the quotient at the bound and next to it, at the intrinsic value at time zero; test 6 is of the quotient and not of the price. */
static void known_quotients(void)
{
    discounted("quotient at its bound", 0, 50.0, 100.0, 120.0, 1.0, 0.5, 0, INFINITY);
    discounted("quotient at its bound, put", 1, 240.0, 100.0, 120.0, 1.0, 2.0, 0, INFINITY);
    discounted("quotient one unit above", 0, 50.0 + 0x1p-47, 100.0, 120.0, 1.0, 0.5, 6, 0.0);
    discounted("quotient above", 0, 51.0, 100.0, 120.0, 1.0, 0.5, 6, 0.0);
    discounted("price zero, factor 0.5", 0, 0.0, 100.0, 120.0, 1.0, 0.5, 0, 0.0);
    discounted("price minus zero, factor 0.5", 0, -0.0, 100.0, 120.0, 1.0, 0.5, 0, 0.0);
    discounted("intrinsic, factor 0.5", 0, 10.0, 120.0, 100.0, 1.0, 0.5, 0, 0.0);
    discounted("intrinsic at time zero, factor 2", 1, 40.0, 100.0, 120.0, 0.0, 2.0, 0, 0.0);
    discounted("price intrinsic, quotient not", 0, 20.0, 120.0, 100.0, 0.0, 0.5, 5, 0.0);
    discounted("quotient below the intrinsic value", 1, 30.0, 100.0, 120.0, 1.0, 2.0, 7, 0.0);
    discounted("factor 2^-1074", 0, 0x1p-1074, 1.0, 2.0, 1.0, 0x1p-1074, 0, INFINITY);
    discounted("largest factor", 0, DBL_MAX, 1.0, 2.0, 1.0, DBL_MAX, 0, INFINITY);
    discounted("tie rounded to 0", 0, 0x1p-1074, 100.0, 120.0, 1.0, 2.0, 0, 0.0);
    discounted("tie rounded to minus zero", 0, -0x1p-1074, 100.0, 120.0, 0.0, 2.0, 0, 0.0);
    discounted("tie rounded to 2 units, the bound", 0, 0x3p-1074, 0x2p-1074, 1.0, 1.0, 2.0, 0, INFINITY);
    for (int put = 0; put < 2; put++) {
        uint32_t side = (uint32_t)put;
        discounted("overflow", side, DBL_MAX, 100.0, 120.0, 1.0, 0.5, 6, 0.0);
        discounted("overflow, by one unit below 1", side, DBL_MAX, DBL_MAX, DBL_MAX, 0x1p-1074, 1.0 - 0x1p-53, 6, 0.0);
        discounted("overflow below 0", side, -1.0, 100.0, 120.0, 1.0, 0x1p-1074, 7, 0.0);
        discounted("overflow at time zero", side, DBL_MAX, 100.0, 120.0, 0.0, 0.5, 5, 0.0);
        discounted("overflow below 0 at time minus zero", side, -DBL_MAX, 100.0, 120.0, -0.0, 0.5, 5, 0.0);
    }
}

/* Refusals 2 and 15 of the factor, and of two that apply the first. */
static void known_factors(void)
{
    static const uint64_t nans[4] = {0x7FF8000000000000, 0xFFF0000000000001, 0x7FF0000000000001, 0xFFFFFFFFFFFFFFFF};
    static const double not_above[5] = {0.0, -0.0, -0x1p-1074, -1.0, -DBL_MAX};
    for (int i = 0; i < 4; i++) {
        double nan;
        memcpy(&nan, &nans[i], sizeof nan);
        discounted("factor NaN", 0, 1.0, 100.0, 120.0, 1.0, nan, 2, 0.0);
        discounted("factor NaN, 1 before 2", 2, 1.0, 100.0, 120.0, 1.0, nan, 1, 0.0);
        discounted("factor NaN, 2 before 3 and 4", 1, 1.0, 0.0, 120.0, -1.0, nan, 2, 0.0);
    }
    discounted("factor infinite", 0, 1.0, 100.0, 120.0, 1.0, INFINITY, 2, 0.0);
    discounted("factor -infinite", 0, 1.0, 100.0, 120.0, 0.0, -INFINITY, 2, 0.0);
    for (int i = 0; i < 5; i++) {
        double factor = not_above[i];
        discounted("refusal 15", 0, 1.0, 100.0, 120.0, 1.0, factor, 15, 0.0);
        discounted("refusal 15, price zero", 1, 0.0, 100.0, 120.0, 1.0, factor, 15, 0.0);
        discounted("15 before 5", 0, 19.0, 120.0, 100.0, 0.0, factor, 15, 0.0);
        discounted("15 before 6", 0, 101.0, 100.0, 120.0, 1.0, factor, 15, 0.0);
        discounted("15 before 7", 1, 5.0, 100.0, 120.0, 1.0, factor, 15, 0.0);
        discounted("4 before 15", 0, 1.0, 100.0, 120.0, -1.0, factor, 4, 0.0);
        discounted("3 before 15", 0, 1.0, 100.0, -1.0, 1.0, factor, 3, 0.0);
        discounted("2 before 15", 0, NAN, 100.0, 120.0, 1.0, factor, 2, 0.0);
        discounted("1 before 15", UINT32_MAX, 1.0, 100.0, 120.0, 1.0, factor, 1, 0.0);
    }
}

/* A quote, the put that the requirements pair with it, and both discounted: equal totals, equal counts. */
static void known_pair(void)
{
    double first = UNTOUCHED, first_volatility = UNTOUCHED;
    uint64_t first_count = 0;
    check("call", quoter_quote(0, 1.0, 100.0, 120.0, 1.0, 1.0, &first, &first_volatility, &first_count) == 0 && first > 0.0 && first_count > 0);
    static const double factors[6] = {1.0, 0.5, 2.0, 0.25, 0.95, 0x1p-1074};
    for (int i = 0; i < 6; i++) {
        double total[2] = {UNTOUCHED, UNTOUCHED}, volatility[2], factor = factors[i];
        uint64_t count[2];
        uint32_t call = quoter_quote(0, factor, 100.0, 120.0, 1.0, factor, &total[0], &volatility[0], &count[0]);
        uint32_t put = quoter_quote(1, 4.0 * factor, 480.0, 400.0, 1.0, factor, &total[1], &volatility[1], &count[1]);
        int agree = bits(total[0]) == bits(first) && bits(total[1]) == bits(first) && bits(volatility[0]) == bits(first);
        check("call and put", call == 0 && put == 0 && agree && count[0] == first_count && count[1] == first_count);
    }
}

/* A price. A refusal leaves its place as it was. */
static void price(const char *what, uint32_t side, double volatility, double forward, double strike, double time, uint32_t number, double right)
{
    double found = UNTOUCHED;
    uint32_t returned = quoter_price(side, volatility, forward, strike, time, &found);
    check(what, returned == number && bits(found) == bits(number == 0 ? right : UNTOUCHED));
}

/* By the words of the requirements, and by exact arithmetic: at a total volatility of 100 the price at the money, 100 erf(50 / sqrt 2), is nearer to
   100 than 10^-500. Of two refusals that apply, the first is given. */
static void known_prices(void)
{
    price("call in the money, volatility 0", 0, 0.0, 120.0, 100.0, 1.0, 0, 20.0);
    price("call out of the money, volatility 0", 0, 0.0, 100.0, 120.0, 1.0, 0, 0.0);
    price("put in the money, volatility 0", 1, 0.0, 100.0, 120.0, 1.0, 0, 20.0);
    price("put out of the money, volatility 0", 1, 0.0, 120.0, 100.0, 1.0, 0, 0.0);
    price("at the money, volatility 0", 1, 0.0, 100.0, 100.0, 1.0, 0, 0.0);
    price("call in the money, volatility minus zero", 0, -0.0, 120.0, 100.0, 1.0, 0, 20.0);
    price("put out of the money, volatility minus zero", 1, -0.0, 120.0, 100.0, 1.0, 0, 0.0);
    price("call in the money, time zero", 0, 0.2, 120.0, 100.0, 0.0, 0, 20.0);
    price("put out of the money, time minus zero", 1, 0.2, 120.0, 100.0, -0.0, 0, 0.0);
    price("call at the money, volatility 100", 0, 100.0, 100.0, 100.0, 1.0, 0, 100.0);
    price("put at the money, volatility 100", 1, 100.0, 100.0, 100.0, 1.0, 0, 100.0);
    price("price, refusal 1", 2, 0.2, 100.0, 100.0, 1.0, 1, 0.0);
    price("price, 1 before 2", UINT32_MAX, NAN, 100.0, 100.0, 1.0, 1, 0.0);
    price("price, refusal 2", 0, NAN, 100.0, 100.0, 1.0, 2, 0.0);
    price("price, refusal 2, volatility infinite", 1, INFINITY, 100.0, 100.0, 1.0, 2, 0.0);
    price("price, refusal 2, strike infinite", 0, 0.2, 100.0, INFINITY, 1.0, 2, 0.0);
    price("price, 2 before 3", 0, -INFINITY, 0.0, 100.0, 1.0, 2, 0.0);
    price("price, refusal 3", 0, 0.2, -0.0, 100.0, 1.0, 3, 0.0);
    price("price, 3 before 4", 1, 0.2, 100.0, -1.0, -1.0, 3, 0.0);
    price("price, refusal 4", 0, 0.2, 100.0, 100.0, -1.0, 4, 0.0);
    price("price, 4 before 11", 0, -0.2, 100.0, 100.0, -1.0, 4, 0.0);
    price("price, refusal 11", 0, -0.2, 100.0, 100.0, 1.0, 11, 0.0);
    price("price, refusal 11, time zero", 1, -0x1p-1074, 120.0, 100.0, 0.0, 11, 0.0);
}

/* Prices that the words bind to each other: the same time value where forward and strike are exchanged, the intrinsic value added to it, and
   4^n times the price for 4^n times forward and strike. */
static void known_price_pairs(void)
{
    double put = UNTOUCHED;
    check("put out of the money", quoter_price(1, 0.2, 120.0, 100.0, 1.0, &put) == 0 && put > 0.0 && put < 20.0);
    price("forward and strike exchanged", 0, 0.2, 100.0, 120.0, 1.0, 0, put);
    price("intrinsic added", 0, 0.2, 120.0, 100.0, 1.0, 0, put + 20.0);
    price("4 times", 1, 0.2, 480.0, 400.0, 1.0, 0, 4.0 * put);
    price("4^-500 times", 1, 0.2, 0x78p-1000, 0x64p-1000, 1.0, 0, 0x1p-1000 * put);
    price("4^500 times, in the money", 0, 0.2, 0x78p1000, 0x64p1000, 1.0, 0, 0x1p1000 * (put + 20.0));
}

/* The six slices of a ladder. GUARD places before and after each are the caller's own. */
enum { GUARD = 8, SPAN = 512, ROOM = GUARD + SPAN + GUARD };
struct slices {
    double strikes[ROOM], prices[ROOM], totals[ROOM], volatilities[ROOM];
    uint64_t counts[ROOM];
    uint32_t refusals[ROOM];
};

/* In the order of the call: strikes, prices, totals, volatilities, counts, refusals. */
struct lengths {
    uint64_t of[6];
};

static struct lengths equal(uint64_t length)
{
    return (struct lengths){{length, length, length, length, length, length}};
}

static struct lengths but(struct lengths lengths, int slice, uint64_t length)
{
    lengths.of[slice] = length;
    return lengths;
}

static uint32_t call(uint32_t side, double forward, double time, struct slices *s, struct lengths n, uint64_t *roots)
{
    return quoter_ladder(side, forward, time, s->strikes + GUARD, n.of[0], s->prices + GUARD, n.of[1], s->totals + GUARD, n.of[2],
                         s->volatilities + GUARD, n.of[3], s->counts + GUARD, n.of[4], s->refusals + GUARD, n.of[5], roots);
}

/* By turns a NaN, signalling or quiet, of either sign, and a figure below zero. */
static void spoil(double *x, int slice, int i)
{
    static const uint64_t nans[4] = {0x7FF0000000000000, 0xFFF8000000000000, 0x7FF8000000000000, 0xFFF0000000000000};
    uint64_t own = (uint64_t)(slice * 1000 + i + 1), pattern = bits(-(double)own);
    if ((slice + i) % 5 < 4)
        pattern = nans[(slice + i) % 5] | own;
    memcpy(x, &pattern, sizeof *x);
}

/* No two places of the lent slices hold the same, nor the NaN of an operation. Strikes and prices are those of an answer. */
static void fill(struct slices *s)
{
    for (int i = 0; i < ROOM; i++) {
        s->strikes[i] = 120.0;
        s->prices[i] = 1.0;
        spoil(&s->totals[i], 2, i);
        spoil(&s->volatilities[i], 3, i);
        s->counts[i] = UINT64_MAX - (uint64_t)i;
        s->refusals[i] = UINT32_MAX - (uint32_t)i;
    }
}

/* A strike, a price, and what the words say of the quote: its refusal or 0; its total, NAN standing for one that is finite and above 0; and whether
   the strike's root is taken. */
struct place {
    double strike, price;
    uint32_t number;
    double total;
    int taken;
};

/* At forward 100 and a time above 0. A price at its bound is not below it. */
static const struct place CALLS[] = {
    {120.0, 1.0, 0, NAN, 1}, {80.0, 25.0, 0, NAN, 1}, {100.0, 5.0, 0, NAN, 1}, {DBL_MAX, 50.0, 0, NAN, 1},
    {120.0, 0.0, 0, 0.0, 1}, {120.0, -0.0, 0, 0.0, 1}, {80.0, 20.0, 0, 0.0, 1}, {100.0, 0.0, 0, 0.0, 1},
    {120.0, 100.0, 0, INFINITY, 0}, {0x1p-1074, 100.0, 0, INFINITY, 0},
    {NAN, 1.0, 2, 0.0, 0}, {INFINITY, 1.0, 2, 0.0, 0}, {120.0, NAN, 2, 0.0, 0}, {120.0, -INFINITY, 2, 0.0, 0}, {0.0, NAN, 2, 0.0, 0},
    {0.0, 1.0, 3, 0.0, 0}, {-0.0, 101.0, 3, 0.0, 0}, {-120.0, 1.0, 3, 0.0, 0},
    {120.0, 101.0, 6, 0.0, 0}, {120.0, 100.0 + 0x1p-46, 6, 0.0, 0},
    {120.0, -1.0, 7, 0.0, 1}, {80.0, 19.0, 7, 0.0, 1},
    {120.0, 1.0, 0, NAN, 1},
};
/* At forward 184.15 and a time above 0. */
static const struct place PUTS[] = {
    {92.075, 46.0, 0, NAN, 1}, {200.0, 150.0, 0, NAN, 1}, {184.15, 0.0, 0, 0.0, 1}, {92.075, 92.075, 0, INFINITY, 0}, {200.0, 200.0, 0, INFINITY, 0},
    {1.0, INFINITY, 2, 0.0, 0}, {-1.0, 1.0, 3, 0.0, 0}, {92.075, 93.0, 6, 0.0, 0}, {200.0, 1.0, 7, 0.0, 1}, {92.075, 92.07499999999999, 8, 0.0, 1},
};
/* Calls at forward 120 and time 0. */
static const struct place EXPIRED[] = {
    {100.0, 20.0, 0, 0.0, 0}, {130.0, 0.0, 0, 0.0, 0}, {130.0, -0.0, 0, 0.0, 0}, {NAN, 20.0, 2, 0.0, 0}, {100.0, NAN, 2, 0.0, 0},
    {0.0, 0.0, 3, 0.0, 0}, {100.0, 19.0, 5, 0.0, 0}, {130.0, 1.0, 5, 0.0, 0}, {100.0, 120.0, 5, 0.0, 0}, {100.0, 121.0, 5, 0.0, 0},
};
#define PLACES(list) (int)(sizeof list / sizeof list[0])

/* Writes the quote by itself to its place; whether it is as the words say. */
static int by_itself(uint32_t side, double forward, double time, const struct place *p, struct slices *right, int at)
{
    double total = 0.0, volatility = 0.0;
    uint64_t count = 7;
    uint32_t number = quoter_quote(side, p->price, forward, p->strike, time, 1.0, &total, &volatility, &count);
    right->totals[at] = total;
    right->volatilities[at] = volatility;
    right->counts[at] = count;
    right->refusals[at] = number;
    return number == p->number && (isnan(p->total) ? total > 0.0 && total <= DBL_MAX : bits(total) == bits(p->total));
}

/* The places of the list over and over, `length` in all. What is not of the ladder stays as it was. */
static void ladder(const char *what, uint32_t side, double forward, double time, const struct place *list, int listed, int length)
{
    static struct slices found, right;
    uint64_t roots = 7, taken = 0;
    int as_known = 1;
    fill(&found);
    for (int i = 0; i < length; i++) {
        found.strikes[GUARD + i] = list[i % listed].strike;
        found.prices[GUARD + i] = list[i % listed].price;
    }
    memcpy(&right, &found, sizeof right);
    for (int i = 0; i < length; i++) {
        as_known &= by_itself(side, forward, time, &list[i % listed], &right, GUARD + i);
        taken += (uint64_t)list[i % listed].taken;
    }
    uint32_t number = call(side, forward, time, &found, equal((uint64_t)length), &roots);
    check(what, number == 0 && roots == taken && as_known && memcmp(&found, &right, sizeof right) == 0);
}

/* Every place refused with one number, but for those that test 2 or 3 refuses before it; no root is taken. */
static void all_refused(const char *what, uint32_t side, double forward, double time, uint32_t number)
{
    struct place list[PLACES(CALLS)];
    for (int i = 0; i < PLACES(CALLS); i++) {
        uint32_t own = CALLS[i].number;
        list[i] = (struct place){CALLS[i].strike, CALLS[i].price, (own == 2 || own == 3) && own < number ? own : number, 0.0, 0};
    }
    ladder(what, side, forward, time, list, PLACES(CALLS), PLACES(CALLS));
}

static void known_ladders(void)
{
    static const double times[] = {1.0, 0.25, 10.0, 0x1p-1074, DBL_MAX};
    for (int i = 0; i < 5; i++) {
        ladder("calls", 0, 100.0, times[i], CALLS, PLACES(CALLS), PLACES(CALLS));
        ladder("puts", 1, 184.15, times[i], PUTS, PLACES(PUTS), PLACES(PUTS));
    }
    for (int i = 0; i < PLACES(CALLS); i++)
        ladder("one call", 0, 100.0, 0.25, CALLS + i, 1, 1);
    ladder("time zero", 0, 120.0, 0.0, EXPIRED, PLACES(EXPIRED), PLACES(EXPIRED));
    ladder("time minus zero", 0, 120.0, -0.0, EXPIRED, PLACES(EXPIRED), PLACES(EXPIRED));
    ladder("499 calls", 0, 100.0, 0.25, CALLS, PLACES(CALLS), 499);
    ladder("500 calls", 0, 100.0, 0.25, CALLS, PLACES(CALLS), 500);
    ladder("no calls", 0, 100.0, 0.25, CALLS, PLACES(CALLS), 0);
    all_refused("side 2", 2, 100.0, 1.0, 1);
    all_refused("side 2^32 - 1, 1 before 2", UINT32_MAX, NAN, -1.0, 1);
    all_refused("forward NaN", 0, NAN, 1.0, 2);
    all_refused("time infinite, 2 before 3", 1, -1.0, INFINITY, 2);
    all_refused("forward zero, 3 before 4", 0, -0.0, -1.0, 3);
    all_refused("time below zero", 1, 100.0, -0x1p-1074, 4);
}

/* A refused ladder: nothing is written, and every NaN keeps its bits. */
static void refused(const char *what, struct lengths given, uint32_t number)
{
    static struct slices found, before;
    uint64_t roots = 7;
    fill(&found);
    memcpy(&before, &found, sizeof before);
    uint32_t returned = call(0, 100.0, 1.0, &found, given, &roots);
    check(what, returned == number && roots == 7 && memcmp(&found, &before, sizeof before) == 0);
}

static void known_lengths(void)
{
    static const uint64_t counts[] = {1, 3, 499, 500, 501, 511};
    for (int slice = 0; slice < 6; slice++) {
        for (int i = 0; i < 6; i++) {
            struct lengths all = equal(counts[i]);
            refused("one more", but(all, slice, counts[i] + 1), 12);
            refused("one less", but(all, slice, counts[i] - 1), 12);
            refused("none", but(all, slice, 0), 12);
            refused("places in one alone", but(equal(0), slice, counts[i]), 12);
        }
        for (int other = 0; other < slice; other++) {
            refused("two others", but(but(equal(500), slice, 501), other, 501), 12);
            refused("two unlike", but(but(equal(501), slice, 500), other, 502), 12);
        }
    }
    refused("501", equal(501), 13);
    refused("512", equal(512), 13);
}

/* A slice without places may have no pointer. */
static void known_empty(void)
{
    static struct slices found, before;
    uint64_t roots = 7;
    fill(&found);
    memcpy(&before, &found, sizeof before);
    uint32_t none = quoter_ladder(0, 100.0, 1.0, NULL, 0, NULL, 0, NULL, 0, NULL, 0, NULL, 0, NULL, 0, &roots);
    check("no places and no pointers", none == 0 && roots == 0);
    roots = 7;
    none = quoter_ladder(2, NAN, -1.0, NULL, 0, NULL, 0, NULL, 0, NULL, 0, NULL, 0, NULL, 0, &roots);
    check("no places, a bad side, forward and time", none == 0 && roots == 0);
    roots = 7;
    uint32_t lent = quoter_ladder(0, 100.0, 1.0, found.strikes, 3, found.prices, 3, NULL, 0, NULL, 0, NULL, 0, NULL, 0, &roots);
    uint32_t given = quoter_ladder(0, 100.0, 1.0, NULL, 0, NULL, 0, found.totals, 3, found.volatilities, 3, found.counts, 3, found.refusals, 3, &roots);
    check("some without pointers", lent == 12 && given == 12 && roots == 7 && memcmp(&found, &before, sizeof before) == 0);
}

/* The header's test of the mode; its figures are the Rust's. */
static int in_mode(void)
{
    double total = UNTOUCHED, volatility = UNTOUCHED;
    uint64_t count = 7;
    uint32_t found = quoter_quote(0, 0x1p-1074, 0x6p-1074, 0x8p-1074, 1.0, 1.0, &total, &volatility, &count);
    return found == 0 && bits(total) == 0x3FE55B9D616C1408 && bits(volatility) == bits(total) && count == 9;
}

/* Other roundings (down, up, toward zero), flush to zero and denormals-are-zero show there. */
static void known_modes(void)
{
    static const unsigned modes[5] = {0x2000, 0x4000, 0x6000, 0x8000, 0x0040};
    check("mode at the start", (_mm_getcsr() & ~0x3Fu) == 0x1F80 && in_mode());
    for (int i = 0; i < 5; i++) {
        _mm_setcsr(0x1F80 | modes[i]);
        int same = in_mode();
        _mm_setcsr(0x1F80);
        check("another mode", !same);
    }
}

/* The fields of a quote, and what the words say of it: its refusal or 0, and its total, which is also its volatility. */
struct listed {
    uint32_t side;
    double price, forward, strike, time, factor;
    uint32_t number;
    double total;
};

enum { QUOTE = 44 }; /* bytes in a sheet */

/* Writes a sheet of the list's quotes over and over; its length in bytes. */
static uint64_t write_sheet(uint8_t *sheet, const struct listed *list, int listed, int quotes)
{
    put(sheet, (uint64_t)quotes, 4);
    for (int i = 0; i < quotes; i++) {
        const struct listed *q = &list[i % listed];
        const double figures[5] = {q->price, q->forward, q->strike, q->time, q->factor};
        put(sheet + 4 + QUOTE * i, q->side, 4);
        for (int j = 0; j < 5; j++)
            put(sheet + 8 + QUOTE * i + 8 * j, bits(figures[j]), 8);
    }
    return 4 + QUOTE * (uint64_t)quotes;
}

/* The sample of docs/REQUIREMENTS.md: 3 quotes, and the 4 lines of its text. */
static const struct listed SAMPLE[3] = {
    {0, 0.0, 100.0, 120.0, 1.0, 1.0, 0, 0.0}, {0, 100.0, 100.0, 120.0, 1.0, 1.0, 0, INFINITY}, {1, 5.0, 100.0, 120.0, 1.0, 1.0, 7, 0.0}};
static const char *LINES[4] = {
    "1 V 0000000000000000 0000000000000000 0\n", "2 V 7ff0000000000000 7ff0000000000000 0\n", "3 R 7 0\n", "T 1 1 1\n"};
static uint8_t sample[4 + QUOTE * 3];

/* The number that a sheet gives, and its number of quotes, which a refusal leaves as it was. */
static void size(const char *what, const uint8_t *sheet, uint64_t length, uint32_t number, uint32_t right)
{
    uint32_t quotes = 7, found = quoter_sheet_size(sheet, length, &quotes);
    check(what, found == number && quotes == (number == 0 ? right : 7));
}

static void known_sizes(void)
{
    static uint8_t sheet[4 + QUOTE * 1001];
    size("size of the sample", sample, sizeof sample, 0, 3);
    size("one byte less", sample, sizeof sample - 1, 10, 0);
    size("3 quotes without factors", sample, 4 + 36 * 3, 10, 0);
    size("3 bytes", sample, 3, 10, 0);
    size("no bytes", sample, 0, 10, 0);
    size("no bytes and no pointer", NULL, 0, 10, 0);
    size("no quotes", sheet, 4, 0, 0);
    size("no quotes and a byte", sheet, 5, 10, 0);
    put(sheet, 1000, 4);
    size("1000 quotes", sheet, 4 + QUOTE * 1000, 0, 1000);
    size("1000 quotes and a byte", sheet, 4 + QUOTE * 1000 + 1, 10, 0);
    size("1000 quotes without factors", sheet, 4 + 36 * 1000, 10, 0);
    put(sheet, 1001, 4);
    size("1001 quotes", sheet, 4 + QUOTE * 1001, 10, 0);
}

/* A quote of a sheet whose figures, where it has any, are both `figures`; 0 evaluations unless nothing is written. */
static void at(const char *what, const uint8_t *sheet, uint64_t length, uint64_t index, uint32_t number, double figures)
{
    double total = UNTOUCHED, volatility = UNTOUCHED, right = number == 0 ? figures : UNTOUCHED;
    uint64_t count = 7;
    uint32_t found = quoter_sheet_quote(sheet, length, index, &total, &volatility, &count);
    check(what, found == number && bits(total) == bits(right) && bits(volatility) == bits(right) && count == (number == QUOTER_NO_QUOTE ? 7 : 0));
}

static void known_quotes(void)
{
    static const uint8_t empty[4];
    at("first quote", sample, sizeof sample, 0, 0, 0.0);
    at("second quote", sample, sizeof sample, 1, 0, INFINITY);
    at("third quote", sample, sizeof sample, 2, 7, 0.0);
    at("fourth quote", sample, sizeof sample, 3, QUOTER_NO_QUOTE, 0.0);
    at("quote 2^64", sample, sizeof sample, UINT64_MAX, QUOTER_NO_QUOTE, 0.0);
    at("quote of an empty sheet", empty, sizeof empty, 0, QUOTER_NO_QUOTE, 0.0);
    at("quote of a refused sheet", sample, sizeof sample - 1, 0, 10, 0.0);
    at("no such quote of a refused sheet", sample, sizeof sample - 1, UINT64_MAX, 10, 0.0);
    at("quote of no bytes", NULL, 0, 0, 10, 0.0);
    check("QUOTER_NO_QUOTE", QUOTER_NO_QUOTE == 0xFFFFFFFFu);
}

/* How many finite answers, infinite answers and refusals. */
struct tally {
    uint32_t finite, infinite, refusals;
};

static uint32_t next_line(const uint8_t *sheet, uint64_t length, struct tally *t, uint8_t *text, uint64_t room, uint64_t *count)
{
    return quoter_sheet_line(sheet, length, &t->finite, &t->infinite, &t->refusals, text, room, count);
}

static int same(struct tally a, struct tally b)
{
    return a.finite == b.finite && a.infinite == b.infinite && a.refusals == b.refusals;
}

/* The line after the tally `given`: its letter, its bytes, their number and the tally after it where there is room, for it alone or for more; nothing
   where there is one byte less. */
static void line(const char *what, const uint8_t *sheet, uint64_t length, struct tally given, char letter, const char *right, struct tally after)
{
    uint8_t text[80], before[80];
    uint64_t bytes = strlen(right), count = 7;
    struct tally found = given;
    memset(text, '#', sizeof text);
    memset(before, '#', sizeof before);
    uint32_t returned = next_line(sheet, length, &found, text, bytes - 1, &count);
    check(what, returned == 0 && count == 7 && same(found, given) && memcmp(text, before, sizeof text) == 0);
    memcpy(before, right, bytes);
    const uint64_t rooms[2] = {bytes, sizeof text};
    for (int i = 0; i < 2; i++) {
        memset(text, '#', sizeof text);
        found = given;
        count = 7;
        returned = next_line(sheet, length, &found, text, rooms[i], &count);
        check(what, returned == (uint32_t)letter && count == bytes && same(found, after) && memcmp(text, before, sizeof text) == 0);
    }
}

/* A line that leaves the tally as it was. */
static void last(const char *what, const uint8_t *sheet, uint64_t length, struct tally given, char letter, const char *right)
{
    line(what, sheet, length, given, letter, right, given);
}

static void known_lines(void)
{
    static const uint8_t empty[4];
    const struct tally none = {0, 0, 0}, most = {UINT32_MAX, UINT32_MAX, UINT32_MAX};
    struct tally found = none;
    uint64_t count = 7;
    line("first line", sample, sizeof sample, none, 'V', LINES[0], (struct tally){1, 0, 0});
    line("second line", sample, sizeof sample, (struct tally){1, 0, 0}, 'V', LINES[1], (struct tally){1, 1, 0});
    line("third line", sample, sizeof sample, (struct tally){1, 1, 0}, 'R', LINES[2], (struct tally){1, 1, 1});
    last("last line", sample, sizeof sample, (struct tally){1, 1, 1}, 'T', LINES[3]);
    last("empty sheet", empty, sizeof empty, none, 'T', "T 0 0 0\n");
    last("empty sheet, later", empty, sizeof empty, (struct tally){7, 8, 9}, 'T', "T 7 8 9\n");
    last("refused sheet", sample, 3, none, 'S', "S 10\n");
    last("refused sheet, later", sample, 3, (struct tally){1, 0, 1}, 'S', "S 10\n");
    last("refused sheet, largest tallies", sample, 3, most, 'S', "S 10\n");
    last("no bytes", NULL, 0, none, 'S', "S 10\n");
    check("no room and no pointer", next_line(sample, sizeof sample, &found, NULL, 0, &count) == 0 && count == 7 && same(found, none));
}

/* Tallies that the sample's lines do not leave. Their sum alone says which line comes, and is not taken modulo 2^32. */
static void known_tallies(void)
{
    const struct tally most = {UINT32_MAX, UINT32_MAX, UINT32_MAX};
    line("one refusal before", sample, sizeof sample, (struct tally){0, 0, 1}, 'V', LINES[1], (struct tally){0, 1, 1});
    line("one infinite answer before", sample, sizeof sample, (struct tally){0, 1, 0}, 'V', LINES[1], (struct tally){0, 2, 0});
    line("a finite answer and a refusal before", sample, sizeof sample, (struct tally){1, 0, 1}, 'R', LINES[2], (struct tally){1, 0, 2});
    line("two finite answers before", sample, sizeof sample, (struct tally){2, 0, 0}, 'R', LINES[2], (struct tally){2, 0, 1});
    line("two infinite answers before", sample, sizeof sample, (struct tally){0, 2, 0}, 'R', LINES[2], (struct tally){0, 2, 1});
    line("two refusals before", sample, sizeof sample, (struct tally){0, 0, 2}, 'R', LINES[2], (struct tally){0, 0, 3});
    last("three finite answers before", sample, sizeof sample, (struct tally){3, 0, 0}, 'T', "T 3 0 0\n");
    last("three infinite answers before", sample, sizeof sample, (struct tally){0, 3, 0}, 'T', "T 0 3 0\n");
    last("three refusals before", sample, sizeof sample, (struct tally){0, 0, 3}, 'T', "T 0 0 3\n");
    last("tallies as given", sample, sizeof sample, (struct tally){12, 345, 6789}, 'T', "T 12 345 6789\n");
    last("largest tallies", sample, sizeof sample, most, 'T', "T 4294967295 4294967295 4294967295\n");
    last("largest finite", sample, sizeof sample, (struct tally){UINT32_MAX, 0, 0}, 'T', "T 4294967295 0 0\n");
    last("largest infinite", sample, sizeof sample, (struct tally){0, UINT32_MAX, 0}, 'T', "T 0 4294967295 0\n");
    last("largest refusals", sample, sizeof sample, (struct tally){0, 0, UINT32_MAX}, 'T', "T 0 0 4294967295\n");
    last("sum 2^32", sample, sizeof sample, (struct tally){UINT32_MAX, 1, 0}, 'T', "T 4294967295 1 0\n");
    last("sum 2^32 + 1", sample, sizeof sample, (struct tally){0x80000000, 0x80000000, 1}, 'T', "T 2147483648 2147483648 1\n");
    last("sum 2^33", sample, sizeof sample, (struct tally){UINT32_MAX, 2, UINT32_MAX}, 'T', "T 4294967295 2 4294967295\n");
}

/* Prices at their bound, beside other answers and refusals. At time zero such a price is the intrinsic value too, and its answer finite, where
   forward and strike are so far apart that their difference rounds to one of them. */
static const struct listed LIMITS[] = {
    {0, 100.0, 100.0, 120.0, 0x1p-1074, 1.0, 0, INFINITY}, {0, 0.0, 100.0, 120.0, 0x1p-1074, 1.0, 0, 0.0}, {1, 120.0, 100.0, 120.0, 1.0, 1.0, 0, INFINITY},
    {0, 120.0, 120.0, 100.0, DBL_MAX, 1.0, 0, INFINITY}, {1, 100.0, 120.0, 100.0, 1e-300, 1.0, 0, INFINITY}, {1, 0.0, 120.0, 100.0, DBL_MAX, 1.0, 0, 0.0},
    {2, 100.0, 100.0, 120.0, 1.0, 1.0, 1, 0.0}, {0, 100.0, 100.0, 120.0, INFINITY, 1.0, 2, 0.0}, {0, 100.0, 100.0, 120.0, 0.0, 1.0, 5, 0.0},
    {0, 100.0, 100.0, 0x1p-1074, 0.0, 1.0, 0, 0.0}, {0, 100.0, 100.0, 0x1p-1074, 1.0, 1.0, 0, INFINITY}, {1, 100.0, 0x1p-1074, 100.0, -0.0, 1.0, 0, 0.0},
    {0, 100.0 + 0x1p-46, 100.0, 120.0, 1.0, 1.0, 6, 0.0}, {1, 0x1p-1074, 0x1p-1074, 0x1p-1074, 1e300, 1.0, 0, INFINITY},
    {1, 5.0, 100.0, 120.0, 1.0, 1.0, 7, 0.0}, {0, 50.0, 100.0, 120.0, 1.0, 0.5, 0, INFINITY}, {0, 50.0, 100.0, 120.0, 1.0, -0.5, 15, 0.0},
    {0, 100.0, 100.0, 120.0, 1.0, NAN, 2, 0.0}, {1, 60.0, 100.0, 120.0, 0.0, 0.5, 5, 0.0}, {1, 40.0, 100.0, 120.0, 0.0, 2.0, 0, 0.0},
};

/* One more, by what the words say of the quote. */
static struct tally with(struct tally t, const struct listed *q)
{
    if (q->number != 0)
        t.refusals++;
    else if (isinf(q->total))
        t.infinite++;
    else
        t.finite++;
    return t;
}

/* A sheet of the list's quotes over and over, line by line as a caller prints it, who counts nothing. */
static void walk(const char *what, const struct listed *list, int listed, int quotes)
{
    static uint8_t sheet[4 + QUOTE * 1000];
    uint64_t length = write_sheet(sheet, list, listed, quotes), count = 0;
    struct tally found = {0, 0, 0}, right = {0, 0, 0};
    char text[46], expected[80];
    for (int i = 0; i < quotes; i++) {
        const struct listed *q = &list[i % listed];
        uint32_t letter = next_line(sheet, length, &found, (uint8_t *)text, sizeof text, &count);
        right = with(right, q);
        int bytes = q->number != 0 ? sprintf(expected, "%d R %" PRIu32 " 0\n", i + 1, q->number)
                                   : sprintf(expected, "%d V %016" PRIx64 " %016" PRIx64 " 0\n", i + 1, bits(q->total), bits(q->total));
        int as_known = count == (uint64_t)bytes && memcmp(text, expected, (size_t)bytes) == 0;
        check(what, letter == (q->number != 0 ? 'R' : 'V') && as_known && same(found, right));
    }
    uint32_t letter = next_line(sheet, length, &found, (uint8_t *)text, sizeof text, &count);
    int bytes = sprintf(expected, "T %" PRIu32 " %" PRIu32 " %" PRIu32 "\n", right.finite, right.infinite, right.refusals);
    check(what, letter == 'T' && count == (uint64_t)bytes && memcmp(text, expected, (size_t)bytes) == 0 && same(found, right));
}

/* The tally after the line of a quote by itself, whatever its figures are. */
static void counted(const char *what, uint32_t side, double price, double forward, double strike, double time, struct tally right)
{
    const struct listed q = {side, price, forward, strike, time, 1.0, 0, 0.0};
    uint8_t sheet[4 + QUOTE], text[46];
    uint64_t length = write_sheet(sheet, &q, 1, 1), count;
    struct tally found = {0, 0, 0};
    uint32_t letter = next_line(sheet, length, &found, text, sizeof text, &count);
    check(what, letter == 'V' && same(found, right));
}

/* The answer of a price below its bound is infinite where its normalised time value is b_max and above 2^-1022. At time 2^-1074 a volatility is
   2^537 times its total. */
static void known_limits(void)
{
    const struct tally finite = {1, 0, 0}, infinite = {0, 1, 0};
    counted("call below its bound, b_max", 0, 161.54999999999998, 161.55, 305.0, 1.0, infinite);
    counted("put below its bound, b_max", 1, 1.0699999999999998, 0.96, 1.07, 1.0, infinite);
    counted("call far below its bound, b_max", 0, 1.8628344004151702e-301, 1.8628344004153814e-301, 5.204728145587283e302, DBL_MAX, infinite);
    counted("call one unit below its bound", 0, 100.0 - 0x1p-46, 100.0, 120.0, 0x1p-1074, finite);
    counted("put one unit below its bound", 1, 100.0 - 0x1p-46, 120.0, 100.0, 0x1p-1074, finite);
    counted("the largest total found", 0, 2.66496037618741e-75, 2.6649603761874105e-75, 1.0291550148874028e-5, 0x1p-1074, finite);
    counted("b_max, but not above 2^-1022", 0, 2.524044225599714e-308, 2.524044225599785e-308, 1.1281144856750468e308, 1.0, finite);
}

static void known_walks(void)
{
    walk("lines of the sample", SAMPLE, 3, 3);
    walk("lines of no quotes", SAMPLE, 3, 0);
    for (int i = 0; i < PLACES(LIMITS); i++)
        walk("lines of one quote", LIMITS + i, 1, 1);
    walk("lines of 1000 prices at their bound", LIMITS, 1, 1000);
    walk("lines of 1000 quotes", LIMITS, PLACES(LIMITS), 1000);
}

/* A window, and the host's own bytes before and after it. It starts at an odd place: bytes need no alignment. */
enum { WINDOW = 64, FENCE = 33, STATUS = 4, FIGURES = 8, TOTAL = 44, VOLATILITY = 52, COUNT = 60 };
enum { SOLVE = 1, CLEAR = 2, DONE = 1, REFUSED = 2, INTERRUPT = 4 };
struct host {
    uint8_t before[FENCE], window[WINDOW], after[FENCE];
};

/* A window that has one byte all over. */
static struct host filled(int byte)
{
    struct host h;
    memset(h.before, 0xA5, sizeof h.before);
    memset(h.window, byte, sizeof h.window);
    memset(h.after, 0x5A, sizeof h.after);
    return h;
}

static uint32_t shown(const struct host *h, int offset)
{
    return (uint32_t)word(h->window + offset, 4);
}

/* A write that returns this number and leaves these bytes, the host's own too. */
static void writes(const char *what, struct host *h, uint32_t offset, uint32_t w, uint32_t number, struct host right)
{
    uint32_t found = quoter_window_write(h->window, offset, w);
    check(what, found == number && memcmp(h, &right, sizeof right) == 0);
    *h = right;
}

/* A word of a figure: it alone changes. */
static void figure_word(const char *what, struct host *h, uint32_t offset, uint32_t w)
{
    struct host right = *h;
    put(right.window + offset, w, 4);
    writes(what, h, offset, w, 0, right);
}

/* A command that does not solve: bit 1 clears the interrupt, and the command reads as 0. */
static void command(const char *what, struct host *h, uint32_t w)
{
    struct host right = *h;
    put(right.window, 0, 4);
    if (w & CLEAR)
        put(right.window + STATUS, shown(h, STATUS) & ~(uint32_t)INTERRUPT, 4);
    writes(what, h, 0, w, 0, right);
}

/* A quote's words but for its factor's, nine, which stand in a window as in a sheet; in that order, or against it. */
static void set(const char *what, struct host *h, const struct listed *q, int against)
{
    uint8_t sheet[4 + QUOTE];
    write_sheet(sheet, q, 1, 1);
    for (int i = 0; i < 9; i++) {
        int at = 4 * (against ? 8 - i : i);
        figure_word(what, h, (uint32_t)(FIGURES + at), (uint32_t)word(sheet + 4 + at, 4));
    }
}

/* A command that solves the quote which was set. The number is known; the figures and the count are those that quoter_quote gives. */
static void solve(const char *what, struct host *h, const struct listed *q, uint32_t w)
{
    struct host right = *h;
    double total = 0.0, volatility = 0.0;
    uint64_t count = 7;
    uint32_t number = quoter_quote(q->side, q->price, q->forward, q->strike, q->time, 1.0, &total, &volatility, &count);
    put(right.window, 0, 4);
    put(right.window + STATUS, DONE | INTERRUPT | (q->number != 0 ? REFUSED | q->number << 8 : 0), 4);
    put(right.window + TOTAL, bits(total), 8);
    put(right.window + VOLATILITY, bits(volatility), 8);
    put(right.window + COUNT, count, 4);
    check(what, number == q->number);
    writes(what, h, 0, w, 0, right);
}

/* The desk's call, whose figures are the oracle's, at time 1 and at time 0.25. */
static const struct listed CALL = {0, 1.0, 100.0, 120.0, 1.0, 1.0, 0, 0.15509699992515916};
static const struct listed EARLIER = {0, 1.0, 100.0, 120.0, 0.25, 1.0, 0, 0.15509699992515916};

/* What a host does: it sets the figures, solves, polls, reads the results, clears the interrupt, and starts again. */
static void known_host(void)
{
    for (int against = 0; against < 2; against++) {
        struct host h = filled(0);
        set("figures of the call", &h, &CALL, against);
        check("not done yet", shown(&h, STATUS) == 0);
        solve("call", &h, &CALL, SOLVE);
        check("done, with an interrupt", shown(&h, STATUS) == (DONE | INTERRUPT) && shown(&h, 0) == 0);
        check("total of the call", word(h.window + TOTAL, 8) == bits(CALL.total) && word(h.window + VOLATILITY, 8) == bits(CALL.total));
        check("count of the call", shown(&h, COUNT) == 12);
        command("interrupt cleared", &h, CLEAR);
        check("still done", shown(&h, STATUS) == DONE);
        command("cleared twice", &h, CLEAR);
        command("no command", &h, 0);
        set("figures of the other call", &h, &EARLIER, !against);
        solve("clear and solve", &h, &EARLIER, CLEAR | SOLVE);
        check("total and twice as much", word(h.window + TOTAL, 8) == bits(CALL.total) && word(h.window + VOLATILITY, 8) == bits(2.0 * CALL.total));
        solve("solved again", &h, &EARLIER, SOLVE);
        solve("solved and cleared again", &h, &EARLIER, CLEAR | SOLVE);
    }
}

/* The table's refusals, and answers that need no search. */
static const struct listed OUTCOMES[] = {
    {2, 1.0, 100.0, 100.0, 1.0, 1.0, 1, 0.0}, {UINT32_MAX, NAN, 0.0, 100.0, -1.0, 1.0, 1, 0.0}, {0, NAN, 100.0, 100.0, 1.0, 1.0, 2, 0.0},
    {1, 1.0, 100.0, 100.0, -INFINITY, 1.0, 2, 0.0}, {0, 1.0, 0.0, 100.0, 1.0, 1.0, 3, 0.0}, {0, 1.0, 100.0, 100.0, -1.0, 1.0, 4, 0.0},
    {0, 19.0, 120.0, 100.0, 0.0, 1.0, 5, 0.0}, {0, 101.0, 100.0, 120.0, 1.0, 1.0, 6, 0.0}, {1, 5.0, 100.0, 120.0, 1.0, 1.0, 7, 0.0},
    {1, 92.07499999999999, 184.15, 92.075, 1.0, 1.0, 8, 0.0}, {0, 0.0, 100.0, 120.0, 1.0, 1.0, 0, 0.0}, {0, -0.0, 100.0, 120.0, 1.0, 1.0, 0, 0.0},
    {0, 100.0, 100.0, 120.0, 1.0, 1.0, 0, INFINITY}, {0, 20.0, 120.0, 100.0, -0.0, 1.0, 0, 0.0}, {0, 0.0, 0.0, 0.0, 0.0, 1.0, 3, 0.0},
};

/* Each after the call and before it, its interrupt cleared alone and by the command that solves. */
static void known_outcomes(void)
{
    struct host h = filled(0);
    for (int i = 0; i < PLACES(OUTCOMES); i++) {
        const struct listed *q = &OUTCOMES[i];
        set("figures before an outcome", &h, &CALL, 0);
        solve("answer before an outcome", &h, &CALL, SOLVE);
        set("figures of an outcome", &h, q, i % 2);
        solve("outcome", &h, q, SOLVE);
        check("total of an outcome", word(h.window + TOTAL, 8) == bits(q->total) && word(h.window + VOLATILITY, 8) == bits(q->total));
        check("count of an outcome", shown(&h, COUNT) == 0);
        command("interrupt of an outcome cleared", &h, CLEAR);
        check("bits but the interrupt's", shown(&h, STATUS) == (q->number == 0 ? DONE : DONE | REFUSED | q->number << 8));
        solve("outcome, clear and solve", &h, q, CLEAR | SOLVE);
    }
}

/* Each straight after each: nothing of the one before stays. */
static void known_successions(void)
{
    for (int i = 0; i < PLACES(OUTCOMES); i++) {
        for (int j = 0; j < PLACES(OUTCOMES); j++) {
            struct host h = filled(0);
            set("figures of a first outcome", &h, &OUTCOMES[i], 0);
            solve("first outcome", &h, &OUTCOMES[i], SOLVE);
            set("figures of a second outcome", &h, &OUTCOMES[j], 0);
            solve("second outcome", &h, &OUTCOMES[j], SOLVE);
        }
    }
}

/* Patterns of NaN, quiet and signalling, and the infinities, in each double, written in halves and in either order: they stay, also where a
   solve reads them. */
static void known_nans(void)
{
    static const uint64_t patterns[] = {0x7FF8000000000000, 0xFFF8000000000000, 0x7FF0000000000001, 0xFFF0000000000001, 0x7FF4000000000000,
                                        0xFFF7FFFFFFFFFFFF, 0x7FFFFFFFFFFFFFFF, 0xFFFFFFFF00000000, 0x7FF0000000000000, 0xFFF0000000000000};
    const struct listed refused = {0, NAN, 100.0, 120.0, 1.0, 1.0, 2, 0.0};
    for (int place = 0; place < 4; place++) {
        struct host h = filled(0);
        set("figures before a NaN", &h, &CALL, 0);
        for (int i = 0; i < PLACES(patterns); i++) {
            uint32_t at = (uint32_t)(FIGURES + 4 + 8 * place), high = (uint32_t)(patterns[i] >> 32), low = (uint32_t)patterns[i];
            figure_word("half of a NaN", &h, i % 2 ? at : at + 4, i % 2 ? high : low);
            figure_word("other half of a NaN", &h, i % 2 ? at + 4 : at, i % 2 ? low : high);
            solve("NaN solved", &h, &refused, i % 3 ? SOLVE : CLEAR | SOLVE);
            check("NaN as written", word(h.window + at, 8) == patterns[i]);
        }
    }
}

/* Every offset up to 80 and some beyond, with a word that would clear and solve at 0, of a window that was solved and cleared and of any bytes;
   and with one that would clear, of a window with its interrupt. */
static void known_offsets(void)
{
    static const uint32_t large[] = {256, 264, 0x10000, 0x10008, 0x7FFFFFFC, 0x80000000, 0x80000008, 0xFFFFFFC0, 0xFFFFFFC8, 0xFFFFFFFC, 0xFFFFFFFF};
    for (int kind = 0; kind < 3; kind++) {
        struct host before = filled(kind == 1 ? 0xFF : 0);
        uint32_t low = kind == 2 ? CLEAR : CLEAR | SOLVE;
        set("figures before the offsets", &before, &CALL, 0);
        if (kind != 1)
            solve("call before the offsets", &before, &CALL, SOLVE);
        if (kind == 0)
            command("cleared before the offsets", &before, CLEAR);
        for (uint32_t i = 0; i <= 80 + PLACES(large); i++) {
            struct host h = before;
            uint32_t offset = i <= 80 ? i : large[i - 81], w = 0x5A000000 | (i << 8) | low;
            if (offset == 0 && kind == 2)
                command("offset 0, cleared", &h, w);
            else if (offset == 0)
                solve("offset 0", &h, &CALL, w);
            else if (offset >= 8 && offset <= 40 && offset % 4 == 0)
                figure_word("offset of a figure", &h, offset, w);
            else
                writes("offset refused", &h, offset, w, 14, before);
        }
    }
}

/* Bits 0 and 1 alone and with others, each other bit by itself, on a window with an interrupt and one without, and on one of any bytes. */
static void known_commands(void)
{
    static const uint32_t others[] = {0, 0xFFFFFFFC, 0x80000000, 4, 0x100, 0x01000000, 0x03000000, 0x7FFFFFF8};
    for (int kind = 0; kind < 3; kind++) {
        struct host before = filled(kind == 2 ? 0xFF : 0);
        set("figures before the commands", &before, &EARLIER, 0);
        if (kind < 2)
            solve("solved before the commands", &before, &EARLIER, SOLVE);
        if (kind == 1)
            command("cleared before the commands", &before, CLEAR);
        /* so that another solve would show */
        set("other figures before the commands", &before, &CALL, 0);
        for (uint32_t i = 0; i < 4 * PLACES(others); i++) {
            struct host h = before;
            uint32_t w = others[i / 4] | i % 4;
            if (w & SOLVE)
                solve("command that solves", &h, &CALL, w);
            else
                command("command that does not solve", &h, w);
        }
        for (int n = 2; n < 32; n++) {
            struct host h = before;
            command("one other bit", &h, (uint32_t)1 << n);
        }
    }
}

static int known(void)
{
    write_sheet(sample, SAMPLE, 3, 3);
    known_values();
    known_replies();
    known_quotients();
    known_factors();
    known_pair();
    known_prices();
    known_price_pairs();
    known_ladders();
    known_lengths();
    known_empty();
    known_modes();
    known_sizes();
    known_quotes();
    known_lines();
    known_tallies();
    known_limits();
    known_walks();
    known_host();
    known_outcomes();
    known_successions();
    known_nans();
    known_offsets();
    known_commands();
    printf("%u checks, %u differ\n", run, differ);
    return differ > 0;
}

/* The function of `vectors` with that number, on up to three figures. */
static double of_number(uint64_t number, double a, double b, double c)
{
    switch (number) {
    case 1: return quoter_sqrt(a);
    case 2: return quoter_mul_add(a, b, c);
    case 3: return quoter_exp(a);
    case 4: return quoter_ln(a);
    case 5: return quoter_ln_1p(a);
    case 6: return quoter_trunc(a);
    case 10: return quoter_erf_cody(a);
    case 11: return quoter_erfc_cody(a);
    case 12: return quoter_erfcx_cody(a);
    case 13: return quoter_erfinv(a);
    case 14: return quoter_norm_pdf(a);
    case 15: return quoter_norm_cdf(a);
    case 16: return quoter_inverse_norm_cdf(a);
    case 17: return quoter_normalised_black(a, b, c);
    case 18: return quoter_negative_abs_log_moneyness(a, b);
    case 20: return quoter_inverse_gaussian_cdf(a, b);
    default: return quoter_inverse_gaussian_survival(a, b);
    }
}

static int vectors(void)
{
    uint8_t record[28];
    while (fread(record, 1, sizeof record, stdin) == sizeof record) {
        uint64_t number = word(record, 4), count = 0;
        double a = figure(record + 4), b = figure(record + 12), total = UNTOUCHED, volatility = UNTOUCHED;
        if (number == 19) {
            uint32_t refused = quoter_normalised(a, b, &total, &volatility, &count);
            print_reply(refused, total, volatility, count);
            continue;
        }
        double result = of_number(number, a, b, figure(record + 20));
        if (isnan(result))
            puts("nan");
        else
            printf("%016" PRIx64 "\n", bits(result));
    }
    return 0;
}

/* Exit status 1 where a line is over the 46 bytes of the header, the letter is not one that it names, or no line is the last. */
static int lines(const uint8_t *sheet, uint64_t length)
{
    uint8_t text[46];
    uint32_t finite = 0, infinite = 0, refusals = 0;
    for (int i = 0; i <= 1000; i++) {
        uint64_t count = 0;
        uint32_t letter = quoter_sheet_line(sheet, length, &finite, &infinite, &refusals, text, sizeof text, &count);
        fwrite(text, 1, (size_t)count, stdout);
        if (letter == 'T' || letter == 'S')
            return 0;
        if (letter != 'V' && letter != 'R')
            return 1;
    }
    return 1;
}

/* Whether quoter_quote gives the same for the quote whose bytes these are. */
static int by_quote(const uint8_t *q, uint32_t number, double total, double volatility, uint64_t count)
{
    double own_total = UNTOUCHED, own_volatility = UNTOUCHED;
    uint64_t own_count = 7;
    uint32_t own = quoter_quote((uint32_t)word(q, 4), figure(q + 4), figure(q + 12), figure(q + 20), figure(q + 28), figure(q + 36), &own_total,
                                &own_volatility, &own_count);
    return own == number && bits(own_total) == bits(total) && bits(own_volatility) == bits(volatility) && own_count == count;
}

/* Exit status 1 where a quote takes more evaluations than the header says, or quoter_quote has another reply. */
static int quotes(const uint8_t *sheet, uint64_t length)
{
    uint32_t count = 0, infinite = 0, refusals = 0;
    uint32_t refused = quoter_sheet_size(sheet, length, &count);
    if (refused != 0) {
        printf("S %" PRIu32 "\n", refused);
        return 0;
    }
    for (uint32_t i = 0; i < count; i++) {
        double total = UNTOUCHED, volatility = UNTOUCHED;
        uint64_t evaluations = 0;
        uint32_t number = quoter_sheet_quote(sheet, length, i, &total, &volatility, &evaluations);
        if (evaluations > 2263 || !by_quote(sheet + 4 + QUOTE * i, number, total, volatility, evaluations))
            return 1;
        refusals += number != 0;
        infinite += number == 0 && isinf(volatility);
        printf("%" PRIu32 " ", i + 1);
        print_reply(number, total, volatility, evaluations);
    }
    printf("T %" PRIu32 " %" PRIu32 " %" PRIu32 "\n", count - infinite - refusals, infinite, refusals);
    return 0;
}

/* Exit status 1 where a refusal writes a price. */
static int prices(void)
{
    uint8_t record[36];
    for (uint64_t number = 1; fread(record, 1, sizeof record, stdin) == sizeof record; number++) {
        double found = UNTOUCHED;
        uint32_t refused = quoter_price((uint32_t)word(record, 4), figure(record + 4), figure(record + 12), figure(record + 20),
                                        figure(record + 28), &found);
        printf("%" PRIu64 " ", number);
        if (refused == 0)
            printf("P %016" PRIx64 "\n", bits(isnan(found) ? (double)NAN : found));
        else if (found == UNTOUCHED)
            printf("R %" PRIu32 " 0\n", refused);
        else
            return 1;
    }
    return 0;
}

/* Doubles in XDR from standard input; whether all were there. */
static int read_figures(double *figures, uint64_t count)
{
    uint8_t bytes[8];
    for (uint64_t i = 0; i < count; i++) {
        if (fread(bytes, 1, sizeof bytes, stdin) != sizeof bytes)
            return 0;
        figures[i] = figure(bytes);
    }
    return 1;
}

static void print_figure(int there, double x)
{
    if (there)
        printf("%016" PRIx64 " ", bits(x));
    else
        printf("- ");
}

/* A line for each place of the longest lent slice; `-` where a slice has no such place. */
static void print_places(const struct slices *s, struct lengths n)
{
    for (uint64_t i = 0; i < n.of[2] || i < n.of[3] || i < n.of[4] || i < n.of[5]; i++) {
        print_figure(i < n.of[2], s->totals[GUARD + i]);
        print_figure(i < n.of[3], s->volatilities[GUARD + i]);
        if (i < n.of[4])
            printf("%" PRIu64, s->counts[GUARD + i]);
        else
            printf("-");
        if (i < n.of[5])
            printf(" %" PRIu32 "\n", s->refusals[GUARD + i]);
        else
            printf(" -\n");
    }
}

/* What `ladders` lends, GUARD and all. */
static void lend(struct slices *s)
{
    for (int i = 0; i < ROOM; i++) {
        s->totals[i] = -1.0;
        s->volatilities[i] = -2.0;
        s->counts[i] = UINT64_MAX;
        s->refusals[i] = UINT32_MAX;
    }
}

/* Exit status 1 where a refusal writes a number of roots. A length over 512 ends the run. */
static int ladders(void)
{
    static struct slices s;
    uint8_t head[44];
    while (fread(head, 1, sizeof head, stdin) == sizeof head) {
        struct lengths n;
        uint64_t roots = UINT64_MAX;
        for (int i = 0; i < 6; i++) {
            n.of[i] = word(head + 20 + 4 * i, 4);
            if (n.of[i] > SPAN)
                return 0;
        }
        if (!read_figures(s.strikes + GUARD, n.of[0]) || !read_figures(s.prices + GUARD, n.of[1]))
            return 0;
        lend(&s);
        uint32_t refused = call((uint32_t)word(head, 4), figure(head + 4), figure(head + 12), &s, n, &roots);
        if (refused == 0)
            printf("L %" PRIu64 "\n", roots);
        else if (roots == UINT64_MAX)
            printf("R %" PRIu32 " 0\n", refused);
        else
            return 1;
        print_places(&s, n);
    }
    return 0;
}

static void print_window(const struct host *h)
{
    for (int at = 0; at < WINDOW; at += 4)
        printf(" %08" PRIx32, shown(h, at));
    printf("\n");
}

/* Exit status 1 where the host's own bytes change. A count over 512 ends the run; a list is read before it is answered. */
static int windows(void)
{
    static uint8_t pairs[8 * SPAN];
    uint8_t head[4];
    while (fread(head, 1, sizeof head, stdin) == sizeof head) {
        const struct host zeros = filled(0);
        struct host h = zeros;
        uint64_t count = word(head, 4);
        if (count > SPAN || fread(pairs, 8, (size_t)count, stdin) != count)
            return 0;
        for (uint64_t i = 0; i < count; i++) {
            printf("%" PRIu32, quoter_window_write(h.window, (uint32_t)word(pairs + 8 * i, 4), (uint32_t)word(pairs + 8 * i + 4, 4)));
            print_window(&h);
        }
        printf("W");
        print_window(&h);
        if (memcmp(h.before, zeros.before, FENCE) != 0 || memcmp(h.after, zeros.after, FENCE) != 0)
            return 1;
    }
    return 0;
}

int main(int argc, char **argv)
{
    static uint8_t sheet[4 + QUOTE * 1000 + 1];
    const char *mode = argc == 2 ? argv[1] : "";
    if (argc == 1)
        return known();
    if (strcmp(mode, "vectors") == 0)
        return vectors();
    if (strcmp(mode, "lines") == 0)
        return lines(sheet, fread(sheet, 1, sizeof sheet, stdin));
    if (strcmp(mode, "quotes") == 0)
        return quotes(sheet, fread(sheet, 1, sizeof sheet, stdin));
    if (strcmp(mode, "prices") == 0)
        return prices();
    if (strcmp(mode, "ladders") == 0)
        return ladders();
    if (strcmp(mode, "windows") == 0)
        return windows();
    fputs("usage: c-interface [vectors | lines | quotes | prices | ladders | windows]\n", stderr);
    return 2;
}
