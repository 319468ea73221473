/* Prices each record of standard input by quoter_price, solves the price by quoter_quote, and prices the volatility that comes back.

   usage: round-trip     records of 36 bytes as `prices` reads them; input that ends inside a record ends the run

   A line for each: the price by its bits, the quote's refusal or 0, its volatility and that volatility's price by their bits. "-" stands
   for what a refusal leaves out.
   Exit status: 0 all well, 2 bad usage. */
#include "quoter.h"

#include <inttypes.h>
#include <stdio.h>
#include <string.h>

static uint64_t word(const uint8_t *s, int bytes)
{
    uint64_t w = 0;
    for (int i = 0; i < bytes; i++)
        w = w << 8 | s[i];
    return w;
}

static double figure(const uint8_t *s)
{
    uint64_t b = word(s, 8);
    double x;
    memcpy(&x, &b, sizeof x);
    return x;
}

/* A figure by its bits, or "-" where a refusal left it out. */
static void print_figure(uint32_t refusal, double x, const char *end)
{
    uint64_t b;
    memcpy(&b, &x, sizeof b);
    if (refusal == 0)
        printf("%016" PRIx64 "%s", b, end);
    else
        printf("-%s", end);
}

static void round_trip(const uint8_t *record)
{
    uint32_t side = (uint32_t)word(record, 4), refused = 0, again_refused = 0;
    double forward = figure(record + 12), strike = figure(record + 20), time = figure(record + 28);
    double price = 0.0, total = 0.0, volatility = 0.0, again = 0.0;
    uint64_t count = 0;
    uint32_t unpriced = quoter_price(side, figure(record + 4), forward, strike, time, &price);
    if (unpriced == 0)
        refused = quoter_quote(side, price, forward, strike, time, 1.0, &total, &volatility, &count);
    if (unpriced == 0 && refused == 0)
        again_refused = quoter_price(side, volatility, forward, strike, time, &again);
    print_figure(unpriced, price, " ");
    printf("%" PRIu32 " ", refused);
    print_figure(unpriced | refused, volatility, " ");
    print_figure(unpriced | refused | again_refused, again, "\n");
}

int main(int argc, char **argv)
{
    uint8_t record[36];
    (void)argv;
    if (argc != 1) {
        fprintf(stderr, "usage: round-trip     records of `prices` on standard input\n");
        return 2;
    }
    while (fread(record, 1, sizeof record, stdin) == sizeof record)
        round_trip(record);
    return 0;
}
