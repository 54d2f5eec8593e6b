/* Searches for the events of ten kinds, seen from the Earth, over all blocks of a text of DE405 by JPL, by the interval
   arithmetic of the program in C: the same rows, sums, enclosures and verdicts, with the same ends and exponents, bit for
   bit. Spans are judged and split down to one second, or to one part of a second where TICK says into how many it is cut.
   Prints how many nodes were judged in a round, how many leaves and events there are, and a checksum of the leaves and of
   the enclosures over them.

       nodes KIND ROUNDS FILE [TICK]
       nodes least KIND FILE

   The second way searches once, and prints how many leaves are clear by what is known over the whole of them, and the
   seconds of the processor that one enclosure of the function over each of these takes, and nothing else: what a search
   cannot do without, as long as a leaf is clear by its enclosure. */
#include <stdint.h>
#include <stdio.h>
#include <stdlib.h>
#include <string.h>
#include <time.h>

#define STEP static inline __attribute__((always_inline))

typedef __int128 wide;
typedef unsigned __int128 unsigned_wide;
typedef struct { int64_t lo, hi; int32_t s; } interval;
typedef struct { interval mid, range, step; } enclosure;
typedef struct { int64_t lo, hi; } pair;
typedef struct { wide lo, hi; } wide_pair;

static const interval ZERO = { 0, 0, 0 };

static void fail(const char *why) {
    fprintf(stderr, "nodes: %s\n", why);
    exit(2);
}

/* ---------- intervals ---------- */

STEP interval settled(int64_t lo, int64_t hi, int s) {
    interval made = { lo, hi, lo == 0 && hi == 0 ? 0 : s };
    return made;
}

/* Halves both ends, rounded outward, until neither is past 2^62 in size. */
STEP interval narrow(wide lo, wide hi, int s) {
    wide size = hi > -lo ? hi : -lo;
    if (size <= (wide)1 << 62) return settled((int64_t)lo, (int64_t)hi, s);
    unsigned_wide last = (unsigned_wide)size - 1;
    uint64_t high = (uint64_t)(last >> 64);
    int k = high ? 66 - __builtin_clzll(high) : 2 - __builtin_clzll((uint64_t)last);
    return settled((int64_t)(lo >> k), (int64_t)-(-hi >> k), s + k);
}

STEP wide times(int64_t a, int64_t b) { return (wide)a * b; }

/* The least and the greatest product, by the signs of the ends. */
STEP wide_pair products(int64_t a, int64_t b, int64_t c, int64_t d) {
    wide_pair p;
    if (a >= 0) {
        p.lo = times(c >= 0 ? a : b, c);
        p.hi = times(d >= 0 ? b : a, d);
    } else if (b <= 0) {
        p.lo = times(d >= 0 ? a : b, d);
        p.hi = times(c >= 0 ? b : a, c);
    } else if (c >= 0) {
        p.lo = times(a, d);
        p.hi = times(b, d);
    } else if (d <= 0) {
        p.lo = times(b, c);
        p.hi = times(a, c);
    } else {
        wide ad = times(a, d), bc = times(b, c), ac = times(a, c), bd = times(b, d);
        p.lo = ad < bc ? ad : bc;
        p.hi = ac > bd ? ac : bd;
    }
    return p;
}

STEP interval multiply(interval x, interval y) {
    wide_pair p = products(x.lo, x.hi, y.lo, y.hi);
    return narrow(p.lo, p.hi, x.s + y.s);
}

STEP int is_zero(interval x) { return x.lo == 0 && x.hi == 0; }

/* Two intervals at one exponent. */
typedef struct { wide_pair lower, upper; int s; } aligned;

STEP aligned align(interval x, interval y) {
    int gap = y.s - x.s;
    aligned at;
    if (gap <= 60) {
        at.lower = (wide_pair) { x.lo, x.hi };
        at.upper = (wide_pair) { (wide)y.lo << gap, (wide)y.hi << gap };
        at.s = x.s;
    } else {
        int k = gap - 60 < 63 ? gap - 60 : 63;
        at.lower = (wide_pair) { x.lo >> k, -(-x.hi >> k) };
        at.upper = (wide_pair) { (wide)y.lo << 60, (wide)y.hi << 60 };
        at.s = y.s - 60;
    }
    return at;
}

STEP interval add(interval x, interval y) {
    if (is_zero(x)) return y;
    if (is_zero(y)) return x;
    aligned at = x.s <= y.s ? align(x, y) : align(y, x);
    return narrow(at.lower.lo + at.upper.lo, at.lower.hi + at.upper.hi, at.s);
}

STEP interval subtract(interval x, interval y) {
    interval turned = { -y.hi, -y.lo, y.s };
    return add(x, turned);
}

STEP interval meet(interval x, interval y) {
    aligned at = x.s <= y.s ? align(x, y) : align(y, x);
    wide lo = at.lower.lo > at.upper.lo ? at.lower.lo : at.upper.lo;
    wide hi = at.lower.hi < at.upper.hi ? at.lower.hi : at.upper.hi;
    return narrow(lo, hi, at.s);
}

STEP int64_t size_of(int64_t z) { return z < 0 ? -z : z; }

STEP interval signed_square(interval x) { return narrow(times(x.lo, size_of(x.lo)), times(x.hi, size_of(x.hi)), 2 * x.s); }

/* ---------- division by one number ---------- */

/* The number with its first bit moved to the front, and floor((2^128 - 1) / front) - 2^64. */
typedef struct { uint64_t divisor, front, inverse; int shift; } divider;

static divider divider_of(uint64_t divisor) {
    divider d;
    d.divisor = divisor;
    d.shift = __builtin_clzll(divisor);
    d.front = divisor << d.shift;
    d.inverse = (uint64_t)(~(unsigned_wide)0 / d.front - ((unsigned_wide)1 << 64));
    return d;
}

/* The quotient of a number below divisor 2^64, by Moller and Granlund, "Improved division by invariant integers". */
STEP uint64_t short_quotient(unsigned_wide x, const divider *d, uint64_t *rest) {
    x <<= d->shift;
    uint64_t high = (uint64_t)(x >> 64), low = (uint64_t)x;
    unsigned_wide estimate = (unsigned_wide)d->inverse * high + x;
    uint64_t q = (uint64_t)(estimate >> 64) + 1, r = low - q * d->front;
    if (r > (uint64_t)estimate) {
        q--;
        r += d->front;
    }
    if (__builtin_expect(r >= d->front, 0)) {
        q++;
        r -= d->front;
    }
    *rest = r >> d->shift;
    return q;
}

STEP unsigned_wide quotient(unsigned_wide x, const divider *d, uint64_t *rest) {
    uint64_t high = (uint64_t)(x >> 64), first = 0, left = high;
    if (high >= d->divisor) first = short_quotient(high, d, &left);
    uint64_t second = short_quotient((unsigned_wide)left << 64 | (uint64_t)x, d, rest);
    return (unsigned_wide)first << 64 | second;
}

STEP wide divide_down(wide z, const divider *d) {
    uint64_t rest;
    if (z >= 0) return (wide)quotient((unsigned_wide)z, d, &rest);
    unsigned_wide q = quotient((unsigned_wide)-z, d, &rest);
    return -(wide)q - (rest != 0);
}

STEP wide divide_up(wide z, const divider *d) { return -divide_down(-z, d); }

STEP interval scale(wide_pair ends, int s, const divider *d) {
    return narrow(divide_down(2 * ends.lo, d), divide_up(2 * ends.hi, d), s);
}

/* ---------- the file ---------- */

enum { MERCURY, VENUS, EMB, MOON, SUN, BODIES, AXES = 3, COLUMNS = 13, MAX_BLOCKS = 4096, MAX_TERMS = 32 };

/* The place of a body's column in the header. */
static const int COLUMN[BODIES] = { 0, 1, 2, 9, 10 };

typedef struct { int first, terms, granules; int64_t seconds; divider by_seconds; } column;

static struct {
    int count, blocks;
    int64_t start, end, block_seconds;
    interval moon_share;
    pair *numbers;
    column columns[COLUMNS];
} file;

static int word(FILE *in, char *to) { return fscanf(in, "%63s", to) == 1; }

/* A decimal as a whole number and an exponent of 10. */
static void decimal(const char *text, int64_t *mantissa, int *exponent) {
    int64_t m = 0;
    int e = 0, is_negative = *text == '-', is_behind_point = 0;
    if (*text == '-' || *text == '+') text++;
    for (; *text && *text != 'D' && *text != 'E'; text++) {
        if (*text == '.') is_behind_point = 1;
        else {
            m = m * 10 + (*text - '0');
            e -= is_behind_point;
        }
    }
    if (*text) e += atoi(text + 1);
    *mantissa = is_negative ? -m : m;
    *exponent = m == 0 ? 0 : e;
}

static wide power_of_ten(int n) {
    wide power = 1;
    for (int i = 0; i < n; i++) power *= 10;
    return power;
}

static wide floor_of(wide z, wide by) { return z / by - (z % by != 0 && z < 0); }

/* A decimal in units of 2^-shift, rounded down and up. */
static pair rounded(int64_t mantissa, int exponent, int shift) {
    wide z = (wide)mantissa << shift;
    pair ends;
    if (exponent >= 0) {
        ends.lo = ends.hi = (int64_t)(z * power_of_ten(exponent));
    } else {
        wide by = power_of_ten(exponent < -38 ? 38 : -exponent);
        ends.lo = (int64_t)floor_of(z, by);
        ends.hi = (int64_t)-floor_of(-z, by);
    }
    return ends;
}

static pair number(FILE *in) {
    char text[64];
    int64_t mantissa;
    int exponent;
    if (!word(in, text)) fail("the text ends early");
    decimal(text, &mantissa, &exponent);
    return rounded(mantissa, exponent, 24);
}

/* The second of J2000 of a Julian date. */
static int64_t seconds(FILE *in) {
    char text[64];
    int64_t mantissa;
    int exponent;
    if (!word(in, text)) fail("the text ends early");
    decimal(text, &mantissa, &exponent);
    wide by = exponent < 0 ? power_of_ten(-exponent) : 1;
    wide days = exponent > 0 ? mantissa * power_of_ten(exponent) : mantissa;
    return (int64_t)((days - 2451545 * by) * 86400 / by);
}

/* Behind the line of a group. */
static void group(FILE *in, const char *name) {
    char text[64];
    while (word(in, text))
        if (!strcmp(text, "GROUP") && word(in, text) && !strcmp(text, name)) return;
    fail("a group is missing");
}

static int whole(FILE *in) {
    int n;
    if (fscanf(in, "%d", &n) != 1) fail("a whole number is missing");
    return n;
}

/* The Moon's share of its pair with the Earth, 1 / (1 + EMRAT), in units of 2^-60, rounded outward. */
static void read_moon_share(FILE *in) {
    char text[64];
    int place = -1, names;
    group(in, "1040");
    names = whole(in);
    for (int i = 0; i < names && word(in, text); i++)
        if (!strcmp(text, "EMRAT")) place = i;
    group(in, "1041");
    names = whole(in);
    for (int i = 0; i < names && word(in, text); i++) {
        if (i != place) continue;
        int64_t mantissa;
        int exponent;
        decimal(text, &mantissa, &exponent);
        wide moon = power_of_ten(-exponent), both = moon + mantissa, top = moon << 60;
        file.moon_share = narrow(top / both, top / both + (top % both != 0), -60);
    }
}

static void read_columns(FILE *in) {
    group(in, "1050");
    for (int i = 0; i < COLUMNS; i++) file.columns[i].first = whole(in) - 1;
    for (int i = 0; i < COLUMNS; i++) file.columns[i].terms = whole(in);
    for (int i = 0; i < COLUMNS; i++) file.columns[i].granules = whole(in);
}

/* The blocks one after the other; the words that fill the last line of a block are zeros. */
static void read_blocks(FILE *in) {
    char text[64];
    while (word(in, text)) {
        if (file.blocks == MAX_BLOCKS || whole(in) != file.count) fail("a block isn't as expected");
        pair *to = file.numbers + (size_t)file.blocks * file.count;
        int64_t from = seconds(in), upto = seconds(in);
        if (file.blocks++ == 0) {
            file.start = from;
            file.block_seconds = upto - from;
        }
        for (int i = 2; i < file.count; i++) to[i] = number(in);
        for (int i = file.count; i % 3; i++) word(in, text);
    }
    file.end = file.start + file.blocks * file.block_seconds;
}

/* From here on the times of the file, and all that are made of them, count parts of a second. */
static void count_ticks(int64_t tick) {
    file.start *= tick;
    file.end *= tick;
    file.block_seconds *= tick;
}

static void read_file(const char *name, int64_t tick) {
    char text[64];
    FILE *in = fopen(name, "r");
    if (!in) fail("the file can't be read");
    while (word(in, text) && strcmp(text, "NCOEFF=")) {}
    file.count = whole(in);
    file.numbers = malloc(sizeof(pair) * MAX_BLOCKS * file.count);
    read_moon_share(in);
    read_columns(in);
    group(in, "1070");
    read_blocks(in);
    fclose(in);
    count_ticks(tick);
    for (int i = 0; i < COLUMNS; i++) {
        column *c = &file.columns[i];
        if (c->granules == 0) continue;
        c->seconds = file.block_seconds / c->granules;
        c->by_seconds = divider_of((uint64_t)c->seconds);
    }
}

/* The numbers of a granule that holds a time, and when it begins. */
STEP const pair *granule(const column *c, int64_t t, int64_t *start) {
    uint64_t rest, count = (uint64_t)file.blocks * c->granules;
    uint64_t place = short_quotient((uint64_t)(t - file.start), &c->by_seconds, &rest);
    if (place == count) place--;
    unsigned block = (unsigned)place / (unsigned)c->granules, within = (unsigned)place % (unsigned)c->granules;
    *start = file.start + (int64_t)place * c->seconds;
    return file.numbers + (size_t)block * file.count + c->first + (size_t)within * AXES * c->terms;
}

/* ---------- rows ---------- */

STEP pair argument(int64_t from, int64_t upto, const divider *d) {
    pair x = { (int64_t)divide_down((wide)from << 60, d), (int64_t)divide_up((wide)upto << 60, d) };
    return x;
}

STEP pair coarser(pair e, int k) {
    pair made = { e.lo >> k, -(-e.hi >> k) };
    return made;
}

static const pair NOTHING = { 0, 0 };

/* 2 x e + extra - before, cut to a size. */
STEP pair next_entry(pair x, pair e, pair extra, pair before, int64_t limit) {
    wide_pair p = products(x.lo, x.hi, e.lo, e.hi);
    int64_t lo = (int64_t)(p.lo >> 59) + extra.lo - before.hi;
    int64_t hi = (int64_t)-(-p.hi >> 59) + extra.hi - before.lo;
    pair made = { lo < -limit ? -limit : lo, hi > limit ? limit : hi };
    return made;
}

STEP void row_t(pair x, int n, pair *t) {
    t[0].lo = t[0].hi = (int64_t)1 << 60;
    if (n > 1) t[1] = x;
    for (int k = 2; k < n; k++) t[k] = next_entry(x, t[k - 1], NOTHING, t[k - 2], (int64_t)1 << 60);
}

STEP void row_u(pair x, int n, pair *u) {
    u[0].lo = u[0].hi = (int64_t)1 << 50;
    if (n > 1) u[1] = coarser(x, 9);
    for (int k = 2; k < n; k++) u[k] = next_entry(x, u[k - 1], NOTHING, u[k - 2], (int64_t)(k + 1) << 50);
}

STEP void row_q(pair x, int n, const pair *t, pair *q) {
    q[0] = NOTHING;
    if (n > 1) q[1].lo = q[1].hi = (int64_t)1 << 46;
    for (int k = 2; k < n; k++) q[k] = next_entry(x, q[k - 1], coarser(t[k - 1], 13), q[k - 2], (int64_t)(k * k) << 46);
}

STEP void row_r(pair x, int n, const pair *u, pair *r) {
    r[0] = NOTHING;
    if (n > 1) r[1].lo = r[1].hi = (int64_t)1 << 45;
    for (int k = 2; k < n; k++)
        r[k] = next_entry(x, r[k - 1], coarser(u[k - 1], 5), r[k - 2], (int64_t)(k * (k + 1) * (k + 2) / 3) << 44);
}

/* The product of a coefficient, whose ends differ by at most 1, and an entry. */
STEP wide_pair term(pair c, pair e) {
    int64_t first = c.lo < 0 ? e.hi : e.lo, last = c.lo < 0 ? e.lo : e.hi;
    wide_pair p = { times(first >= 0 ? c.lo : c.hi, first), times(last >= 0 ? c.hi : c.lo, last) };
    return p;
}

STEP wide_pair sum(const pair *terms, const pair *row, int n) {
    wide_pair total = { 0, 0 };
    for (int k = 0; k < n; k++) {
        wide_pair p = term(terms[k], row[k]);
        total.lo += p.lo;
        total.hi += p.hi;
    }
    return total;
}

/* The sum of k C_k X_(k-1). */
STEP wide_pair slope(const pair *terms, const pair *row, int n) {
    wide_pair total = { 0, 0 };
    for (int k = 1; k < n; k++) {
        wide_pair p = term(terms[k], row[k - 1]);
        total.lo += k * p.lo;
        total.hi += k * p.hi;
    }
    return total;
}

/* ---------- enclosures over a span ---------- */

typedef struct { int64_t from, upto, middle; interval distance; } span;

STEP span span_of(int64_t from, int64_t upto) {
    span s = { from, upto, (from + upto) >> 1, ZERO };
    s.distance = narrow(from - s.middle, upto - s.middle, 0);
    return s;
}

/* The range is cut to what the middle and the steps from it allow. */
STEP enclosure over(const span *s, interval mid, interval range, interval step) {
    enclosure e = { mid, meet(range, add(mid, multiply(step, s->distance))), step };
    return e;
}

STEP enclosure sum_over(const span *s, const enclosure *x, const enclosure *y) {
    return over(s, add(x->mid, y->mid), add(x->range, y->range), add(x->step, y->step));
}

STEP enclosure difference_over(const span *s, const enclosure *x, const enclosure *y) {
    return over(s, subtract(x->mid, y->mid), subtract(x->range, y->range), subtract(x->step, y->step));
}

STEP enclosure product_over(const span *s, const enclosure *x, const enclosure *y) {
    interval step = add(multiply(x->range, y->step), multiply(y->range, x->step));
    return over(s, multiply(x->mid, y->mid), multiply(x->range, y->range), step);
}

STEP enclosure square_over(const span *s, const enclosure *x) {
    int64_t low = size_of(x->range.lo), high = size_of(x->range.hi);
    interval twice = narrow(0, (wide)2 * (low > high ? low : high), x->range.s);
    return over(s, signed_square(x->mid), signed_square(x->range), multiply(twice, x->step));
}

STEP enclosure constant_over(interval c) {
    enclosure e = { c, narrow(c.lo, c.hi, c.s), ZERO };
    return e;
}

/* ---------- states ---------- */

/* The twelve coordinates: of target 0 and then 1, the place and then the velocity, along three axes. */
enum { COORDINATES = 12, PLACE = 0, VELOCITY = 3, SECOND = 6 };

typedef struct { enclosure place[AXES], velocity[AXES]; } motions;
typedef struct { interval place[AXES], velocity[AXES]; } motions_at;

static int targets[2], in_use[BODIES], in_use_count;

/* Which axes of any target's places, or velocities, are asked. */
static unsigned axes_of(unsigned asked, int first) { return (asked >> first | asked >> (first + SECOND)) & 7; }

static __attribute__((noinline)) void column_over(const column *c, const span *s, unsigned asked, motions *out) {
    int64_t start;
    const pair *numbers = granule(c, s->from, &start);
    pair centre[MAX_TERMS], row[MAX_TERMS], steps[MAX_TERMS];
    int64_t middle = 2 * (s->middle - start) - c->seconds;
    pair x = argument(2 * (s->from - start) - c->seconds, 2 * (s->upto - start) - c->seconds, &c->by_seconds);
    pair m = argument(middle, middle, &c->by_seconds);
    int n = c->terms;
    if (axes_of(asked, PLACE)) {
        row_t(m, n, centre);
        row_t(x, n, row);
        row_q(x, n, row, steps);
        for (int axis = 0; axis < AXES; axis++) {
            if (!(axes_of(asked, PLACE) >> axis & 1)) continue;
            const pair *terms = numbers + axis * n;
            wide_pair mid = sum(terms, centre, n), range = sum(terms, row, n);
            interval step = scale(sum(terms, steps, n), -70, &c->by_seconds);
            out->place[axis] = over(s, narrow(mid.lo, mid.hi, -84), narrow(range.lo, range.hi, -84), step);
        }
    }
    if (axes_of(asked, VELOCITY)) {
        row_u(m, n - 1, centre);
        row_u(x, n - 1, row);
        row_r(x, n - 1, row, steps);
        for (int axis = 0; axis < AXES; axis++) {
            if (!(axes_of(asked, VELOCITY) >> axis & 1)) continue;
            const pair *terms = numbers + axis * n;
            wide_pair change = slope(terms, steps, n);
            wide_pair once = { divide_down(2 * change.lo, &c->by_seconds), divide_up(2 * change.hi, &c->by_seconds) };
            interval mid = scale(slope(terms, centre, n), -74, &c->by_seconds);
            interval range = scale(slope(terms, row, n), -74, &c->by_seconds);
            out->velocity[axis] = over(s, mid, range, scale(once, -68, &c->by_seconds));
        }
    }
}

static __attribute__((noinline)) void column_at(const column *c, int64_t t, unsigned asked, motions_at *out) {
    int64_t start;
    const pair *numbers = granule(c, t, &start);
    pair row[MAX_TERMS];
    int64_t u = 2 * (t - start) - c->seconds;
    pair x = argument(u, u, &c->by_seconds);
    int n = c->terms;
    if (axes_of(asked, PLACE)) {
        row_t(x, n, row);
        for (int axis = 0; axis < AXES; axis++) {
            if (!(axes_of(asked, PLACE) >> axis & 1)) continue;
            wide_pair total = sum(numbers + axis * n, row, n);
            out->place[axis] = narrow(total.lo, total.hi, -84);
        }
    }
    if (axes_of(asked, VELOCITY)) {
        row_u(x, n - 1, row);
        for (int axis = 0; axis < AXES; axis++)
            if (axes_of(asked, VELOCITY) >> axis & 1)
                out->velocity[axis] = scale(slope(numbers + axis * n, row, n), -74, &c->by_seconds);
    }
}

/* The columns that the targets need, the Earth's two where one of them is not the Moon. */
static void choose_columns(void) {
    int is_needed[BODIES] = { 0 };
    for (int i = 0; i < 2; i++) {
        is_needed[targets[i]] = 1;
        if (targets[i] != MOON) is_needed[EMB] = is_needed[MOON] = 1;
    }
    for (int body = 0; body < BODIES; body++)
        if (is_needed[body]) in_use[in_use_count++] = body;
}

STEP enclosure earth_over(const span *s, const enclosure *emb, const enclosure *moon) {
    enclosure factor = constant_over(file.moon_share);
    enclosure share = { ZERO, ZERO, ZERO };
    share = over(s, multiply(factor.mid, moon->mid), multiply(factor.range, moon->range), multiply(factor.range, moon->step));
    return difference_over(s, emb, &share);
}

static __attribute__((noinline)) void states_over(const span *s, unsigned asked, enclosure *out) {
    motions columns[BODIES];
    for (int i = 0; i < in_use_count; i++) column_over(&file.columns[COLUMN[in_use[i]]], s, asked, &columns[in_use[i]]);
    enclosure earth[2 * AXES];
    int needs_earth = targets[0] != MOON || targets[1] != MOON;
    for (int i = 0; needs_earth && i < 2 * AXES; i++) {
        int first = i < AXES ? PLACE : VELOCITY, axis = i % AXES;
        if (!(axes_of(asked, first) >> axis & 1)) continue;
        const enclosure *emb = first == PLACE ? columns[EMB].place : columns[EMB].velocity;
        const enclosure *moon = first == PLACE ? columns[MOON].place : columns[MOON].velocity;
        earth[i] = earth_over(s, &emb[axis], &moon[axis]);
    }
    for (int i = 0; i < COORDINATES; i++) {
        if (!(asked >> i & 1)) continue;
        int target = targets[i / SECOND], axis = i % AXES, is_place = i % SECOND < VELOCITY;
        const enclosure *own = is_place ? &columns[target].place[axis] : &columns[target].velocity[axis];
        out[i] = target == MOON ? *own : difference_over(s, own, &earth[i % SECOND]);
    }
}

static __attribute__((noinline)) void states_at(int64_t t, unsigned asked, interval *out) {
    motions_at columns[BODIES];
    for (int i = 0; i < in_use_count; i++) column_at(&file.columns[COLUMN[in_use[i]]], t, asked, &columns[in_use[i]]);
    interval earth[2 * AXES];
    int needs_earth = targets[0] != MOON || targets[1] != MOON;
    for (int i = 0; needs_earth && i < 2 * AXES; i++) {
        int first = i < AXES ? PLACE : VELOCITY, axis = i % AXES;
        if (!(axes_of(asked, first) >> axis & 1)) continue;
        const interval *emb = first == PLACE ? columns[EMB].place : columns[EMB].velocity;
        const interval *moon = first == PLACE ? columns[MOON].place : columns[MOON].velocity;
        earth[i] = subtract(emb[axis], multiply(file.moon_share, moon[axis]));
    }
    for (int i = 0; i < COORDINATES; i++) {
        if (!(asked >> i & 1)) continue;
        int target = targets[i / SECOND], axis = i % AXES, is_place = i % SECOND < VELOCITY;
        interval own = is_place ? columns[target].place[axis] : columns[target].velocity[axis];
        out[i] = target == MOON ? own : subtract(own, earth[i % SECOND]);
    }
}

/* ---------- formulas, in postfix ---------- */

typedef struct { char act; int place; interval value; } action;
typedef struct { action actions[128]; int count; unsigned asked; } formula;

enum { MAX_DEPTH = 16 };

static void append(formula *f, char act, int place, interval value) {
    if (f->count == 128) fail("a formula is too long");
    f->actions[f->count++] = (action) { act, place, value };
    if (act == 'c') f->asked |= 1u << place;
}

/* The product of two vectors: x x' + y y' + z z'. */
static void append_dot(formula *f, int one, int other) {
    for (int axis = 0; axis < AXES; axis++) {
        append(f, 'c', one + axis, ZERO);
        append(f, 'c', other + axis, ZERO);
        append(f, '*', 0, ZERO);
        if (axis > 0) append(f, '+', 0, ZERO);
    }
}

/* The place of a vector among the coordinates: a, b, or a velocity a', b'. */
static int vector_of(const char **text) {
    int place = *(*text)++ == 'a' ? PLACE : SECOND;
    if (**text == '\'') {
        place += VELOCITY;
        (*text)++;
    }
    return place;
}

/* Words: ax or a'y, a coordinate; a.b', a product of vectors; r, s, k, a constant; + - * and q, the signed square. */
static void compile(formula *f, const char *text, const interval *constants) {
    while (*text) {
        if (*text == ' ') text++;
        else if (strchr("rsk", *text)) append(f, 'n', 0, constants[strchr("rsk", *text++) - "rsk"]);
        else if (strchr("+-*q", *text)) append(f, *text++, 0, ZERO);
        else {
            int one = vector_of(&text);
            if (*text == '.') {
                text++;
                append_dot(f, one, vector_of(&text));
            } else append(f, 'c', one + (*text++ - 'x'), ZERO);
        }
    }
}

static __attribute__((noinline)) enclosure evaluate_over(const formula *f, const span *s, const enclosure *states) {
    enclosure stack[MAX_DEPTH];
    int top = -1;
    for (int i = 0; i < f->count; i++) {
        const action *a = &f->actions[i];
        switch (a->act) {
        case 'c': stack[++top] = states[a->place]; break;
        case 'n': stack[++top] = constant_over(a->value); break;
        case '+': top--; stack[top] = sum_over(s, &stack[top], &stack[top + 1]); break;
        case '-': top--; stack[top] = difference_over(s, &stack[top], &stack[top + 1]); break;
        case '*': top--; stack[top] = product_over(s, &stack[top], &stack[top + 1]); break;
        default: stack[top] = square_over(s, &stack[top]);
        }
    }
    return stack[0];
}

static __attribute__((noinline)) interval evaluate_at(const formula *f, const interval *states) {
    interval stack[MAX_DEPTH];
    int top = -1;
    for (int i = 0; i < f->count; i++) {
        const action *a = &f->actions[i];
        switch (a->act) {
        case 'c': stack[++top] = states[a->place]; break;
        case 'n': stack[++top] = a->value; break;
        case '+': top--; stack[top] = add(stack[top], stack[top + 1]); break;
        case '-': top--; stack[top] = subtract(stack[top], stack[top + 1]); break;
        case '*': top--; stack[top] = multiply(stack[top], stack[top + 1]); break;
        default: stack[top] = signed_square(stack[top]);
        }
    }
    return stack[0];
}

/* ---------- kinds ---------- */

enum { MAX_GUARDS = 2 };

/* A kind, its targets, its function, what has to be at least 0, whether the last of these has to be below 0 instead, and
   two lengths and a cosine as decimals. */
static const struct kind {
    const char *name;
    int first, second;
    const char *function, *guards[MAX_GUARDS];
    int is_last_below;
    const char *constants[3];
} KINDS[] = {
    { "coord", MERCURY, MERCURY, "ax r -", { 0, 0 }, 0, { "0", "0", "0" } },
    { "radius", MOON, MOON, "a.a r r * -", { 0, 0 }, 0, { "384400", "0", "0" } },
    { "apsis", MOON, MOON, "a.a'", { 0, 0 }, 0, { "0", "0", "0" } },
    { "conj", MERCURY, VENUS, "ax by * ay bx * -", { "ax bx * ay by * +", 0 }, 0, { "0", "0", "0" } },
    { "station", MERCURY, MERCURY, "ax a'y * ay a'x * -", { 0, 0 }, 0, { "0", "0", "0" } },
    { "sep", MERCURY, VENUS, "a.b q k q a.a b.b * * -", { 0, 0 }, 0, { "0", "0", "0.998" } },
    { "any", MOON, SUN, "a.b r s * + q a.a r r * - b.b s s * - * -", { "b.b a.a -", 0 }, 0, { "8115.5", "696000", "0" } },
    { "full", MOON, SUN, "a.b r s * - q a.a r r * - b.b s s * - * -",
        { "b.b a.a -", "r r * b.b * s s * a.a * -" }, 0, { "8115.5", "696000", "0" } },
    { "annular", MOON, SUN, "a.b r s * - q a.a r r * - b.b s s * - * -",
        { "b.b a.a -", "r r * b.b * s s * a.a * -" }, 1, { "1737.4", "696000", "0" } },
    { "sepext", MERCURY, VENUS,
        "a'.b a.b' + a.a b.b * * a.b a.a' b.b * a.a b.b' * + * -", { 0, 0 }, 0, { "0", "0", "0" } },
    { "moonext", MOON, SUN,
        "a'.b a.b' + a.a b.b * * a.b a.a' b.b * a.a b.b' * + * -", { 0, 0 }, 0, { "0", "0", "0" } },
};

static formula function, guards[MAX_GUARDS];
static int guard_count, is_below[MAX_GUARDS];
static unsigned asked_of_all;

static interval constant_of(const char *text, int shift) {
    int64_t mantissa;
    int exponent;
    decimal(text, &mantissa, &exponent);
    pair ends = rounded(mantissa, exponent, shift);
    interval made = { ends.lo, ends.hi, -shift };
    return made;
}

static void choose_kind(const struct kind *k) {
    interval constants[3] = { constant_of(k->constants[0], 24), constant_of(k->constants[1], 24), constant_of(k->constants[2], 60) };
    targets[0] = k->first;
    targets[1] = k->second;
    compile(&function, k->function, constants);
    asked_of_all = function.asked;
    for (; guard_count < MAX_GUARDS && k->guards[guard_count]; guard_count++) {
        compile(&guards[guard_count], k->guards[guard_count], constants);
        asked_of_all |= guards[guard_count].asked;
    }
    if (guard_count > 0) is_below[guard_count - 1] = k->is_last_below;
    choose_columns();
}

/* ---------- the judge ---------- */

typedef struct { int64_t a, b; unsigned depth; } node;
enum sign { OPEN, YES, NO };
enum verdict { CLEAR, RISE, FALL, UNDECIDED, SPLIT };
enum { MAX_DEEP = 40 };

static uint64_t judged;

STEP enum sign sign_of(interval x) { return x.lo >= 0 ? YES : x.hi < 0 ? NO : OPEN; }

/* The border nearest to the middle, the lower on a tie; 0 where there is none. */
static int border_in(int64_t a, int64_t b, int64_t *found) {
    int any = 0;
    for (int i = 0; i < in_use_count; i++) {
        const column *c = &file.columns[COLUMN[in_use[i]]];
        uint64_t rest, count = (uint64_t)file.blocks * c->granules;
        uint64_t near = short_quotient(((uint64_t)(a - file.start) + (uint64_t)(b - file.start)) / 2, &c->by_seconds, &rest);
        for (uint64_t place = near; place <= near + 1; place++) {
            int64_t t = file.start + (int64_t)place * c->seconds;
            if (place == 0 || place >= count || t <= a || b < t) continue;
            int64_t old = size_of(2 * *found - (a + b)), new = size_of(2 * t - (a + b));
            if (!any || new < old || (new == old && t < *found)) *found = t;
            any = 1;
        }
    }
    return any;
}

static enum sign function_sign_at(int64_t t) {
    interval states[COORDINATES];
    states_at(t, function.asked, states);
    return sign_of(evaluate_at(&function, states));
}

static enum verdict limit_verdict(node n) { return n.b - n.a > 1 && n.depth < MAX_DEEP ? SPLIT : UNDECIDED; }

/* A guard is certified (1), refuted (-1) or open. */
static int guard_state(int i, enum sign sign) {
    if (sign == OPEN) return 0;
    return (sign == YES) != is_below[i] ? 1 : -1;
}

static enum verdict unit_verdict(node n) {
    interval states[COORDINATES];
    int certified = 1;
    states_at(n.b, asked_of_all, states);
    for (int i = 0; i < guard_count; i++) {
        int state = guard_state(i, sign_of(evaluate_at(&guards[i], states)));
        if (state < 0) return CLEAR;
        certified &= state > 0;
    }
    enum sign first = function_sign_at(n.a), last = sign_of(evaluate_at(&function, states));
    if (first == OPEN || last == OPEN) return UNDECIDED;
    if (first == last) return CLEAR;
    return certified ? last == YES ? RISE : FALL : UNDECIDED;
}

static enum verdict judge(node n) {
    int64_t border;
    enclosure states[COORDINATES];
    judged++;
    if (border_in(n.a, n.b, &border)) return n.b - n.a > 1 ? SPLIT : unit_verdict(n);
    span s = span_of(n.a, n.b);
    states_over(&s, asked_of_all, states);
    enclosure f = evaluate_over(&function, &s, states);
    if (sign_of(f.range) != OPEN) return CLEAR;
    if (n.b - n.a == 1) return unit_verdict(n);
    for (int i = 0; i < guard_count; i++)
        if (guard_state(i, sign_of(evaluate_over(&guards[i], &s, states).range)) < 0) return CLEAR;
    if (f.step.lo >= 0 || f.step.hi <= 0) {
        enum sign first = function_sign_at(n.a);
        if (first != OPEN && function_sign_at(n.b) == first) return CLEAR;
    }
    return limit_verdict(n);
}

/* ---------- the search ---------- */

static uint64_t mixed(uint64_t checksum, uint64_t value) { return checksum * 6364136223846793005ULL + value; }

static uint64_t size_in_64_bits(int64_t z) { return (uint64_t)size_of(z); }

/* The ends and the exponent of an interval, folded into a checksum. */
static uint64_t fold(uint64_t checksum, interval x) {
    uint64_t signs = (uint64_t)(x.lo < 0) ^ (uint64_t)(x.hi < 0) << 1, high = size_in_64_bits(x.hi);
    uint64_t value = size_in_64_bits(x.lo) ^ (high << 32 | high >> 32) ^ (signs << 62) ^ (uint64_t)abs(x.s);
    return mixed(checksum, value);
}

static uint64_t fold_enclosure(uint64_t checksum, const enclosure *e) {
    return fold(fold(fold(checksum, e->mid), e->range), e->step);
}

/* A leaf, with the enclosures of the function and the guards over it where no border falls into it. */
static uint64_t fold_leaf(uint64_t checksum, node n, enum verdict v) {
    int64_t border;
    checksum = mixed(mixed(mixed(checksum, (uint64_t)size_of(n.a)), (uint64_t)(n.b - n.a)), v);
    if (border_in(n.a, n.b, &border)) return checksum;
    enclosure states[COORDINATES], e;
    span s = span_of(n.a, n.b);
    states_over(&s, asked_of_all, states);
    e = evaluate_over(&function, &s, states);
    checksum = fold_enclosure(checksum, &e);
    for (int i = 0; i < guard_count; i++) {
        e = evaluate_over(&guards[i], &s, states);
        checksum = fold_enclosure(checksum, &e);
    }
    return checksum;
}

typedef struct { node *nodes; unsigned char *verdicts; size_t count, room; } leaves;

static void append_leaf(leaves *found, node n, enum verdict v) {
    if (found->count == found->room) {
        found->room = 2 * found->room + 64;
        found->nodes = realloc(found->nodes, found->room * sizeof *found->nodes);
        found->verdicts = realloc(found->verdicts, found->room);
    }
    found->nodes[found->count] = n;
    found->verdicts[found->count++] = v;
}

static void search(leaves *found) {
    static node waiting[1 << 16];
    int count = 0;
    found->count = 0;
    waiting[count++] = (node) { file.start, file.end, 0 };
    while (count > 0) {
        node n = waiting[--count];
        enum verdict v = judge(n);
        if (v != SPLIT) {
            append_leaf(found, n, v);
            continue;
        }
        int64_t border, at = n.a + (n.b - n.a) / 2;
        unsigned depth = n.depth + 1;
        if (border_in(n.a, n.b, &border)) {
            at = n.a < border - 1 ? border - 1 : border;
            depth = n.depth;
        }
        if (count + 2 > 1 << 16) fail("too many nodes wait");
        waiting[count++] = (node) { at, n.b, depth };
        waiting[count++] = (node) { n.a, at, depth };
    }
}

static const struct kind *kind_of(const char *name) {
    for (size_t i = 0; i < sizeof KINDS / sizeof *KINDS; i++)
        if (!strcmp(KINDS[i].name, name)) return &KINDS[i];
    fail("the kind is coord, radius, apsis, conj, station, sep, any, full, annular, sepext or moonext");
    return 0;
}

/* The function over each leaf that is clear by what is known over the whole of it, once. */
static int least(const char *name, const char *from) {
    leaves found = { 0, 0, 0, 0 };
    uint64_t checksum = 0, clear = 0;
    read_file(from, 1);
    choose_kind(kind_of(name));
    search(&found);
    clock_t began = clock();
    for (size_t i = 0; i < found.count; i++) {
        node n = found.nodes[i];
        int64_t border;
        if (found.verdicts[i] != CLEAR || n.b - n.a == 1 || border_in(n.a, n.b, &border)) continue;
        enclosure states[COORDINATES], e;
        span s = span_of(n.a, n.b);
        states_over(&s, function.asked, states);
        e = evaluate_over(&function, &s, states);
        if (sign_of(e.range) == OPEN) continue;
        checksum = fold(checksum, e.range);
        clear++;
    }
    double taken = (double)(clock() - began) / CLOCKS_PER_SEC;
    printf("%s leaves %zu clear %llu seconds %.3f checksum %llu\n", name, found.count, (unsigned long long)clear, taken,
        (unsigned long long)checksum);
    return 0;
}

int main(int argc, char **argv) {
    if (argc != 4 && argc != 5) fail("KIND ROUNDS FILE [TICK], or: least KIND FILE");
    if (!strcmp(argv[1], "least")) return least(argv[2], argv[3]);
    const struct kind *kind = kind_of(argv[1]);
    unsigned long rounds = strtoul(argv[2], 0, 10);
    int64_t tick = argc == 5 ? strtol(argv[4], 0, 10) : 1;
    if (tick != 1 && tick != 1000) fail("the tick is 1 or 1000");
    read_file(argv[3], tick);
    choose_kind(kind);
    leaves found = { 0, 0, 0, 0 };
    for (unsigned long i = 0; i < rounds; i++) search(&found);
    uint64_t checksum = 0, events = 0;
    for (size_t i = 0; i < found.count; i++) {
        checksum = fold_leaf(checksum, found.nodes[i], found.verdicts[i]);
        events += found.verdicts[i] == RISE || found.verdicts[i] == FALL;
    }
    printf("%s %lu nodes %llu leaves %zu events %llu checksum %llu\n", argv[1], rounds,
        (unsigned long long)(rounds ? judged / rounds : 0), found.count, (unsigned long long)events,
        (unsigned long long)checksum);
    return 0;
}
