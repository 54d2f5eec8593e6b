/* Reading and searching as plain C does it, in doubles. A text is read whole into memory, then its words from left to
   right: each word that is a number as a whole, with the letter D or E before its exponent, is read by a READER: by
   strtod, or its digits eight at a time. Both make the same doubles. Nothing of the layout is checked. In a search a
   function is evaluated at steps of a time, and where its sign changes from one step to the next, the change is bisected
   to a second. Nothing bounds an error, and two changes within a step are missed.

       doubles reading READER FILE  reads FILE and keeps its numbers; prints how many words and numbers there were, and the
                                    sum of the numbers' sizes
       doubles compare FILE         reads each word by both readers; prints how many numbers there were, how many of them
                                    eights leaves to strtod, and how many differ in a bit; ends with 1 if one does
       doubles find --reader READER --step SECONDS OPTIONS FILE
                                    searches FILE, a text of DE405 by JPL, for what the same options of finder ask for;
                                    prints the second and the direction of each event

   READER is strtod or eights. */
#include <math.h>
#include <stdint.h>
#include <stdio.h>
#include <stdlib.h>
#include <string.h>

static _Noreturn void fail(const char *why) {
    fprintf(stderr, "doubles: %s\n", why);
    exit(2);
}

/* ---------- words and numbers ---------- */

enum { LONGEST = 63 };

static const char BLANKS[] = " \t\r\n";

/* Reads the number of a word of so many bytes; returns 0 where it is none. */
typedef int reader(const char *word, size_t length, double *value);

/* A text in memory, with a zero behind it, where its words go on, and what reads its numbers. */
struct text { char *at; reader *number; };

static struct text open_text(const char *name, reader *number) {
    FILE *in = fopen(name, "rb");
    if (!in || fseek(in, 0, SEEK_END)) fail("the file cannot be read");
    size_t size = (size_t)ftell(in);
    rewind(in);
    char *bytes = malloc(size + 1);
    if (!bytes || fread(bytes, 1, size, in) != size) fail("the file cannot be read");
    bytes[size] = 0;
    fclose(in);
    return (struct text) { bytes, number };
}

/* The length of the next word, and where it begins; 0 where there is none. */
static size_t next_word(struct text *text, const char **word) {
    char *first = text->at + strspn(text->at, BLANKS);
    size_t length = strcspn(first, BLANKS);
    text->at = first + length;
    *word = first;
    return length;
}

static int by_strtod(const char *word, size_t length, double *value) {
    char text[LONGEST + 1], *end;
    if (length > LONGEST) return 0;
    memcpy(text, word, length);
    text[length] = 0;
    char *d = memchr(text, 'D', length);
    if (d) *d = 'E';
    *value = strtod(text, &end);
    return end == text + length;
}

/* Whether each of eight bytes is a digit: its upper half is 3, and so it is once 6 was added, which takes those past 9 out.
   With the next function it is the reading of eight digits in simdjson and fast_float. */
static int are_digits(uint64_t bytes) {
    const uint64_t upper = 0xF0F0F0F0F0F0F0F0u;
    return ((bytes & upper) | ((bytes + 0x0606060606060606u) & upper) >> 4) == 0x3333333333333333u;
}

/* The number that eight digits write: each is joined with the next, and so is what comes of it, twice more. */
static uint64_t eight_digits(uint64_t bytes) {
    bytes -= 0x3030303030303030u;
    bytes = bytes * 10 + (bytes >> 8);
    return ((bytes & 0x000000FF000000FFu) * 0x000F424000000064u + (bytes >> 16 & 0x000000FF000000FFu) * 0x0000271000000001u)
        >> 32;
}

enum { PLACES = 18, LEAST_POWER = -99 - PLACES, POWERS = 2 * 99 + 1 };

/* 10^q lies from bits 2^exponent to (bits + 1.1) 2^exponent, and bits has its highest bit. */
struct power { uint64_t bits; int exponent; };

static struct power powers[POWERS];

static void keep_power(int q, unsigned __int128 five, int exponent) {
    if (q - LEAST_POWER < 0 || q - LEAST_POWER >= POWERS) return;
    powers[q - LEAST_POWER] = (struct power) { (uint64_t)(five >> 64), exponent + 64 + q };
}

/* Powers of five in 128 bits, each made of its neighbour: a step takes off less than 2^-124 of it. */
static void make_powers(void) {
    const unsigned __int128 one = (unsigned __int128)1 << 127;
    unsigned __int128 up = one, down = one;
    int up_exponent = -127, down_exponent = -127;
    keep_power(0, one, -127);
    for (int q = 1; q < POWERS; q++) {
        up = (up >> 3) * 5;
        up_exponent += 3;
        for (; !(up >> 127); up_exponent--) up <<= 1;
        keep_power(q, up, up_exponent);
        down /= 5;
        for (; !(down >> 127); down_exponent--) down <<= 1;
        keep_power(-q, down, down_exponent);
    }
}

/* Rounds so many units, 18 digits, times 10^q to the nearest double. Their product with the power's 64 bits is too small by
   less than 3 in its upper half. Where the half of a last place lies within these 3, it returns 0. So Clinger (How to read
   floating point numbers accurately, 1990) takes a product that is not near a half, and Lemire (Number parsing at a
   gigabyte per second, 2021) makes it. */
static inline int rounded(uint64_t units, int q, uint64_t sign, double *value) {
    uint64_t bits = sign;
    if (units) {
        const struct power *power = &powers[q - LEAST_POWER];
        int zeros = __builtin_clzll(units);
        uint64_t upper = (uint64_t)((unsigned __int128)(units << zeros) * power->bits >> 64);
        int cut = 10 + (int)(upper >> 63);
        uint64_t low = upper & ((1u << cut) - 1), half = 1u << (cut - 1);
        if (low <= half && low + 3 > half) return 0;
        int exponent = power->exponent - zeros + 64 + cut;
        bits |= ((uint64_t)(exponent + 1074) << 52) + (upper >> cut) + (low > half);
    }
    memcpy(value, &bits, sizeof bits);
    return 1;
}

/* The number of a word as JPL writes it, 0.123456789012345678D+01 and perhaps a minus before it: the double that is nearest.
   It returns 0 for another word, and where it cannot tell which double that is. */
static inline int fast_number(const char *word, size_t length, double *value) {
    int is_below = length && *word == '-';
    const char *p = word + is_below;
    uint64_t first, second;
    if (length - (size_t)is_below != 24 || p[0] != '0' || p[1] != '.' || p[20] != 'D') return 0;
    memcpy(&first, p + 2, sizeof first);
    memcpy(&second, p + 10, sizeof second);
    unsigned a = (unsigned)p[18] - '0', b = (unsigned)p[19] - '0', c = (unsigned)p[22] - '0', d = (unsigned)p[23] - '0';
    int is_minus = p[21] == '-';
    if (!(are_digits(first) & are_digits(second) & (a < 10) & (b < 10) & (c < 10) & (d < 10) & ((p[21] == '+') | is_minus)))
        return 0;
    uint64_t units = eight_digits(first) * 10000000000u + eight_digits(second) * 100u + a * 10 + b;
    int exponent = (int)(c * 10 + d);
    return rounded(units, (exponent ^ -is_minus) + is_minus - PLACES, (uint64_t)is_below << 63, value);
}

static int by_eights(const char *word, size_t length, double *value) {
    return fast_number(word, length, value) || by_strtod(word, length, value);
}

static int is_word(const char *word, size_t length, const char *wanted) {
    return length == strlen(wanted) && !memcmp(word, wanted, length);
}

static int reading(const char *name, reader *number) {
    struct text text = open_text(name, number);
    size_t room = 1 << 16, numbers = 0, all = 0, length;
    const char *word;
    double *kept = malloc(room * sizeof *kept), sum = 0;
    while ((length = next_word(&text, &word))) {
        if (numbers == room && !(kept = realloc(kept, (room *= 2) * sizeof *kept))) fail("no memory");
        if (text.number(word, length, kept + numbers)) numbers++;
        all++;
    }
    for (size_t i = 0; i < numbers; i++) sum += fabs(kept[i]);
    printf("words %zu numbers %zu sum %.17g\n", all, numbers, sum);
    return 0;
}

static int compare(const char *name) {
    struct text text = open_text(name, by_eights);
    size_t numbers = 0, left = 0, differ = 0, length;
    const char *word;
    while ((length = next_word(&text, &word))) {
        double a = 0, b = 0;
        int is_number = by_strtod(word, length, &a);
        int is_same = by_eights(word, length, &b) == is_number && !memcmp(&a, &b, sizeof a);
        numbers += (size_t)is_number;
        left += (size_t)(is_number && !fast_number(word, length, &b));
        differ += (size_t)!is_same;
    }
    printf("numbers %zu, left to strtod %zu, other by eights %zu\n", numbers, left, differ);
    return differ > 0;
}

/* ---------- a text of DE405 ---------- */

/* The columns by their places in the header, those of bodies first; two bodies more, that have none. */
enum { MERCURY, VENUS, EMB, MARS, JUPITER, SATURN, URANUS, NEPTUNE, PLUTO, MOON, SUN, EARTH, SSB, BODIES };
enum { AXES = 3, COLUMNS = 13, DAY = 86400 };

struct column { int first, coefficients, granules; };
struct file { size_t count, blocks; long start, seconds; double share, *numbers; struct column columns[COLUMNS]; };

static double next_number(struct text *text) {
    const char *word;
    double value;
    size_t length = next_word(text, &word);
    if (!length || !text->number(word, length, &value)) fail("a number is missing");
    return value;
}

/* Behind a word. */
static void skip_to(struct text *text, const char *wanted) {
    const char *word;
    size_t length;
    while ((length = next_word(text, &word)))
        if (is_word(word, length, wanted)) return;
    fail("a word is missing");
}

/* Behind the line of a group. */
static void skip_to_group(struct text *text, const char *name) {
    const char *word;
    size_t length;
    do {
        skip_to(text, "GROUP");
        length = next_word(text, &word);
    } while (!is_word(word, length, name));
}

/* The mass ratio of the Earth and the Moon, by its place among the names. */
static double mass_ratio(struct text *text) {
    const char *word;
    double ratio = 0;
    int place = -1;
    skip_to_group(text, "1040");
    int names = (int)next_number(text);
    for (int i = 0; i < names; i++) {
        size_t length = next_word(text, &word);
        if (is_word(word, length, "EMRAT")) place = i;
    }
    skip_to_group(text, "1041");
    int values = (int)next_number(text);
    for (int i = 0; i < values; i++) {
        double value = next_number(text);
        if (i == place) ratio = value;
    }
    return ratio;
}

static long seconds(double julian) { return lround((julian - 2451545.0) * DAY); }

/* The blocks one after the other; the words that fill the last line of a block are zeros. */
static void read_blocks(struct file *f, struct text *text) {
    const char *word;
    size_t room = 0;
    while (next_word(text, &word)) {
        if (next_number(text) != (double)f->count) fail("a block is not as expected");
        if (f->blocks == room) {
            room = room ? 2 * room : 64;
            if (!(f->numbers = realloc(f->numbers, room * f->count * sizeof *f->numbers))) fail("no memory");
        }
        double *to = f->numbers + f->blocks++ * f->count;
        for (size_t i = 0; i < f->count; i++) to[i] = next_number(text);
        for (size_t i = f->count; i % 3; i++) next_number(text);
    }
    if (!f->blocks) fail("there are no blocks");
    f->start = seconds(f->numbers[0]);
    f->seconds = seconds(f->numbers[1]) - f->start;
}

static struct file read_file(const char *name, reader *number) {
    struct text text = open_text(name, number);
    struct file f = { 0 };
    skip_to(&text, "NCOEFF=");
    f.count = (size_t)next_number(&text);
    f.share = 1 / (1 + mass_ratio(&text));
    skip_to_group(&text, "1050");
    for (int i = 0; i < COLUMNS; i++) f.columns[i].first = (int)next_number(&text) - 1;
    for (int i = 0; i < COLUMNS; i++) f.columns[i].coefficients = (int)next_number(&text);
    for (int i = 0; i < COLUMNS; i++) f.columns[i].granules = (int)next_number(&text);
    skip_to_group(&text, "1070");
    read_blocks(&f, &text);
    return f;
}

static long end_of(const struct file *f) { return f->start + (long)f->blocks * f->seconds; }

/* ---------- bodies ---------- */

struct state { double p[AXES], v[AXES]; };

/* A time of a file: whether velocities are wanted, and the columns that were looked at. */
struct moment { const struct file *file; long time; int velocities; unsigned known; struct state columns[COLUMNS]; };

/* The polynomials of the three axes, by their recurrences side by side. */
static void positions(const double *c, int n, double x, double value[AXES]) {
    double twice = 2 * x, b1[AXES] = { 0 }, b2[AXES] = { 0 };
    for (int k = n - 1; k > 0; k--)
#pragma GCC unroll 3
        for (int axis = 0; axis < AXES; axis++) {
            double b = twice * b1[axis] - b2[axis] + c[axis * n + k];
            b2[axis] = b1[axis];
            b1[axis] = b;
        }
    for (int axis = 0; axis < AXES; axis++) value[axis] = x * b1[axis] - b2[axis] + c[axis * n];
}

/* The same with their derivatives, by the derivatives of the recurrences. */
static void motions(const double *c, int n, double x, double value[AXES], double change[AXES]) {
    double twice = 2 * x, b1[AXES] = { 0 }, b2[AXES] = { 0 }, d1[AXES] = { 0 }, d2[AXES] = { 0 };
    for (int k = n - 1; k > 0; k--)
#pragma GCC unroll 3
        for (int axis = 0; axis < AXES; axis++) {
            double d = twice * d1[axis] - d2[axis] + 2 * b1[axis], b = twice * b1[axis] - b2[axis] + c[axis * n + k];
            d2[axis] = d1[axis];
            d1[axis] = d;
            b2[axis] = b1[axis];
            b1[axis] = b;
        }
    for (int axis = 0; axis < AXES; axis++) {
        value[axis] = x * b1[axis] - b2[axis] + c[axis * n];
        change[axis] = x * d1[axis] - d2[axis] + b1[axis];
    }
}

static void read_column(const struct moment *m, int place, struct state *to) {
    const struct file *f = m->file;
    const struct column *c = &f->columns[place];
    long length = f->seconds / c->granules, granule = (m->time - f->start) / length;
    if (granule == (long)f->blocks * c->granules) granule--;
    double x = 2.0 * (double)(m->time - f->start - granule * length) / (double)length - 1;
    const double *numbers = f->numbers + (size_t)(granule / c->granules) * f->count + c->first
        + granule % c->granules * AXES * c->coefficients;
    if (m->velocities) {
        motions(numbers, c->coefficients, x, to->p, to->v);
        for (int axis = 0; axis < AXES; axis++) to->v[axis] *= 2.0 / (double)length;
    } else {
        positions(numbers, c->coefficients, x, to->p);
    }
}

/* A column at the moment, which is evaluated once. */
static const struct state *column_at(struct moment *m, int place) {
    if (!(m->known >> place & 1)) read_column(m, place, &m->columns[place]);
    m->known |= 1u << place;
    return &m->columns[place];
}

/* Adds so many times a state to another. */
static void add(const struct moment *m, struct state *to, double factor, const struct state *s) {
    for (int axis = 0; axis < AXES; axis++) to->p[axis] += factor * s->p[axis];
    if (m->velocities)
        for (int axis = 0; axis < AXES; axis++) to->v[axis] += factor * s->v[axis];
}

/* A body seen from the barycentre of the solar system; the Earth is its barycentre with the Moon less the Moon's share. */
static struct state place_of(struct moment *m, int body) {
    if (body < EARTH && body != MOON) return *column_at(m, body);
    struct state s = { 0 };
    if (body == SSB) return s;
    s = *column_at(m, EMB);
    add(m, &s, -m->file->share, column_at(m, MOON));
    if (body == MOON) add(m, &s, 1, column_at(m, MOON));
    return s;
}

/* A body seen from another. The Moon's column is the Moon seen from the Earth. */
static struct state seen_from(struct moment *m, int body, int observer) {
    struct state s = { 0 };
    if (body == MOON && observer == EARTH) return *column_at(m, MOON);
    if (body == EARTH && observer == MOON) {
        add(m, &s, -1, column_at(m, MOON));
        return s;
    }
    s = place_of(m, body);
    if (observer == SSB) return s;
    struct state from = place_of(m, observer);
    add(m, &s, -1, &from);
    return s;
}

static void turn(double v[AXES]) {
    const double cosine = 0.917482062069182, sine = 0.397777155931914;
    double y = v[1], z = v[2];
    v[1] = cosine * y + sine * z;
    v[2] = cosine * z - sine * y;
}

/* ---------- kinds ---------- */

enum kind { COORD, RADIUS, APSIS, CONJ, OPPO, STATION, SEP, SEPEXT, ANY, FULL, ANNULAR, ALL_KINDS };

/* A kind's name, whether it has a second body, and whether its function has velocities. */
static const struct { const char *name; int second, velocities; } KINDS[ALL_KINDS] = {
    { "coord", 0, 0 }, { "radius", 0, 0 }, { "apsis", 0, 1 }, { "conj", 1, 0 }, { "oppo", 1, 0 }, { "station", 0, 1 },
    { "sep", 1, 0 }, { "sepext", 1, 1 }, { "any", 1, 0 }, { "full", 1, 0 }, { "annular", 1, 0 },
};

/* What is searched for: the value is a coordinate, a distance or a cosine; the radii are those of both bodies. */
struct search {
    int kind, target, second, observer, ecliptic, axis;
    double value, radius1, radius2;
    long step;
    reader *number;
};

/* Target and second body as they are seen at a time. */
struct view { struct state a, b; };

static struct view look(const struct file *f, const struct search *s, long time) {
    struct moment m;
    struct view view;
    m.file = f;
    m.time = time;
    m.velocities = KINDS[s->kind].velocities;
    m.known = 0;
    view.a = seen_from(&m, s->target, s->observer);
    if (KINDS[s->kind].second) view.b = seen_from(&m, s->second, s->observer);
    if (s->ecliptic) {
        turn(view.a.p);
        if (m.velocities) turn(view.a.v);
        if (KINDS[s->kind].second) turn(view.b.p);
    }
    return view;
}

static double dot(const double *a, const double *b) { return a[0] * b[0] + a[1] * b[1] + a[2] * b[2]; }

/* At least 0 where the discs overlap (`both` is the product of the radii), or one lies within the other (less it). */
static double shadow(const struct search *s, const struct view *v, double both) {
    double d = dot(v->a.p, v->b.p) + both;
    return d * fabs(d)
        - (dot(v->a.p, v->a.p) - s->radius1 * s->radius1) * (dot(v->b.p, v->b.p) - s->radius2 * s->radius2);
}

/* The function of docs/proved/definitions.md. */
static double function(const struct search *s, const struct view *v) {
    const double *a = v->a.p, *b = v->b.p, *a1 = v->a.v, *b1 = v->b.v;
    double d, aa, bb;
    switch (s->kind) {
        case COORD: return a[s->axis] - s->value;
        case RADIUS: return dot(a, a) - s->value * s->value;
        case APSIS: return dot(a, a1);
        case CONJ: case OPPO: return a[0] * b[1] - a[1] * b[0];
        case STATION: return a[0] * a1[1] - a[1] * a1[0];
        case SEP:
            d = dot(a, b);
            return d * fabs(d) - s->value * fabs(s->value) * (dot(a, a) * dot(b, b));
        case SEPEXT:
            aa = dot(a, a);
            bb = dot(b, b);
            return (dot(a1, b) + dot(a, b1)) * (aa * bb) - dot(a, b) * (dot(a, a1) * bb + aa * dot(b, b1));
        case ANY: return shadow(s, v, s->radius1 * s->radius2);
        default: return shadow(s, v, -s->radius1 * s->radius2);
    }
}

/* Its conditions. */
static int condition(const struct search *s, const struct view *v) {
    const double *a = v->a.p, *b = v->b.p;
    double beside, aa, bb, discs;
    switch (s->kind) {
        case CONJ: case OPPO:
            beside = a[0] * b[0] + a[1] * b[1];
            return s->kind == CONJ ? beside >= 0 : beside < 0;
        case ANY: case FULL: case ANNULAR:
            aa = dot(a, a);
            bb = dot(b, b);
            discs = s->radius1 * s->radius1 * bb - s->radius2 * s->radius2 * aa;
            return bb >= aa && (s->kind == ANY || (s->kind == FULL ? discs >= 0 : discs < 0));
        default: return 1;
    }
}

/* ---------- steps and bisection ---------- */

/* The first second of a new sign, and the sign. */
struct event { long time; int is_up; };
struct events { size_t count, room; struct event *all; };

static int is_up(const struct file *f, const struct search *s, long time) {
    struct view view = look(f, s, time);
    return function(s, &view) >= 0;
}

static long bisect(const struct file *f, const struct search *s, long from, long to, int before) {
    while (to - from > 1) {
        long middle = from + (to - from) / 2;
        if (is_up(f, s, middle) == before) from = middle;
        else to = middle;
    }
    return to;
}

/* Keeps a change of sign where the conditions hold. */
static void keep(const struct file *f, const struct search *s, struct event event, struct events *found) {
    struct view view = look(f, s, event.time);
    if (!condition(s, &view)) return;
    if (found->count == found->room) {
        found->room = found->room ? 2 * found->room : 64;
        if (!(found->all = realloc(found->all, found->room * sizeof *found->all))) fail("no memory");
    }
    found->all[found->count++] = event;
}

static void search(const struct file *f, const struct search *s, struct events *found) {
    long end = end_of(f);
    int before = is_up(f, s, f->start);
    found->count = 0;
    for (long t = f->start; t < end; t += s->step) {
        long next = t + s->step < end ? t + s->step : end;
        int now = is_up(f, s, next);
        if (now != before) keep(f, s, (struct event) { bisect(f, s, t, next, before), now }, found);
        before = now;
    }
}

/* ---------- commands ---------- */

static int place_among(const char *const *names, int count, const char *name) {
    for (int i = 0; i < count; i++)
        if (!strcmp(names[i], name)) return i;
    fail("an option's value is not known");
}

static reader *reader_of(const char *name) {
    static const char *const readers[] = { "strtod", "eights" };
    return place_among(readers, 2, name) ? by_eights : by_strtod;
}

static void take_option(struct search *s, const char *name, const char *value) {
    static const char *const bodies[BODIES] = { "mercury", "venus", "emb", "mars", "jupiter", "saturn", "uranus",
        "neptune", "pluto", "moon", "sun", "earth", "ssb" };
    static const char *const axes[AXES] = { "x", "y", "z" }, *const frames[] = { "eq", "ecl" };
    const char *kinds[ALL_KINDS];
    for (int i = 0; i < ALL_KINDS; i++) kinds[i] = KINDS[i].name;
    if (!strcmp(name, "--kind")) s->kind = place_among(kinds, ALL_KINDS, value);
    else if (!strcmp(name, "--target")) s->target = place_among(bodies, BODIES, value);
    else if (!strcmp(name, "--second")) s->second = place_among(bodies, BODIES, value);
    else if (!strcmp(name, "--observer")) s->observer = place_among(bodies, BODIES, value);
    else if (!strcmp(name, "--frame")) s->ecliptic = place_among(frames, 2, value);
    else if (!strcmp(name, "--axis")) s->axis = place_among(axes, AXES, value);
    else if (!strcmp(name, "--ref")) s->value = strtod(value, 0);
    else if (!strcmp(name, "--radius1")) s->radius1 = strtod(value, 0);
    else if (!strcmp(name, "--radius2")) s->radius2 = strtod(value, 0);
    else if (!strcmp(name, "--reader")) s->number = reader_of(value);
    else if (!strcmp(name, "--step")) s->step = strtol(value, 0, 10);
    else fail("an option is not known");
}

static int find(char **words, int count) {
    struct search s = { .observer = SSB };
    for (int i = 0; i + 2 < count; i += 2) take_option(&s, words[i], words[i + 1]);
    if (count % 2 == 0 || s.step < 1 || !s.number) fail("find --reader READER --step SECONDS OPTIONS FILE");
    struct file f = read_file(words[count - 1], s.number);
    struct events found = { 0 };
    search(&f, &s, &found);
    for (size_t i = 0; i < found.count; i++)
        printf("%ld %s\n", found.all[i].time, found.all[i].is_up ? "rise" : "fall");
    return 0;
}

int main(int count, char **words) {
    make_powers();
    if (count == 4 && !strcmp(words[1], "reading")) return reading(words[3], reader_of(words[2]));
    if (count == 3 && !strcmp(words[1], "compare")) return compare(words[2]);
    if (count > 2 && !strcmp(words[1], "find")) return find(words + 2, count - 2);
    fail("reading READER FILE, compare FILE or find --reader READER --step SECONDS OPTIONS FILE");
}
