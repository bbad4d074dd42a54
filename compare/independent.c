#include "independent.h"

#include <string.h>

enum { LONGEST_WORD = 128, DEEPEST = 16, LONGEST_FILE = 65535 };

/* Fields. */

static uint8_t exponentials[510];
static uint8_t logarithms[256];

/* Fills the tables for the polynomial 285, of which 2 is a generator. */
static void fill_tables(void)
{
    if (exponentials[0] == 1)
        return;
    uint32_t power = 1;
    for (int i = 0; i < 255; i++) {
        exponentials[i] = exponentials[i + 255] = (uint8_t)power;
        logarithms[power] = (uint8_t)i;
        power <<= 1;
        if (power & 256)
            power ^= 285;
    }
}

static bool is_prime(uint32_t p)
{
    if (p < 2)
        return false;
    for (uint32_t d = 2; d * d <= p; d++)
        if (p % d == 0)
            return false;
    return true;
}

bool field_named(uint8_t kind, uint16_t modulus, struct field *field)
{
    fill_tables();
    if (kind == 1) {
        *field = (struct field){.size = modulus, .bytes = false};
        return is_prime(modulus) && (modulus < 100 || modulus == 929 || modulus == 997 || modulus == 65521);
    }
    *field = (struct field){.size = 256, .bytes = true};
    return kind == 2 && modulus == 285;
}

static uint32_t plus(const struct field *f, uint32_t a, uint32_t b)
{
    return f->bytes ? a ^ b : (uint32_t)(((uint64_t)a + b) % f->size);
}

static uint32_t minus(const struct field *f, uint32_t a, uint32_t b)
{
    return f->bytes ? a ^ b : (uint32_t)(((uint64_t)a + f->size - b) % f->size);
}

static uint32_t times(const struct field *f, uint32_t a, uint32_t b)
{
    if (!f->bytes)
        return (uint32_t)((uint64_t)a * b % f->size);
    return a && b ? exponentials[logarithms[a] + logarithms[b]] : 0;
}

/* The inverse of a number other than 0: by logarithms, or by Euclid's algorithm on integers. */
static uint32_t inverse(const struct field *f, uint32_t a)
{
    if (f->bytes)
        return exponentials[255 - logarithms[a]];
    int64_t r0 = f->size, r1 = a, t0 = 0, t1 = 1;
    while (r1 != 0) {
        int64_t q = r0 / r1, r2 = r0 - q * r1, t2 = t0 - q * t1;
        r0 = r1, r1 = r2, t0 = t1, t1 = t2;
    }
    return (uint32_t)(t0 < 0 ? t0 + f->size : t0);
}

/* Polynomials of at most 128 coefficients and one more. */

struct polynomial {
    int degree; /* -1 for 0 */
    uint32_t at[LONGEST_WORD + 2];
};

static struct polynomial constant(uint32_t c)
{
    struct polynomial p = {.degree = c ? 0 : -1};
    p.at[0] = c;
    return p;
}

static void settle(struct polynomial *p, int degree)
{
    while (degree >= 0 && p->at[degree] == 0)
        degree--;
    p->degree = degree;
}

/* p += c * x^shift * q */
static void add_scaled(const struct field *f, struct polynomial *p, const struct polynomial *q, uint32_t c, int shift)
{
    for (int i = 0; i <= q->degree; i++)
        p->at[i + shift] = plus(f, p->at[i + shift], times(f, c, q->at[i]));
    settle(p, p->degree > q->degree + shift ? p->degree : q->degree + shift);
}

/* p *= (x - root) */
static void times_factor(const struct field *f, struct polynomial *p, uint32_t root)
{
    for (int i = p->degree + 1; i >= 0; i--) {
        uint32_t below = i > 0 ? p->at[i - 1] : 0;
        uint32_t here = i <= p->degree ? p->at[i] : 0;
        p->at[i] = minus(f, below, times(f, root, here));
    }
    p->degree++;
}

static uint32_t polynomial_at(const struct field *f, const struct polynomial *p, uint32_t x)
{
    uint32_t sum = 0;
    for (int i = p->degree; i >= 0; i--)
        sum = plus(f, times(f, sum, x), p->at[i]);
    return sum;
}

/* Takes b off a until less than b is left of it, and answers the quotient. */
static struct polynomial divide(const struct field *f, struct polynomial *a, const struct polynomial *b)
{
    struct polynomial quotient = constant(0);
    uint32_t lead = inverse(f, b->at[b->degree]);
    while (a->degree >= b->degree) {
        int shift = a->degree - b->degree;
        uint32_t c = times(f, a->at[a->degree], lead);
        quotient.at[shift] = c;
        if (quotient.degree < shift)
            quotient.degree = shift;
        add_scaled(f, a, b, minus(f, 0, c), shift);
    }
    return quotient;
}

uint32_t value_at(const struct field *f, const uint16_t *coefficients, size_t count, uint32_t x)
{
    uint32_t sum = 0, power = 1;
    for (size_t i = 0; i < count; i++) {
        sum = plus(f, sum, times(f, coefficients[i], power));
        power = times(f, power, x);
    }
    return sum;
}

/* Decoding. */

/* The unmarked places at which the received number is not the message's. */
static size_t wrong_places(const struct field *f, size_t n, size_t k, const uint16_t *received, const uint8_t *marks,
                           const uint16_t *message)
{
    size_t wrong = 0;
    for (size_t j = 0; j < n; j++)
        if (marks[j] == 0 && received[j] != value_at(f, message, k, (uint32_t)j))
            wrong++;
    return wrong;
}

static size_t marked_places(size_t n, const uint8_t *marks)
{
    size_t missing = 0;
    for (size_t j = 0; j < n; j++)
        missing += marks[j] != 0;
    return missing;
}

/* The polynomial through the unmarked places, and the one that is 0 at just those. */
static void interpolate(const struct field *f, size_t n, const uint16_t *received, const uint8_t *marks,
                        struct polynomial *through, struct polynomial *vanishing)
{
    *through = constant(0);
    *vanishing = constant(1);
    for (size_t j = 0; j < n; j++) {
        if (marks[j] != 0)
            continue;
        uint32_t gap = minus(f, received[j], polynomial_at(f, through, (uint32_t)j));
        uint32_t c = times(f, gap, inverse(f, polynomial_at(f, vanishing, (uint32_t)j)));
        add_scaled(f, through, vanishing, c, 0);
        times_factor(f, vanishing, (uint32_t)j);
    }
}

bool find_message(const struct field *f, size_t n, size_t k, const uint16_t *received, const uint8_t *marks,
                  uint16_t *message, size_t *wrong)
{
    size_t missing = marked_places(n, marks);
    size_t present = n - missing;
    if (present < k)
        return false;
    struct polynomial r0, r1, v0 = constant(0), v1 = constant(1);
    interpolate(f, n, received, marks, &r1, &r0);
    while (2 * r1.degree >= (int)(present + k)) {
        struct polynomial quotient = divide(f, &r0, &r1);
        struct polynomial r2 = r0, v2 = v0;
        for (int i = 0; i <= quotient.degree; i++)
            if (quotient.at[i])
                add_scaled(f, &v2, &v1, minus(f, 0, quotient.at[i]), i);
        r0 = r1, r1 = r2, v0 = v1, v1 = v2;
    }
    struct polynomial answer = divide(f, &r1, &v1);
    if (r1.degree >= 0 || answer.degree >= (int)k)
        return false;
    uint16_t candidate[LONGEST_WORD] = {0};
    for (int i = 0; i <= answer.degree; i++)
        candidate[i] = (uint16_t)answer.at[i];
    size_t e = wrong_places(f, n, k, received, marks, candidate);
    if (2 * e + missing > n - k)
        return false;
    memcpy(message, candidate, k * sizeof *message);
    *wrong = e;
    return true;
}

bool try_messages(const struct field *f, size_t n, size_t k, const uint16_t *received, const uint8_t *marks,
                  uint16_t *message, size_t *wrong)
{
    size_t missing = marked_places(n, marks);
    uint16_t candidate[LONGEST_WORD] = {0};
    size_t i = 0;
    while (i < k) {
        size_t e = wrong_places(f, n, k, received, marks, candidate);
        if (2 * e + missing <= n - k) {
            memcpy(message, candidate, k * sizeof *message);
            *wrong = e;
            return true;
        }
        for (i = 0; i < k && (uint32_t)candidate[i] + 1 == f->size; i++)
            candidate[i] = 0;
        if (i < k)
            candidate[i]++;
    }
    return false;
}

/* Calls. */

static struct verdict refuse(uint32_t number, size_t place, size_t row)
{
    return (struct verdict){.number = number, .place = place, .row = row};
}

static struct verdict accept(void)
{
    return refuse(0, 0, 0);
}

/* The fitness of the evaluation code with the points 0 to n - 1. */
static struct verdict code_fitness(const struct field *f, size_t n, size_t k)
{
    if (n == 0 || n > LONGEST_WORD)
        return refuse(2, 0, 0);
    if (k == 0 || k > n)
        return refuse(3, 0, 0);
    if (n > f->size)
        return refuse(4, f->size, 0);
    return accept();
}

static struct verdict collector_fitness(const struct field *f, size_t n, size_t k, size_t depth)
{
    struct verdict fitness = code_fitness(f, n, k);
    if (fitness.number == 0 && (depth == 0 || depth > DEEPEST))
        return refuse(14, 0, 0);
    return fitness;
}

struct verdict decode_word(uint8_t kind, uint16_t modulus, uint8_t n, uint8_t k, const uint16_t *received,
                           size_t received_length, const uint8_t *marks, size_t marks_length, uint16_t *message,
                           size_t message_length, size_t *wrong)
{
    struct field f;
    *wrong = 0;
    if (!field_named(kind, modulus, &f))
        return refuse(21, 0, 0);
    struct verdict fitness = code_fitness(&f, n, k);
    if (fitness.number != 0)
        return fitness;
    if (received_length != n || marks_length != n)
        return refuse(10, 0, 0);
    if (message_length != k)
        return refuse(9, 0, 0);
    for (size_t j = 0; j < n; j++)
        if (marks[j] == 0 && received[j] >= f.size)
            return refuse(11, j, 0);
    if (!find_message(&f, n, k, received, marks, message, wrong))
        return refuse(13, 0, 0);
    return accept();
}

static uint8_t *put_two(uint8_t *to, uint32_t x)
{
    *to++ = (uint8_t)(x >> 8);
    *to++ = (uint8_t)x;
    return to;
}

struct verdict write_file(uint8_t kind, uint16_t modulus, uint8_t n, uint8_t k, uint8_t depth, const uint16_t *sheet,
                          size_t sheet_length, uint8_t *output, size_t output_length, size_t *length)
{
    struct field f;
    *length = 0;
    if (!field_named(kind, modulus, &f))
        return refuse(21, 0, 0);
    struct verdict fitness = collector_fitness(&f, n, k, depth);
    if (fitness.number != 0)
        return fitness;
    if (sheet_length != (size_t)depth * k)
        return refuse(19, 0, 0);
    for (size_t i = 0; i < sheet_length; i++)
        if (sheet[i] >= f.size)
            return refuse(11, i, 0);
    size_t strips = (size_t)n * (1 + 2 * depth);
    if (output_length < strips + 8)
        return refuse(23, 0, 0);
    uint8_t *to = output;
    for (uint32_t place = 0; place < n; place++) {
        *to++ = (uint8_t)place;
        for (size_t row = 0; row < depth; row++)
            to = put_two(to, value_at(&f, sheet + row * k, k, place));
    }
    *to++ = kind;
    to = put_two(to, modulus);
    *to++ = n;
    *to++ = k;
    *to++ = depth;
    put_two(to, (uint32_t)strips);
    *length = strips + 8;
    return accept();
}

static uint32_t get_two(const uint8_t *from)
{
    return (uint32_t)from[0] << 8 | from[1];
}

/* Puts the strips into the table, the first for each place, and counts those that are kept and declined. */
static void gather_strips(const struct field *f, const uint8_t *strips, size_t count, struct finding *x,
                          uint16_t table[DEEPEST][LONGEST_WORD], uint8_t *marks)
{
    memset(marks, 1, x->n);
    x->kept = x->declined = 0;
    for (size_t i = 0; i < count; i++) {
        const uint8_t *strip = strips + i * (1 + 2 * (size_t)x->depth);
        size_t place = strip[0];
        bool taken = place < x->n;
        for (size_t row = 0; row < x->depth; row++)
            taken = taken && get_two(strip + 1 + 2 * row) < f->size;
        if (!taken || marks[place] == 0) {
            x->declined++;
            continue;
        }
        x->kept++;
        marks[place] = 0;
        for (size_t row = 0; row < x->depth; row++)
            table[row][place] = (uint16_t)get_two(strip + 1 + 2 * row);
    }
}

struct verdict read_file(const uint8_t *file, size_t length, size_t room, struct finding *x)
{
    static uint16_t table[DEEPEST][LONGEST_WORD];
    uint8_t marks[LONGEST_WORD];
    struct field f;
    if (length > LONGEST_FILE || length < 8)
        return refuse(20, 0, 0);
    const uint8_t *trailer = file + length - 8;
    x->kind = trailer[0];
    x->modulus = (uint16_t)get_two(trailer + 1);
    x->n = trailer[3];
    x->k = trailer[4];
    x->depth = trailer[5];
    size_t back = get_two(trailer + 6);
    size_t width = 1 + 2 * (size_t)x->depth;
    if (!field_named(x->kind, x->modulus, &f))
        return refuse(21, 0, 0);
    if (back > length - 8 || back % width != 0)
        return refuse(22, 0, 0);
    struct verdict fitness = collector_fitness(&f, x->n, x->k, x->depth);
    if (fitness.number != 0)
        return fitness;
    if (room < (size_t)x->depth * x->k)
        return refuse(19, 0, 0);
    gather_strips(&f, trailer - back, back / width, x, table, marks);
    x->wrong = 0;
    for (size_t row = 0; row < x->depth; row++) {
        size_t wrong;
        if (!find_message(&f, x->n, x->k, table[row], marks, x->sheet + row * x->k, &wrong))
            return refuse(13, 0, row);
        x->wrong += wrong;
    }
    return accept();
}
