/*
 * Compares the library with the independent implementation on many inputs: each answer's number, place and row, its
 * counts, and every byte of every buffer. The inputs follow from one fixed seed.
 */
#include "independent.h"
#include "settings_carrier.h"

#include <inttypes.h>
#include <stdio.h>
#include <stdlib.h>
#include <string.h>

enum { NUMBERS = 4096, BYTES = 70000, EDGE = 16, SHOWN = 10 };

/* Chance. */

static uint64_t state = 0x5e771265ca44137;

static uint64_t next_random(void)
{
    uint64_t z = state += 0x9e3779b97f4a7c15;
    z = (z ^ z >> 30) * 0xbf58476d1ce4e5b9;
    z = (z ^ z >> 27) * 0x94d049bb133111eb;
    return z ^ z >> 31;
}

static size_t below(size_t bound)
{
    return (size_t)(next_random() % bound);
}

static bool one_in(size_t chances)
{
    return below(chances) == 0;
}

/* Counts. */

struct tried {
    const char *what;
    size_t compared, accepted;
};

static struct tried *current;
static size_t all, differing, answered[256];

static void begin(struct tried *kind, const char *what)
{
    *kind = (struct tried){.what = what};
    current = kind;
}

static void end(void)
{
    printf("%7zu  %-58s %7zu accepted\n", current->compared, current->what, current->accepted);
}

/* Notes a comparison, and says whether the sides agree. */
static bool note(bool same, uint32_t ours, uint32_t theirs)
{
    all++;
    current->compared++;
    current->accepted += ours == 0;
    answered[ours & 255]++;
    if (same)
        return true;
    if (differing++ < SHOWN)
        printf("DIFFERS: %s: the library answers %" PRIu32 ", the other %" PRIu32 "\n", current->what, ours, theirs);
    return false;
}

/* How often each answer came. */
static void show_answers(void)
{
    printf("answers:");
    for (int i = 0; i < 256; i++)
        if (answered[i] != 0)
            printf(" %d: %zu%s", i, answered[i], i < 23 ? "," : "\n");
}

static void show_numbers(const char *name, const uint16_t *numbers, size_t count)
{
    printf("  %s:", name);
    for (size_t i = 0; i < count; i++)
        printf(" %u", numbers[i]);
    printf("\n");
}

static void show_bytes(const char *name, const uint8_t *bytes, size_t count)
{
    printf("  %s:", name);
    for (size_t i = 0; i < count; i++)
        printf(" %02X", bytes[i]);
    printf("\n");
}

/* Fields and codes. */

struct choice {
    uint8_t kind;
    uint16_t modulus;
};

static const struct choice FIELDS[] = {
    {2, 285}, {1, 2},  {1, 3},  {1, 5},  {1, 7},  {1, 11}, {1, 13}, {1, 17}, {1, 19}, {1, 23},
    {1, 29},  {1, 31}, {1, 37}, {1, 41}, {1, 43}, {1, 47}, {1, 53}, {1, 59}, {1, 61}, {1, 67},
    {1, 71},  {1, 73}, {1, 79}, {1, 83}, {1, 89}, {1, 97}, {1, 929}, {1, 997}, {1, 65521},
};

struct code {
    uint8_t kind, n, k, depth;
    uint16_t modulus;
    struct field field;
};

/* Half of the fields are GF(256), 929 or 65,521, where words can be long. */
static struct choice some_field(void)
{
    static const struct choice LARGE[] = {{2, 285}, {1, 929}, {1, 65521}};
    return one_in(2) ? LARGE[below(3)] : FIELDS[below(sizeof FIELDS / sizeof *FIELDS)];
}

/* A fit code over a field; most are short, since long ones take long. */
static struct code some_code(struct choice field, size_t longest)
{
    struct code c = {.kind = field.kind, .modulus = field.modulus};
    field_named(c.kind, c.modulus, &c.field);
    size_t most = c.field.size < longest ? c.field.size : longest;
    if (most > 12 && !one_in(3))
        most = one_in(3) ? (most > 40 ? 40 : most) : 12;
    c.n = (uint8_t)(1 + below(most));
    c.k = (uint8_t)(1 + below(c.n));
    c.depth = (uint8_t)(one_in(4) ? 1 + below(16) : 1 + below(3));
    return c;
}

static void some_numbers(const struct code *c, uint16_t *numbers, size_t count)
{
    for (size_t i = 0; i < count; i++)
        numbers[i] = (uint16_t)below(c->field.size);
}

/* A buffer with an edge on both sides, filled by chance, and its copy for the other side. */

static uint16_t numbers_ours[NUMBERS + 2 * EDGE], numbers_theirs[NUMBERS + 2 * EDGE];
static uint8_t bytes_ours[BYTES + 2 * EDGE], bytes_theirs[BYTES + 2 * EDGE];

static void fill_numbers(size_t count)
{
    for (size_t i = 0; i < count + 2 * EDGE; i++)
        numbers_ours[i] = numbers_theirs[i] = (uint16_t)next_random();
}

static bool same_numbers(size_t count)
{
    return memcmp(numbers_ours, numbers_theirs, (count + 2 * EDGE) * sizeof *numbers_ours) == 0;
}

static void fill_bytes(size_t count)
{
    for (size_t i = 0; i < count + 2 * EDGE; i++)
        bytes_ours[i] = bytes_theirs[i] = (uint8_t)next_random();
}

static bool same_bytes(size_t count)
{
    return memcmp(bytes_ours, bytes_theirs, count + 2 * EDGE) == 0;
}

/* Words. */

struct word {
    struct code code;
    uint16_t received[300];
    uint8_t marks[300];
    size_t received_length, marks_length, message_length;
};

static bool same_tally(const struct carrier_tally *ours, const struct verdict *theirs, size_t count)
{
    return ours->count == count && ours->place == theirs->place && theirs->row == 0;
}

static struct carrier_tally some_tally(void)
{
    return (struct carrier_tally){.count = (size_t)next_random(), .place = (size_t)next_random()};
}

static void compare_word(const struct word *w)
{
    static struct word before;
    before = *w;
    fill_numbers(w->message_length);
    struct carrier_tally tally = some_tally();
    const struct code *c = &w->code;
    uint32_t ours = carrier_decode(c->kind, c->modulus, c->n, c->k, w->received, w->received_length, w->marks,
                                   w->marks_length, numbers_ours + EDGE, w->message_length, &tally);
    size_t wrong;
    struct verdict theirs = decode_word(c->kind, c->modulus, c->n, c->k, w->received, w->received_length, w->marks,
                                        w->marks_length, numbers_theirs + EDGE, w->message_length, &wrong);
    bool same = ours == theirs.number && same_tally(&tally, &theirs, wrong) && same_numbers(w->message_length) &&
                memcmp(&before, w, sizeof before) == 0;
    if (!note(same, ours, theirs.number)) {
        printf("  field %u %u n %u k %u message %zu\n", c->kind, c->modulus, c->n, c->k, w->message_length);
        show_numbers("received", w->received, w->received_length);
        show_bytes("marks", w->marks, w->marks_length);
    }
}

/* A word of a message of its own, with the right lengths and nothing missing. */
static struct word whole_word(struct code code)
{
    uint16_t message[128];
    struct word w = {.code = code, .received_length = code.n, .marks_length = code.n, .message_length = code.k};
    some_numbers(&code, message, code.k);
    for (size_t j = 0; j < code.n; j++)
        w.received[j] = (uint16_t)value_at(&code.field, message, code.k, (uint32_t)j);
    return w;
}

/* Marks this many places more, each by a number other than 0, where any may stand. */
static void lose_places(struct word *w, size_t count)
{
    while (count > 0) {
        size_t j = below(w->code.n);
        if (w->marks[j] != 0)
            continue;
        w->marks[j] = (uint8_t)(one_in(2) ? 1 : 1 + below(255));
        w->received[j] = (uint16_t)next_random();
        count--;
    }
}

/* Changes this many unmarked places, each to another number below the size. */
static void change_places(struct word *w, size_t count)
{
    bool changed[128] = {false};
    while (count > 0) {
        size_t j = below(w->code.n);
        if (w->marks[j] != 0 || changed[j])
            continue;
        uint32_t step = (uint32_t)(1 + below(w->code.field.size - 1));
        w->received[j] = (uint16_t)((w->received[j] + step) % w->code.field.size);
        changed[j] = true;
        count--;
    }
}

static void compare_words_within(size_t rounds, struct choice field)
{
    for (size_t i = 0; i < rounds; i++) {
        struct word w = whole_word(some_code(field, 128));
        size_t spare = w.code.n - w.code.k;
        size_t lost = below(spare + 1);
        size_t most = (spare - lost) / 2;
        lose_places(&w, lost);
        change_places(&w, one_in(2) ? most : below(most + 1));
        compare_word(&w);
    }
}

static void compare_words_beyond(size_t rounds)
{
    for (size_t i = 0; i < rounds; i++) {
        struct word w = whole_word(some_code(some_field(), 128));
        size_t spare = w.code.n - w.code.k;
        size_t lost = one_in(3) ? 0 : below(w.code.n + 1);
        size_t present = w.code.n - lost;
        size_t just = lost > spare ? 0 : (spare - lost) / 2 + 1;
        size_t changed = one_in(2) ? just : just + below(w.code.n);
        lose_places(&w, lost);
        change_places(&w, changed < present ? changed : present);
        compare_word(&w);
    }
}

static void compare_words_of_chance(size_t rounds)
{
    for (size_t i = 0; i < rounds; i++) {
        struct word w = whole_word(some_code(FIELDS[below(sizeof FIELDS / sizeof *FIELDS)], 40));
        some_numbers(&w.code, w.received, w.code.n);
        lose_places(&w, one_in(2) ? 0 : below(w.code.n));
        compare_word(&w);
    }
}

static void compare_numbers_too_large(size_t rounds)
{
    for (size_t i = 0; i < rounds; i++) {
        struct word w = whole_word(some_code(some_field(), 128));
        lose_places(&w, below(w.code.n + 1));
        for (size_t many = 1 + below(3); many > 0; many--) {
            size_t j = below(w.code.n);
            w.received[j] = (uint16_t)(one_in(2) ? w.code.field.size : w.code.field.size + below(65536));
        }
        compare_word(&w);
    }
}

static void compare_lengths(size_t rounds)
{
    for (size_t i = 0; i < rounds; i++) {
        struct word w = whole_word(some_code(some_field(), 128));
        if (one_in(2))
            w.received_length = one_in(2) ? below(300) : w.code.n - 1u + below(3);
        if (one_in(2))
            w.marks_length = one_in(2) ? below(300) : w.code.n - 1u + below(3);
        if (one_in(2))
            w.message_length = one_in(2) ? below(300) : w.code.k - 1u + below(3);
        if (one_in(4))
            w.received[below(w.code.n)] = 65535;
        compare_word(&w);
    }
}

static void compare_unfit(size_t rounds)
{
    for (size_t i = 0; i < rounds; i++) {
        struct word w = whole_word(some_code(some_field(), 128));
        if (one_in(2))
            w.code.n = (uint8_t)next_random();
        if (one_in(2))
            w.code.k = (uint8_t)next_random();
        if (one_in(2)) {
            w.received_length = w.marks_length = w.code.n;
            w.message_length = w.code.k;
        }
        compare_word(&w);
    }
}

static void compare_fields(size_t rounds)
{
    for (size_t i = 0; i < rounds + 65536 + 256; i++) {
        struct word w = whole_word(some_code((struct choice){1, 7}, 7));
        w.code.kind = (uint8_t)(i < 65536 ? 1 : one_in(2) ? 1 + below(2) : below(256));
        w.code.modulus = (uint16_t)(i < 65536 ? i : one_in(2) ? 285 : next_random());
        if (i >= 65536 && i < 65536 + 256) {
            w.code.kind = (uint8_t)(i - 65536);
            w.code.modulus = 285;
        }
        compare_word(&w);
    }
}

/* Every message is tried, and has to lead to what Gao's decoder finds. */
static void compare_every_message(size_t rounds)
{
    for (size_t i = 0; i < rounds; i++) {
        static const struct choice SMALL[] = {{1, 2}, {1, 3}, {1, 5}, {1, 7}, {1, 11}, {1, 13}, {2, 285}};
        struct word w = whole_word(some_code(SMALL[below(7)], 13));
        uint64_t messages = 1;
        for (size_t j = 0; j < w.code.k && messages <= 3000; j++)
            messages *= w.code.field.size;
        if (messages > 3000)
            continue;
        some_numbers(&w.code, w.received, below(w.code.n + 1));
        lose_places(&w, one_in(2) ? 0 : below(w.code.n + 1));
        compare_word(&w);
        uint16_t message[128], tried[128];
        size_t wrong = 0, counted = 0;
        bool found = find_message(&w.code.field, w.code.n, w.code.k, w.received, w.marks, message, &wrong);
        bool there = try_messages(&w.code.field, w.code.n, w.code.k, w.received, w.marks, tried, &counted);
        if (found != there || wrong != counted || (found && memcmp(message, tried, w.code.k * sizeof *message) != 0))
            note(false, found, there);
    }
}

/* Files. */

static uint8_t file[BYTES], file_before[BYTES];

static void compare_file(size_t length, size_t room)
{
    static struct finding x;
    memcpy(file_before, file, length);
    fill_numbers(room);
    struct carrier_report r;
    memset(&r, (int)below(256), sizeof r);
    uint32_t ours = carrier_read(file, length, numbers_ours + EDGE, room, &r);
    struct verdict theirs = read_file(file, length, room, &x);
    bool same = ours == theirs.number && r.place == theirs.place && r.row == theirs.row;
    if (theirs.number == 0) {
        memcpy(numbers_theirs + EDGE, x.sheet, (size_t)x.depth * x.k * sizeof *x.sheet);
        same = same && r.kind == x.kind && r.modulus == x.modulus && r.n == x.n && r.k == x.k && r.depth == x.depth &&
               r.kept == x.kept && r.declined == x.declined && r.wrong == x.wrong;
    } else {
        same = same && r.kind == 0 && r.modulus == 0 && r.n == 0 && r.k == 0 && r.depth == 0 && r.kept == 0 &&
               r.declined == 0 && r.wrong == 0;
    }
    same = same && same_numbers(room) && memcmp(file, file_before, length) == 0;
    if (!note(same, ours, theirs.number)) {
        printf("  room %zu, file of %zu bytes\n", room, length);
        show_bytes("file", file, length < 600 ? length : 600);
    }
}

/* Writes by both, and keeps the file. */
static size_t compare_writing(const struct code *c, const uint16_t *sheet, size_t sheet_length, size_t room)
{
    static uint16_t before[NUMBERS];
    memcpy(before, sheet, sheet_length * sizeof *sheet);
    fill_bytes(room);
    struct carrier_tally tally = some_tally();
    uint32_t ours = carrier_write(c->kind, c->modulus, c->n, c->k, c->depth, sheet, sheet_length, bytes_ours + EDGE,
                                  room, &tally);
    size_t length;
    struct verdict theirs = write_file(c->kind, c->modulus, c->n, c->k, c->depth, sheet, sheet_length,
                                       bytes_theirs + EDGE, room, &length);
    bool same = ours == theirs.number && same_tally(&tally, &theirs, length) && same_bytes(room) &&
                memcmp(before, sheet, sheet_length * sizeof *sheet) == 0;
    if (!note(same, ours, theirs.number)) {
        printf("  field %u %u n %u k %u depth %u room %zu\n", c->kind, c->modulus, c->n, c->k, c->depth, room);
        show_numbers("sheet", sheet, sheet_length);
    }
    memcpy(file, bytes_theirs + EDGE, length);
    return length;
}

static size_t file_size(const struct code *c)
{
    return c->n * (1 + 2 * (size_t)c->depth) + 8;
}

/* A file of a sheet of chance, with nothing compared; answers its length. */
static size_t some_file(struct code *c)
{
    uint16_t sheet[2048];
    size_t length, size;
    *c = some_code(some_field(), 128);
    if (c->n > 40)
        c->depth = (uint8_t)(1 + below(3));
    size = (size_t)c->depth * c->k;
    some_numbers(c, sheet, size);
    write_file(c->kind, c->modulus, c->n, c->k, c->depth, sheet, size, file, sizeof file, &length);
    return length;
}

static void compare_sheets(size_t rounds)
{
    uint16_t sheet[2048];
    for (size_t i = 0; i < rounds; i++) {
        struct code c = some_code(some_field(), 128);
        size_t size = (size_t)c.depth * c.k;
        some_numbers(&c, sheet, size);
        compare_writing(&c, sheet, size, file_size(&c) + (one_in(2) ? 0 : below(300)));
    }
}

static void compare_refused_sheets(size_t rounds)
{
    static uint16_t sheet[NUMBERS];
    for (size_t i = 0; i < rounds; i++) {
        struct code c = some_code(some_field(), 128);
        size_t size = (size_t)c.depth * c.k, room = file_size(&c);
        some_numbers(&c, sheet, 4000);
        if (one_in(4))
            c.n = (uint8_t)next_random();
        if (one_in(4))
            c.k = (uint8_t)next_random();
        if (one_in(4))
            c.depth = (uint8_t)(one_in(2) ? below(20) : next_random());
        if (one_in(6))
            c.kind = (uint8_t)below(5);
        if (one_in(6))
            c.modulus = (uint16_t)next_random();
        if (one_in(4))
            size = one_in(2) ? size - 1 + below(3) : below(4000);
        if (one_in(3) && size > 0)
            sheet[below(size)] = (uint16_t)(one_in(2) ? c.field.size : next_random());
        if (one_in(3))
            room = one_in(2) ? room - 1 : below(room + 1);
        compare_writing(&c, sheet, size, room);
    }
}

static void compare_files_whole(size_t rounds)
{
    for (size_t i = 0; i < rounds; i++) {
        struct code c;
        size_t length = some_file(&c);
        compare_file(length, one_in(2) ? 2048 : (size_t)c.depth * c.k + below(3));
    }
}

/* Numbers of the strips are changed, most of them to numbers below the size, and now and then a place. */
static void damage(const struct code *c, size_t count)
{
    size_t width = 1 + 2 * (size_t)c->depth;
    for (; count > 0; count--) {
        uint8_t *strip = file + below(c->n) * width;
        size_t row = below(c->depth);
        uint32_t x = (uint32_t)(one_in(8) ? below(65536) : below(c->field.size));
        strip[1 + 2 * row] = (uint8_t)(x >> 8);
        strip[2 + 2 * row] = (uint8_t)x;
        if (one_in(10))
            strip[0] = (uint8_t)(one_in(2) ? below(c->n) : below(256));
    }
}

static void compare_files_damaged(size_t rounds)
{
    for (size_t i = 0; i < rounds; i++) {
        struct code c;
        size_t length = some_file(&c);
        size_t within = (c.n - c.k) / 2u;
        damage(&c, one_in(2) ? below(within + 2) : below(within * c.depth + 2));
        compare_file(length, 2048);
    }
}

/* Strips are lost, doubled and put in another order, behind bytes that say nothing. */
static void compare_files_of_strips(size_t rounds)
{
    static uint8_t whole[BYTES];
    for (size_t i = 0; i < rounds; i++) {
        struct code c;
        size_t length = some_file(&c), width = 1 + 2 * (size_t)c.depth;
        damage(&c, one_in(2) ? 0 : below((c.n - c.k) / 2u + 1));
        memcpy(whole, file, length);
        size_t ahead = one_in(2) ? 0 : below(50), spare = (size_t)(c.n - c.k);
        size_t strips = one_in(2) ? c.n - below(spare + 1) : below(2 * (size_t)c.n + 1);
        for (size_t j = 0; j < ahead; j++)
            file[j] = (uint8_t)next_random();
        size_t start = below(c.n);
        bool doubled = one_in(2);
        for (size_t j = 0; j < strips; j++) {
            size_t from = doubled && one_in(4) ? below(c.n) : (start + j) % c.n;
            memcpy(file + ahead + j * width, whole + from * width, width);
        }
        uint8_t *trailer = file + ahead + strips * width;
        memcpy(trailer, whole + length - 8, 8);
        trailer[6] = (uint8_t)(strips * width >> 8);
        trailer[7] = (uint8_t)(strips * width);
        compare_file(ahead + strips * width + 8, 2048);
    }
}

static void compare_files_cut(size_t rounds)
{
    for (size_t i = 0; i < rounds; i++) {
        struct code c;
        size_t length = some_file(&c);
        if (one_in(2)) {
            compare_file(below(length + 1), 2048);
        } else {
            size_t cut = below(length + 1);
            memmove(file, file + cut, length - cut);
            compare_file(length - cut, 2048);
        }
    }
}

static void compare_files_of_chance(size_t rounds)
{
    for (size_t i = 0; i < rounds; i++) {
        size_t length = one_in(2) ? below(24) : below(400);
        for (size_t j = 0; j < length; j++)
            file[j] = (uint8_t)(one_in(2) ? below(8) : next_random());
        compare_file(length, below(300));
    }
}

/* A trailer whose bytes are changed. */
static void compare_headings(size_t rounds)
{
    for (size_t i = 0; i < rounds; i++) {
        struct code c;
        size_t length = some_file(&c);
        uint8_t *trailer = file + length - 8;
        for (size_t many = 1 + below(3); many > 0; many--) {
            size_t j = below(8);
            trailer[j] = (uint8_t)(one_in(2) ? next_random() : trailer[j] - 1u + below(3));
        }
        compare_file(length, one_in(4) ? below(100) : 2048);
    }
}

/* Headings of chance whose back count leads to whole strips, so that fitness decides. */
static void compare_fitness(size_t rounds)
{
    for (size_t i = 0; i < rounds; i++) {
        struct choice f = some_field();
        uint8_t depth = (uint8_t)(one_in(2) ? below(20) : next_random());
        uint8_t n = (uint8_t)(one_in(2) ? below(14) : next_random());
        uint8_t k = (uint8_t)(one_in(2) ? below(14) : next_random());
        size_t back = below(5) * (1 + 2 * (size_t)depth);
        for (size_t j = 0; j < back; j++)
            file[j] = (uint8_t)below(4);
        uint8_t trailer[8] = {f.kind,  (uint8_t)(f.modulus >> 8), (uint8_t)f.modulus, n, k, depth, (uint8_t)(back >> 8),
                              (uint8_t)back};
        memcpy(file + back, trailer, 8);
        compare_file(back + 8, one_in(4) ? below(100) : 2048);
    }
}

static void compare_small_buffers(size_t rounds)
{
    for (size_t i = 0; i < rounds; i++) {
        struct code c;
        size_t length = some_file(&c), size = (size_t)c.depth * c.k;
        if (one_in(2))
            damage(&c, below(c.n + 1));
        compare_file(length, one_in(2) ? size - 1 + below(3) : below(size + 1));
    }
}

/* Files about as long as the longest, most of them bytes that say nothing. */
static void compare_long_files(size_t rounds)
{
    static uint8_t whole[BYTES];
    for (size_t i = 0; i < rounds; i++) {
        struct code c;
        size_t length = some_file(&c);
        memcpy(whole, file, length);
        size_t total = one_in(2) ? 65534 + below(3) : 65000 + below(4000);
        memset(file, (int)below(256), total - length);
        memcpy(file + total - length, whole, length);
        compare_file(total, 2048);
    }
}

/* The longest words and the deepest sheets. */
static void compare_largest(size_t rounds)
{
    for (size_t i = 0; i < rounds; i++) {
        static const struct choice LARGE[] = {{2, 285}, {1, 929}, {1, 997}, {1, 65521}};
        struct choice f = LARGE[i % 4];
        struct code c = {.kind = f.kind, .modulus = f.modulus, .n = 128, .depth = 16};
        uint16_t sheet[2048];
        field_named(c.kind, c.modulus, &c.field);
        c.k = (uint8_t)(i % 8 < 4 ? 1 + below(128) : i % 16 < 8 ? 128 : 1);
        some_numbers(&c, sheet, 16 * (size_t)c.k);
        size_t length = compare_writing(&c, sheet, 16 * (size_t)c.k, file_size(&c));
        damage(&c, below(12 * (128 - (size_t)c.k) + 1));
        compare_file(length, 2048);
    }
}

/* The worked examples of docs/CARRIER.md that are about files: both sides, and what is printed there. */
static void compare_examples(void)
{
    static const uint8_t PRINTED[] = {1, 0, 5, 0, 1, 2, 0, 9, 0, 1, 3, 0,  9, 0,
                                      1, 4, 0, 0, 0, 1, 1, 0, 11, 5, 2, 2, 0, 20};
    static const uint8_t WRITTEN[] = {0, 0, 5, 1, 0, 2, 2, 0, 11, 2, 1, 29, 3, 2, 1, 0, 9};
    static const uint16_t ROWS[] = {3, 2, 1, 0}, SHEET[] = {5, 7};
    const struct code c = {.kind = 2, .modulus = 285, .n = 3, .k = 2, .depth = 1};
    struct carrier_report r;
    uint16_t sheet[4];
    memcpy(file, PRINTED, sizeof PRINTED);
    compare_file(sizeof PRINTED, 4);
    bool read = carrier_read(PRINTED, sizeof PRINTED, sheet, 4, &r) == 0 && memcmp(sheet, ROWS, sizeof ROWS) == 0 &&
                r.kept == 4 && r.declined == 0 && r.wrong == 1;
    bool written = compare_writing(&c, SHEET, 2, sizeof WRITTEN) == sizeof WRITTEN &&
                   memcmp(file, WRITTEN, sizeof WRITTEN) == 0;
    if (!read || !written)
        note(false, read, written);
}

#define COMPARE(text, call) (begin(&kind, text), call, end())

int main(void)
{
    struct tried kind;
    setvbuf(stdout, NULL, _IOLBF, 0);
    COMPARE("worked examples", compare_examples());
    static const struct choice NAMED[] = {{2, 285}, {1, 7}, {1, 11}, {1, 929}, {1, 65521}};
    static const char *NAMES[] = {
        "words within reach, GF(256)",       "words within reach, modulus 7",     "words within reach, modulus 11",
        "words within reach, modulus 929", "words within reach, modulus 65,521",
    };
    for (size_t i = 0; i < 5; i++)
        COMPARE(NAMES[i], compare_words_within(4000, NAMED[i]));
    begin(&kind, "words within reach, each field");
    for (size_t i = 0; i < sizeof FIELDS / sizeof *FIELDS; i++)
        compare_words_within(400, FIELDS[i]);
    end();
    COMPARE("words beyond reach of the message", compare_words_beyond(8000));
    COMPARE("words of chance", compare_words_of_chance(8000));
    COMPARE("words, and every message tried", compare_every_message(8000));
    COMPARE("words with numbers not below the size", compare_numbers_too_large(4000));
    COMPARE("words, marks and messages of other lengths", compare_lengths(6000));
    COMPARE("words of unfit codes", compare_unfit(6000));
    COMPARE("fields: every modulus, every kind, and more", compare_fields(6000));
    COMPARE("sheets written", compare_sheets(6000));
    COMPARE("sheets, headings and outputs that are refused", compare_refused_sheets(20000));
    COMPARE("files as they were written", compare_files_whole(4000));
    COMPARE("files with numbers and places changed", compare_files_damaged(6000));
    COMPARE("files with strips lost, doubled and moved", compare_files_of_strips(6000));
    COMPARE("files cut at one end", compare_files_cut(6000));
    COMPARE("files of chance", compare_files_of_chance(20000));
    COMPARE("files with the trailer changed", compare_headings(10000));
    COMPARE("files with headings of chance", compare_fitness(20000));
    COMPARE("files, and small buffers for the sheet", compare_small_buffers(6000));
    COMPARE("files about as long as the longest", compare_long_files(400));
    COMPARE("largest sheets, written and read", compare_largest(64));
    show_answers();
    printf("%zu compared, %zu differ\n", all, differing);
    return differing == 0 ? EXIT_SUCCESS : EXIT_FAILURE;
}
