/* Long outlines, up to the most marks that are taken: long DIGESTS. That file, bindings/long.txt, has digests of what the Rust makes of
   them (bindings/make_long.py). Here they are drawn again and fitted, by both engines, and every number is held against the Rust's; their
   lists are checked, written as house files, read, checked once more and written again. */
#include "test.h"

enum { TEXT = 1 << 16, WORDS = 7, RESTING = 400 };

static double marks[2 * (MOST_MARKS + 1)], eight[8 * MOST_MARKS];
static Slices fitted, read;
static Lent read_marks, written;
static uint8_t composed[LONGEST_FILE];

/* ---- The outlines, as bindings/make_long.py has them: whole numbers over a power of two, so that nothing is rounded. */

static uint64_t dice;

/* The highest bits of Knuth's linear congruential generator. */
static int64_t roll(unsigned count) {
    dice = dice * 6364136223846793005 + 1442695040888963407;
    return (int64_t)(dice >> (64 - count));
}

/* In the place of a sine: a parabola above zero, `half` wide, and one below. */
static int64_t wave(int64_t half, int64_t at) {
    at %= 2 * half;
    return at < half ? at * (half - at) : -(at - half) * (2 * half - at);
}

static void put_mark(size_t i, int64_t x, int64_t y, double scale) {
    marks[2 * i] = (double)x / scale;
    marks[2 * i + 1] = (double)y / scale;
}

static int64_t off(bool shaking) { return shaking ? 2 * (roll(24) - (1 << 23)) : 0; }

/* Once round, whatever the number of marks, by a steady hand or by a shaking one. */
static void draw_round(size_t n, bool shaking) {
    for (size_t i = 0; i < n; i++) {
        int64_t at = (int64_t)((i << 22) / n), x = wave(1 << 21, at + (1 << 20)) + off(shaking), y = wave(1 << 21, at) + off(shaking);
        put_mark(i, x, y, 1 << 26);
    }
}

static void draw_steady(size_t n) { draw_round(n, false); }

static void draw_traced(size_t n) { draw_round(n, true); }

static void draw_rested(size_t n) {
    draw_traced(n);
    for (size_t i = n - RESTING; i < n; i++) memcpy(marks + 2 * i, marks + 2 * (n - RESTING), 2 * sizeof *marks);
}

static void draw_spiral(size_t n) {
    for (size_t i = 0; i < n; i++) {
        int64_t at = 54 * (int64_t)i, radius = 64 + (int64_t)i;
        put_mark(i, radius * wave(1 << 11, at + (1 << 10)), radius * wave(1 << 11, at), 1 << 22);
    }
}

static void draw_shaken(size_t n) {
    for (size_t i = 0; i < n; i++) put_mark(i, (int64_t)i, 2 * (int64_t)(i * 7919 % 101), 2);
}

static void draw_scribble(size_t n) {
    const int along[8] = {1, 1, 0, -1, -1, -1, 0, 1}, across[8] = {0, 1, 1, 1, 0, -1, -1, -1};
    int64_t x = 0, y = 0;
    for (size_t i = 0; i < n; i++) {
        int64_t step = roll(3);
        put_mark(i, x += along[step], y += across[step], 1);
    }
}

static const struct {
    const char *name;
    void (*draw)(size_t n);
} shapes[] = {{"round", draw_steady},  {"traced", draw_traced}, {"rested", draw_rested},
              {"spiral", draw_spiral}, {"shaken", draw_shaken}, {"scribble", draw_scribble}};

static bool is(const char *word, const char *other) { return strlen(word) == strlen(other) && memcmp(word, other, strlen(word)) == 0; }

/* Draws the outline of a shape, if there is one of that name. */
static bool draw(const char *name, size_t n) {
    dice = 1;
    for (size_t i = 0; i < COUNT(shapes); i++) {
        if (!is(name, shapes[i].name)) continue;
        shapes[i].draw(n);
        return true;
    }
    return false;
}

/* ---- Digests: FNV-1a of 64 bits, over numbers as they lie in memory, lowest byte first. */

static uint64_t digested(uint64_t digest, const void *bytes, size_t count) {
    const uint8_t *each = bytes;
    for (size_t i = 0; i < count; i++) digest = (digest ^ each[i]) * 0x100000001B3;
    return digest;
}

static const uint64_t no_digest = 0xCBF29CE484222325;

static uint64_t digest_of(const Slices *s, size_t params) {
    uint64_t digest = digested(no_digest, &s->made, sizeof s->made);
    digest = digested(digest, s->firsts.place, s->made * sizeof(uint32_t));
    digest = digested(digest, s->worsts.place, s->made * sizeof(uint32_t));
    digest = digested(digest, s->curves.place, 9 * s->made * sizeof(double));
    return digested(digest, s->params.place, params * sizeof(double));
}

/* ---- A line of the kept file */

typedef struct {
    char words[WORDS][20];
    const char *shape, *what;
    size_t n, count;
    double tolerance;
    uint32_t answer;
    uint64_t digest;
} Line;

static uint64_t number_of(const char *word, unsigned base) {
    uint64_t x = 0;
    for (; *word != 0; word++) x = base * x + (uint64_t)(*word <= '9' ? *word - '0' : *word - 'A' + 10);
    return x;
}

static bool take_line(Line *l, const char *text, const char *end) {
    memset(l, 0, sizeof *l);
    for (size_t i = 0; i < WORDS; i++) {
        const char *blank = memchr(text, ' ', (size_t)(end - text)), *stop = blank == NULL ? end : blank;
        if ((size_t)(stop - text) >= sizeof l->words[i] || (i + 1 < WORDS) != (blank != NULL)) return false;
        memcpy(l->words[i], text, (size_t)(stop - text));
        text = stop + 1;
    }
    l->shape = l->words[0], l->n = number_of(l->words[1], 10), l->tolerance = of_bits(number_of(l->words[2], 16)), l->what = l->words[3];
    l->answer = (uint32_t)number_of(l->words[4], 10), l->count = number_of(l->words[5], 10), l->digest = number_of(l->words[6], 16);
    return l->n <= MOST_MARKS;
}

/* ---- Fits */

static void expect_marks(const Line *l) {
    CHECK(2 * l->n == l->count && digested(no_digest, marks, l->count * sizeof *marks) == l->digest, "%s %zu: other marks", l->shape, l->n);
}

static uint32_t fit_line(const Line *l, const Fit *fit) {
    lend_slices(&fitted, fit, l->n, 2, 41);
    return fit_into(fit, marks, 2 * l->n, l->tolerance, &fitted);
}

/* What the checkers say of the list, with its worst marks and without. */
static void expect_checked(const Line *l, const Fit *fit, uint32_t expected) {
    size_t curve, mark, times = params_for(fit, l->n);
    uint32_t answer = verdict(fit->ring, marks, 2 * l->n, l->tolerance, &fitted, &curve, &mark);
    CHECK(answer == expected, "%s of %s %zu, checked: %u at %zu, %zu", l->what, l->shape, l->n, answer, curve, mark);
    eight_of(numbers(&fitted.curves), fitted.made, eight);
    answer =
        (fit->ring ? wes_check_ring : wes_check_list)(marks, 2 * l->n, l->tolerance, fitted.made, eight, 8 * fitted.made,
                                                      indices(&fitted.firsts), fitted.made, numbers(&fitted.params), times, &curve, &mark);
    CHECK(answer == expected, "%s of %s %zu, eight numbers checked: %u at %zu, %zu", l->what, l->shape, l->n, answer, curve, mark);
}

/* Blocks of the source's fits do not meet, and that is fault B. */
static void expect_fit(const Line *l, const Fit *fit) {
    uint32_t answer = fit_line(l, fit);
    CHECK(answer == l->answer && fitted.made == l->count, "%s of %s %zu: %u and %zu curves in place of %u and %zu", l->what, l->shape, l->n,
          answer, fitted.made, l->answer, l->count);
    if (answer != 0) {
        CHECK(answer == WES_NOT_FINITE ? slices_zero(&fitted) : slices_kept(&fitted), "%s of %s %zu: the slices", l->what, l->shape, l->n);
        return;
    }
    CHECK(digest_of(&fitted, params_for(fit, l->n)) == l->digest, "%s of %s %zu: other numbers than the Rust's", l->what, l->shape, l->n);
    CHECK(kept_beyond(&fitted, fit, l->n), "%s of %s %zu: places beyond", l->what, l->shape, l->n);
    expect_checked(l, fit, fit == &fits[SOURCE] || fit == &fits[LOOP] ? 'B' : 0);
}

/* ---- House files */

/* What is written, in just the room that it takes, is what was put together here, and its curves have the kind that suits. */
static void expect_written(const char *why, const Line *l, const Slices *s, const double *its_marks, size_t n, bool nine,
                           const double *curves) {
    size_t size = 77, width = nine ? 9 : 8;
    lend(&written, l->count, 42);
    uint32_t answer = wes_write_file(nine, &l->tolerance, its_marks, 2 * n, s->made, indices(&s->firsts), s->made, indices(&s->worsts),
                                     nine ? s->made : 0, curves, width * s->made, numbers(&s->params), n, written.place, l->count, &size);
    CHECK(answer == 0 && size == l->count && memcmp(written.place, composed, size) == 0 && kept_from(&written, size),
          "%s of %s %zu, %s: %u, %zu bytes", l->what, l->shape, l->n, why, answer, size);
    const uint8_t *kind = written.place + 20 + 16 * n + 4;
    CHECK(kind[0] == (n > 4096 ? (nine ? 7 : 5) : (nine ? 6 : 3)) && kind[1] == 0, "%s of %s %zu, %s: kind %u", l->what, l->shape, l->n,
          why, kind[0]);
}

/* A file, read into just the room that it asks for: the same numbers. */
static void expect_read(const Line *l, const uint8_t *file, size_t size, size_t n, bool nine, const double *curves) {
    size_t width = nine ? 9 : 8, k = fitted.made, mark_count = 77, curve_count = 77;
    bool has_nine = !nine;
    double tolerance = 7;
    lend(&read_marks, 2 * n * sizeof(double), 43);
    lend(&read.curves, width * k * sizeof(double), 44);
    lend(&read.firsts, k * sizeof(uint32_t), 45);
    lend(&read.worsts, (nine ? k : 0) * sizeof(uint32_t), 46);
    lend(&read.params, n * sizeof(double), 47);
    uint32_t answer =
        wes_read_file(file, size, &tolerance, numbers(&read_marks), 2 * n, indices(&read.firsts), k, indices(&read.worsts),
                      nine ? k : 0, numbers(&read.curves), width * k, numbers(&read.params), n, &mark_count, &curve_count, &has_nine);
    read.made = curve_count;
    CHECK(answer == 0 && same_bits(&tolerance, &l->tolerance, 1) && mark_count == n && curve_count == k && has_nine == nine,
          "%s of %s %zu, read: %u, %zu marks, %zu curves", l->what, l->shape, l->n, answer, mark_count, curve_count);
    CHECK(same_bits(numbers(&read_marks), marks, 2 * n) && same_bits(numbers(&read.curves), curves, width * k) &&
              same_bits(numbers(&read.params), numbers(&fitted.params), n) && memcmp(read.firsts.place, fitted.firsts.place, 4 * k) == 0 &&
              memcmp(read.worsts.place, fitted.worsts.place, nine ? 4 * k : 0) == 0,
          "%s of %s %zu, read: other numbers", l->what, l->shape, l->n);
    CHECK(kept_from(&read_marks, 16 * n) && kept_from(&read.curves, 8 * width * k) && kept_from(&read.firsts, 4 * k) &&
              kept_from(&read.worsts, nine ? 4 * k : 0) && kept_from(&read.params, 8 * n),
          "%s of %s %zu, read: places beyond", l->what, l->shape, l->n);
}

/* The file packed, as it is put together here with each joint once; read so; and unpacked again, each in just the room that it takes. */
static void expect_packed(const Line *l, size_t n, bool nine, const double *curves) {
    static uint8_t packed[LONGEST_FILE];
    size_t made = 77, size = compose_packed(packed, l->tolerance, marks, n, nine ? 9 : 8, fitted.made, indices(&fitted.firsts),
                                            indices(&fitted.worsts), curves, numbers(&fitted.params));
    lend(&written, size, 48);
    uint32_t answer = wes_pack_file(composed, l->count, written.place, size, &made);
    CHECK(answer == 0 && made == size && memcmp(written.place, packed, size) == 0 && kept_from(&written, size),
          "%s of %s %zu, packed: %u, %zu bytes", l->what, l->shape, l->n, answer, made);
    expect_read(l, packed, size, n, nine, curves);
    lend(&written, l->count, 49);
    answer = wes_unpack_file(packed, size, written.place, l->count, &made);
    CHECK(answer == 0 && made == l->count && memcmp(written.place, composed, made) == 0 && kept_from(&written, made),
          "%s of %s %zu, unpacked: %u, %zu bytes", l->what, l->shape, l->n, answer, made);
}

static void expect_text(const Line *l, const char *why, uint32_t answer, const uint8_t *text, size_t size, const char *expected) {
    CHECK(answer == 0 && size == strlen(expected) && memcmp(text, expected, size) == 0, "%s of %s %zu, %s: %u, %.*s", l->what, l->shape,
          l->n, why, answer, size < 40 ? (int)size : 40, (const char *)text);
}

/* The two calls with room for 4,096 marks and 434,120 bytes: 2 above the first, and 9 above the second. */
static void expect_judged(const Line *l, size_t n) {
    static uint8_t out[BENCH_FILE];
    char passed[64];
    size_t size = 77;
    const char *refused = l->count > BENCH_FILE ? "REFUSED 9\n" : "REFUSED 2\n";
    snprintf(passed, sizeof passed, "PASSED %zu %zu\n", n, fitted.made);
    uint32_t answer = wes_judge_file(composed, l->count, out, sizeof out, &size);
    expect_text(l, "judged", answer, out, size, n > BENCH_MARKS ? refused : passed);
    answer = wes_save_fit(composed, l->count, out, sizeof out, &size);
    if (n > BENCH_MARKS)
        expect_text(l, "fitted again", answer, out, size, refused);
    else if (is(l->what, "nine"))
        CHECK(answer == 0 && size == l->count && memcmp(out, composed, size) == 0, "%s of %s %zu, fitted again", l->what, l->shape, l->n);
}

/* A file knows no rings: the marks of one get mark 0 again behind the last. */
static void expect_file(const Line *l, const Fit *fit, bool nine) {
    size_t n = params_for(fit, l->n), curve, mark;
    if (fit->ring) memcpy(marks + 2 * l->n, marks, 2 * sizeof *marks);
    CHECK(fit_line(l, fit) == 0, "%s of %s %zu: not fitted", l->what, l->shape, l->n);
    eight_of(numbers(&fitted.curves), fitted.made, eight);
    const double *curves = nine ? numbers(&fitted.curves) : eight;
    size_t size = compose(composed, l->tolerance, marks, n, nine ? 9 : 8, fitted.made, indices(&fitted.firsts), indices(&fitted.worsts),
                          curves, numbers(&fitted.params));
    CHECK(size == l->count && digested(no_digest, composed, size) == l->digest, "%s of %s %zu: put together as %zu other bytes", l->what,
          l->shape, l->n, size);
    expect_written("written", l, &fitted, marks, n, nine, curves);
    expect_read(l, composed, l->count, n, nine, curves);
    expect_packed(l, n, nine, curves);
    uint32_t answer =
        wes_check(false, nine, numbers(&read_marks), 2 * n, l->tolerance, read.made, numbers(&read.curves), (nine ? 9 : 8) * read.made,
                  indices(&read.firsts), read.made, indices(&read.worsts), nine ? read.made : 0, numbers(&read.params), n, &curve, &mark);
    CHECK(answer == 0, "%s of %s %zu, read and checked: %u at %zu, %zu", l->what, l->shape, l->n, answer, curve, mark);
    expect_written("read and written", l, &read, numbers(&read_marks), n, nine, numbers(&read.curves));
    expect_judged(l, n);
}

/* ---- All lines */

static const struct {
    const char *what;
    size_t fit;
    bool nine;
} whats[] = {{"source", SOURCE, false}, {"loop", LOOP, false},    {"joined", JOINED, false}, {"ring", RING, false},
             {"nine", JOINED, true},    {"eight", JOINED, false}, {"closed", RING, true}};

/* Where the files begin, and the one with a mark more. */
enum { WHATS = COUNT(whats), FILES = 4, CLOSED = 6 };

/* How many lines of each there were, and how many of them with the most marks. */
static size_t seen[WHATS], seen_most[WHATS];

static void expect_line(const Line *l) {
    CHECK(draw(l->shape, l->n), "no shape is called %s", l->shape);
    for (size_t i = 0; i < WHATS; i++) {
        if (!is(l->what, whats[i].what)) continue;
        const Fit *fit = &fits[whats[i].fit];
        seen[i]++;
        seen_most[i] += l->n + (i == CLOSED) == MOST_MARKS;
        if (i >= FILES) {
            expect_file(l, fit, whats[i].nine);
            return;
        }
        expect_fit(l, fit);
        if (&fits[fit->twin] != fit) expect_fit(l, &fits[fit->twin]);
        return;
    }
    CHECK(is(l->what, "marks"), "nothing is known of %s", l->what);
    expect_marks(l);
}

int main(int argc, char **argv) {
    static char text[TEXT];
    if (argc != 2) return 2;
    const char *at = text, *end = text + load(argv[1], (uint8_t *)text, TEXT);
    fitted = new_slices(), read = new_slices();
    read_marks = new_lent(2 * MOST_MARKS * sizeof(double));
    written = new_lent(LONGEST_FILE);
    while (at < end) {
        const char *newline = memchr(at, '\n', (size_t)(end - at)), *stop = newline == NULL ? end : newline;
        Line l;
        if (*at != '#') {
            if (take_line(&l, at, stop))
                expect_line(&l);
            else
                CHECK(false, "this is no line: %.*s", (int)(stop - at), at);
        }
        at = stop + 1;
    }
    for (size_t i = 0; i < WHATS; i++) CHECK(seen_most[i] > 0, "no line of %s has the most marks", whats[i].what);
    for (size_t i = 0; i < WHATS; i++) printf("%s%s %zu", i == 0 ? "lines: " : ", ", whats[i].what, seen[i]);
    printf("\n");
    return finish();
}
