#include "test.h"
#include <stdlib.h>

/* ---- Checks */

static size_t passed, failed;

bool counted(bool holds) {
    *(holds ? &passed : &failed) += 1;
    return holds;
}

int finish(void) {
    printf("%zu passed, %zu failed\n", passed, failed);
    return failed != 0;
}

/* ---- Numbers */

uint64_t bits_of(double x) {
    uint64_t bits;
    memcpy(&bits, &x, sizeof bits);
    return bits;
}

double of_bits(uint64_t bits) {
    double x;
    memcpy(&x, &bits, sizeof x);
    return x;
}

bool same_bits(const double *a, const double *b, size_t count) { return memcmp(a, b, count * sizeof *a) == 0; }

double not_a_number(void) { return of_bits(0x7FF8000000000000); }

double infinity(void) { return of_bits(0x7FF0000000000000); }

/* ---- Lent slices */

enum { GUARD = 256 };

static uint8_t pattern(unsigned seed, size_t i) { return (uint8_t)(seed * 29 + i * 7 + 1); }

Lent new_lent(size_t room) {
    uint8_t *all = malloc(room + 2 * GUARD);
    if (all == NULL) {
        printf("no memory\n");
        exit(2);
    }
    return (Lent){.place = all + GUARD, .room = room};
}

void lend(Lent *slice, size_t bytes, unsigned seed) {
    if (bytes > slice->room) {
        printf("a test lends more than it has\n");
        exit(2);
    }
    slice->bytes = bytes;
    slice->seed = seed;
    for (size_t i = 0; i < bytes + 2 * GUARD; i++) slice->place[(ptrdiff_t)i - GUARD] = pattern(seed, i);
}

double *numbers(const Lent *slice) { return (double *)(void *)slice->place; }

uint32_t *indices(const Lent *slice) { return (uint32_t *)(void *)slice->place; }

/* Whether the bytes from `from` up to `to`, counted from the front guard's first, hold the pattern: all are looked at, for that is fast. */
static bool patterned(const Lent *slice, size_t from, size_t to) {
    unsigned changed = 0;
    for (size_t i = from; i < to; i++) changed |= slice->place[(ptrdiff_t)i - GUARD] ^ pattern(slice->seed, i);
    return changed == 0;
}

bool kept_from(const Lent *slice, size_t from) {
    return patterned(slice, 0, GUARD) && patterned(slice, GUARD + from, slice->bytes + 2 * GUARD);
}

bool all_zero(const Lent *slice) {
    unsigned any = 0;
    for (size_t i = 0; i < slice->bytes; i++) any |= slice->place[i];
    return any == 0;
}

/* ---- Fits */

double tangents[4] = {1, 0, -1, 0};

static uint32_t direct(const double *marks, size_t marks_len, double tolerance, double *curves, size_t curves_len, uint32_t *firsts,
                       size_t firsts_len, uint32_t *worsts, size_t worsts_len, double *params, size_t params_len, size_t *made) {
    return wes_fit_curve_cubic(marks, marks_len, tangents[0], tangents[1], tangents[2], tangents[3], tolerance, curves, curves_len, firsts,
                               firsts_len, worsts, worsts_len, params, params_len, made);
}

static uint32_t direct_flat(const double *marks, size_t marks_len, double tolerance, double *curves, size_t curves_len, uint32_t *firsts,
                            size_t firsts_len, uint32_t *worsts, size_t worsts_len, double *params, size_t params_len, uint32_t *open,
                            size_t open_len, size_t *made) {
    return wes_fit_curve_cubic_flat(marks, marks_len, tangents[0], tangents[1], tangents[2], tangents[3], tolerance, curves, curves_len,
                                    firsts, firsts_len, worsts, worsts_len, params, params_len, open, open_len, made);
}

const Fit fits[FITS] = {
    [JOINED] = {"fit_joined", wes_fit_joined, NULL, JOINED_FLAT, false, MOST_MARKS},
    [RING] = {"fit_ring", wes_fit_ring, NULL, RING_FLAT, true, MOST_MARKS},
    [SOURCE] = {"fit_curve", wes_fit_curve, NULL, SOURCE, false, MOST_MARKS},
    [LOOP] = {"fit_curve_loop", wes_fit_curve_loop, NULL, LOOP, false, MOST_MARKS},
    [DIRECT] = {"fit_curve_cubic", direct, NULL, DIRECT_FLAT, false, MOST_DIRECT},
    [JOINED_FLAT] = {"fit_joined_flat", NULL, wes_fit_joined_flat, JOINED, false, MOST_MARKS},
    [RING_FLAT] = {"fit_ring_flat", NULL, wes_fit_ring_flat, RING, true, MOST_MARKS},
    [DIRECT_FLAT] = {"fit_curve_cubic_flat", NULL, direct_flat, DIRECT, false, MOST_DIRECT},
};

uint32_t fit_by(const Fit *fit, const double *marks, size_t marks_len, double tolerance, double *curves, size_t curves_len,
                uint32_t *firsts, size_t firsts_len, uint32_t *worsts, size_t worsts_len, double *params, size_t params_len, uint32_t *open,
                size_t open_len, size_t *made) {
    if (fit->flat == NULL)
        return fit->call(marks, marks_len, tolerance, curves, curves_len, firsts, firsts_len, worsts, worsts_len, params, params_len, made);
    return fit->flat(marks, marks_len, tolerance, curves, curves_len, firsts, firsts_len, worsts, worsts_len, params, params_len, open,
                     open_len, made);
}

size_t fewest(const Fit *fit) { return fit->ring ? 3 : 2; }

size_t most_curves(const Fit *fit, size_t n) { return params_for(fit, n) - 1; }

size_t params_for(const Fit *fit, size_t n) { return fit->ring ? n + 1 : n; }

size_t open_for(const Fit *fit, size_t n) { return fit->flat == NULL ? 0 : 2 * n; }

Slices new_slices(void) {
    size_t marks = MOST_MARKS + 64;
    return (Slices){
        .curves = new_lent(9 * marks * sizeof(double)),
        .firsts = new_lent(marks * sizeof(uint32_t)),
        .worsts = new_lent(marks * sizeof(uint32_t)),
        .params = new_lent(marks * sizeof(double)),
        .open = new_lent(2 * marks * sizeof(uint32_t)),
    };
}

void lend_slices(Slices *to, const Fit *fit, size_t n, size_t more, unsigned seed) {
    size_t curves = most_curves(fit, n);
    lend(&to->curves, (9 * curves + more) * sizeof(double), seed);
    lend(&to->firsts, (curves + more) * sizeof(uint32_t), seed + 1);
    lend(&to->worsts, (curves + more) * sizeof(uint32_t), seed + 2);
    lend(&to->params, (params_for(fit, n) + more) * sizeof(double), seed + 3);
    lend(&to->open, fit->flat == NULL ? 0 : (open_for(fit, n) + more) * sizeof(uint32_t), seed + 4);
}

uint32_t fit_into(const Fit *fit, const double *marks, size_t marks_len, double tolerance, Slices *to) {
    to->made = 77;
    return fit_by(fit, marks, marks_len, tolerance, numbers(&to->curves), to->curves.bytes / sizeof(double), indices(&to->firsts),
                  to->firsts.bytes / sizeof(uint32_t), indices(&to->worsts), to->worsts.bytes / sizeof(uint32_t), numbers(&to->params),
                  to->params.bytes / sizeof(double), indices(&to->open), to->open.bytes / sizeof(uint32_t), &to->made);
}

/* Whether what stands behind k curves and p parameters is as it was. */
static bool kept_behind(const Slices *s, size_t k, size_t p) {
    return kept_from(&s->curves, 9 * k * sizeof(double)) && kept_from(&s->firsts, k * sizeof(uint32_t)) &&
           kept_from(&s->worsts, k * sizeof(uint32_t)) && kept_from(&s->params, p * sizeof(double));
}

static bool zeroed(const Lent *slice) { return all_zero(slice) && kept_from(slice, slice->bytes); }

bool open_left(const Lent *open, uint32_t answer) {
    return answer == WES_OK || answer == WES_NOT_FINITE ? zeroed(open) : kept_from(open, 0);
}

bool slices_kept(const Slices *s) { return kept_behind(s, 0, 0) && kept_from(&s->open, 0); }

bool slices_zero(const Slices *s) {
    return zeroed(&s->curves) && zeroed(&s->firsts) && zeroed(&s->worsts) && zeroed(&s->params) && zeroed(&s->open);
}

bool kept_beyond(const Slices *s, const Fit *fit, size_t n) { return kept_behind(s, s->made, params_for(fit, n)) && zeroed(&s->open); }

uint32_t verdict(bool ring, const double *marks, size_t marks_len, double tolerance, const Slices *s, size_t *curve, size_t *mark) {
    return (ring ? wes_check_worst_ring : wes_check_worst)(marks, marks_len, tolerance, s->made, numbers(&s->curves), 9 * s->made,
                                                           indices(&s->firsts), s->made, indices(&s->worsts), s->made, numbers(&s->params),
                                                           s->params.bytes / sizeof(double), curve, mark);
}

void eight_of(const double *nine, size_t count, double *eight) {
    for (size_t j = 0; j < count; j++) memcpy(eight + 8 * j, nine + 9 * j, 8 * sizeof *eight);
}

/* ---- Small lists */

/* Five marks under two straight curves, half a unit and a quarter off: mark 2, where they meet, is measured under the second, at 0. */
const List open_list = {
    .ring = false,
    .marks_len = 10,
    .count = 2,
    .curves = 18,
    .firsts = 2,
    .worsts = 2,
    .params = 5,
    .tolerance = 0.5,
    .marks = {0, 0, 1.5, 0.5, 3, 0, 4.5, 0.25, 6, 0},
    .numbers = {0, 0, 1, 0, 2, 0, 3, 0, 0.5, 3, 0, 4, 0, 5, 0, 6, 0, 0.25},
    .times = {0, 0.5, 0, 0.5, 1},
    .first = {0, 2},
    .worst = {1, 3},
};

/* Four marks: out under one straight curve, and back to mark 0 under another. */
const List ring_list = {
    .ring = true,
    .marks_len = 8,
    .count = 2,
    .curves = 18,
    .firsts = 2,
    .worsts = 2,
    .params = 5,
    .tolerance = 0.5,
    .marks = {0, 0, 1.5, 0.5, 3, 0, 1.5, 0.25},
    .numbers = {0, 0, 1, 0, 2, 0, 3, 0, 0.5, 3, 0, 2, 0, 1, 0, 0, 0, 0.25},
    .times = {0, 0.5, 0, 0.5, 1},
    .first = {0, 2},
    .worst = {1, 3},
};

void straight(double *marks, size_t n) {
    for (size_t i = 0; i < n; i++) {
        marks[2 * i] = (double)i;
        marks[2 * i + 1] = 0;
    }
}

/* ---- Random numbers */

uint64_t random_bits(void) {
    static uint64_t state = 0x9E3779B97F4A7C15;
    state ^= state << 13;
    state ^= state >> 7;
    state ^= state << 17;
    return state;
}

size_t random_below(size_t n) { return (size_t)((random_bits() >> 11) % n); }

double random_within(double low, double high) { return low + (high - low) * ((double)(random_bits() >> 11) / 9007199254740992.0); }

/* ---- House files */

size_t load(const char *path, uint8_t *to, size_t room) {
    FILE *file = fopen(path, "rb");
    if (file == NULL) {
        printf("%s can't be read\n", path);
        exit(2);
    }
    size_t size = fread(to, 1, room, file);
    fclose(file);
    if (size == room) {
        printf("%s is too long for the test\n", path);
        exit(2);
    }
    return size;
}

static uint8_t *put(uint8_t *to, uint64_t x, size_t bytes) {
    for (size_t i = 0; i < bytes; i++) to[i] = (uint8_t)(x >> (8 * i));
    return to + bytes;
}

static uint8_t *put_head(uint8_t *to, size_t body, unsigned kind) { return put(put(to, 2 + body, 4), kind, 2); }

static uint8_t *put_numbers(uint8_t *to, const double *xs, size_t count) {
    for (size_t i = 0; i < count; i++) to = put(to, bits_of(xs[i]), 8);
    return to;
}

unsigned kind_for(size_t n, size_t width) { return n <= NARROW_MARKS ? (width == 9 ? 6 : 3) : (width == 9 ? 7 : 5); }

/* The tolerance and the marks, which every file begins with; and the parameters, which one with curves ends with. */
static uint8_t *put_marks(uint8_t *to, double tolerance, const double *marks, size_t n) {
    return put_numbers(put_head(put_numbers(put_head(to, 8, 1), &tolerance, 1), 16 * n, 2), marks, 2 * n);
}

static uint8_t *put_params(uint8_t *to, const double *params, size_t n) { return put_numbers(put_head(to, 8 * n, 4), params, n); }

size_t compose_kind(uint8_t *to, unsigned kind, double tolerance, const double *marks, size_t n, size_t count, const uint32_t *firsts,
                    const uint32_t *worsts, const double *curves, const double *params) {
    bool nine = kind >= 6;
    size_t width = nine ? 9 : 8, number = kind == 3 || kind == 6 ? 2 : 4;
    uint8_t *at = put_marks(to, tolerance, marks, n);
    for (size_t j = 0; j < count; j++) {
        at = put(put_head(at, (nine ? 2 : 1) * number + 8 * width, kind), firsts[j], number);
        if (nine) at = put(at, worsts[j], number);
        at = put_numbers(at, curves + width * j, width);
    }
    if (count > 0) at = put_params(at, params, n);
    return (size_t)(at - to);
}

size_t compose(uint8_t *to, double tolerance, const double *marks, size_t n, size_t width, size_t count, const uint32_t *firsts,
               const uint32_t *worsts, const double *curves, const double *params) {
    return compose_kind(to, kind_for(n, width), tolerance, marks, n, count, firsts, worsts, curves, params);
}

size_t compose_packed(uint8_t *to, double tolerance, const double *marks, size_t n, size_t width, size_t count, const uint32_t *firsts,
                      const uint32_t *worsts, const double *curves, const double *params) {
    uint8_t *at = put_marks(to, tolerance, marks, n);
    if (count == 0) return (size_t)(at - to);
    at = put(put_head(at, 21 + (width == 9 ? 64 : 52) * count, 8), width == 9, 1);
    at = put_numbers(put(at, firsts[0], 4), curves, 2);
    for (size_t j = 0; j < count; j++) {
        at = put_numbers(put(at, j + 1 < count ? firsts[j + 1] : n - 1, 4), curves + width * j + 2, width - 2);
        if (width == 9) at = put(at, worsts[j], 4);
    }
    return (size_t)(put_params(at, params, n) - to);
}
