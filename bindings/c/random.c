/* Random outlines: what the fits accept passes the checkers, a damaged list does not, both engines answer alike whatever the slices held,
   and a refused fit leaves them as it should. random [OUTLINES] */
#include "test.h"
#include <stdlib.h>

enum { LONG = 20000, SPARE = 2 };

static double marks[2 * LONG], eight[8 * (LONG + 1)];
static Slices one, other;

/* ---- Outlines */

/* Two cubic polynomials with this scale; `noise` is a share of it. */
static void wander(size_t n, double scale, double noise) {
    double a[8];
    for (size_t i = 0; i < 8; i++) a[i] = random_within(-0.2, 0.2);
    for (size_t i = 0; i < n; i++) {
        double u = (double)i / (double)n;
        for (size_t d = 0; d < 2; d++) {
            const double *c = a + 4 * d;
            marks[2 * i + d] = scale * (c[0] + u * (c[1] + u * (c[2] + u * c[3])) + random_within(-noise, noise));
        }
    }
}

/* Forth and back over the same marks. */
static void fold(size_t n) {
    for (size_t i = n / 2; i < n; i++) memcpy(marks + 2 * i, marks + 2 * (n - 1 - i), 2 * sizeof *marks);
}

/* Runs of equal marks. */
static void rest(size_t n) {
    for (size_t i = 1; i < n; i++)
        if (random_below(3) > 0) memcpy(marks + 2 * i, marks + 2 * (i - 1), 2 * sizeof *marks);
}

/* On a grid, so that there are many right angles and zeros of either sign. */
static void snap(size_t n) {
    for (size_t i = 0; i < 2 * n; i++) marks[i] = (random_below(2) ? 1.0 : -1.0) * (double)random_below(4);
}

static void draw(size_t kind, size_t n) {
    const double scales[] = {1000, 1, 1e6, 1e-150, 1e-300, 1e-160};
    double scale = scales[random_below(random_below(3) ? 3 : 6)];
    wander(n, scale, kind < 2 ? 0 : kind == 2 ? 0.2 : 0.001);
    if (kind == 4) fold(n);
    if (kind == 5) rest(n);
    if (kind == 6) snap(n);
}

/* One number that is out of range. */
static void damage(size_t n) {
    const double out[] = {not_a_number(), infinity(), -infinity(), 1000000.5};
    marks[random_below(2 * n)] = out[random_below(4)];
}

static size_t size_of(size_t number) {
    if (number % 1000 == 999) return LONG;
    switch (random_below(16)) {
    case 0: return 2 + random_below(599);
    case 1: return 190 + random_below(70);
    case 2: return 2 + random_below(4);
    default: return 2 + random_below(60);
    }
}

static double tolerance_of(void) {
    const double tolerances[] = {0, 0, 1e-9, 0.01, 0.5, 3, 100, 1e-151, 1e300};
    return tolerances[random_below(COUNT(tolerances))];
}

/* ---- A list, damaged in one place. Each change is one that must be seen, and where; it is taken back. */

typedef struct {
    const Fit *fit;
    size_t n;
    double tolerance;
} Case;

static void expect_fault(const Case *c, const char *what, uint32_t letter, size_t at_curve, size_t at_mark) {
    size_t curve = 77, mark = 77;
    uint32_t answer = verdict(c->fit->ring, marks, 2 * c->n, c->tolerance, &one, &curve, &mark);
    CHECK(answer == letter && curve == at_curve && mark == at_mark, "%s of %zu marks, %s: %u at %zu, %zu in place of %u at %zu, %zu",
          c->fit->name, c->n, what, answer, curve, mark, letter, at_curve, at_mark);
}

static void change_bit(const Case *c, const char *what, double *number, uint32_t letter, size_t j) {
    double before = *number;
    *number = of_bits(bits_of(before) ^ 1);
    expect_fault(c, what, letter, j, indices(&one.firsts)[j]);
    *number = before;
}

static void change_index(const Case *c, const char *what, uint32_t *index, uint32_t value, uint32_t letter, size_t j, size_t mark) {
    uint32_t before = *index;
    *index = value;
    expect_fault(c, what, letter, j, mark);
    *index = before;
}

/* The curve under which a mark is measured: the last that begins at it or before it. */
static size_t curve_over(size_t mark) {
    size_t j = one.made - 1;
    while (indices(&one.firsts)[j] > mark) j--;
    return j;
}

static void change_parameter(const Case *c) {
    size_t i = random_below(params_for(c->fit, c->n));
    double *t = numbers(&one.params) + i, before = *t;
    *t = 2;
    expect_fault(c, "a parameter of 2", 'C', curve_over(i), i);
    *t = before;
}

/* A tolerance just below the largest distance: the first curve that has it is at fault. */
static void tighten(const Case *c) {
    size_t far = 0, curve, mark;
    const double *curves = numbers(&one.curves);
    for (size_t j = 1; j < one.made; j++)
        if (curves[9 * j + 8] > curves[9 * far + 8]) far = j;
    double largest = curves[9 * far + 8];
    if (largest == 0) return;
    uint32_t answer = verdict(c->fit->ring, marks, 2 * c->n, of_bits(bits_of(largest) - 1), &one, &curve, &mark);
    CHECK(answer == 'D' && curve == far, "%s of %zu marks, a tighter tolerance: %u at %zu", c->fit->name, c->n, answer, curve);
}

static void damage_list(const Case *c) {
    size_t j = random_below(one.made);
    double *record = numbers(&one.curves) + 9 * j;
    uint32_t *first = indices(&one.firsts) + j, *worst = indices(&one.worsts) + j;
    change_bit(c, "a start moved", record + random_below(2), 'B', j);
    change_bit(c, "an end moved", record + 6 + random_below(2), 'B', j);
    change_bit(c, "a distance changed", record + 8, 'E', j);
    change_index(c, "a first mark that does not rise", first, j == 0 ? 1 : first[-1], 'A', j, 0);
    change_index(c, "another worst mark", worst, *worst ^ 1, 'E', j, *first);
    change_parameter(c);
    tighten(c);
}

/* ---- One outline by one fit */

static size_t accepted[FITS], refused[10];

/* A list passes with its worst marks, by either call, and without them. */
static void expect_sound(const Case *c) {
    size_t curve, mark, times = params_for(c->fit, c->n);
    expect_fault(c, "sound", 0, 0, 0);
    CHECK(wes_check(c->fit->ring, true, marks, 2 * c->n, c->tolerance, one.made, numbers(&one.curves), 9 * one.made, indices(&one.firsts),
                    one.made, indices(&one.worsts), one.made, numbers(&one.params), times, &curve, &mark) == 0,
          "%s of %zu marks, by wes_check", c->fit->name, c->n);
    eight_of(numbers(&one.curves), one.made, eight);
    CHECK((c->fit->ring ? wes_check_ring : wes_check_list)(marks, 2 * c->n, c->tolerance, one.made, eight, 8 * one.made,
                                                           indices(&one.firsts), one.made, numbers(&one.params), times, &curve, &mark) == 0,
          "%s of %zu marks, eight numbers a curve", c->fit->name, c->n);
}

static bool same_results(const Case *c) {
    return one.made == other.made && same_bits(numbers(&one.curves), numbers(&other.curves), 9 * one.made) &&
           memcmp(one.firsts.place, other.firsts.place, 4 * one.made) == 0 &&
           memcmp(one.worsts.place, other.worsts.place, 4 * one.made) == 0 &&
           same_bits(numbers(&one.params), numbers(&other.params), params_for(c->fit, c->n));
}

/* What a fit may answer: 1 or 2 by the count, 5 where a number is out of range, and else 0 or 6. */
static bool possible(const Case *c, bool damaged, uint32_t answer) {
    if (c->n < fewest(c->fit)) return answer == 1;
    if (c->n > c->fit->most) return answer == 2;
    return damaged ? answer == 5 : answer == 0 || answer == 6;
}

static void try_fit(const Case *c, bool damaged, unsigned seed) {
    const Fit *twin = &fits[c->fit->twin];
    lend_slices(&one, c->fit, c->n, SPARE, seed);
    lend_slices(&other, twin, c->n, SPARE, seed + 101);
    uint32_t answer = fit_into(c->fit, marks, 2 * c->n, c->tolerance, &one), again = fit_into(twin, marks, 2 * c->n, c->tolerance, &other);
    CHECK(possible(c, damaged, answer) && again == answer, "%s of %zu marks: %u, but by %s %u", c->fit->name, c->n, answer, twin->name,
          again);
    if (answer != 0) {
        refused[answer < 10 ? answer : 7]++;
        CHECK(one.made == 0 && (answer == 6 ? slices_zero(&one) : slices_kept(&one)), "%s of %zu marks: slices after %u", c->fit->name,
              c->n, answer);
        return;
    }
    accepted[c->fit - fits]++;
    CHECK(kept_beyond(&one, c->fit, c->n) && kept_beyond(&other, twin, c->n), "%s of %zu marks: places beyond", c->fit->name, c->n);
    CHECK(same_results(c), "%s of %zu marks: the numbers go by the engine, or by what the slices held", c->fit->name, c->n);
    if (c->fit == &fits[SOURCE] || c->fit == &fits[LOOP] || c->fit->flat != NULL) return;
    expect_sound(c);
    damage_list(c);
}

int main(int argc, char **argv) {
    size_t outlines = argc > 1 ? strtoul(argv[1], NULL, 10) : 3000;
    one = new_slices();
    other = new_slices();
    for (size_t i = 0; i < outlines; i++) {
        size_t n = size_of(i);
        bool damaged = random_below(20) == 0;
        draw(i % 7, n);
        if (damaged) damage(n);
        for (size_t t = 0; t < 4; t++) tangents[t] = random_within(-2, 2);
        double tolerance = tolerance_of();
        for (size_t f = 0; f < FITS; f++) try_fit(&(Case){&fits[f], n, tolerance}, damaged, (unsigned)i);
    }
    /* That the outlines try what they are meant to. */
    for (size_t f = 0; f < FITS; f++) CHECK(accepted[f] > outlines / 2, "%s accepted only %zu", fits[f].name, accepted[f]);
    CHECK(refused[1] > 0 && refused[2] > 0 && refused[5] > 0 && refused[6] > 0, "a refusal that did not come");
    for (size_t f = 0; f < FITS; f++) printf("%s%s %zu", f == 0 ? "accepted: " : ", ", fits[f].name, accepted[f]);
    printf("; refused by 6: %zu, by 5: %zu\n", refused[6], refused[5]);
    return finish();
}
