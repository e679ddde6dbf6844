/* Every call on curves, outlines and lists, accepted and refused: every refusal that it can give, and the order where two apply. Looked at
   are the answer, the single values and fixed arrays, every lent slice, and the guard bytes about it. The numbers expected here are small
   enough to be worked out by hand. The calls on house files are in files.c. */
#include "test.h"

static const double BEYOND = 1000001, EDGE = 1000000;

/* ---- One curve */

static const double arch[8] = {0, 0, 1, 2, 3, 2, 4, 0};
static const double line[8] = {0, 0, 1, 0, 2, 0, 3, 0};

/* What a call answered, with the numbers that it handed back: those of a refusal are zeros. */
static void expect_numbers(const char *call, uint32_t answer, uint32_t expected, const Lent *got, const double *numbers_expected) {
    CHECK(answer == expected, "%s answered %u in place of %u", call, answer, expected);
    CHECK(kept_from(got, got->bytes), "%s wrote beyond its array", call);
    if (expected != 0)
        CHECK(all_zero(got), "%s refused and did not hand back zeros", call);
    else
        CHECK(memcmp(got->place, numbers_expected, got->bytes) == 0, "%s gave other numbers", call);
}

/* What the calls on one curve write into. */
static Lent left, right;

typedef uint32_t PointCall(const double *curve, double t, double *point);

static void expect_point(const char *name, PointCall *call, const double *curve, double t, uint32_t expected, double x, double y) {
    lend(&left, 16, 5);
    expect_numbers(name, call(curve, t, numbers(&left)), expected, &left, (double[]){x, y});
}

/* A call on a curve of `count` numbers: 5 for a parameter or any one number out of range, 6 where t overflows, and 5 before 6. */
static void expect_point_refusals(const char *name, PointCall *call, const double *curve, size_t count) {
    double bad[8];
    expect_point(name, call, curve, not_a_number(), 5, 0, 0);
    expect_point(name, call, curve, infinity(), 5, 0, 0);
    expect_point(name, call, curve, 1.7e308, 6, 0, 0);
    for (size_t i = 0; i < count; i++) {
        const double out[] = {not_a_number(), -infinity(), BEYOND, -BEYOND};
        memcpy(bad, curve, count * sizeof *bad);
        bad[i] = out[i % 4];
        expect_point(name, call, bad, 0.5, 5, 0, 0);
        expect_point(name, call, bad, 1.7e308, 5, 0, 0);
    }
}

static void points(void) {
    const double quadratic[6] = {0, 0, 2, 4, 4, 0}, two[4] = {0, 0, 4, 2}, edge[8] = {EDGE, -EDGE, EDGE, -EDGE, EDGE, -EDGE, EDGE, -EDGE};
    expect_point("basis", wes_basis, arch, 0.5, 0, 2, 1.5);
    expect_point("basis", wes_basis, edge, 0.5, 0, EDGE, -EDGE);
    expect_point_refusals("basis", wes_basis, arch, 8);
    expect_point("de_casteljau4", wes_de_casteljau4, arch, 0.5, 0, 2, 1.5);
    expect_point_refusals("de_casteljau4", wes_de_casteljau4, arch, 8);
    expect_point("de_casteljau3", wes_de_casteljau3, quadratic, 0.5, 0, 2, 2);
    expect_point_refusals("de_casteljau3", wes_de_casteljau3, quadratic, 6);
    expect_point("de_casteljau2", wes_de_casteljau2, two, 0.25, 0, 1, 0.5);
    expect_point_refusals("de_casteljau2", wes_de_casteljau2, two, 4);
}

static void expect_coefficients(const double *curve, size_t dimension, uint32_t expected, const double *four) {
    lend(&left, 32, 6);
    expect_numbers("bezier_coefficients", wes_bezier_coefficients(curve, dimension, numbers(&left)), expected, &left, four);
}

/* a = w4 - 3 w3 + 3 w2 - w1, b = 3 w3 - 6 w2 + 3 w1, c = 3 w2 - 3 w1, d = w1. No number in range brings a 6. */
static void coefficients(void) {
    const double bad[8] = {0, 0, 1, 2, 3, 2, 4, BEYOND};
    expect_coefficients(arch, 0, 0, (double[]){-2, 3, 3, 0});
    expect_coefficients(arch, 1, 0, (double[]){0, -6, 6, 0});
    expect_coefficients(arch, 2, 5, NULL);
    expect_coefficients(arch, (size_t)-1, 5, NULL);
    expect_coefficients(bad, 0, 5, NULL);
}

static void expect_parts(const double *curve, double t, uint32_t expected, const double *both) {
    lend(&left, 64, 7);
    lend(&right, 64, 8);
    uint32_t answer = wes_subdivide4(curve, t, numbers(&left), numbers(&right));
    expect_numbers("subdivide4, left", answer, expected, &left, both);
    expect_numbers("subdivide4, right", answer, expected, &right, both + 8);
}

static void parts(void) {
    const double both[16] = {0, 0, 0.5, 1, 1.25, 1.5, 2, 1.5, 2, 1.5, 2.75, 1.5, 3.5, 1, 4, 0},
                 bad[8] = {0, 0, not_a_number(), 2, 3, 2, 4, 0};
    expect_parts(arch, 0.5, 0, both);
    expect_parts(arch, not_a_number(), 5, both);
    expect_parts(arch, 1.7e308, 6, both);
    expect_parts(bad, 0.5, 5, both);
}

static bool near(double x, double y) { return x - y < 1e-9 && y - x < 1e-9; }

static void expect_nearest(const double *curve, double x, double y, uint32_t expected) {
    double t = 7, distance_sq = 7;
    uint32_t answer = wes_nearest_point_on_curve(curve, x, y, &t, &distance_sq);
    CHECK(answer == expected, "answered %u in place of %u", answer, expected);
    CHECK(bits_of(t) == 0 && bits_of(distance_sq) == 0, "refused by %u, and not zeros", answer);
}

/* The two that go too deep or meet 0/0 are from docs/DIFFERENCES.md, and kept in crates/nearest_cases. */
static void nearest(void) {
    const double deep[8] = {1, 2, 1, 2, 2, 2, 1, 0}, quotient[8] = {7, 4, -19, -7, 12, -17, -11, 7}, bad[8] = {0, 0, 1, 0, 2, BEYOND, 3, 0};
    double t = 7, distance_sq = 7;
    CHECK(wes_nearest_point_on_curve(line, 1.5, 2, &t, &distance_sq) == 0 && near(t, 0.5) && near(distance_sq, 4), "a line's middle");
    CHECK(wes_nearest_point_on_curve(arch, 2, 1.5, &t, &distance_sq) == 0 && near(t, 0.5) && near(distance_sq, 0), "an arch's top");
    expect_nearest(deep, 1, 0, 8);
    expect_nearest(quotient, -88.39299610894942, -67.16828793774319, 6);
    expect_nearest(bad, 1, 1, 5);
    expect_nearest(line, not_a_number(), 1, 5);
    expect_nearest(line, 1, infinity(), 5);
    expect_nearest(deep, BEYOND, 0, 5);
}

static void expect_refined(const double *curve, double x, double y, double estimate, size_t rounds, uint32_t expected, double value) {
    double t = 7;
    uint32_t answer = wes_nearest_point_on_curve_newton_raphson_with_estimate(curve, x, y, estimate, rounds, &t);
    CHECK(answer == expected && bits_of(t) == bits_of(value), "answered %u and %g in place of %u and %g", answer, t, expected, value);
}

/* On a straight curve with even steps one round of Newton's is exact. */
static void refined(void) {
    const double bad[8] = {0, 0, 1, 0, 2, 0, infinity(), 0};
    expect_refined(line, 1.5, 0, 0.25, 1, 0, 0.5);
    expect_refined(line, 1.5, 0, 0.25, 0, 0, 0.25);
    expect_refined(line, 1.5, 0, 0.25, 64, 0, 0.5);
    expect_refined(line, 1.5, 0, 0.25, 65, 5, 0);
    expect_refined(line, 1.5, 0, not_a_number(), 1, 5, 0);
    expect_refined(line, BEYOND, 0, 0.25, 1, 5, 0);
    expect_refined(bad, 1.5, 0, 0.25, 1, 5, 0);
    expect_refined(line, 1.5, 0, 1e300, 1, 6, 0);
    expect_refined(line, 1.5, 0, 1e300, 65, 5, 0);
}

/* ---- Numbers */

static void single_numbers(void) {
    const struct {
        double x;
        uint64_t root;
    } roots[] = {
        {0, 0},
        {4, 0x4000000000000000},
        {2, 0x3FF6A09E667F3BCD},
        {2.25, 0x3FF8000000000000},
        {1e300 * 1e300, 0x7FF0000000000000},
        {of_bits(0x8000000000000000), 0x8000000000000000},
        {of_bits(1), 0x1E60000000000000},
        {-1, 0x7FF8000000000000},
        {-infinity(), 0x7FF8000000000000},
    };
    for (size_t i = 0; i < COUNT(roots); i++) {
        double root = wes_sqrt(roots[i].x);
        CHECK(root != root ? roots[i].root == 0x7FF8000000000000 : bits_of(root) == roots[i].root, "the root of %g is %g", roots[i].x,
              root);
    }
    /* Block sizes that docs/PROMISES.md names, those about 20,000 marks and of the most; and the blocks of an outline that they follow
     * from. */
    const struct {
        size_t n, size;
    } sizes[] = {{200, 150}, {202, 152}, {401, 175}, {4250, 200}, {20000, 199}, {20001, 199}, {30049, 198}, {100000, 199}};
    for (size_t i = 0; i < COUNT(sizes); i++)
        CHECK(wes_max_points_to_fit(sizes[i].n) == sizes[i].size, "the size of a block of %zu marks", sizes[i].n);
    const struct { size_t n, blocks; } blocks[] = {{2, 1}, {142, 1}, {250, 2}, {400, 3}, {500, 3}, {630, 4}, {100000, 503}, {100001, 503}};
    for (size_t i = 0; i < COUNT(blocks); i++)
        CHECK(wes_joined_blocks(blocks[i].n) == blocks[i].blocks, "the blocks of %zu marks", blocks[i].n);
}

/* ---- Fits */

static Slices slices;
static double many[2 * (MOST_MARKS + 1)];

/* A fit that must refuse: nothing made, and the slices as they were, or zeros after 6. */
static void expect_refused(const Fit *fit, const char *why, const double *marks, size_t marks_len, double tolerance, uint32_t expected) {
    uint32_t answer = fit_into(fit, marks, marks_len, tolerance, &slices);
    CHECK(answer == expected, "%s, %s: %u in place of %u", fit->name, why, answer, expected);
    CHECK(slices.made == 0, "%s, %s: made %zu", fit->name, why, slices.made);
    CHECK(expected == WES_NOT_FINITE ? slices_zero(&slices) : slices_kept(&slices), "%s, %s: the slices", fit->name, why);
}

/* A fit of n of the many marks, in slices with three places more than it asks for. */
static void expect_fitted(const Fit *fit, const char *why, size_t n, double tolerance) {
    lend_slices(&slices, fit, n, 3, 11);
    uint32_t answer = fit_into(fit, many, 2 * n, tolerance, &slices);
    CHECK(answer == 0, "%s, %s: answered %u", fit->name, why, answer);
    CHECK(slices.made > 0 && slices.made <= most_curves(fit, n), "%s, %s: made %zu", fit->name, why, slices.made);
    CHECK(kept_beyond(&slices, fit, n), "%s, %s: places beyond", fit->name, why);
}

/* Two marks are a line with its controls at 0.33 and 0.66; a ring has no two marks. */
static void fit_two(const Fit *fit) {
    const double record[9] = {0, 0, 4 * 0.33, 0, 4 * 0.66, 0, 4, 0, 0}, ends[2] = {0, 1};
    straight(many, 2);
    many[2] = 4;
    expect_fitted(fit, "two marks", 2, 0);
    CHECK(slices.made == 1 && same_bits(numbers(&slices.curves), record, 9), "%s: the curve of two marks", fit->name);
    CHECK(indices(&slices.firsts)[0] == 0 && indices(&slices.worsts)[0] == 0, "%s: first and worst mark", fit->name);
    CHECK(same_bits(numbers(&slices.params), ends, 2), "%s: parameters of two marks", fit->name);
}

/* The most marks and the widest range are taken. */
static void fit_most(const Fit *fit) {
    straight(many, fit->most);
    expect_fitted(fit, "the most marks", fit->most, 1);
    many[0] = EDGE;
    many[1] = -EDGE;
    expect_fitted(fit, "a million", fewest(fit), of_bits(0x8000000000000000));
}

static void refuse_counts(const Fit *fit) {
    straight(many, fit->most + 1);
    size_t few = fewest(fit);
    lend_slices(&slices, fit, 8, 0, 12);
    expect_refused(fit, "an odd length", many, 7, 1, 3);
    expect_refused(fit, "one number, odd before too few", many, 1, 1, 3);
    expect_refused(fit, "odd before too many", many, 2 * fit->most + 1, 1, 3);
    expect_refused(fit, "no marks", NULL, 0, 1, 1);
    expect_refused(fit, "one mark", many, 2, 1, 1);
    expect_refused(fit, "one mark too few", many, 2 * (few - 1), not_a_number(), 1);
    expect_refused(fit, "too many before no room", many, 2 * (fit->most + 1), not_a_number(), 2);
    lend_slices(&slices, fit, fit->most + 1, 0, 13);
    expect_refused(fit, "one mark too many", many, 2 * (fit->most + 1), 1, 2);
    size_t made = 77;
    CHECK(fit_by(fit, NULL, 0, 1, NULL, 0, NULL, 0, NULL, 0, NULL, 0, NULL, 0, &made) == 1 && made == 0, "%s: all slices empty", fit->name);
    CHECK(fit_by(fit, many, 2 * few, 1, NULL, 0, NULL, 0, NULL, 0, NULL, 0, NULL, 0, &made) == 4 && made == 0, "%s: no room at all",
          fit->name);
}

/* One place too few in each slice in turn, and that before a number out of range. The last of them is the second engine's. */
static void refuse_room(const Fit *fit) {
    Lent *each[] = {&slices.curves, &slices.firsts, &slices.worsts, &slices.params, &slices.open};
    const size_t sizes[] = {sizeof(double), sizeof(uint32_t), sizeof(uint32_t), sizeof(double), sizeof(uint32_t)};
    const char *names[] = {"room for curves", "room for first marks", "room for worst marks", "room for parameters", "room for open parts"};
    for (size_t i = 0; i < (fit->flat == NULL ? 4 : 5); i++) {
        straight(many, 9);
        lend_slices(&slices, fit, 9, 0, 14);
        lend(each[i], each[i]->bytes - sizes[i], 15);
        expect_refused(fit, names[i], many, 18, 1, 4);
        many[5] = not_a_number();
        expect_refused(fit, "no room before a NaN", many, 18, -1, 4);
    }
    straight(many, 9);
    expect_fitted(fit, "nine marks", 9, 1);
}

/* Each number out of range in turn; and where all marks are equal too, that comes before 6. */
static void refuse_range(const Fit *fit) {
    const double out[] = {not_a_number(), infinity(), -infinity(), BEYOND, -BEYOND, of_bits(0xFFF8000000000001)};
    const double tolerances[] = {not_a_number(), infinity(), -infinity(), -1, -of_bits(1)};
    lend_slices(&slices, fit, 5, 2, 16);
    for (size_t i = 0; i < 10; i++) {
        straight(many, 5);
        many[i] = out[i % COUNT(out)];
        expect_refused(fit, "a coordinate", many, 10, 1, 5);
    }
    straight(many, 5);
    for (size_t i = 0; i < COUNT(tolerances); i++) expect_refused(fit, "a tolerance", many, 10, tolerances[i], 5);
    memset(many, 0, sizeof many);
    expect_refused(fit, "a tolerance, of equal marks", many, 10, -1, 5);
    expect_refused(fit, "equal marks", many, 10, 1, 6);
    lend_slices(&slices, fit, fit->most, 0, 17);
    expect_refused(fit, "the most equal marks", many, 2 * fit->most, 1, 6);
}

/* A tangent's components are at most 2 in magnitude; no room comes before that. */
static void refuse_tangents(const Fit *fit) {
    const double out[] = {not_a_number(), infinity(), 2.5, -2.5}, two[4] = {2, -2, -2, 2};
    double before[4];
    memcpy(before, tangents, sizeof tangents);
    straight(many, 5);
    for (size_t i = 0; i < 4; i++) {
        Lent *last = fit->flat == NULL ? &slices.worsts : &slices.open;
        lend_slices(&slices, fit, 5, 0, 18);
        tangents[i] = out[i];
        expect_refused(fit, "a tangent", many, 10, 1, 5);
        lend(last, last->bytes - sizeof(uint32_t), 19);
        expect_refused(fit, "no room before a tangent", many, 10, 1, 4);
        tangents[i] = before[i];
    }
    memcpy(tangents, two, sizeof two);
    expect_fitted(fit, "tangents of 2", 5, 1);
    memcpy(tangents, before, sizeof before);
}

/* A ring's last curve comes back to mark 0, bit for bit. */
static void fit_square(const Fit *fit) {
    const double square[8] = {0, 0, 4, 0, 4, 4, 0, 4};
    memcpy(many, square, sizeof square);
    expect_fitted(fit, "a square", 4, 0);
    const double *last = numbers(&slices.curves) + 9 * (slices.made - 1);
    CHECK(indices(&slices.firsts)[0] == 0 && same_bits(numbers(&slices.curves), square, 2) && same_bits(last + 6, square, 2),
          "%s: the seam", fit->name);
    CHECK(numbers(&slices.params)[0] == 0 && numbers(&slices.params)[4] == 1, "%s: the parameters of the seam", fit->name);
}

static void all_fits(void) {
    for (size_t i = 0; i < FITS; i++) {
        (fits[i].ring ? fit_square : fit_two)(&fits[i]);
        fit_most(&fits[i]);
        refuse_counts(&fits[i]);
        refuse_room(&fits[i]);
        refuse_range(&fits[i]);
    }
    refuse_tangents(&fits[DIRECT]);
    refuse_tangents(&fits[DIRECT_FLAT]);
}

/* ---- Checkers */

/* An answer and its place. */
typedef struct {
    uint32_t answer;
    size_t curve, mark;
} Told;

static bool same_told(Told a, Told b) { return a.answer == b.answer && a.curve == b.curve && a.mark == b.mark; }

/* What the call for either form says. */
static Told ask(const List *l, bool nine, const double *curves, size_t curves_len) {
    Told t = {77, 77, 77};
    if (nine)
        t.answer =
            (l->ring ? wes_check_worst_ring : wes_check_worst)(l->marks, l->marks_len, l->tolerance, l->count, curves, curves_len, l->first,
                                                               l->firsts, l->worst, l->worsts, l->times, l->params, &t.curve, &t.mark);
    else
        t.answer = (l->ring ? wes_check_ring : wes_check_list)(l->marks, l->marks_len, l->tolerance, l->count, curves, curves_len, l->first,
                                                               l->firsts, l->times, l->params, &t.curve, &t.mark);
    return t;
}

/* What wes_check says; without worst marks it does not look at their slice. */
static Told ask_any(const List *l, bool nine, const double *curves, size_t curves_len) {
    Told t = {77, 77, 77};
    t.answer = wes_check(l->ring, nine, l->marks, l->marks_len, l->tolerance, l->count, curves, curves_len, l->first, l->firsts,
                         nine ? l->worst : NULL, nine ? l->worsts : 0, l->times, l->params, &t.curve, &t.mark);
    return t;
}

static void expect_asked(const char *why, const List *l, bool nine, const double *curves, size_t curves_len, Told expected) {
    Told one = ask(l, nine, curves, curves_len), any = ask_any(l, nine, curves, curves_len);
    CHECK(same_told(one, expected), "%s, ring %d, nine %d: %u at %zu, %zu", why, l->ring, nine, one.answer, one.curve, one.mark);
    CHECK(same_told(any, expected), "%s, ring %d, nine %d, by wes_check: %u at %zu, %zu", why, l->ring, nine, any.answer, any.curve,
          any.mark);
}

static void expect_nine(const char *why, const List *l, Told expected) { expect_asked(why, l, true, l->numbers, l->curves, expected); }

/* The same list as curves of eight numbers; `short_of` is by how many numbers their slice is too short. */
static void expect_eight(const char *why, const List *l, size_t short_of, Told expected) {
    double eight[5 * 8];
    eight_of(l->numbers, 5, eight);
    expect_asked(why, l, false, eight, l->curves / 9 * 8 - short_of, expected);
}

/* Both forms say the same, but that eight numbers keep no worst mark and so have no fault E. */
static void expect_told(const char *why, const List *l, uint32_t answer, size_t curve, size_t mark) {
    Told expected = {answer, curve, mark};
    expect_nine(why, l, expected);
    expect_eight(why, l, 0, answer == 'E' ? (Told){0, 0, 0} : expected);
}

static void faults(const List *sound) {
    List l = *sound;
    size_t last = l.params - 1;
    expect_told("sound", &l, 0, 0, 0);
    l.count = 0;
    expect_told("no curves", &l, 'A', 0, 0);
    l = *sound, l.count = 5, l.curves = 45, l.firsts = l.worsts = 5;
    expect_told("as many curves as marks", &l, 'A', 0, 0);
    l = *sound, l.first[0] = 1;
    expect_told("a first mark of 1", &l, 'A', 0, 0);
    l = *sound, l.first[1] = 0;
    expect_told("a first mark twice", &l, 'A', 1, 0);
    l = *sound, l.first[1] = (uint32_t)last;
    expect_told("a curve of the last mark alone", &l, 'A', 1, 0);
    l.numbers[0] = 9;
    expect_told("A before B", &l, 'A', 1, 0);
    l = *sound, l.numbers[9] += 0.125;
    expect_told("a start moved", &l, 'B', 1, 2);
    l = *sound, l.numbers[15] = 7;
    expect_told("an end moved", &l, 'B', 1, 2);
    l = *sound, l.numbers[1] = of_bits(0x8000000000000000);
    expect_told("a start's zero with a minus", &l, 'B', 0, 0);
    l = *sound, l.numbers[2] = not_a_number();
    expect_told("a control that is NaN", &l, 'B', 0, 0);
    l.times[0] = 2;
    expect_told("B before C", &l, 'B', 0, 0);
    l = *sound, l.times[1] = 2;
    expect_told("a parameter of 2", &l, 'C', 0, 1);
    l.tolerance = 0;
    expect_told("C before D", &l, 'C', 0, 1);
    l = *sound, l.times[3] = not_a_number();
    expect_told("a parameter that is NaN", &l, 'C', 1, 3);
    l = *sound, l.times[2] = 0.5;
    expect_told("a first mark's parameter", &l, 'C', 1, 2);
    l = *sound, l.times[last] = 0.5;
    expect_told("the last parameter", &l, 'C', 1, last);
    l = *sound, l.tolerance = 0.375;
    expect_told("a mark too far off", &l, 'D', 0, 1);
    l.worst[0] = 0, l.times[3] = 2;
    expect_told("D before E, and before a later C", &l, 'D', 0, 1);
    l = *sound, l.marks[7] = 0.75;
    expect_told("a mark moved", &l, 'D', 1, 3);
    l = *sound, l.worst[1] = 2;
    expect_told("another worst mark", &l, 'E', 1, 2);
    l = *sound, l.numbers[8] = of_bits(bits_of(0.5) + 1);
    expect_told("the last bit of a distance", &l, 'E', 0, 0);
}

static void check_room(const List *sound) {
    const Told no_room = {4, 0, 0};
    List l = *sound;
    l.curves--;
    expect_nine("room for curves", &l, no_room);
    expect_eight("room for curves of eight", sound, 1, no_room);
    l = *sound, l.worsts--;
    expect_nine("room for worst marks", &l, no_room);
    l = *sound, l.params--;
    expect_told("room for parameters", &l, 4, 0, 0);
    l = *sound, l.firsts--;
    expect_nine("room for first marks", &l, no_room);
    expect_eight("room for first marks", &l, 0, no_room);
    l = *sound, l.params--, l.marks[1] = not_a_number();
    expect_told("no room before a NaN", &l, 4, 0, 0);
    l = *sound, l.count = (size_t)-1;
    expect_told("more curves than any slice has", &l, 4, 0, 0);
}

static void check_refusals(const List *sound) {
    List l = *sound;
    l.marks_len--;
    expect_told("an odd length", &l, 3, 0, 0);
    l.marks_len = 1;
    expect_told("odd before too few", &l, 3, 0, 0);
    l.marks_len = l.ring ? 4 : 2, l.params = 0;
    expect_told("too few before no room", &l, 1, 0, 0);
    l = *sound, l.marks[3] = infinity(), l.count = 0;
    expect_told("a coordinate before A", &l, 5, 0, 0);
    l = *sound, l.marks[3] = BEYOND;
    expect_told("a coordinate above a million", &l, 5, 0, 0);
    l = *sound, l.tolerance = not_a_number();
    expect_told("a tolerance that is NaN", &l, 5, 0, 0);
    l = *sound, l.tolerance = -0.5;
    expect_told("a tolerance below zero", &l, 5, 0, 0);
}

/* More than 100,000 marks do not fit into a List, and come before everything but their odd length and their being too few. */
static void check_too_many(bool ring, bool nine) {
    size_t curve = 77, mark = 77, len = 2 * (MOST_MARKS + 1);
    straight(many, MOST_MARKS + 1);
    uint32_t answer = wes_check(ring, nine, many, len, -1, 1, NULL, 0, NULL, 0, NULL, 0, NULL, 0, &curve, &mark);
    CHECK(answer == 2 && curve == 0 && mark == 0, "ring %d, nine %d: %u", ring, nine, answer);
    curve = mark = 77;
    if (nine)
        answer = (ring ? wes_check_worst_ring : wes_check_worst)(many, len, -1, 1, NULL, 0, NULL, 0, NULL, 0, NULL, 0, &curve, &mark);
    else
        answer = (ring ? wes_check_ring : wes_check_list)(many, len, -1, 1, NULL, 0, NULL, 0, NULL, 0, &curve, &mark);
    CHECK(answer == 2 && curve == 0 && mark == 0, "ring %d, nine %d, by its own call: %u", ring, nine, answer);
}

static void checkers(void) {
    const List *both[2] = {&open_list, &ring_list};
    for (size_t i = 0; i < 2; i++) {
        faults(both[i]);
        check_room(both[i]);
        check_refusals(both[i]);
        check_too_many(i == 1, false);
        check_too_many(i == 1, true);
    }
}

int main(void) {
    left = new_lent(64);
    right = new_lent(64);
    slices = new_slices();
    points();
    coefficients();
    parts();
    nearest();
    refined();
    single_numbers();
    all_fits();
    checkers();
    return finish();
}
