/* The two calls on path data, accepted and refused: every refusal and their order, and each slice between guard bytes. The texts expected
   here are worked out by hand; the lines of crates/replay, which replay.c goes through, have many more. */
#include "test.h"

enum { MOST_TEXT = 4096 };

static const double arch[8] = {0, 0, 0, 1, 1, 1, 1, 0}, back[8] = {1, 0, 1, -1, 0, -1, 0, 0};
static const char arch_text[] = "M 0 0 C 0 1 1 1 1 0", ring_text[] = "M 0 0 C 0 1 1 1 1 0 C 1 -1 0 -1 0 0 Z";

static Lent out, got;

/* ---- Export */

/* Curves of eight numbers, and the same in records of nine, whose ninth number is none. */
typedef struct {
    size_t count;
    double eight[16], nine[18];
} Curves;

static Curves curves_of(size_t count, const double *first, const double *second) {
    Curves c = {.count = count};
    for (size_t i = 0; i < 8; i++) {
        c.eight[i] = c.nine[i] = first[i];
        c.eight[8 + i] = c.nine[9 + i] = second[i];
    }
    c.nine[8] = c.nine[17] = not_a_number();
    return c;
}

static void put(Curves *c, size_t place, double value) {
    c->eight[place] = value;
    c->nine[place + place / 8] = value;
}

/* What both forms of a list answer in so many bytes; `short_by` is how many numbers fewer are lent than the curves have. */
static void expect_export(const char *why, const Curves *c, bool ring, size_t short_by, size_t room, uint32_t expected, const char *text) {
    for (size_t nine = 0; nine < 2; nine++) {
        size_t size = 77, length = text == NULL ? 0 : strlen(text);
        const double *given = nine ? c->nine : c->eight;
        lend(&out, room, 31);
        uint32_t answer = wes_export_path(nine, given, (nine ? 9 : 8) * c->count - short_by, c->count, ring, out.place, room, &size);
        CHECK(answer == expected && size == length, "%s: %u in place of %u, and %zu bytes", why, answer, expected, size);
        CHECK(kept_from(&out, length), "%s: what stands behind the text", why);
        CHECK(length == 0 || memcmp(out.place, text, length) == 0, "%s: another text", why);
    }
}

static void texts(void) {
    Curves one = curves_of(1, arch, back), two = curves_of(2, arch, back);
    expect_export("one curve", &one, false, 0, 99, 0, arch_text);
    expect_export("a ring", &two, true, 0, 99, 0, ring_text);
    const double edges[8] = {-0.0, 0.0625, -0.0625, 0.1875, -0.0004, 1e9, 5e-324, 999999999.9999};
    Curves odd = curves_of(1, edges, back);
    expect_export("halves and zeros", &odd, false, 0, 99, 0, "M 0 0.063 C -0.063 0.188 0 1000000000 0 1000000000");
    const double least[8] = {-999999999.999, -999999999.999, -999999999.999, -999999999.999,
                             -999999999.999, -999999999.999, -999999999.999, -999999999.999};
    Curves longest = curves_of(1, least, back);
    expect_export(
        "the longest text", &longest, true, 0, 92 + 33, 0,
        "M -999999999.999 -999999999.999 C -999999999.999 -999999999.999 -999999999.999 -999999999.999 -999999999.999 -999999999.999 Z");
}

static void export_room(void) {
    Curves one = curves_of(1, arch, back);
    size_t length = strlen(arch_text), size = 77;
    expect_export("just room", &one, false, 0, length, 0, arch_text);
    expect_export("a byte short", &one, false, 0, length - 1, 4, NULL);
    expect_export("no room", &one, false, 0, 0, 4, NULL);
    expect_export("a number short", &one, false, 1, 99, 4, NULL);
    lend(&out, 99, 32);
    CHECK(wes_export_path(false, arch, 8, 2, false, out.place, 99, &size) == 4 && size == 0 && kept_from(&out, 0),
          "two curves in one's slice");
    CHECK(wes_export_path(true, arch, 8, (size_t)-1, false, out.place, 99, &size) == 4 && kept_from(&out, 0),
          "more curves than any slice has");
    CHECK(wes_export_path(false, NULL, 0, 1, false, NULL, 0, &size) == 4 && size == 0, "a curve of no numbers");
}

static void export_refusals(void) {
    const double above = of_bits(bits_of(1e9) + 1);
    Curves none = curves_of(0, arch, back);
    expect_export("no curves", &none, false, 0, 0, 12, NULL);
    expect_export("no curves of a ring", &none, true, 0, 99, 12, NULL);
    for (size_t place = 0; place < 16; place++) {
        const double wild[] = {not_a_number(), infinity(), -infinity()};
        Curves c = curves_of(2, arch, arch); /* which do not meet */
        put(&c, place, -above);
        expect_export("too large before a gap and no room", &c, true, 0, 0, 10, NULL);
        put(&c, (place + 5) % 16, wild[place % 3]);
        expect_export("no number before all others", &c, true, 0, 0, 5, NULL);
    }
    Curves apart = curves_of(2, arch, arch), open = curves_of(1, arch, back), minus = curves_of(2, arch, back);
    expect_export("a gap before no room", &apart, false, 0, 0, 12, NULL);
    expect_export("a ring that does not come back", &open, true, 0, 99, 12, NULL);
    put(&minus, 9, -0.0);
    expect_export("a zero of the other sign", &minus, false, 0, 99, 12, NULL);
    put(&minus, 7, -0.0);
    expect_export("both of that sign", &minus, true, 0, 99, 0, ring_text);
}

/* ---- Import */

static void expect_import(const char *text, size_t room, uint32_t expected, size_t curves, bool is_closed, const double *first) {
    size_t count = 77;
    bool closed = !is_closed;
    lend(&got, room * sizeof(double), 33);
    uint32_t answer = wes_import_path((const uint8_t *)text, strlen(text), numbers(&got), room, &count, &closed);
    CHECK(answer == expected && count == curves && closed == is_closed, "%.40s: %u, %zu curves, closed %d", text, answer, count, closed);
    CHECK(kept_from(&got, 8 * curves * sizeof(double)), "%.40s: what stands behind the curves", text);
    CHECK(first == NULL || same_bits(numbers(&got), first, 8), "%.40s: another first curve", text);
}

static void expect_no_import(const char *text, uint32_t expected) { expect_import(text, 16, expected, 0, false, NULL); }

static void imports(void) {
    const double along[8] = {0, 0, 4 * 0.33, 0, 4 * 0.66, 0, 4, 0};
    expect_import(arch_text, 8, 0, 1, false, arch);
    expect_import(ring_text, 19, 0, 2, true, arch);
    expect_import("M0-0C0+1,1.,1 1\t-.0", 8, 0, 1, false, arch);
    expect_import("M 0 0 4 0", 8, 0, 1, false, along);
    expect_import(" M0,0L4 0 4 4Z\n", 24, 0, 3, true, along);
    expect_import("M0 0L4 0 0 -0Z", 16, 0, 2, true, along);
    expect_import("M 1 2", 0, 0, 0, false, NULL);
    expect_import("M 1 2 Z", 0, 0, 0, true, NULL);
    expect_import("M 00000000001000000000.000 -1000000000.", 0, 0, 0, false, NULL);
}

static void import_refusals(void) {
    const char *outside[] = {"",       " ",      "m 1 2",   "M 1 2 z",         "M 12", "M 1.2345 6", "M 1e3 2", "M 1 2 M 3 4", "M 1 2 Z Z",
                             "M 1 2,", "M 1,,2", "M 1 2 L", "M 1 2 C 3 4 5 6", "L 1 2"};
    for (size_t i = 0; i < COUNT(outside); i++) expect_no_import(outside[i], 11);
    expect_no_import("M 1000000000.001 0", 10);
    expect_no_import("M 0 0 1 1 2 2 3 99999999999999999999999999999999999999999", 10);
    expect_no_import("M 1000000000.001 0 Z x", 11);
    expect_no_import("M 0 0 1 1 2 2 3 3", 4);
    expect_no_import("M 0 0 1 1 2 2 3 3000000000", 10);
    expect_no_import("M 0 0 1 1 2 2 3 3 4", 11);
    expect_import("M 0 0 4 0", 7, 4, 0, false, NULL);
    expect_import("M 0 0 4 0 Z", 15, 4, 0, false, NULL);
    size_t count = 77;
    bool closed = true;
    CHECK(wes_import_path(NULL, 0, NULL, 0, &count, &closed) == 11 && count == 0 && !closed, "no bytes");
}

/* ---- Fits, there and back */

static void there_and_back(const Fit *fit) {
    static double marks[2 * 600], curves[8 * 600];
    static uint8_t first[92 * 600 + 33], second[sizeof first];
    Slices slices = new_slices();
    size_t n = 600, size, again, count;
    bool closed;
    for (size_t i = 0; i < 2 * n; i++) marks[i] = i % 2 ? random_within(-30, 30) : (double)i;
    lend_slices(&slices, fit, n, 0, 41);
    CHECK(fit_into(fit, marks, 2 * n, 5, &slices) == 0, "%s refused", fit->name);
    const double *made = numbers(&slices.curves);
    CHECK(wes_export_path(true, made, 9 * slices.made, slices.made, fit->ring, first, sizeof first, &size) == 0, "%s is not exported",
          fit->name);
    CHECK(wes_import_path(first, size, curves, COUNT(curves), &count, &closed) == 0, "%s is not imported", fit->name);
    CHECK(count == slices.made && closed == fit->ring, "%s: %zu curves of %zu", fit->name, count, slices.made);
    double most = 0;
    for (size_t i = 0; i < 8 * count; i++) {
        double off = curves[i] - made[9 * (i / 8) + i % 8];
        most = off > most ? off : -off > most ? -off : most;
    }
    CHECK(most <= 0.0005 + 1e-9, "%s: a number is %g off", fit->name, most);
    for (size_t j = 0; j + 1 < count; j++)
        CHECK(same_bits(curves + 8 * j + 6, curves + 8 * j + 8, 2), "%s: curve %zu does not meet the next", fit->name, j);
    CHECK(!fit->ring || same_bits(curves + 8 * count - 2, curves, 2), "%s does not come back", fit->name);
    CHECK(wes_export_path(false, curves, 8 * count, count, closed, second, sizeof second, &again) == 0 && again == size &&
              memcmp(first, second, size) == 0,
          "%s: another text the second time", fit->name);
}

int main(void) {
    out = new_lent(MOST_TEXT);
    got = new_lent(MOST_TEXT);
    texts();
    export_room();
    export_refusals();
    imports();
    import_refusals();
    there_and_back(&fits[JOINED]);
    there_and_back(&fits[RING]);
    return finish();
}
