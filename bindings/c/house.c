/* Answers the records of crates/house_cases/stdin through the C calls, and holds the answers against the kept ones: house CASES ANSWERS.
   crates/house_cases/src/main.rt says what a record is. */
#include "test.h"

/* At least as much room as crates/house_cases has; of it each record lends what its head says. */
enum { ALL = 1 << 23, FILE_ROOM = 1 << 22, NUMBERS = 1 << 15, FIRSTS = 1 << 12, PARAMS = 1 << 14, RUNS = 3 };

/* A record's head: what to do, the file's runs, and how much room to lend. */
typedef struct {
    uint64_t what;
    struct {
        uint64_t given, zeros;
    } runs[RUNS];
    uint64_t marks, firsts, worsts, curves, params, out;
} Head;

static uint8_t cases[ALL], answers[ALL], file[FILE_ROOM], out[FILE_ROOM], list[NUMBERS];
static size_t file_size;
static double tolerance, marks[NUMBERS], curves[NUMBERS], params[PARAMS];
static uint32_t firsts[FIRSTS], worsts[FIRSTS];
static size_t mark_count, curve_count;
static bool nine;

/* ---- The answer: a text. */

static char said[FILE_ROOM];
static size_t said_size;

static void say_text(const void *text, size_t size) {
    memcpy(said + said_size, text, size);
    said_size += size;
}

static void say_count(size_t n, const char *behind) { said_size += (size_t)snprintf(said + said_size, 32, "%zu%s", n, behind); }

/* ---- What a record asks for */

static uint32_t read_into_room(size_t size, const Head *head) {
    return wes_read_file(file, size, &tolerance, marks, head->marks, firsts, head->firsts, worsts, head->worsts, curves, head->curves,
                         params, head->params, &mark_count, &curve_count, &nine);
}

static void list_curves(const Head *head) {
    size_t size;
    uint32_t number = wes_list_outline(file, file_size, out, head->out, &size);
    if (number != 0)
        say_count(number, "\n");
    else
        say_text(out, size);
}

static void write_again(const Head *head) {
    size_t size;
    uint32_t number = wes_write_file(nine, &tolerance, marks, 2 * mark_count, curve_count, firsts, head->firsts, worsts, head->worsts,
                                     curves, head->curves, params, head->params, out, head->out, &size);
    say_count(number, number == 0 ? " " : "\n");
    if (number != 0) return;
    say_count(size, "\n");
    if (size != file_size || memcmp(file, out, size) != 0) say_text("DIFFERS\n", 8);
}

static void read_and_write(const Head *head) {
    uint32_t number = read_into_room(file_size, head);
    say_count(number, number == 0 ? " " : "\n");
    if (number != 0) return;
    say_count(mark_count, " ");
    say_count(curve_count, " ");
    if (head->what == 4 && head->worsts > 0) worsts[0] = 65536;
    if (head->what == 5 && head->firsts > 0) firsts[0] = 65536;
    write_again(head);
}

/* How often 0, 2, 4 and 9 were answered. */
static size_t tally[10];

static void say_tally(void) {
    say_count(tally[0], " ");
    say_count(tally[2], " ");
    say_count(tally[4], " ");
    say_count(tally[9], "\n");
    memset(tally, 0, sizeof tally);
}

static void count_answer(uint32_t number) { tally[number < 10 ? number : 7]++; }

/* What is asked of every prefix and every change: the answer to so many bytes of the file. */
typedef uint32_t Asked(size_t size, const Head *head);

static void prefixes(Asked *asked, const Head *head) {
    for (size_t i = 0; i < file_size; i++) count_answer(asked(i, head));
    say_tally();
}

/* The other values of the bytes that are given. */
static void changes(Asked *asked, const Head *head) {
    size_t at = 0;
    for (size_t run = 0; run < RUNS; at += head->runs[run++].zeros) {
        for (size_t end = at + head->runs[run].given; at < end; at++) {
            for (unsigned d = 1; d < 256; d++) {
                file[at]++;
                count_answer(asked(file_size, head));
            }
            file[at]++;
        }
    }
    say_tally();
}

static uint32_t unpack_into_room(size_t size, const Head *head) {
    size_t made;
    return wes_unpack_file(file, size, out, head->out, &made);
}

/* A digest of all bytes that were lent, turned by five bits for each. */
static void say_digest(const uint8_t *lent, size_t size, const char *behind) {
    uint64_t digest = 0;
    for (size_t i = 0; i < size; i++) digest = (digest << 5 | digest >> 59) + lent[i];
    said_size += (size_t)snprintf(said + said_size, 32, "%016lx%s", digest, behind);
}

static void pack_or_unpack(FileCall *call, const Head *head) {
    size_t size;
    memset(out, 7, head->out);
    uint32_t number = call(file, file_size, out, head->out, &size);
    say_count(number, " ");
    if (number == 0) say_count(size, " ");
    say_digest(out, head->out, "\n");
}

/* The list has the room that the head gives for marks. */
static void salvage(const Head *head) {
    size_t size, list_size;
    memset(out, 7, head->out);
    memset(list, 7, head->marks);
    uint32_t number = wes_salvage(file, file_size, out, head->out, list, head->marks, &size, &list_size);
    say_count(number, " ");
    if (number == 0) {
        say_count(size, " ");
        say_count(list_size, " ");
    }
    say_digest(out, head->out, " ");
    say_digest(list, head->marks, "\n");
}

static void answer(const Head *head) {
    said_size = 0;
    switch (head->what) {
    case 0: list_curves(head); break;
    case 2: prefixes(read_into_room, head); break;
    case 3: changes(read_into_room, head); break;
    case 6: pack_or_unpack(wes_pack_file, head); break;
    case 7: pack_or_unpack(wes_unpack_file, head); break;
    case 8: prefixes(unpack_into_room, head); break;
    case 9: changes(unpack_into_room, head); break;
    case 10: salvage(head); break;
    default: read_and_write(head);
    }
}

/* Puts a record's file together; how many bytes of it are given. */
static size_t take_file(const uint8_t *given, const Head *head) {
    size_t taken = 0;
    file_size = 0;
    for (size_t run = 0; run < RUNS; run++) {
        memcpy(file + file_size, given + taken, head->runs[run].given);
        taken += head->runs[run].given;
        file_size += head->runs[run].given;
        memset(file + file_size, 0, head->runs[run].zeros);
        file_size += head->runs[run].zeros;
    }
    return taken;
}

int main(int argc, char **argv) {
    if (argc != 3) return 2;
    size_t size = load(argv[1], cases, ALL), kept = 0, kept_size = load(argv[2], answers, ALL), count = 0;
    for (size_t at = 0; at + sizeof(Head) <= size; count++) {
        Head head;
        memcpy(&head, cases + at, sizeof head);
        at += sizeof head;
        at += take_file(cases + at, &head);
        answer(&head);
        CHECK(said_size <= kept_size - kept && memcmp(said, answers + kept, said_size) == 0, "record %zu: %.*s", count,
              said_size < 60 ? (int)said_size : 60, said);
        kept += said_size <= kept_size - kept ? said_size : 0;
    }
    CHECK(count > 200, "only %zu records", count);
    CHECK(kept == kept_size, "kept are %zu bytes, and %zu were compared", kept_size, kept);
    return finish();
}
