/* The exported calls from C: every refusal on board T, with its number and values and nothing lent changed; the fault's numbers as each call
   that takes them hears them; both books; exclusive-or of three; lines tied to a rail; drawings. bindings boards
   Its last line is 'N passed, M failed'. */
#include "../bindings/c/fortizembo.h"
#include "checks.h"
#include <inttypes.h>
#include <string.h>

#define NONE FORTIZEMBO_NONE

_Static_assert(sizeof(fortizembo_fault) == 24 && offsetof(fortizembo_fault, pin) == 8, "two numbers of eight bytes come first");
_Static_assert(offsetof(fortizembo_fault, sort) == 16 && offsetof(fortizembo_fault, stuck) == 17, "then two bytes");

enum { CHECK = 1, ROWS = 2, JUDGE = 4, REFRESH = 8, FIVE = 16, FIND = 32, BOOK = 64, PIN_BOOK = 128, ALTER = 256, WRITE = 512, ALL = 1023 };
enum { FAULT = ROWS | JUDGE | FIVE | FIND, PATTERN = ROWS | JUDGE | REFRESH, LENT = ROWS | REFRESH | FIVE | BOOK | PIN_BOOK | ALTER };
static const char *const names[10] = {"check", "rows", "judge", "refresh", "five", "find", "book", "pin_book", "alter", "write"};

/* What a call is asked. */
typedef struct {
    size_t length; /* of the image, counted back from its end */
    uint64_t pattern, named, values;
    size_t line, pin;
    uint8_t sort, stuck;
    size_t good_length, faulty_length, row_length, entries, pin_entries, target_length;
    uint8_t record[10];
} question;

/* All that is lent beside a record. */
typedef struct {
    uint8_t image[512], good[4], faulty[4], row[4], target[64];
    uint64_t book[32], pins[32];
} room;

typedef struct {
    uint8_t bytes[256];
    size_t length;
} board;

static const question fine = {44, 1, 1, 1, 2, 0, 0, 0, 3, 3, 3, 6, 24, 50, {5, 2, 0, 0, 1, 0, 0, 0, 0, 0}};
static const uint8_t sorts[3] = {0, 1, 255};
static room blank;

static fortizembo_answer call(unsigned which, const question *q, room *r)
{
    const fortizembo_fault fault = {q->line, q->pin, q->sort, q->stuck};
    uint8_t *image = r->image + sizeof r->image - q->length;
    switch (which) {
    case CHECK: return fortizembo_check(image, q->length);
    case ROWS: return fortizembo_rows(image, q->length, q->pattern, fault, r->good, q->good_length, r->faulty, q->faulty_length);
    case JUDGE: return fortizembo_judge(image, q->length, q->pattern, fault);
    case REFRESH: return fortizembo_refresh(image, q->length, q->pattern, q->line, r->row, q->row_length);
    case FIVE: return fortizembo_five(image, q->length, q->named, q->values, fault, r->row, q->row_length);
    case FIND: return fortizembo_find(image, q->length, fault);
    case BOOK: return fortizembo_book(image, q->length, r->book, q->entries);
    case PIN_BOOK: return fortizembo_pin_book(image, q->length, r->pins, q->pin_entries);
    case WRITE: return fortizembo_write(image, q->length, r->target, q->target_length);
    default: return fortizembo_alter(image, q->length, r->book, q->entries, r->pins, q->pin_entries, q->line, q->record);
    }
}

/* Asks some calls: each says that number, with those values, and where it refuses all that was lent is as before. */
static void says(unsigned calls, const room *lent, question q, const char *why, uint64_t number, uint64_t values, uint64_t first, uint64_t second)
{
    for (unsigned i = 0; i < 10; i++) {
        if ((calls >> i & 1) == 0)
            continue;
        room r = *lent;
        question asked = q;
        fortizembo_answer a = call(1u << i, &asked, &r);
        int right = a.number == number && (number == 0 || (a.values == values && a.first == first && a.second == second && a.third == 0));
        if (memcmp(asked.record, q.record, sizeof q.record) != 0 || (number != 0 && memcmp(&r, lent, sizeof r) != 0))
            right = 0;
        check(right, names[i], why);
        if (!right)
            printf("  of sort %u: %" PRIu64 " %" PRIu64 " %" PRIu64 " %" PRIu64 " %" PRIu64 "\n", q.sort, a.number, a.values, a.first, a.second,
                   a.third);
    }
}

/* The same, and again of a pin's fault for the calls that take one: its sort is any number but 0. */
static void says_of_both(unsigned calls, const room *lent, question q, const char *why, uint64_t number, uint64_t values, uint64_t first,
                         uint64_t second)
{
    says(calls, lent, q, why, number, values, first, second);
    for (unsigned i = 1; i < 3; i++) {
        q.sort = sorts[i];
        says(calls & FAULT, lent, q, why, number, values, first, second);
    }
}

/* Board T with another byte, which is counted from the image's end. */
static room with_byte(size_t from_end, uint8_t byte)
{
    room r = blank;
    r.image[sizeof r.image - from_end] = byte;
    return r;
}

/* 1 to 5: what the image alone decides, for every call that takes one. */
static void bad_images(void)
{
    question q = fine;
    room r = with_byte(1, 0x32);
    says_of_both(ALL, &r, q, "another mark", 1, 0, 0, 0);
    r = with_byte(12, 0);
    says_of_both(ALL, &r, q, "no line", 2, 0, 0, 0);
    r = with_byte(6, 1);
    says_of_both(ALL, &r, q, "distance 0x1002C", 3, 0, 0, 0);
    r = with_byte(20, 2);
    says_of_both(ALL, &r, q, "pin 2 of line 2 names line 2", 4, 2, 2, 3);
    r = with_byte(24, 11);
    says_of_both(ALL, &r, q, "kind 11", 4, 2, 2, 0);
    r = with_byte(24, 10);
    says_of_both(ALL, &r, q, "a tie with two pins", 4, 2, 2, 1);
    r = with_byte(44, 9);
    says_of_both(ALL, &r, q, "a tie at line 0", 4, 2, 0, 0);
    r = with_byte(44, 3);
    says_of_both(ALL, &r, q, "an and at line 0", 4, 2, 0, 0);
    r = with_byte(14, 3);
    says_of_both(ALL, &r, q, "output line 3 of 3", 5, 1, 0, 0);
    q.line = q.pin = SIZE_MAX;
    says_of_both(ALL, &r, q, "output line 3 of 3, and a line and a pin that are not there", 5, 1, 0, 0);
    q = fine;
    q.length = 0;
    says_of_both(ALL, &blank, q, "the empty image", 1, 0, 0, 0);
    q.length = 11;
    says_of_both(ALL, &blank, q, "eleven bytes", 1, 0, 0, 0);
    q.length = 12;
    says_of_both(ALL, &blank, q, "a trailer alone", 3, 0, 0, 0);
    q.length = 44 + 256;
    says_of_both(ALL, &blank, q, "a note of 256", 0, 0, 0, 0);
    q.length = 44 + 257;
    says_of_both(ALL, &blank, q, "a note of 257", 3, 0, 0, 0);
}

/* 6 and 7: a line or a stuck value that is not there, before a pin that is not there. */
static void bad_faults(void)
{
    question q = fine;
    q.line = 3, q.pin = SIZE_MAX, q.stuck = 2;
    says_of_both(FAULT | REFRESH | ALTER, &blank, q, "line 3 of 3", 6, 0, 0, 0);
    q.line = SIZE_MAX;
    says_of_both(FAULT | REFRESH | ALTER, &blank, q, "the largest line", 6, 0, 0, 0);
    q.line = 2;
    says_of_both(FAULT, &blank, q, "stuck value 2, and no such pin", 7, 0, 0, 0);
    q.stuck = 255;
    says_of_both(FAULT, &blank, q, "stuck value 255, and no such pin", 7, 0, 0, 0);
    q.pin = 1;
    says_of_both(FAULT, &blank, q, "stuck value 255", 7, 0, 0, 0);
    q.line = 0, q.pin = 0;
    says_of_both(FAULT, &blank, q, "stuck value 255 of an input", 7, 0, 0, 0);
}

/* 12: a pin that the line's gate does not have, before a bad pattern and a bad row; a line's fault has no use for its pin. */
static void bad_pins(void)
{
    static const size_t pins[] = {2, 3, 4, 8, 256, 65536, (size_t)1 << 32, SIZE_MAX / 8 + 1, SIZE_MAX / 2 + 1, SIZE_MAX - 1, SIZE_MAX};
    question q = fine;
    for (unsigned i = 0; i < 3 * sizeof pins / sizeof *pins; i++) {
        q.sort = sorts[i % 3], q.pin = pins[i / 3];
        says(FAULT, &blank, q, "no such pin of line 2", q.sort == 0 ? 0 : 12, 0, 0, 0);
    }
    for (unsigned i = 1; i < 3; i++) {
        q = fine;
        q.sort = sorts[i], q.line = 1, q.pin = 1;
        says(FAULT, &blank, q, "pin 1 of a not", 12, 0, 0, 0);
        q.line = 0, q.pin = 0, q.stuck = 1;
        says(FAULT, &blank, q, "pin 0 of an input", 12, 0, 0, 0);
        q.pin = SIZE_MAX, q.pattern = q.named = UINT64_MAX;
        says(FAULT, &blank, q, "the largest pin of an input, and a bad pattern", 12, 0, 0, 0);
        q.line = 2, q.pin = 2, q.good_length = q.row_length = 0;
        says(FAULT, &blank, q, "pin 2 of line 2, a bad pattern and a bad row", 12, 0, 0, 0);
    }
}

/* 8: a pattern that the board has not, before a bad row. */
static void bad_patterns(void)
{
    question q = fine;
    q.pattern = 2;
    says_of_both(PATTERN, &blank, q, "pattern 2", 8, 0, 0, 0);
    q.pattern = UINT64_MAX, q.good_length = q.row_length = 0;
    says_of_both(PATTERN, &blank, q, "the largest pattern, and a bad row", 8, 0, 0, 0);
    q.named = 3;
    says_of_both(FIVE, &blank, q, "a named bit too high, and a bad row", 8, 0, 0, 0);
    q.named = 1, q.values = 2, q.row_length = 3;
    says_of_both(FIVE, &blank, q, "a value bit too high", 8, 0, 0, 0);
    q.named = 0, q.values = 1;
    says_of_both(FIVE, &blank, q, "a value bit where no input is named", 8, 0, 0, 0);
}

/* 9: a row or a book of another length. */
static void bad_lengths(void)
{
    static const size_t books[] = {0, 5, 7, 8, 12, 24}, pin_books[] = {0, 6, 7, 8, 23, 25};
    question q = fine;
    q.good_length = 2, q.row_length = 4, q.entries = 5, q.pin_entries = 23;
    says_of_both(LENT, &blank, q, "a short row, a long row, short books", 9, 0, 0, 0);
    q.good_length = 3, q.faulty_length = 4, q.row_length = 0, q.entries = 7, q.pin_entries = 25;
    says_of_both(LENT, &blank, q, "a long row, an empty row, long books", 9, 0, 0, 0);
    for (unsigned i = 0; i < 6; i++) {
        q = fine;
        q.entries = books[i];
        says(BOOK | ALTER, &blank, q, "a book of another length", 9, 0, 0, 0);
        q = fine;
        q.pin_entries = pin_books[i];
        says(PIN_BOOK | ALTER, &blank, q, "a pin book of another length", 9, 0, 0, 0);
        q.line = 0;
        says(ALTER, &blank, q, "a pin book of another length, and an input altered", 9, 0, 0, 0);
        q.line = 3;
        says(ALTER, &blank, q, "a pin book of another length, and no such line", 6, 0, 0, 0);
    }
    q = fine;
    q.entries = 24, q.pin_entries = 6;
    says(BOOK | PIN_BOOK | ALTER, &blank, q, "the books' lengths swapped", 9, 0, 0, 0);
    q.line = 0, q.entries = 5, q.pin_entries = 24;
    says(ALTER, &blank, q, "a short book, and an input altered", 9, 0, 0, 0);
}

/* 10 and 11: an alteration that may not stand, a row that is none. */
static void bad_records(void)
{
    question q = fine;
    q.line = 0;
    says(ALTER, &blank, q, "an input altered", 10, 0, 0, 0);
    q.line = 2;
    q.record[0] = 0;
    says(ALTER, &blank, q, "a record of kind 0", 10, 0, 0, 0);
    q.record[0] = 11;
    says(ALTER, &blank, q, "a record of kind 11", 10, 0, 0, 0);
    q.record[0] = 9;
    says(ALTER, &blank, q, "a tie with two pins", 10, 0, 0, 0);
    memset(q.record + 1, 0, 9);
    says(ALTER, &blank, q, "a tie", 0, 0, 0, 0);
    q.record[9] = 1;
    says(ALTER, &blank, q, "a tie with an unused pin", 10, 0, 0, 0);
    q.record[9] = 0, q.line = 0;
    says(ALTER, &blank, q, "an input altered to a tie", 10, 0, 0, 0);
    q = fine;
    q.record[4] = 2;
    says(ALTER, &blank, q, "a record that names its own line", 10, 0, 0, 0);
    room r = blank;
    r.row[1] = 2;
    says(REFRESH, &r, fine, "a byte over 1 before the line", 11, 0, 0, 0);
}

/* 14: a target that is too short, after what is wrong with the image. */
static void bad_targets(void)
{
    static const size_t lengths[] = {0, 1, 44, 49};
    const room r = with_byte(14, 3);
    question q = fine;
    for (unsigned i = 0; i < sizeof lengths / sizeof *lengths; i++) {
        q.target_length = lengths[i];
        says(WRITE, &blank, q, "a target too short for T's drawing", 14, 0, 0, 0);
        says(WRITE, &r, q, "output line 3 of 3, and a target too short", 5, 1, 0, 0);
    }
}

/* A text, and the number and values that refuse it, whether the target is as long as may be or empty. */
typedef struct {
    const char *text;
    uint64_t number, values, first, second;
} turned_away;

static const turned_away bad_texts[] = {
    {"", 2, 0, 0, 0},
    {"INPUT(n0)\n", 2, 0, 0, 0},
    {"x", 13, 1, 0, 0},
    {"INPUT(n1)\n", 13, 1, 7, 0},
    {"INPUT(n0)", 13, 1, 9, 0},
    {"OUTPUT(n65536)\n", 13, 1, 12, 0},
    {"n0 = NO(n0)\n", 13, 1, 7, 0},
    {"n0 = AND()\n", 13, 1, 9, 0},
    {"n0 = AND(n0, n0, n0, n0, n0)\n", 13, 1, 23, 0},
    {"n0 = TIE2()\n", 13, 1, 8, 0},
    {"n0 = TIE0(n0)\n", 13, 1, 10, 0},
    {"n0 = TIE1()", 13, 1, 11, 0},
    {"OUTPUT(n0)\nn0 = TIE1()\n", 4, 2, 0, 0},
    {"OUTPUT(n0)\nn0 = AND(n0)\n", 4, 2, 0, 0},
    {"INPUT(n0)\nOUTPUT(n0)\nn1 = NOT(n0, n0)\n", 4, 2, 1, 1},
    {"INPUT(n0)\nOUTPUT(n0)\nn1 = AND(n0, n0, n0, n65535)\n", 4, 2, 1, 5},
    {"INPUT(n0)\nOUTPUT(n0)\nOUTPUT(n0)\n", 5, 1, 1, 0},
};

/* What Read turns away, 14 last: T's image is 44 bytes. The target keeps its bytes. */
static void bad_drawings(const board *t_text)
{
    uint8_t target[64], before[64];
    memset(target, 9, sizeof target);
    memset(before, 9, sizeof before);
    for (unsigned i = 0; i < 2 * sizeof bad_texts / sizeof *bad_texts; i++) {
        const turned_away *t = &bad_texts[i / 2];
        const fortizembo_answer a = fortizembo_read((const uint8_t *)t->text, strlen(t->text), target, i % 2 * sizeof target);
        check(a.number == t->number && a.values == t->values && a.first == t->first && a.second == t->second && a.third == 0, "read", t->text);
    }
    for (size_t length = 0; length < 44; length++) {
        const fortizembo_answer a = fortizembo_read(t_text->bytes, t_text->length, target, length);
        check(a.number == 14 && a.values == 0 && a.first == 0 && a.second == 0 && a.third == 0, "read", "a target too short for T's image");
    }
    check(memcmp(target, before, sizeof before) == 0, "read", "the target of what is refused");
}

/* A fault of T, and what the calls owe of it for a pattern: worked out by hand. A line's names a pin that is not there, and has no use for it. */
typedef struct {
    const char *name;
    fortizembo_fault fault;
    uint64_t pattern;
    uint8_t faulty[3], five[3];
    uint64_t driven;
    uint64_t found;
} owed;

static const owed of_t[] = {
    {"0/0", {0, 9, 0, 0}, 1, {0, 1, 1}, {3, 4, 1}, 0, NONE},
    {"0/1", {0, 9, 0, 1}, 0, {1, 0, 1}, {4, 3, 1}, 0, NONE},
    {"1/0", {1, 9, 0, 0}, 0, {0, 0, 0}, {0, 3, 3}, 1, 0},
    {"1/1", {1, 9, 0, 1}, 1, {1, 1, 1}, {1, 4, 1}, 0, NONE},
    {"2/0", {2, 9, 0, 0}, 1, {1, 0, 0}, {1, 0, 3}, 1, 0},
    {"2/1", {2, 9, 0, 1}, 1, {1, 0, 1}, {1, 0, 1}, 0, NONE},
    {"1.0/0", {1, 0, 1, 0}, 1, {1, 1, 1}, {1, 4, 1}, 0, NONE},
    {"1.0/1", {1, 0, 1, 1}, 0, {0, 0, 0}, {0, 3, 3}, 1, 0},
    {"2.0/0", {2, 0, 1, 0}, 1, {1, 0, 0}, {1, 0, 3}, 1, 1},
    {"2.0/1", {2, 0, 1, 1}, 0, {0, 1, 1}, {0, 1, 1}, 0, NONE},
    {"2.1/0", {2, 1, 255, 0}, 0, {0, 1, 0}, {0, 1, 3}, 1, 0},
    {"2.1/1", {2, 1, 255, 1}, 1, {1, 0, 1}, {1, 0, 1}, 0, NONE},
    {"2.0/0", {2, 0, 255, 0}, 0, {0, 1, 1}, {0, 1, 1}, 0, 1},
    {"2.1/0", {2, 1, 2, 0}, 1, {1, 0, 1}, {1, 0, 1}, 0, 0},
};

/* Whether an answer gives a value, and this one: none for NONE. */
static int gives(fortizembo_answer a, uint64_t value)
{
    return a.number == 0 && (value == NONE ? a.values == 0 : a.values == 1 && a.first == value) && a.second == 0 && a.third == 0;
}

/* Each call that takes a fault hears its line, pin, sort and stuck value, whatever stands before it. */
static void heard_by_t(const board *t)
{
    static const uint8_t good[2][3] = {{0, 1, 1}, {1, 0, 1}}, unnamed[3] = {2, 2, 2};
    uint8_t rows[2][3], row[3];
    for (unsigned i = 0; i < sizeof of_t / sizeof *of_t; i++) {
        const owed *o = &of_t[i];
        fortizembo_answer a = fortizembo_rows(t->bytes, t->length, o->pattern, o->fault, rows[0], 3, rows[1], 3);
        check(a.number == 0 && a.values == 0 && memcmp(rows[0], good[o->pattern], 3) == 0 && memcmp(rows[1], o->faulty, 3) == 0, "rows", o->name);
        check(gives(fortizembo_judge(t->bytes, t->length, o->pattern, o->fault), o->faulty[2] != rows[0][2]), "judge", o->name);
        check(gives(fortizembo_find(t->bytes, t->length, o->fault), o->found), "find", o->name);
        a = fortizembo_five(t->bytes, t->length, 1, o->pattern, o->fault, row, 3);
        check(gives(a, o->driven) && memcmp(row, o->five, 3) == 0, "five", o->name);
        a = fortizembo_five(t->bytes, t->length, 0, 0, o->fault, row, 3);
        check(gives(a, 0) && memcmp(row, unnamed, 3) == 0, "five, no input named", o->name);
    }
}

/* Judge, Rows and Five hear the same of a fault and a pattern of S: its output, line 11, differs in all of them or in none. */
static int shown(const board *s, uint64_t pattern, fortizembo_fault fault)
{
    uint8_t good[12], faulty[12], five[12];
    fortizembo_answer a = fortizembo_judge(s->bytes, s->length, pattern, fault);
    const int yes = a.number == 0 && a.first == 1;
    check(gives(a, (uint64_t)yes), "judge", "a fault of S");
    a = fortizembo_rows(s->bytes, s->length, pattern, fault, good, 12, faulty, 12);
    check(a.number == 0 && (good[11] != faulty[11]) == yes, "rows", "a fault of S");
    a = fortizembo_five(s->bytes, s->length, 15, pattern, fault, five, 12);
    int right = gives(a, (uint64_t)yes);
    for (unsigned i = 0; i < 12; i++)
        right &= five[i] == (good[i] == faulty[i] ? good[i] : good[i] == 1 ? 3 : 4);
    check(right, "five", "a fault of S");
    return yes;
}

/* A fault of S: Find gives the entry of its book, a call that hears no fault, and that pattern is the first that shows it. */
static void heard_by_s(const board *s, fortizembo_fault fault, uint64_t entry)
{
    uint64_t first = NONE;
    for (uint64_t pattern = 16; pattern-- > 0;)
        if (shown(s, pattern, fault))
            first = pattern;
    check(first == entry, "judge", "the first pattern for a fault of S");
    check(gives(fortizembo_find(s->bytes, s->length, fault), entry), "find", "a fault of S");
}

/* Every fault of S, held to both its books. */
static void faults_of_s(const board *s)
{
    uint64_t book[24], pins[96];
    check(fortizembo_book(s->bytes, s->length, book, 24).number == 0, "book", "S");
    check(fortizembo_pin_book(s->bytes, s->length, pins, 96).number == 0, "pin_book", "S");
    check(book[8] == 0 && book[9] == 6 && pins[32] == NONE && pins[33] == 0, "both books", "S, line 4 and its pin 0");
    for (unsigned i = 0; i < 24; i++)
        heard_by_s(s, fortizembo_line_fault(i / 2, i % 2), book[i]);
    for (unsigned i = 0; i < 96; i++) {
        const fortizembo_fault fault = fortizembo_pin_fault(i / 8, i / 2 % 4, i % 2);
        if (fault.pin < s->bytes[10 * fault.line + 1])
            heard_by_s(s, fault, pins[i]);
        else
            check(pins[i] == NONE && fortizembo_find(s->bytes, s->length, fault).number == 12, "both", "an absent pin of S");
    }
}

/* Alters a board whose books hold 99 everywhere: the books and the count that are owed, and the image with that one record. */
static void altered(const board *b, size_t lines, size_t line, const uint8_t *record, const uint64_t *book, const uint64_t *pins, const char *why)
{
    board now = *b, then = *b;
    uint64_t entries[2][32];
    uint64_t owed_count = 0;
    for (unsigned i = 0; i < 32; i++)
        entries[0][i] = entries[1][i] = 99;
    for (size_t i = 0; i < 2 * lines; i++)
        owed_count += book[i] != NONE;
    for (size_t i = 0; i < 8 * lines; i++)
        owed_count += pins[i] != NONE;
    memcpy(then.bytes + 10 * line, record, 10);
    fortizembo_answer a = fortizembo_alter(now.bytes, now.length, entries[0], 2 * lines, entries[1], 8 * lines, line, record);
    check(a.number == 0 && a.values == 1 && a.first == owed_count, "alter, the count", why);
    check(memcmp(entries[0], book, 2 * lines * sizeof *book) == 0, "alter, the book", why);
    check(memcmp(entries[1], pins, 8 * lines * sizeof *pins) == 0, "alter, the pin book", why);
    check(memcmp(&now, &then, sizeof now) == 0, "alter, the image", why);
}

/* Alterations of T and H by hand. All of T is touched. Of H lines 1 and 3 are, and lines 0 and 2 keep their 99, absent pins included. */
static void alterations(const board *t, const board *h)
{
    static const uint8_t and_0_1[10] = {3, 2, 0, 0, 1}, not_0[10] = {2, 1, 0}, not_1[10] = {2, 1, 1};
    static const uint64_t and_book[6] = {NONE, NONE, NONE, 1, NONE, 0}, not_book[6] = {1, 0, NONE, NONE, 0, 1};
    static const uint64_t h_book[8] = {99, 99, 2, 0, 99, 99, 0, 2};
    uint64_t pins[32];
    memset(pins, 0xFF, sizeof pins);
    pins[8] = 1, pins[17] = 0, pins[19] = 1;
    altered(t, 3, 2, and_0_1, and_book, pins, "T, line 2 to and(0,1)");
    memset(pins, 0xFF, sizeof pins);
    pins[16] = 1, pins[17] = 0;
    altered(t, 3, 2, not_0, not_book, pins, "T, line 2 to not(0), which has no pin 1");
    for (unsigned i = 0; i < 32; i++)
        pins[i] = i / 8 % 2 == 0 ? 99 : NONE;
    pins[24] = 2, pins[25] = 0;
    altered(h, 4, 3, not_1, h_book, pins, "H, line 3 to not(1)");
}

/* The pin book of T by hand: 1.0/1 and 2.1/0 are shown by pattern 0, 2.0/0 by pattern 1, nothing else by any. */
static void pin_book_of_t(const board *t)
{
    uint64_t pins[24], entries[24] = {0};
    memset(pins, 0xFF, sizeof pins);
    pins[8 * 1 + 2 * 0 + 1] = 0, pins[8 * 2 + 2 * 0 + 0] = 1, pins[8 * 2 + 2 * 1 + 0] = 0;
    check(gives(fortizembo_pin_book(t->bytes, t->length, entries, 24), 3) && memcmp(entries, pins, sizeof pins) == 0, "pin_book", "T");
}

/* Three inputs and their exclusive-or, line 3, which is the output. */
static const uint8_t odd[54] = {
    0, 0, 0, 0, 0, 0, 0, 0, 0, 0, 0, 0, 0, 0, 0, 0, 0, 0, 0, 0, 0, 0, 0, 0, 0, 0, 0, 0, 0, 0, 7, 3, 0, 0, 1, 0, 2, 0, 0, 0,
    3, 0, 4, 0, 1, 0, 54, 0, 0, 0, 0x42, 0x52, 0x44, 0x31,
};

/* Exclusive-or is odd: of 1,1,1 it is 1, of 1,1,0 it is 0, and of 1,1,x it is x. */
static void exclusive_or(void)
{
    static const uint8_t ones[4] = {1, 1, 1, 1}, unsettled[4] = {1, 1, 2, 2};
    uint8_t good[4], faulty[4];
    const fortizembo_answer a = fortizembo_rows(odd, sizeof odd, 7, fortizembo_pin_fault(3, 2, 0), good, 4, faulty, 4);
    check(a.number == 0 && memcmp(good, ones, 4) == 0 && faulty[3] == 0, "rows", "exclusive-or of 1,1,1 and of 1,1,0");
    check(gives(fortizembo_judge(odd, sizeof odd, 7, fortizembo_line_fault(3, 0)), 1), "judge", "exclusive-or of 1,1,1");
    check(gives(fortizembo_five(odd, sizeof odd, 3, 3, fortizembo_line_fault(2, 0), good, 4), 0) && memcmp(good, unsettled, 4) == 0,
          "five", "exclusive-or of 1,1,x");
}

/* Lines of T and H altered to ties and back, by hand. With a tie on T's line 2 nothing else reaches the output, and with one on H's line 3 line 1
   does not. */
static void tied_alterations(const board *t, const board *h)
{
    static const uint8_t tie_0[10] = {9}, tie_1[10] = {10}, or_0_1[10] = {5, 2, 0, 0, 1};
    static const uint64_t high[6] = {NONE, NONE, NONE, NONE, 0, NONE}, low[6] = {1, 0, NONE, 0, 1, 0}, or_book[6] = {NONE, NONE, 0, NONE, 0, NONE};
    static const uint64_t h_book[8] = {99, 99, NONE, NONE, 99, 99, 0, NONE};
    uint64_t pins[32];
    board tied = *t;
    memcpy(tied.bytes + 20, tie_1, 10);
    memset(pins, 0xFF, sizeof pins);
    altered(t, 3, 2, tie_1, high, pins, "T, line 2 to a tie");
    pins[16] = 1, pins[17] = 0, pins[19] = 0;
    altered(t, 3, 1, tie_0, low, pins, "T, line 1 to a tie");
    memset(pins, 0xFF, sizeof pins);
    pins[9] = 0, pins[16] = 1, pins[18] = 0;
    altered(&tied, 3, 2, or_0_1, or_book, pins, "a tie to or(0,1)");
    for (unsigned i = 0; i < 32; i++)
        pins[i] = i / 8 % 2 == 0 ? 99 : NONE;
    altered(h, 4, 3, tie_1, h_book, pins, "H, line 3 to a tie");
}

/* The tie-breaker: 2 is always 0 and 3 always 1, and neither has a pin; 5 is and(0,3), 6 and(1,4,3), 7 or(5,6,2), and these are the outputs. */
static void ties(const board *r)
{
    static const uint8_t high[8] = {1, 2, 0, 3, 0, 3, 0, 3}, low[8] = {2, 2, 4, 1, 2, 2, 2, 2}, good[8] = {1, 1, 0, 1, 0, 1, 0, 1};
    static const uint64_t book[16] = {1, 0, 2, 0, NONE, 0, 1, NONE, 2, 3, 1, 0, 2, 0, 1, 0};
    uint64_t entries[16], pins[64];
    uint8_t row[8], faulty[8];
    for (size_t i = 0; i < 16; i++)
        check(gives(fortizembo_find(r->bytes, r->length, fortizembo_line_fault(i / 2, i % 2)), book[i]), "find", "a line of the tie-breaker");
    check(gives(fortizembo_book(r->bytes, r->length, entries, 16), 14) && memcmp(entries, book, sizeof book) == 0, "book", "the tie-breaker");
    check(gives(fortizembo_pin_book(r->bytes, r->length, pins, 64), 15), "pin_book", "the tie-breaker");
    for (size_t i = 16; i < 32; i++) {
        const fortizembo_fault fault = fortizembo_pin_fault(i / 8, i / 2 % 4, i % 2);
        check(pins[i] == NONE && fortizembo_find(r->bytes, r->length, fault).number == 12, "both", "a pin of a tie");
        check(fortizembo_judge(r->bytes, r->length, 9, fault).number == 12, "judge", "a pin of a tie, and a bad pattern");
    }
    check(gives(fortizembo_find(r->bytes, r->length, fortizembo_pin_fault(6, 2, 0)), 2), "find", "a tied leg at 0");
    check(gives(fortizembo_find(r->bytes, r->length, fortizembo_pin_fault(6, 2, 1)), NONE), "find", "a tied leg at 1");
    fortizembo_answer a = fortizembo_rows(r->bytes, r->length, 3, fortizembo_line_fault(3, 0), row, 8, faulty, 8);
    check(a.number == 0 && memcmp(row, good, 8) == 0 && faulty[3] == 0 && faulty[5] == 0, "rows", "a tie at 0");
    a = fortizembo_five(r->bytes, r->length, 1, 1, fortizembo_line_fault(3, 0), row, 8);
    check(gives(a, 2) && memcmp(row, high, 8) == 0, "five", "a tie at 0");
    a = fortizembo_five(r->bytes, r->length, 0, 0, fortizembo_line_fault(2, 1), row, 8);
    check(gives(a, 0) && memcmp(row, low, 8) == 0, "five", "a tie at 1 beside x");
}

typedef fortizembo_answer maker(const uint8_t *, size_t, uint8_t *, size_t);

/* What Read or Write makes of one file in a target as long as it needs, and in one that is longer: the other file, and 9s beyond it. */
static void makes(maker *call, const board *from, const board *to, const char *name, const char *why)
{
    uint8_t target[256], owed[256];
    memset(target, 9, sizeof target);
    memset(owed, 9, sizeof owed);
    memcpy(owed, to->bytes, to->length);
    check(gives(call(from->bytes, from->length, target, to->length), to->length) && memcmp(target, owed, sizeof owed) == 0, name, why);
    memset(target, 9, sizeof target);
    check(gives(call(from->bytes, from->length, target, sizeof target), to->length) && memcmp(target, owed, sizeof owed) == 0, name, why);
}

/* A board there and back, and with a note, which is not drawn. */
static void drawings(const board *img, const board *text, const char *why)
{
    board noted = {{0}, img->length + 99};
    memcpy(noted.bytes + 99, img->bytes, img->length);
    makes(fortizembo_read, text, img, "read", why);
    makes(fortizembo_write, img, text, "write", why);
    makes(fortizembo_write, &noted, text, "write with a note", why);
}

/* A sample file, with length 0 where it cannot be read. */
static board load(const char *folder, const char *name)
{
    board read = {{0}, 0};
    char path[4096];
    snprintf(path, sizeof path, "%s/%s", folder, name);
    FILE *file = fopen(path, "rb");
    if (file == NULL)
        return read;
    read.length = fread(read.bytes, 1, sizeof read.bytes, file);
    fclose(file);
    return read;
}

int main(int argc, char **argv)
{
    const char *folder = argc == 2 ? argv[1] : "boards";
    const board s = load(folder, "S.img"), t = load(folder, "T.img"), h = load(folder, "H.img");
    const board s_text = load(folder, "S.txt"), t_text = load(folder, "T.txt"), h_text = load(folder, "H.txt");
    const board rails = load(folder, "rails.img"), rails_text = load(folder, "rails.txt");
    if (s.length != 134 || t.length != 44 || h.length != 56 || s_text.length != 199 || t_text.length != 50 || h_text.length != 69
        || rails.length != 98 || rails_text.length != 148) {
        printf("no boards S, T, H and rails\n");
        return 1;
    }
    memcpy(blank.image + sizeof blank.image - 44, t.bytes, 44);
    memset(blank.book, 0xA5, sizeof blank.book);
    memset(blank.pins, 0x5A, sizeof blank.pins);
    memset(blank.target, 9, sizeof blank.target);
    says_of_both(ALL, &blank, fine, "what is fine", 0, 0, 0, 0);
    bad_images();
    bad_faults();
    bad_pins();
    bad_patterns();
    bad_lengths();
    bad_records();
    bad_targets();
    bad_drawings(&t_text);
    heard_by_t(&t);
    faults_of_s(&s);
    pin_book_of_t(&t);
    alterations(&t, &h);
    exclusive_or();
    tied_alterations(&t, &h);
    ties(&rails);
    drawings(&s, &s_text, "S");
    drawings(&t, &t_text, "T");
    drawings(&h, &h_text, "H");
    drawings(&rails, &rails_text, "the tie-breaker");
    return ended();
}
