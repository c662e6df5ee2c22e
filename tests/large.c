/* The exported calls from C on boards of 4,096 lines and 64 outputs, with answers worked out by hand: one of 32 inputs, whose image is as long as
   a good one may be, for every call but the books, and one of 1 input for these; and on the sample board of a hall. Nothing large stands on the
   stack, so that what the calls need there can be tested with a small one. large boards
   Its last line is 'N passed, M failed'. */
#include "../bindings/c/fortizembo.h"
#include "checks.h"
#include <string.h>

#define NONE FORTIZEMBO_NONE

enum { LINES = 4096, OUTPUTS = 64, NOTE = 256, CHAIN_END = LINES - 2, LAST = LINES - 1, LONGEST = 41356, TEXT = 170000 };

/* All that is lent. An image has room for a line more. */
typedef struct {
    uint8_t image[LONGEST + 10];
    size_t length;
    uint8_t good[LINES], faulty[LINES], target[TEXT];
    uint64_t book[2 * LINES], pins[8 * LINES];
} room;

static room now, before, owed;
static uint8_t text[TEXT];

/* Puts a number of two bytes in an image; gives the place after it. */
static uint8_t *put_word(uint8_t *at, size_t number)
{
    at[0] = (uint8_t)number;
    at[1] = (uint8_t)(number >> 8);
    return at + 2;
}

/* Puts a gate of one pin, a buffer or a not. */
static uint8_t *put_gate(uint8_t *at, uint8_t kind, size_t pin)
{
    memset(at, 0, 10);
    at[0] = kind;
    at[1] = 1;
    put_word(at + 2, pin);
    return at + 10;
}

/* The board that all is asked of, with a note: its inputs, a chain of nots from input 0, and a buffer of the last input; the last 64 lines are
   the outputs. */
static void make(room *r, size_t lines, size_t inputs)
{
    const size_t distance = 12 + 2 * OUTPUTS + 10 * lines;
    memset(r->image, 0xA5, NOTE);
    uint8_t *at = r->image + NOTE;
    memset(at, 0, 10 * inputs);
    at += 10 * inputs;
    for (size_t line = inputs; line < lines - 1; line++)
        at = put_gate(at, 2, line == inputs ? 0 : line - 1);
    at = put_gate(at, 1, inputs - 1);
    for (size_t i = 0; i < OUTPUTS; i++)
        at = put_word(at, lines - OUTPUTS + i);
    at = put_word(put_word(at, lines), OUTPUTS);
    at = put_word(put_word(at, distance & 0xFFFF), distance >> 16);
    memcpy(at, "BRD1", 4);
    r->length = NOTE + distance;
}

/* A room with that board, and with all else that is lent filled with 9s. */
static void fresh(size_t lines, size_t inputs)
{
    memset(&now, 9, sizeof now);
    make(&now, lines, inputs);
    before = now;
}

/* The good value of a line, for a pattern. */
static uint8_t good_value(size_t inputs, uint64_t pattern, size_t line)
{
    if (line < inputs)
        return pattern >> line & 1;
    if (line == LAST)
        return pattern >> (inputs - 1) & 1;
    return (pattern ^ (line - inputs + 1)) & 1;
}

/* The line on the pin of a gate. */
static size_t pin_of(size_t inputs, size_t line)
{
    return line == LAST ? inputs - 1 : line == inputs ? 0 : line - 1;
}

/* Whether the room is as it was before. */
static int untouched(void)
{
    return memcmp(&now, &before, sizeof now) == 0;
}

/* Whether an answer is this number, with these values beside it. */
static int is(fortizembo_answer a, uint64_t number, uint64_t values, uint64_t first, uint64_t second)
{
    return a.number == number && a.values == values && a.first == first && a.second == second && a.third == 0;
}

/* Every call that takes an image refuses it by this number, with these values, and leaves all that is lent as it was. Where Check does not, no other is
   asked, since filling the books of so many inputs would take hours. */
static void refused(const char *why, uint64_t number, uint64_t values, uint64_t first, uint64_t second)
{
    const fortizembo_fault fault = fortizembo_line_fault(40, 0);
    static const uint8_t not_0[10] = {2, 1};
    const uint8_t *img = now.image;
    const size_t n = now.length;
    const int is_refused = is(fortizembo_check(img, n), number, values, first, second);
    check(is_refused, "check", why);
    if (!is_refused)
        return;
    check(is(fortizembo_rows(img, n, 0, fault, now.good, LINES, now.faulty, LINES), number, values, first, second), "rows", why);
    check(is(fortizembo_judge(img, n, 0, fault), number, values, first, second), "judge", why);
    check(is(fortizembo_refresh(img, n, 0, 40, now.good, LINES), number, values, first, second), "refresh", why);
    check(is(fortizembo_five(img, n, 0, 0, fault, now.good, LINES), number, values, first, second), "five", why);
    check(is(fortizembo_find(img, n, fault), number, values, first, second), "find", why);
    check(is(fortizembo_book(img, n, now.book, 2 * LINES), number, values, first, second), "book", why);
    check(is(fortizembo_pin_book(img, n, now.pins, 8 * LINES), number, values, first, second), "pin_book", why);
    check(is(fortizembo_alter(now.image, n, now.book, 2 * LINES, now.pins, 8 * LINES, 40, not_0), number, values, first, second), "alter", why);
    check(is(fortizembo_write(img, n, now.target, TEXT), number, values, first, second), "write", why);
    check(untouched(), "what is lent", why);
}

/* The limits: 4,096 lines, 32 inputs and a note of 256 are the most. */
static void limits(void)
{
    fresh(LINES, 32);
    const fortizembo_answer a = fortizembo_check(now.image, now.length);
    check(now.length == LONGEST && a.number == 0 && a.values == 3 && a.first == LINES && a.second == 32 && a.third == OUTPUTS, "check",
          "the longest good image");
    fresh(LINES + 1, 32);
    refused("4,097 lines", 2, 0, 0, 0);
    fresh(LINES, 33);
    refused("33 inputs", 4, 2, 32, 0);
    fresh(LINES, 32);
    memmove(now.image + 1, now.image, now.length++);
    before = now;
    refused("a note of 257", 3, 0, 0, 0);
}

/* Rows and Refresh for a pattern and a fault of a line of the chain. */
static void rows_of(uint64_t pattern, size_t line, uint8_t stuck)
{
    fresh(LINES, 32);
    owed = now;
    for (size_t i = 0; i < LINES; i++)
        owed.good[i] = owed.faulty[i] = good_value(32, pattern, i);
    for (size_t i = line; i <= CHAIN_END; i++)
        owed.faulty[i] = (stuck ^ (i - line)) & 1;
    check(is(fortizembo_rows(now.image, now.length, pattern, fortizembo_line_fault(line, stuck), now.good, LINES, now.faulty, LINES), 0, 0, 0, 0)
              && memcmp(&now, &owed, sizeof now) == 0,
          "rows", "a line of the chain");
    memset(now.good + line, 9, LINES - line);
    check(is(fortizembo_refresh(now.image, now.length, pattern, line, now.good, LINES), 0, 0, 0, 0) && memcmp(&now, &owed, sizeof now) == 0,
          "refresh", "from a line of the chain");
    check(is(fortizembo_show(now.good, LINES, now.faulty, LINES, 1, line), 0, 2, line, LINES - line), "show", "from a line of the chain");
    const uint64_t shown = good_value(32, pattern, line) != stuck;
    check(is(fortizembo_judge(now.image, now.length, pattern, fortizembo_line_fault(line, stuck)), 0, 1, shown, 0), "judge", "a line of the chain");
}

/* Patterns of 32 bits are taken, and those of more refused by 8 with nothing lent changed. */
static void patterns(void)
{
    static const uint64_t taken[] = {0, 1, UINT64_C(1) << 31, UINT32_MAX};
    const fortizembo_fault last = fortizembo_line_fault(31, 0);
    for (unsigned i = 0; i < 4; i++) {
        rows_of(taken[i], 32 + 1000 * i, i % 2);
        check(is(fortizembo_judge(now.image, now.length, taken[i], last), 0, 1, taken[i] >> 31, 0), "judge", "input 31 at 0");
    }
    fresh(LINES, 32);
    for (unsigned bit = 32; bit < 64; bit++) {
        const uint64_t wide = UINT64_C(1) << bit;
        check(is(fortizembo_judge(now.image, now.length, wide, last), 8, 0, 0, 0), "judge", "a pattern of 33 bits");
        check(is(fortizembo_rows(now.image, now.length, wide, last, now.good, LINES, now.faulty, LINES), 8, 0, 0, 0), "rows", "a pattern of 33 bits");
        check(is(fortizembo_refresh(now.image, now.length, wide, 40, now.good, LINES), 8, 0, 0, 0), "refresh", "a pattern of 33 bits");
        check(is(fortizembo_five(now.image, now.length, wide, 0, last, now.good, LINES), 8, 0, 0, 0), "five", "a named bit too high");
        check(is(fortizembo_five(now.image, now.length, wide, wide, last, now.good, LINES), 8, 0, 0, 0), "five", "both bits too high");
        check(is(fortizembo_five(now.image, now.length, UINT32_MAX, wide, last, now.good, LINES), 8, 0, 0, 0), "five", "a value bit too high");
    }
    check(untouched(), "what is lent", "patterns of more than 32 bits");
}

/* Five values with inputs 0 and 31 named alone: a fault of the chain drives its 63 outputs, one of input 31 the last. */
static void five_values(void)
{
    const uint64_t named = UINT64_C(1) << 31 | 1;
    fresh(LINES, 32);
    owed = now;
    for (size_t i = 0; i < LINES; i++)
        owed.good[i] = i > 0 && i < 31 ? 2 : good_value(32, named, i);
    for (size_t i = 2000; i <= CHAIN_END; i++)
        owed.good[i] = owed.good[i] == 1 ? 3 : 4;
    const uint8_t stuck = owed.good[2000] == 4;
    const fortizembo_answer a = fortizembo_five(now.image, now.length, named, named, fortizembo_line_fault(2000, stuck), now.good, LINES);
    check(is(a, 0, 1, OUTPUTS - 1, 0) && memcmp(&now, &owed, sizeof now) == 0, "five", "a line of the chain");
    check(is(fortizembo_five(now.image, now.length, named, named, fortizembo_line_fault(31, 0), now.good, LINES), 0, 1, 1, 0) && now.good[LAST] == 3,
          "five", "input 31 at 0");
    check(is(fortizembo_five(now.image, now.length, UINT32_MAX, UINT32_MAX, fortizembo_line_fault(31, 0), now.good, LINES), 0, 1, 1, 0), "five",
          "every input named");
}

/* What Find and a book owe of a gate's line or of its pin, which input 0 decides: the first of patterns 0 and 1 that shows it. */
static uint64_t first_for(size_t inputs, size_t line, uint8_t stuck)
{
    return good_value(inputs, 0, line) != stuck ? 0 : 1;
}

/* Find on the board of 32 inputs. */
static void finds(void)
{
    fresh(LINES, 32);
    for (size_t line = 32; line <= CHAIN_END; line += 677)
        for (uint8_t stuck = 0; stuck < 2; stuck++) {
            const fortizembo_fault pin = fortizembo_pin_fault(line, 0, stuck);
            check(is(fortizembo_find(now.image, now.length, fortizembo_line_fault(line, stuck)), 0, 1, first_for(32, line, stuck), 0), "find",
                  "a line of the chain");
            check(is(fortizembo_find(now.image, now.length, pin), 0, 1, first_for(32, pin_of(32, line), stuck), 0), "find", "a pin of the chain");
        }
    check(is(fortizembo_find(now.image, now.length, fortizembo_line_fault(31, 1)), 0, 1, 0, 0), "find", "input 31 at 1");
    check(is(fortizembo_find(now.image, now.length, fortizembo_line_fault(LINES, 0)), 6, 0, 0, 0), "find", "line 4,096");
    check(untouched(), "what is lent", "find");
}

/* What both books owe of a line. */
static void owe(size_t inputs, size_t line)
{
    for (uint8_t stuck = 0; stuck < 2; stuck++) {
        owed.book[2 * line + stuck] = first_for(inputs, line, stuck);
        for (size_t pin = 0; pin < 4; pin++)
            owed.pins[8 * line + 2 * pin + stuck] = line < inputs || pin > 0 ? NONE : first_for(inputs, pin_of(inputs, line), stuck);
    }
}

/* Both books of the board of 1 input, which both patterns fill. */
static void books(void)
{
    fresh(LINES, 1);
    owed = now;
    for (size_t line = 0; line < LINES; line++)
        owe(1, line);
    check(is(fortizembo_book(now.image, now.length, now.book, 2 * LINES), 0, 1, 2 * LINES, 0), "book", "4,096 lines");
    check(is(fortizembo_pin_book(now.image, now.length, now.pins, 8 * LINES), 0, 1, 2 * (LINES - 1), 0), "pin_book", "4,096 lines");
    check(memcmp(&now, &owed, sizeof now) == 0, "both books", "4,096 lines");
    before = now;
    check(is(fortizembo_book(now.image, now.length, now.book, 2 * LINES - 1), 9, 0, 0, 0), "book", "8,191 entries");
    check(is(fortizembo_pin_book(now.image, now.length, now.pins, 8 * LINES - 8), 9, 0, 0, 0), "pin_book", "32,760 entries");
    check(untouched(), "what is lent", "books of another length");
}

/* Alters the board of 32 inputs, whose books hold this entry everywhere: the chain's entries and input 0's are worked out afresh if the altered
   line is of the chain, all others are kept, and each that is not none is counted. */
static void alters(size_t line, uint8_t kind, uint64_t entry, const char *why)
{
    uint8_t record[10];
    uint64_t count = 0;
    put_gate(record, kind, pin_of(32, line));
    fresh(LINES, 32);
    for (size_t i = 0; i < 8 * LINES; i++)
        now.book[i / 4] = now.pins[i] = entry;
    owed = now;
    memcpy(owed.image + NOTE + 10 * line, record, 10);
    owe(32, 0);
    for (size_t i = 32; i <= CHAIN_END; i++)
        owe(32, i);
    if (kind == 1)
        owed.book[2 * line] ^= 1, owed.book[2 * line + 1] ^= 1;
    for (size_t i = 0; i < 8 * LINES; i++)
        count += (i < 2 * LINES && owed.book[i] != NONE) + (uint64_t)(owed.pins[i] != NONE);
    const fortizembo_answer a = fortizembo_alter(now.image, now.length, now.book, 2 * LINES, now.pins, 8 * LINES, line, record);
    check(is(a, 0, 1, count, 0), "alter, the count", why);
    check(memcmp(&now, &owed, sizeof now) == 0, "alter, image and books", why);
}

/* The line of the chain that is tied, and what both books of the board of 1 input then owe of a line or of what a pin on it reads: input 0 is still
   shown by the last line, what lies between it and the tie by nothing, and all from the tie on by any pattern or by none. */
enum { TIED = 2000 };

static uint64_t tied_entry(uint8_t kind, size_t line, uint8_t stuck)
{
    if (line == 0)
        return stuck == 0;
    if (line < TIED)
        return NONE;
    return stuck == ((kind ^ (line - TIED)) & 1) ? 0 : NONE;
}

/* Alters a line in the middle of the chain to a tie, kind 9 or 10: the last line alone, which shares no output with it, keeps its entries. */
static void ties(uint8_t kind)
{
    const uint8_t record[10] = {kind}, other = kind == 9;
    uint64_t count = 0;
    fresh(LINES, 1);
    for (size_t i = 0; i < 8 * LINES; i++)
        now.book[i / 4] = now.pins[i] = 99;
    owed = now;
    memcpy(owed.image + NOTE + 10 * TIED, record, 10);
    for (size_t i = 0; i < 8 * LAST; i++) {
        owed.book[i / 4] = tied_entry(kind, i / 8, i / 4 % 2);
        owed.pins[i] = i / 8 > TIED && i % 8 < 2 ? tied_entry(kind, i / 8 - 1, i % 2) : NONE;
    }
    for (size_t i = 0; i < 8 * LINES; i++)
        count += (i < 2 * LINES && owed.book[i] != NONE) + (uint64_t)(owed.pins[i] != NONE);
    const fortizembo_answer a = fortizembo_alter(now.image, now.length, now.book, 2 * LINES, now.pins, 8 * LINES, TIED, record);
    check(is(a, 0, 1, count, 0), "alter, the count", "a tie in the chain");
    check(memcmp(&now, &owed, sizeof now) == 0, "alter, image and books", "a tie in the chain");
    check(is(fortizembo_find(now.image, now.length, fortizembo_line_fault(TIED, other)), 0, 1, 0, 0), "find", "a tie at the other value");
    check(is(fortizembo_find(now.image, now.length, fortizembo_line_fault(TIED, !other)), 0, 0, 0, 0), "find", "a tie at its own value");
    check(is(fortizembo_find(now.image, now.length, fortizembo_pin_fault(TIED, 0, other)), 12, 0, 0, 0), "find", "a pin of a tie");
    check(is(fortizembo_five(now.image, now.length, 0, 0, fortizembo_line_fault(TIED, other), now.good, LINES), 0, 1, OUTPUTS - 1, 0)
              && now.good[TIED - 1] == 2 && now.good[TIED] == (other ? 4 : 3) && now.good[LAST] == 2,
          "five", "a tie beside x");
}

/* The board's drawing, without its note. */
static size_t draw(size_t inputs)
{
    size_t n = 0;
    for (size_t line = 0; line < inputs; line++)
        n += (size_t)sprintf((char *)text + n, "INPUT(n%zu)\n", line);
    for (size_t line = LINES - OUTPUTS; line < LINES; line++)
        n += (size_t)sprintf((char *)text + n, "OUTPUT(n%zu)\n", line);
    for (size_t line = inputs; line < LINES; line++)
        n += (size_t)sprintf((char *)text + n, "n%zu = %s(n%zu)\n", line, line == LAST ? "BUFF" : "NOT", pin_of(inputs, line));
    return n;
}

/* Write and Read, there and back. */
static void drawings(void)
{
    const size_t n = draw(32);
    fresh(LINES, 32);
    check(is(fortizembo_write(now.image, now.length, now.target, n - 1), 14, 0, 0, 0) && untouched(), "write", "a target a byte too short");
    check(is(fortizembo_write(now.image, now.length, now.target, TEXT), 0, 1, n, 0) && memcmp(now.target, text, n) == 0 && now.target[n] == 9,
          "write", "4,096 lines");
    check(is(fortizembo_read(text, n, now.target, TEXT), 0, 1, LONGEST - NOTE, 0), "read", "4,096 lines");
    check(memcmp(now.target, now.image + NOTE, LONGEST - NOTE) == 0, "read", "the image of 4,096 lines");
    memcpy(text + n, "n4096 = NOT(n0)\n", 16);
    check(is(fortizembo_read(text, n + 16, now.target, TEXT), 2, 0, 0, 0), "read", "4,097 lines");
    check(is(fortizembo_read(text, draw(33), now.target, TEXT), 4, 2, 32, 0), "read", "33 inputs");
}

/* A sample file, read into a buffer; its length, or 0 where it cannot be read. */
static size_t load(const char *folder, const char *name, uint8_t *into, size_t most)
{
    char path[1024];
    snprintf(path, sizeof path, "%s/%s", folder, name);
    FILE *file = fopen(path, "rb");
    if (file == NULL)
        return 0;
    const size_t length = fread(into, 1, most, file);
    fclose(file);
    return length;
}

/* The hall, as an image and as its drawing: every call but the books, which would take hours. Its last line is a spare gate, so that altering
   it touches no entry. */
static void hall(const char *folder)
{
    const uint64_t pattern = 0xAAAAAAAA;
    const fortizembo_fault fault = fortizembo_line_fault(32, 0);
    uint8_t record[10];
    memset(&now, 9, sizeof now);
    now.length = load(folder, "hall.img", now.image, sizeof now.image);
    const size_t n = load(folder, "hall.txt", text, TEXT), length = now.length;
    check(fortizembo_check(now.image, length).first == LINES && n > 0, "check", "the hall");
    check(is(fortizembo_write(now.image, length, now.target, TEXT), 0, 1, n, 0) && memcmp(now.target, text, n) == 0, "write", "the hall");
    check(is(fortizembo_read(text, n, now.target, TEXT), 0, 1, length, 0) && memcmp(now.target, now.image, length) == 0, "read", "the hall");
    check(is(fortizembo_rows(now.image, length, pattern, fault, now.good, LINES, now.faulty, LINES), 0, 0, 0, 0), "rows", "the hall");
    memcpy(now.target, now.good, LINES);
    check(is(fortizembo_refresh(now.image, length, pattern, 0, now.good, LINES), 0, 0, 0, 0) && memcmp(now.target, now.good, LINES) == 0, "refresh",
          "the hall");
    check(is(fortizembo_judge(now.image, length, pattern, fault), 0, 1, 0, 0), "judge", "a line that is 0 at 0");
    check(is(fortizembo_five(now.image, length, UINT32_MAX, pattern, fault, now.good, LINES), 0, 1, 0, 0) && memcmp(now.target, now.good, LINES) == 0,
          "five", "a line that is 0 at 0");
    check(is(fortizembo_find(now.image, length, fault), 0, 1, 1, 0), "find", "the driver of input 0 at 0");
    memcpy(record, now.image + 10 * LAST, 10);
    record[0] = 6;
    check(is(fortizembo_alter(now.image, length, now.book, 2 * LINES, now.pins, 8 * LINES, LAST, record), 0, 1, 10 * LINES, 0), "alter", "the hall");
    check(memcmp(now.image + 10 * LAST, record, 10) == 0, "alter", "the hall's record");
}

int main(int argc, char **argv)
{
    hall(argc == 2 ? argv[1] : "boards");
    limits();
    patterns();
    five_values();
    finds();
    books();
    alters(CHAIN_END, 1, UINT32_MAX, "4,294,967,295 is an entry as any other");
    alters(CHAIN_END, 2, NONE, "books of none");
    ties(9);
    ties(10);
    drawings();
    return ended();
}
