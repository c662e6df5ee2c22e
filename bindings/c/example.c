/* Uses each call on the sample boards, and prints its numbers, rows and books: example boards */
#include "fortizembo.h"
#include <inttypes.h>
#include <stdio.h>
#include <stdlib.h>
#include <string.h>

typedef struct {
    uint8_t bytes[256];
    size_t length;
} image;

/* A board's image, from its file. */
static image load(const char *folder, const char *name)
{
    image read = {{0}, 0};
    char path[4096];
    snprintf(path, sizeof path, "%s/%s.img", folder, name);
    FILE *file = fopen(path, "rb");
    if (file == NULL) {
        perror(path);
        exit(1);
    }
    read.length = fread(read.bytes, 1, sizeof read.bytes, file);
    fclose(file);
    return read;
}

/* What was asked, the number, and the values that are returned beside it. */
static void say(const char *asked, fortizembo_answer a)
{
    const uint64_t values[3] = {a.first, a.second, a.third};
    printf("%s: %" PRIu64, asked, a.number);
    for (uint64_t i = 0; i < a.values; i++)
        printf(" %" PRIu64, values[i]);
    printf("\n");
}

static void print_row(const char *name, const uint8_t *row, size_t length)
{
    printf("  %s", name);
    for (size_t i = 0; i < length; i++)
        printf(" %u", row[i]);
    printf("\n");
}

static void print_book(const char *name, const uint64_t *book, size_t entries)
{
    printf("  %s", name);
    for (size_t i = 0; i < entries; i++)
        if (book[i] == FORTIZEMBO_NONE)
            printf(" none");
        else
            printf(" %" PRIu64, book[i]);
    printf("\n");
}

/* A pin book, the eight entries of each line on a line. */
static void print_pins(const uint64_t *pins, size_t lines)
{
    char name[32];
    for (size_t line = 0; line < lines; line++) {
        snprintf(name, sizeof name, "pins of %zu:", line);
        print_book(name, pins + 8 * line, 8);
    }
}

/* Board S: what a fault of a line does, and the pattern that shows it. */
static void line_of_s(image s)
{
    const fortizembo_fault at_0 = fortizembo_line_fault(4, 0), at_1 = fortizembo_line_fault(4, 1);
    uint8_t good[12], faulty[12];
    say("check S", fortizembo_check(s.bytes, s.length));
    say("find S 4/0", fortizembo_find(s.bytes, s.length, at_0));
    say("find S 4/1", fortizembo_find(s.bytes, s.length, at_1));
    say("judge S 7 4/1", fortizembo_judge(s.bytes, s.length, 7, at_1));
    say("judge S 5 4/1", fortizembo_judge(s.bytes, s.length, 5, at_1));
    say("rows S 6 4/1", fortizembo_rows(s.bytes, s.length, 6, at_1, good, 12, faulty, 12));
    print_row("good", good, 12);
    print_row("faulty", faulty, 12);
    fortizembo_answer part = fortizembo_show(good, 12, faulty, 12, 1, 4);
    say("show the faulty row from 4", part);
    print_row("part", faulty + part.first, part.second);
    say("show the good row from 99", fortizembo_show(good, 12, faulty, 12, 0, 99));
}

/* Board S: the same of one pin of line 4's gate, and a pin that the gate does not have. */
static void pin_of_s(image s)
{
    const fortizembo_fault at_1 = fortizembo_pin_fault(4, 0, 1);
    uint8_t good[12], faulty[12];
    say("find S 4.0/1", fortizembo_find(s.bytes, s.length, at_1));
    say("find S 4.0/0", fortizembo_find(s.bytes, s.length, fortizembo_pin_fault(4, 0, 0)));
    say("find S 4.2/1", fortizembo_find(s.bytes, s.length, fortizembo_pin_fault(4, 2, 1)));
    say("judge S 0 4.0/1", fortizembo_judge(s.bytes, s.length, 0, at_1));
    say("judge S 6 4.0/1", fortizembo_judge(s.bytes, s.length, 6, at_1));
    say("rows S 0 4.0/1", fortizembo_rows(s.bytes, s.length, 0, at_1, good, 12, faulty, 12));
    print_row("good", good, 12);
    print_row("faulty", faulty, 12);
}

/* Board T: rows, and its books before and after its gate is altered. */
static void board_t(image t)
{
    const uint8_t and_0_1[10] = {3, 2, 0, 0, 1, 0, 0, 0, 0, 0};
    uint64_t book[6], pins[24];
    uint8_t row[3] = {1, 9, 9};
    say("find T 0/0", fortizembo_find(t.bytes, t.length, fortizembo_line_fault(0, 0)));
    say("refresh T 1 from 1", fortizembo_refresh(t.bytes, t.length, 1, 1, row, 3));
    print_row("row", row, 3);
    say("five T 1/1 2/0", fortizembo_five(t.bytes, t.length, 1, 1, fortizembo_line_fault(2, 0), row, 3));
    print_row("row", row, 3);
    say("five T 1/0 1.0/1", fortizembo_five(t.bytes, t.length, 1, 0, fortizembo_pin_fault(1, 0, 1), row, 3));
    print_row("row", row, 3);
    say("book T", fortizembo_book(t.bytes, t.length, book, 6));
    print_book("book", book, 6);
    say("pin book T", fortizembo_pin_book(t.bytes, t.length, pins, 24));
    print_pins(pins, 3);
    say("alter T 2", fortizembo_alter(t.bytes, t.length, book, 6, pins, 24, 2, and_0_1));
    print_book("book", book, 6);
    print_pins(pins, 3);
    say("find T 2/1", fortizembo_find(t.bytes, t.length, fortizembo_line_fault(2, 1)));
}

/* Board T as a drawing, and the image that it gives; a text that ends too soon, and a target that is too short. */
static void drawing_of_t(image t)
{
    uint8_t text[64], again[64];
    const fortizembo_answer written = fortizembo_write(t.bytes, t.length, text, sizeof text);
    say("write T", written);
    fwrite(text, 1, written.first, stdout);
    const fortizembo_answer made = fortizembo_read(text, written.first, again, sizeof again);
    say("read it", made);
    printf("  %s image\n", made.first == t.length && memcmp(again, t.bytes, t.length) == 0 ? "the same" : "another");
    say("read it without its last line feed", fortizembo_read(text, written.first - 1, again, sizeof again));
    say("write T in 49 bytes", fortizembo_write(t.bytes, t.length, text, 49));
}

/* Board H: an untouched entry keeps what it held, also an absent pin's, and a touched one of an absent pin becomes none. */
static void board_h(image h)
{
    const uint8_t not_1[10] = {2, 1, 1, 0, 0, 0, 0, 0, 0, 0};
    uint64_t book[8], pins[32];
    say("book H", fortizembo_book(h.bytes, h.length, book, 8));
    print_book("book", book, 8);
    say("pin book H", fortizembo_pin_book(h.bytes, h.length, pins, 32));
    print_pins(pins, 4);
    book[0] = pins[7] = pins[8] = 99;
    say("alter H 3", fortizembo_alter(h.bytes, h.length, book, 8, pins, 32, 3, not_1));
    print_book("book", book, 8);
    print_pins(pins, 4);
    say("alter H 0", fortizembo_alter(h.bytes, h.length, book, 8, pins, 32, 0, not_1));
}

/* The tie-breaker, whose lines 2 and 3 are tied low and high: their faults and those of a leg tied high; its books before and after line 3 is tied
   low too. */
static void lines_tied(image r)
{
    const uint8_t low[10] = {9, 0, 0, 0, 0, 0, 0, 0, 0, 0};
    uint64_t book[16], pins[64];
    say("find rails 2/1", fortizembo_find(r.bytes, r.length, fortizembo_line_fault(2, 1)));
    say("find rails 2/0", fortizembo_find(r.bytes, r.length, fortizembo_line_fault(2, 0)));
    say("find rails 6.2/0", fortizembo_find(r.bytes, r.length, fortizembo_pin_fault(6, 2, 0)));
    say("find rails 3.0/0", fortizembo_find(r.bytes, r.length, fortizembo_pin_fault(3, 0, 0)));
    say("book rails", fortizembo_book(r.bytes, r.length, book, 16));
    print_book("book", book, 16);
    say("pin book rails", fortizembo_pin_book(r.bytes, r.length, pins, 64));
    say("alter rails 3", fortizembo_alter(r.bytes, r.length, book, 16, pins, 64, 3, low));
    print_book("book", book, 16);
}

int main(int argc, char **argv)
{
    const char *folder = argc > 1 ? argv[1] : "boards";
    line_of_s(load(folder, "S"));
    pin_of_s(load(folder, "S"));
    board_t(load(folder, "T"));
    drawing_of_t(load(folder, "T"));
    board_h(load(folder, "H"));
    lines_tied(load(folder, "rails"));
    return 0;
}
