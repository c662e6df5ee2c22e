/* The calls of Fortizembo for C. Link with crates/exports/out/libexports.a, which `rt lib` in crates/exports proves and writes for x86-64 Linux;
   beside it only memcpy and memset of the C library are needed.

   What a call owes is proved for every image, text, fault, pattern, line and length: whatever is bad is refused by its number, and then nothing that
   was lent is changed. No proof can see what stands behind a pointer. So this is the caller's duty, as C has it:
   - a pointer is not null, and as many elements as its length says are there, bytes for an image, a row, a text or a target, uint64_t for a book,
     ten bytes for a record; so also where the length is 0;
   - a buffer without const may be written, overlaps no other buffer of the call, so that two books lie apart, and nobody else uses it while
     the call runs;
   - a number fits its parameter's type: C cuts a wider one before the call, so that stuck value 256 would arrive as 0 (see -Wconversion).
   A call keeps nothing, so calls may run side by side. It needs less than 2 MiB of stack. */
#ifndef FORTIZEMBO_H
#define FORTIZEMBO_H

#include <stddef.h>
#include <stdint.h>

#ifdef __cplusplus
extern "C" {
#endif

/* An entry of a book for none. */
#define FORTIZEMBO_NONE UINT64_MAX

/* A fault: one line held at 0 or at 1 for everything that reads it, or one pin of a line's gate, for that gate alone. */
typedef struct {
    size_t line;
    size_t pin;    /* from 0; a line's fault has no use for it */
    uint8_t sort;  /* 0 for a line's fault, any other number for a pin's: there is no third sort */
    uint8_t stuck; /* 0 or 1 */
} fortizembo_fault;

/* The fault of a line. */
static inline fortizembo_fault fortizembo_line_fault(size_t line, uint8_t stuck)
{
    const fortizembo_fault fault = {line, 0, 0, stuck};
    return fault;
}

/* The fault of one pin of a line's gate. */
static inline fortizembo_fault fortizembo_pin_fault(size_t line, size_t pin, uint8_t stuck)
{
    const fortizembo_fault fault = {line, pin, 1, stuck};
    return fault;
}

/* An answer in the numbers of documents 01 and 02. */
typedef struct {
    uint64_t number; /* 0, or the refusal's number: 1 to 14. 12, a pin not below its gate's pin count, is tested after 7 and before 8; 13, a text that
                        is no drawing, first; 14, a target too short, last. */
    uint64_t values; /* how many values are returned beside it */
    uint64_t first;  /* these; 0 where there is none. Refusal 4 returns line and field, 5 the place, 13 a length, no other any. */
    uint64_t second;
    uint64_t third;
} fortizembo_answer;

/* Check an image: line, input and output count. Refusals 1-5. */
fortizembo_answer fortizembo_check(const uint8_t *image, size_t length);

/* Rows: fills both rows, one byte a line. No value. Refusals 1-5, 6, 7, 12, 8, 9. */
fortizembo_answer fortizembo_rows(const uint8_t *image, size_t length, uint64_t pattern, fortizembo_fault fault, uint8_t *good, size_t good_length,
                                  uint8_t *faulty, size_t faulty_length);

/* Judge: 1 where the pattern shows the fault, 0 where it does not. Refusals 1-5, 6, 7, 12, 8. */
fortizembo_answer fortizembo_judge(const uint8_t *image, size_t length, uint64_t pattern, fortizembo_fault fault);

/* Refresh: rewrites a good row from a line on. No value. Refusals 1-5, 6, 8, 9, 11. */
fortizembo_answer fortizembo_refresh(const uint8_t *image, size_t length, uint64_t pattern, size_t line, uint8_t *row, size_t row_length);

/* Show: where the very part begins in the row asked for, the faulty one unless wants_faulty is 0, and its length. Refuses nothing. */
fortizembo_answer fortizembo_show(const uint8_t *good, size_t good_length, const uint8_t *faulty, size_t faulty_length, uint8_t wants_faulty, size_t start);

/* Five values: fills the row with 0, 1, 2 for x, 3 for D, 4 for D-bar; how many output lines hold D or D-bar. Refusals 1-5, 6, 7, 12, 8, 9. */
fortizembo_answer fortizembo_five(const uint8_t *image, size_t length, uint64_t named, uint64_t values, fortizembo_fault fault, uint8_t *row,
                                  size_t row_length);

/* Find: the smallest pattern, or no value (values is 0) for none. Refusals 1-5, 6, 7, 12. */
fortizembo_answer fortizembo_find(const uint8_t *image, size_t length, fortizembo_fault fault);

/* Book: fills entry 2 x line + stuck value, entries being counted and not bytes; how many are not none. Refusals 1-5, 9. */
fortizembo_answer fortizembo_book(const uint8_t *image, size_t length, uint64_t *book, size_t entries);

/* Pin book: fills entry 8 x line + 2 x pin + stuck value, with none where that pin is absent; how many are not none. Refusals 1-5, 9. */
fortizembo_answer fortizembo_pin_book(const uint8_t *image, size_t length, uint64_t *book, size_t entries);

/* Alter: puts a record in the image and brings both books up to date, the lines' and the pins'; how many entries of both together are then not
   none. A gate may become a tie, kind 9 or 10 with no pins, and a tie a gate. Refusals 1-5, 6, 9 for either book, 10. */
fortizembo_answer fortizembo_alter(uint8_t *image, size_t length, uint64_t *book, size_t entries, uint64_t *pins, size_t pin_entries, size_t line,
                                   const uint8_t record[10]);

/* Read: puts the image of the board that a drawing names in front of the target, without a note; its length, 41,100 at most. The target beyond it
   keeps its bytes. Refusals 13, with the length of the longest beginning of the text that some drawing shares, 2, 4, 5, 14. */
fortizembo_answer fortizembo_read(const uint8_t *text, size_t text_length, uint8_t *target, size_t target_length);

/* Write: puts the drawing of the image's board in front of the target; its length, under 170,000. The target beyond it keeps its bytes. Refusals
   1-5, 14. */
fortizembo_answer fortizembo_write(const uint8_t *image, size_t length, uint8_t *target, size_t target_length);

#ifdef __cplusplus
}
#endif

#endif
