/* The segment engine for C programs: link with libhost.a, which `hosts/build` writes to target/staticlib.
 *
 * A table describes a grammar; a run evaluates one segment, a list of tokens, under it. A token is a one-byte kind and, where its kind
 * carries one, a value. A run is opened, fed any number of times and finished; in between an inner run may evaluate another segment, say
 * a footnote. The library keeps nothing between calls and allocates nothing: all memory is lent by the caller.
 *
 * Every function may be called with any content in the lent memory; what does not fit is turned back with a number. What each
 * function hands back is fixed for every input: each lent number, each field of the record, each register, place and program word.
 * A list is a pointer and its length in elements. No pointer may be NULL, not even that of a list of length 0 (the functions of
 * segment_run.h allow that), and no two of the lists and numbers of one call may overlap, except that lists that are only read
 * may. Threads may call at the same time, each with its own record and memory; a table may be shared.
 *
 * Refusals. *number is 0 where a call does what it is for, and else
 *    1 to 14: the table (or the production asked for) is refused; with the byte offset of its field
 *   20 to 24: the segment is refused; with the tokens read
 *   30 to 35: the state of the run or the memory is refused; with the tokens read, or 0 for 30, 33 and 34
 *         36: the buffer for a table in house order is too short; with 0, and no byte of it is written
 *         37: there are too many candidates to rank, their lengths do not add up, or the list for them is too short; with 0
 *         38: the lists of kinds and values are of unequal length; with 0
 *         39: the scratch of a preview is too short; with 0, and no cell of it is written
 *         40: the run waits for its inner run, or a third run would be opened; with 0
 *         41: the buffer for a tree sheet is too short; with 0, and no byte of it is written
 *         42: a window's size, buffer or value is refused; no cell of the buffer is written
 *         43: a tree sheet does not describe the segment's tree; with 0
 * The numbers have names, SEGMENT_..., and segment_reason gives their words. On 1 to 13 and on 30 no register, place or program word is
 * written. */
#ifndef SEGMENT_H
#define SEGMENT_H

#include <stddef.h>
#include <stdint.h>

#ifdef __cplusplus
extern "C" {
#endif

/* The version of this header and its library. */
#define SEGMENT_VERSION_MAJOR 0
#define SEGMENT_VERSION_MINOR 3
#define SEGMENT_VERSION "0.3.0"

/* A run uses at most so many registers and places; cells past these are neither read nor written. */
#define SEGMENT_REGISTERS 4096
#define SEGMENT_PLACES 1024
/* A program area has at least so many words; a shorter one is turned back with 30. */
#define SEGMENT_PROGRAM 16384
/* A line of a listing has at most so many bytes. */
#define SEGMENT_LINE 64
/* A segment has at most so many moves. */
#define SEGMENT_MOVES UINT64_C(4294967295)
/* What a register without a value holds. */
#define SEGMENT_MARK INT64_MIN

/* The numbers of refusals by name. */
enum segment_number {
    SEGMENT_OK = 0,
    SEGMENT_TABLE_TOO_LONG = 1,
    SEGMENT_FIELD_CUT_SHORT = 2,
    SEGMENT_TAG_OUT_OF_ORDER = 3,
    SEGMENT_OUTSIDE_LIMITS = 4,
    SEGMENT_UNKNOWN_NAME = 5,
    SEGMENT_WRONG_START = 6,
    SEGMENT_WRONG_SIDE = 7,
    SEGMENT_NOT_ONE_RULE = 8,
    SEGMENT_READS_TOO_FAR = 9,
    SEGMENT_WRONG_CONDITION = 10,
    SEGMENT_USELESS = 11,
    SEGMENT_LEFT_RECURSION = 12,
    SEGMENT_CLASH = 13,
    SEGMENT_NO_PRODUCTION = 14,
    SEGMENT_UNKNOWN_TOKEN = 20,
    SEGMENT_UNEXPECTED_TOKEN = 21,
    SEGMENT_CONDITION_FALSE = 22,
    SEGMENT_VALUE_OUTSIDE = 23,
    SEGMENT_SEGMENT_OVER = 24,
    SEGMENT_PROGRAM_SHORT = 30,
    SEGMENT_NEEDS_REGISTERS = 31,
    SEGMENT_NEEDS_PLACES = 32,
    SEGMENT_RUN_CLOSED = 33,
    SEGMENT_STACKS_UNFIT = 34,
    SEGMENT_TOO_MUCH = 35,
    SEGMENT_OUTPUT_SHORT = 36,
    SEGMENT_CANDIDATES_UNFIT = 37,
    SEGMENT_LISTS_UNEQUAL = 38,
    SEGMENT_SCRATCH_SHORT = 39,
    SEGMENT_RUN_WAITING = 40,
    SEGMENT_SHEET_SHORT = 41,
    SEGMENT_WINDOW_UNFIT = 42,
    SEGMENT_SHEET_WRONG = 43
};

/* The status of a run; every other number counts as running. */
#define SEGMENT_STATUS_CLOSED 0
#define SEGMENT_STATUS_RUNNING 1
#define SEGMENT_STATUS_WAITING 2
/* The kind of a run; every other number counts as outer. */
#define SEGMENT_KIND_OUTER 0
#define SEGMENT_KIND_INNER 1

/* The run record. Each call on a run takes it and hands the next one back in its place. */
typedef struct {
    uint64_t status;        /* SEGMENT_STATUS_... */
    uint64_t tokens;        /* tokens read */
    uint64_t moves;         /* moves made since opening */
    uint64_t registers;     /* height of the register stack; of an inner run from where it begins */
    uint64_t places;        /* height of the place stack; of an inner run from where it begins */
    uint64_t kind;          /* SEGMENT_KIND_... */
    uint64_t register_base; /* register height where an inner run begins, otherwise 0 */
    uint64_t place_base;    /* place height where an inner run begins, otherwise 0 */
} segment_record;

/* The verdict on a table: *number and *offset of its refusal, or 0 and 0 where it is accepted. */
void segment_check(const uint8_t *table, size_t table_length, uint32_t *number, uint32_t *offset);

/* A production's stretch of the table, from its own field to the next production's or to the table's end: *length bytes from *start
 * on; *number and *offset are then 0. On a refusal (1 to 13 for the table, 14 where there is no such production) these are the
 * refusal's, and *start and *length are 0. */
void segment_stretch(const uint8_t *table, size_t table_length, size_t production, size_t *start, size_t *length, uint32_t *number,
                     uint32_t *offset);

/* The listing of a table, or the one line of its refusal, as the listing program prints it: as many whole lines as there is room for into
 * the first *length bytes of `out` (a line is begun while SEGMENT_LINE bytes are left), with *over 1 where that is all and else 0. The
 * program of an accepted table is written into the program area. Where the area has fewer than SEGMENT_PROGRAM words, or `out` fewer than
 * SEGMENT_LINE bytes, nothing is written and *length and *over are 0. */
void segment_list(const uint8_t *table, size_t table_length, uint32_t *program, size_t program_length, uint8_t *out, size_t out_length,
                  size_t *length, uint32_t *over);

/* An accepted table in house order, into the first *length bytes of `out`: productions as they stand, each followed by its rules by the
 * occurrence they set, then its conditions by their bytes, each once. Tables that differ only in that come out alike, and every segment
 * keeps its value or refusal. *number and *offset are then 0, and bytes past *length stay as they were. On a refusal (1 to 13 for the table,
 * 36 with 0 where `out` is too short) these are the refusal's, *length is 0 and no byte of `out` is written. What is written is never longer
 * than the table: lend as many bytes. */
void segment_house(const uint8_t *table, size_t table_length, uint8_t *out, size_t out_length, size_t *length, uint32_t *number,
                   uint32_t *offset);

/* Opens a run: writes the table's program into the program area, clears the registers to the mark and the places to 0, and hands the
 * record of an open run back. The content of the record before the call is not looked at.
 * *number: 0, or 1 to 13, 30, 31 or 32; on a refusal the record is closed and all zero and no stack is written.
 * *count: 0, or the table's offset. */
void segment_open(const uint8_t *table, size_t table_length, segment_record *record, int64_t *registers, size_t registers_length,
                  uint32_t *places, size_t places_length, uint32_t *program, size_t program_length, uint32_t *number, uint64_t *count);

/* Feeds tokens to an open run, on the record and the stacks as the call before left them: their kinds, and for each a value, which is
 * ignored where the kind carries none.
 * *number: 0, or 1 to 13, 20 to 23, 30 to 35, 38, 40. 20 to 23, 31, 32 and 35 close the record, with the moves made until then standing;
 * the others leave record and stacks as brought, but that status and kind are handed back as the constants that they count as, and the
 * beginnings of an outer record as 0.
 * *count: the moves made since opening; on a refusal the tokens read, or the table's offset. */
void segment_feed(const uint8_t *table, size_t table_length, segment_record *record, int64_t *registers, size_t registers_length,
                  uint32_t *places, size_t places_length, uint32_t *program, size_t program_length, const uint8_t *kinds,
                  size_t kinds_length, const int32_t *values, size_t values_length, uint32_t *number, uint64_t *count);

/* As segment_feed, through the engine's call that changes its record in place: the same answer, record and memory. */
void segment_feed_in_place(const uint8_t *table, size_t table_length, segment_record *record, int64_t *registers, size_t registers_length,
                           uint32_t *places, size_t places_length, uint32_t *program, size_t program_length, const uint8_t *kinds,
                           size_t kinds_length, const int32_t *values, size_t values_length, uint32_t *number, uint64_t *count);

/* Finishes the segment and closes the record.
 * *number: 0, or 1 to 13, 22 to 24, 30 to 35, 40, as for a feed.
 * *value: the segment's value, or 0 on a refusal.
 * *count: the moves made since opening; on a refusal the tokens read, or the table's offset. */
void segment_finish(const uint8_t *table, size_t table_length, segment_record *record, int64_t *registers, size_t registers_length,
                    uint32_t *places, size_t places_length, uint32_t *program, size_t program_length, uint32_t *number, int64_t *value,
                    uint64_t *count);

/* Opens an inner run on the same lent memory, above the heights of an outer run, which then waits: calls on it are turned back with 40
 * until the inner run ends. Both tables are brought: the outer run is judged by its own, as for a feed, then the inner table and the room
 * that is left. The outer table's program is written into the program area, then the inner one's over it. The content of the inner record
 * before the call is not looked at.
 * *number: 0, or 1 to 13 of either table, 30 to 34, 40 (the outer run waits already, or is an inner one); on a refusal the outer record and
 * the stacks are as brought and the inner record is closed and all zero.
 * *count: 0, or the offset of the refused table. */
void segment_inner_open(const uint8_t *outer_table, size_t outer_table_length, const uint8_t *inner_table, size_t inner_table_length,
                        segment_record *outer, segment_record *inner, int64_t *registers, size_t registers_length, uint32_t *places,
                        size_t places_length, uint32_t *program, size_t program_length, uint32_t *number, uint64_t *count);

/* Feeds tokens to the inner run, whose table is brought, on both records as the call before left them. What lies below the inner run's
 * beginning is neither looked at nor written.
 * *number: 0, or 1 to 13, 20 to 23, 30 to 35, 38. 33 where either record is closed; 34 also where the outer one does not wait just where
 * the inner one begins. 20 to 23, 31, 32 and 35 end the inner run: its cells are cleared, its record is closed, otherwise as it was before
 * the clearing, and the outer record no longer waits. The others leave records and stacks as brought, as for a feed.
 * *count: the inner run's moves; on a refusal its tokens read, or the table's offset. */
void segment_inner_feed(const uint8_t *table, size_t table_length, segment_record *outer, segment_record *inner, int64_t *registers,
                        size_t registers_length, uint32_t *places, size_t places_length, uint32_t *program, size_t program_length,
                        const uint8_t *kinds, size_t kinds_length, const int32_t *values, size_t values_length, uint32_t *number,
                        uint64_t *count);

/* Finishes the inner run's segment: the run ends, as above.
 * *number: 0, or 1 to 13, 22 to 24, 30 to 35.
 * *value: the segment's value, or 0 on a refusal. */
void segment_inner_finish(const uint8_t *table, size_t table_length, segment_record *outer, segment_record *inner, int64_t *registers,
                          size_t registers_length, uint32_t *places, size_t places_length, uint32_t *program, size_t program_length,
                          uint32_t *number, int64_t *value, uint64_t *count);

/* Gives the inner run up: it ends as it stands, as above.
 * *number: 0, or 1 to 13, 30, 33, 34. */
void segment_inner_give_up(const uint8_t *table, size_t table_length, segment_record *outer, segment_record *inner, int64_t *registers,
                           size_t registers_length, uint32_t *places, size_t places_length, uint32_t *program, size_t program_length,
                           uint32_t *number, uint64_t *count);

/* What feeding one more token would give, tried on scratch stacks: the record and the stacks of the run are only read. The scratch has at
 * least as many registers and places as count of those lent (at most SEGMENT_REGISTERS and SEGMENT_PLACES); that part of it ends cleared,
 * registers to the mark and places to 0, and cells past it stay.
 * *number: 0, or what a feed of this token is refused with; or 39 where the scratch is too short, after 34. On 39 and what is judged
 * before it (30, 1 to 13, 33, 40, 34) no cell of the scratch is written and *after is the record as brought.
 * *after: the record that the feed would hand back, with both heights. *count: as for a feed. */
void segment_preview(const uint8_t *table, size_t table_length, const segment_record *record, const int64_t *registers,
                     size_t registers_length, const uint32_t *places, size_t places_length, int64_t *scratch_registers,
                     size_t scratch_registers_length, uint32_t *scratch_places, size_t scratch_places_length, uint32_t *program,
                     size_t program_length, uint8_t kind, int32_t value, segment_record *after, uint32_t *number, uint64_t *count);

/* The tokens whose preview is no refusal, token k as bit k of *tokens; the same value is tried for all of them. The end is no token. The
 * scratch is as for a preview.
 * *number: 0, or what turns a preview back: 30, 1 to 13, 33, 40, 34, 39; *tokens is then 0.
 * *count: 0, or the table's offset. */
void segment_may(const uint8_t *table, size_t table_length, const segment_record *record, const int64_t *registers,
                 size_t registers_length, const uint32_t *places, size_t places_length, int64_t *scratch_registers,
                 size_t scratch_registers_length, uint32_t *scratch_places, size_t scratch_places_length, uint32_t *program,
                 size_t program_length, int32_t value, uint64_t *tokens, uint32_t *number, uint64_t *count);

/* Ranked suggestions: at most so many candidates, and so many cells of the list for them. */
#define SEGMENT_CANDIDATES 512
#define SEGMENT_LIST_CELLS(candidates) (3 * (candidates))

/* Evaluates candidate segments under one table, each in turn on stacks opened afresh, and lists them. The candidates come as one list of
 * kinds, one of values, and their lengths in kinds. An entry is three cells of `list`: the candidate's number, counted from 0, its value or
 * 0, and its refusal's number (20 to 24, 31, 32 or 35) or 0. Those with a value come first, the highest first and equal values by number;
 * then the refused ones by number. Each candidate has one entry; cells past the entries stay as they were.
 * *valued: how many have a value; *total: the exact total of these values; *entries: how many entries were written.
 * *number: 0, or 37 for more than SEGMENT_CANDIDATES, lengths that do not add up to the kinds or a list with fewer entries than candidates,
 * judged before all others; then 30, 1 to 13, 38. On a refusal *valued, *total and *entries are 0, and no cell of the list and no stack is
 * written. The program area is written as in every call. The stacks are left as the last candidate left them.
 * *offset: 0, or the table's offset. */
void segment_rank(const uint8_t *table, size_t table_length, int64_t *registers, size_t registers_length, uint32_t *places,
                  size_t places_length, uint32_t *program, size_t program_length, int64_t *list, size_t list_length, const uint8_t *kinds,
                  size_t kinds_length, const int32_t *values, size_t values_length, const uint32_t *lengths, size_t lengths_length,
                  size_t *valued, int64_t *total, size_t *entries, uint32_t *number, uint32_t *offset);

/* A native stack that is enough for the next two calls, in bytes. They call themselves for the nodes of a tree, at most 1,023 deep:
 * segment_sheet uses up to 2.5 MB, more than some threads have, segment_judge up to 0.6 MB. All others make do with far less. Call from a
 * thread of your own that has as much (pthread_attr_setstacksize). */
#define SEGMENT_SHEET_STACK (8 * 1024 * 1024)

/* Evaluates a segment by its tree and writes a tree sheet (docs/SHEETS.md) into the first *length bytes of `sheet`: a record for each node,
 * in the order of entering. Value and refusals are those of a run on `registers` registers and `places` places, of which at most
 * SEGMENT_REGISTERS and SEGMENT_PLACES count; no memory is lent for them. Bytes past *length stay as they were.
 * *number: 0, or 1 to 13, 38, 20 to 24, 31, 32, 35, and 41 where the sheet is too short; on a refusal no byte of it is written.
 * *value: the segment's value, or 0 on a refusal.
 * *count: the moves that a run makes; on a refusal the tokens read, or the table's offset.
 * *length: the length of what was written, or 0 on a refusal.
 * This function alone is in libhost_sheets.a, which `hosts/build` writes beside it. */
void segment_sheet(const uint8_t *table, size_t table_length, const uint8_t *kinds, size_t kinds_length, const int32_t *values,
                   size_t values_length, size_t registers, size_t places, uint8_t *sheet, size_t sheet_length, uint32_t *number,
                   int64_t *value, uint64_t *count, uint64_t *length);

/* Judges a tree sheet that another tool has made, any bytes, against table and segment (docs/SHEETS.md): it is accepted exactly where it
 * describes the segment's well evaluated tree, of depth at most 1,023, a record for each node in the order of entering, and nothing after
 * it. Limits of stacks, tokens and moves play no part.
 * *number: 0, or 1 to 13, 38, 43, judged in this order.
 * *value: the root's value, which is the segment's, or 0 on a refusal.
 * *offset: 0, or the table's offset. */
void segment_judge(const uint8_t *table, size_t table_length, const uint8_t *kinds, size_t kinds_length, const int32_t *values,
                   size_t values_length, const uint8_t *sheet, size_t sheet_length, uint32_t *number, int64_t *value, uint32_t *offset);

/* A window over the values of the last finished segments (docs/WINDOW.md): its size is 1 to 64, and its buffer has at least so many
 * cells. The buffer is only written by these two calls; cells past those are never looked at. */
#define SEGMENT_WINDOW 64
#define SEGMENT_WINDOW_CELLS(size) (5 + 2 * (size))

/* Opens a window in the buffer, which may hold anything.
 * *number: 0, or 42 for a size outside 1 to 64 or a buffer that is too short.
 * *total, *largest, *has_largest: all 0, since there is no value yet. */
void segment_window_open(uint64_t size, int64_t *buffer, size_t buffer_length, uint32_t *number, int64_t *total, int64_t *largest,
                         uint32_t *has_largest);

/* Brings what segment_finish handed out, its number, value and count. With the number 0 the value enters, and the oldest leaves where
 * the window is full; with any other nothing changes.
 * *number: 0, or 42 for a value outside its limits or a buffer that no opening and values after it can leave.
 * *total: the exact total of the window's values, 0 on a refusal.
 * *largest: the largest of them, where *has_largest is 1; both are 0 where the window holds no value and on a refusal. */
void segment_window_value(uint32_t finish_number, int64_t finish_value, uint64_t finish_count, int64_t *buffer, size_t buffer_length,
                          uint32_t *number, int64_t *total, int64_t *largest, uint32_t *has_largest);

/* ---- What follows, and segment_run.h, needs nothing of the library but the functions above. ---- */

#if defined(__cplusplus) || (defined(__STDC_VERSION__) && __STDC_VERSION__ >= 199901L)
#define SEGMENT_INLINE static inline
#elif defined(__GNUC__)
#define SEGMENT_INLINE static __inline__ __attribute__((unused))
#else
#define SEGMENT_INLINE static
#endif

/* The reason of a refusal in words. */
SEGMENT_INLINE const char *segment_reason(uint32_t number) {
    switch (number) {
    case SEGMENT_OK:
        return "no refusal";
    case SEGMENT_TABLE_TOO_LONG:
        return "the table is too long";
    case SEGMENT_FIELD_CUT_SHORT:
        return "a field is cut short";
    case SEGMENT_TAG_OUT_OF_ORDER:
        return "a tag is out of order, or the table is over too early";
    case SEGMENT_OUTSIDE_LIMITS:
        return "a length, count or constant is outside its limits";
    case SEGMENT_UNKNOWN_NAME:
        return "a symbol, attribute, occurrence, function or kind is unknown";
    case SEGMENT_WRONG_START:
        return "the start symbol has inherited attributes or lacks the result attribute";
    case SEGMENT_WRONG_SIDE:
        return "a rule sets an input, or something reads an output";
    case SEGMENT_NOT_ONE_RULE:
        return "an output has a second rule, or none";
    case SEGMENT_READS_TOO_FAR:
        return "a rule for an inherited attribute reads its own position or above";
    case SEGMENT_WRONG_CONDITION:
        return "low is above high";
    case SEGMENT_USELESS:
        return "a nonterminal is unreachable or derives no token string";
    case SEGMENT_LEFT_RECURSION:
        return "a nonterminal can reach itself leftmost without reading";
    case SEGMENT_CLASH:
        return "a production clashes with an earlier one";
    case SEGMENT_NO_PRODUCTION:
        return "there is no such production";
    case SEGMENT_UNKNOWN_TOKEN:
        return "the token is not below the number of terminals";
    case SEGMENT_UNEXPECTED_TOKEN:
        return "the token is not the expected one, is in no alternative's set, or follows a start symbol already left";
    case SEGMENT_CONDITION_FALSE:
        return "a condition is false, or no alternative has its entry conditions met";
    case SEGMENT_VALUE_OUTSIDE:
        return "a value is outside -1,000,000,000,000 to 1,000,000,000,000";
    case SEGMENT_SEGMENT_OVER:
        return "the segment is over where a token is expected or no alternative's set holds the end";
    case SEGMENT_PROGRAM_SHORT:
        return "the program area is short";
    case SEGMENT_NEEDS_REGISTERS:
        return "the run needs more registers than were lent; at most 4,096 count";
    case SEGMENT_NEEDS_PLACES:
        return "the run needs more places than were lent; at most 1,024 count";
    case SEGMENT_RUN_CLOSED:
        return "the run is closed";
    case SEGMENT_STACKS_UNFIT:
        return "the stacks do not fit";
    case SEGMENT_TOO_MUCH:
        return "a token after 65,535, or a move after 4,294,967,295 or after the budget";
    case SEGMENT_OUTPUT_SHORT:
        return "the output buffer is too short";
    case SEGMENT_CANDIDATES_UNFIT:
        return "there are more than 512 candidates, their lengths do not add up, or the list is too short";
    case SEGMENT_LISTS_UNEQUAL:
        return "the lists of kinds and values are of unequal length";
    case SEGMENT_SCRATCH_SHORT:
        return "the scratch is shorter than the part of the stacks that a run may use";
    case SEGMENT_RUN_WAITING:
        return "the run waits for its inner run, or a third run would be opened";
    case SEGMENT_SHEET_SHORT:
        return "the sheet buffer is too short";
    case SEGMENT_WINDOW_UNFIT:
        return "the window's size, buffer or value does not fit";
    case SEGMENT_SHEET_WRONG:
        return "the sheet does not describe the segment's tree";
    default:
        return "the number is not known to this version";
    }
}

/* The sum of a table, which `grammar header` writes beside a grammar's names (FNV-1a, 64 bits). */
SEGMENT_INLINE uint64_t segment_sum(const uint8_t *table, size_t table_length) {
    uint64_t sum = UINT64_C(0xcbf29ce484222325);
    size_t i;
    for (i = 0; i < table_length; i++) {
        sum = (sum ^ table[i]) * UINT64_C(0x100000001b3);
    }
    return sum;
}

#ifdef __cplusplus
}
#endif

#include "segment_run.h"

#endif
