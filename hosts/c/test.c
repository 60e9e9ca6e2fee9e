/* The functions over a segment_run and a segment_inner_run, at their edges, previews, a ranking, a sheet, house order,
 * and a window. */
#include "segment.h"

#include <stdio.h>
#include <string.h>

static const uint8_t words[] = {
#include "words.inc"
};
static const uint8_t lengths[] = {
#include "lengths.inc"
};
static segment_room room;
static segment_run run;
static int failed;

static void must(int line, int right) {
    if (!right) {
        failed = 1;
        printf("hosts/c/test.c:%d\n", line);
    }
}
#define MUST(right) must(__LINE__, (right))

static int is(segment_answer a, uint32_t number, uint64_t count) { return a.number == number && a.count == count; }

static void nothing_lent(void) {
    segment_memory none;
    memset(&none, 0, sizeof none);
    MUST(is(segment_run_check(NULL, 0), SEGMENT_TAG_OUT_OF_ORDER, 0));
    MUST(is(segment_run_check(words, sizeof words), SEGMENT_OK, 0));
    MUST(is(segment_run_open(&run, words, sizeof words, none), SEGMENT_PROGRAM_SHORT, 0));
    none.program = room.program;
    none.program_length = SEGMENT_PROGRAM;
    MUST(is(segment_run_open(&run, words, sizeof words, none), SEGMENT_NEEDS_REGISTERS, 0));
    MUST(is(segment_run_feed(&run, NULL, 0), SEGMENT_RUN_CLOSED, 0));
    MUST(is(segment_run_open(&run, NULL, 0, segment_memory_of(&room)), SEGMENT_TAG_OUT_OF_ORDER, 0));
}

static void a_run(void) {
    static const uint8_t tokens[] = {0, 1, 0, 2};
    segment_answer a;
    MUST(is(segment_run_open(&run, words, sizeof words, segment_memory_of(&room)), SEGMENT_OK, 0));
    MUST(is(segment_run_feed(&run, tokens, 2), SEGMENT_OK, 11));
    MUST(is(segment_run_feed(&run, NULL, 0), SEGMENT_OK, 11));
    MUST(segment_register(&run, 1) == 1 && segment_register(&run, 2) == SEGMENT_MARK && segment_register(&run, 3) == 0);
    MUST(segment_register(&run, 0) == SEGMENT_MARK && segment_register(&run, 8) == SEGMENT_MARK);
    MUST(is(segment_run_feed(&run, tokens + 2, 2), SEGMENT_OK, 23));
    a = segment_run_finish(&run);
    MUST(is(a, SEGMENT_OK, 32) && a.value == 2);
    MUST(is(segment_run_finish(&run), SEGMENT_RUN_CLOSED, 0));
}

static void values(void) {
    static const uint8_t kinds[] = {0, 1, 0, 2};
    static const int32_t values[] = {4, 99, 7, -1};
    segment_answer a;
    MUST(is(segment_run_open(&run, lengths, sizeof lengths, segment_memory_of(&room)), SEGMENT_OK, 0));
    MUST(is(segment_run_feed_values(&run, kinds, 2, values, 2), SEGMENT_OK, 12) && segment_register(&run, 5) == 4);
    MUST(is(segment_run_feed_values(&run, kinds, 2, values, 1), SEGMENT_LISTS_UNEQUAL, 0));
    MUST(is(segment_run_feed_values(&run, NULL, 0, values, 1), SEGMENT_LISTS_UNEQUAL, 0));
    MUST(is(segment_run_feed_values(&run, kinds, 1, NULL, 0), SEGMENT_LISTS_UNEQUAL, 0));
    MUST(is(segment_run_feed_values(&run, NULL, 0, NULL, 0), SEGMENT_OK, 12));
    MUST(segment_run_feed_values(&run, kinds + 2, 2, values + 2, 2).number == SEGMENT_OK);
    a = segment_run_finish(&run);
    MUST(a.number == SEGMENT_OK && a.value == 11);
    segment_run_restart(&run);
    MUST(is(segment_run_feed(&run, kinds, 1), SEGMENT_CONDITION_FALSE, 1));
}

/* The call that changes the record in place: a feed, and one that is turned back. */
static void in_place(void) {
    static const uint8_t kinds[] = {0, 1};
    static const int32_t values[] = {4, 99};
    const segment_memory m = segment_memory_of(&room);
    uint32_t number;
    uint64_t count;
    MUST(is(segment_run_open(&run, lengths, sizeof lengths, m), SEGMENT_OK, 0));
    segment_feed_in_place(lengths, sizeof lengths, &run.record, m.registers, m.registers_length, m.places, m.places_length, m.program,
                          m.program_length, kinds, 2, values, 2, &number, &count);
    MUST(number == SEGMENT_OK && count == 12 && run.record.tokens == 2 && segment_register(&run, 5) == 4);
    segment_feed_in_place(lengths, sizeof lengths, &run.record, m.registers, m.registers_length, m.places, m.places_length, m.program,
                          m.program_length, kinds, 2, values, 1, &number, &count);
    MUST(number == SEGMENT_LISTS_UNEQUAL && count == 0 && run.record.tokens == 2 && segment_register(&run, 5) == 4);
}

/* Tokens without values go in pieces: more of them than a piece has. */
static void many_tokens(void) {
    static uint8_t tokens[3 * SEGMENT_PIECE];
    uint64_t read = SEGMENT_PLACES - 2;
    MUST(is(segment_run_open(&run, words, sizeof words, segment_memory_of(&room)), SEGMENT_OK, 0));
    MUST(is(segment_run_feed(&run, tokens, sizeof tokens), SEGMENT_NEEDS_PLACES, read) && run.record.tokens == read);
    MUST(is(segment_run_feed(&run, tokens, 0), SEGMENT_RUN_CLOSED, 0));
}

static void budgets(void) {
    static const uint8_t tokens[] = {0, 1, 0, 2};
    uint64_t budget;
    for (budget = 0; budget < 40; budget++) {
        segment_answer a = segment_run_open_with_budget(&run, words, sizeof words, segment_memory_of(&room), budget);
        MUST(is(a, SEGMENT_OK, 0) && segment_moves(&run) == 0);
        a = segment_run_feed(&run, tokens, sizeof tokens);
        if (a.number == SEGMENT_OK) {
            a = segment_run_finish(&run);
        }
        MUST(budget < 32 ? a.number == SEGMENT_TOO_MUCH && segment_moves(&run) == budget : is(a, SEGMENT_OK, 32) && a.value == 2);
    }
    MUST(is(segment_run_open_with_budget(&run, words, sizeof words, segment_memory_of(&room), UINT64_MAX), SEGMENT_OK, 0));
    MUST(is(segment_run_feed(&run, tokens, 2), SEGMENT_OK, 11));
}

/* A footnote of lengths inside words and tags, stopped after word open: finished, refused, given up. */
static void inner_runs(void) {
    static const uint8_t tokens[] = {0, 1, 0, 2};
    static const int32_t letters[] = {4, 0, 7, 0};
    static const segment_record zero = {0, 0, 0, 0, 0, 0, 0, 0};
    segment_inner_run note, third;
    segment_memory small = segment_memory_of(&room);
    segment_answer a;
    int64_t before[7];
    small.registers_length = 8;
    MUST(is(segment_run_open(&run, words, sizeof words, segment_memory_of(&room)), SEGMENT_OK, 0));
    MUST(is(segment_run_feed(&run, tokens, 2), SEGMENT_OK, 11));
    memcpy(before, room.registers, sizeof before);
    MUST(is(segment_inner_run_open(&note, &run, lengths, sizeof lengths), SEGMENT_OK, 0));
    MUST(run.record.status == SEGMENT_STATUS_WAITING && note.record.kind == SEGMENT_KIND_INNER);
    MUST(note.record.register_base == 7 && note.record.place_base == 4 && room.places[4] == 32768);
    MUST(is(segment_run_feed(&run, tokens, 1), SEGMENT_RUN_WAITING, 0) && is(segment_run_finish(&run), SEGMENT_RUN_WAITING, 0));
    MUST(is(segment_inner_run_open(&third, &run, words, sizeof words), SEGMENT_RUN_WAITING, 0));
    MUST(memcmp(&third.record, &zero, sizeof zero) == 0);
    MUST(is(segment_inner_run_feed_values(&note, tokens, 2, letters, 2), SEGMENT_OK, 12));
    MUST(segment_inner_run_register(&note, 5) == 4 && segment_inner_run_register(&note, 9) == SEGMENT_MARK);
    MUST(is(segment_inner_run_feed_values(&note, tokens, 2, letters, 1), SEGMENT_LISTS_UNEQUAL, 0));
    MUST(is(segment_inner_run_feed(&note, NULL, 0), SEGMENT_OK, 12));
    MUST(segment_inner_run_feed_values(&note, tokens + 2, 2, letters + 2, 2).number == SEGMENT_OK);
    a = segment_inner_run_finish(&note);
    MUST(a.number == SEGMENT_OK && a.value == 11 && segment_inner_run_moves(&note) == a.count);
    MUST(run.record.status == SEGMENT_STATUS_RUNNING && note.record.status == SEGMENT_STATUS_CLOSED);
    MUST(memcmp(before, room.registers, sizeof before) == 0 && room.registers[7] == SEGMENT_MARK && room.places[4] == 0);
    MUST(segment_inner_run_register(&note, 1) == SEGMENT_MARK);
    MUST(is(segment_inner_run_finish(&note), SEGMENT_RUN_CLOSED, 0) && is(segment_inner_run_give_up(&note), SEGMENT_RUN_CLOSED, 0));
    MUST(is(segment_inner_run_open(&note, &run, words, sizeof words), SEGMENT_OK, 0));
    MUST(is(segment_inner_run_feed(&note, tokens + 3, 1), SEGMENT_UNEXPECTED_TOKEN, 0) && run.record.status == SEGMENT_STATUS_RUNNING);
    MUST(is(segment_inner_run_open(&note, &run, words, sizeof words), SEGMENT_OK, 0));
    MUST(is(segment_inner_run_feed(&note, tokens, 2), SEGMENT_OK, 11) && is(segment_inner_run_give_up(&note), SEGMENT_OK, 11));
    MUST(note.record.tokens == 2 && note.record.registers == 7 && note.record.places == 4);
    MUST(is(segment_inner_run_open(&note, &run, NULL, 0), SEGMENT_TAG_OUT_OF_ORDER, 0));
    MUST(is(segment_run_feed(&run, tokens + 2, 2), SEGMENT_OK, 23));
    a = segment_run_finish(&run);
    MUST(is(a, SEGMENT_OK, 32) && a.value == 2);
    MUST(is(segment_inner_run_open(&note, &run, words, sizeof words), SEGMENT_RUN_CLOSED, 0));
    MUST(is(segment_run_open_with_budget(&run, words, sizeof words, small, 11), SEGMENT_OK, 0));
    MUST(is(segment_run_feed(&run, tokens, 2), SEGMENT_OK, 11));
    MUST(is(segment_inner_run_open(&note, &run, words, sizeof words), SEGMENT_OK, 0) && segment_inner_run_moves(&note) == 0);
    MUST(is(segment_inner_run_finish(&note), SEGMENT_NEEDS_REGISTERS, 0) && segment_inner_run_moves(&note) == 1);
    segment_run_restart(&run);
    MUST(is(segment_inner_run_open(&note, &run, words, sizeof words), SEGMENT_OK, 0));
    MUST(is(segment_inner_run_feed(&note, tokens, 4), SEGMENT_TOO_MUCH, 2) && segment_inner_run_moves(&note) == 11);
}

/* Words and tags, stopped after word open, and what may come: the run stays as it is. */
static void previews(void) {
    static const uint8_t tokens[] = {0, 1, 0, 2};
    static segment_scratch_room cells;
    segment_scratch scratch = segment_scratch_of(&cells), none;
    segment_record before, after;
    segment_inner_run note;
    segment_answer a;
    uint64_t set = 7;
    int64_t register_before;
    memset(&none, 0, sizeof none);
    cells.registers[0] = 7;
    cells.places[0] = 9;
    MUST(is(segment_run_open(&run, words, sizeof words, segment_memory_of(&room)), SEGMENT_OK, 0));
    MUST(is(segment_run_may(&run, scratch, 0, &set), SEGMENT_OK, 0) && set == 3 && SEGMENT_HAS(set, 1) && !SEGMENT_HAS(set, 2));
    MUST(is(segment_run_feed(&run, tokens, 2), SEGMENT_OK, 11));
    before = run.record;
    register_before = room.registers[6];
    a = segment_run_preview(&run, scratch, 0, 0, &after);
    MUST(is(a, SEGMENT_OK, 15) && after.tokens == 3 && after.registers == 9 && after.places == 5);
    MUST(is(segment_run_preview(&run, scratch, 2, 0, NULL), SEGMENT_OK, 17));
    MUST(is(segment_run_preview(&run, scratch, 3, 0, &after), SEGMENT_UNKNOWN_TOKEN, 2) && after.status == SEGMENT_STATUS_CLOSED);
    MUST(is(segment_run_preview(&run, none, 0, 0, &after), SEGMENT_SCRATCH_SHORT, 0) && memcmp(&after, &before, sizeof after) == 0);
    scratch.places_length = SEGMENT_PLACES - 1;
    cells.registers[0] = 7;
    MUST(is(segment_run_may(&run, scratch, 0, &set), SEGMENT_SCRATCH_SHORT, 0) && set == 0 && cells.registers[0] == 7);
    scratch.places_length = SEGMENT_PLACES;
    MUST(is(segment_run_may(&run, scratch, 0, &set), SEGMENT_OK, 0) && set == 7);
    MUST(cells.registers[0] == SEGMENT_MARK && cells.places[0] == 0 && cells.places[3] == 0 && room.registers[6] == register_before);
    MUST(memcmp(&run.record, &before, sizeof before) == 0);
    MUST(is(segment_inner_run_open(&note, &run, words, sizeof words), SEGMENT_OK, 0));
    MUST(is(segment_run_preview(&run, scratch, 0, 0, NULL), SEGMENT_RUN_WAITING, 0));
    MUST(is(segment_inner_run_give_up(&note), SEGMENT_OK, 0));
    MUST(is(segment_run_feed(&run, tokens + 2, 2), SEGMENT_OK, 23) && segment_run_finish(&run).value == 2);
    MUST(is(segment_run_may(&run, none, 0, &set), SEGMENT_RUN_CLOSED, 0) && set == 0);
    MUST(is(segment_run_open_with_budget(&run, lengths, sizeof lengths, segment_memory_of(&room), 7), SEGMENT_OK, 0));
    MUST(is(segment_run_may(&run, scratch, 4, &set), SEGMENT_OK, 0) && set == 2);
    MUST(is(segment_run_preview(&run, scratch, 0, 4, &after), SEGMENT_TOO_MUCH, 1));
    MUST(is(segment_run_feed(&run, tokens + 1, 1), SEGMENT_OK, 7));
}

/* Five candidates of lengths: 4 letters, none, refused, 11 letters, 4 letters; then what is turned back. */
static void rankings(void) {
    static const uint8_t kinds[] = {0, 2, 0, 1, 0, 2, 0};
    static const int32_t letters[] = {4, 0, 4, 0, 7, 0, 4};
    static const uint32_t lengths_of[] = {1, 0, 1, 4, 1};
    static const int64_t must_be[] = {3, 11, 0, 0, 4, 0, 4, 4, 0, 1, 0, 0, 2, 0, 21, 77};
    static const uint32_t many[SEGMENT_CANDIDATES + 1];
    static int64_t long_list[SEGMENT_LIST_CELLS(SEGMENT_CANDIDATES + 1)];
    const segment_memory m = segment_memory_of(&room);
    segment_memory none;
    segment_candidates c = {kinds, 7, letters, 7, lengths_of, 5};
    segment_ranking r;
    int64_t list[SEGMENT_LIST_CELLS(5) + 1];
    memset(&none, 0, sizeof none);
    list[0] = list[15] = 77;
    r = segment_rank_candidates(lengths, sizeof lengths, m, c, list, 14);
    MUST(r.number == SEGMENT_CANDIDATES_UNFIT && r.offset == 0 && r.valued == 0 && r.total == 0 && r.entries == 0 && list[0] == 77);
    MUST(segment_rank_candidates(NULL, 0, none, c, NULL, 0).number == SEGMENT_CANDIDATES_UNFIT);
    MUST(segment_rank_candidates(NULL, 0, none, c, list, 15).number == SEGMENT_PROGRAM_SHORT);
    r = segment_rank_candidates(lengths, 100, m, c, list, 15);
    MUST(r.number == SEGMENT_FIELD_CUT_SHORT && r.offset == 93 && list[0] == 77);
    c.values_length = 6;
    MUST(segment_rank_candidates(lengths, sizeof lengths, m, c, list, 15).number == SEGMENT_LISTS_UNEQUAL && list[0] == 77);
    c.values_length = 7;
    r = segment_rank_candidates(lengths, sizeof lengths, m, c, list, 15);
    MUST(r.number == SEGMENT_OK && r.offset == 0 && r.valued == 4 && r.total == 19 && r.entries == 5);
    MUST(memcmp(list, must_be, sizeof must_be) == 0);
    c.lengths_length = 4;
    MUST(segment_rank_candidates(lengths, sizeof lengths, m, c, list, 15).number == SEGMENT_CANDIDATES_UNFIT);
    memset(&c, 0, sizeof c);
    r = segment_rank_candidates(lengths, sizeof lengths, m, c, NULL, 0);
    MUST(r.number == SEGMENT_OK && r.valued == 0 && r.total == 0 && r.entries == 0);
    c.lengths = many;
    c.lengths_length = SEGMENT_CANDIDATES;
    r = segment_rank_candidates(words, sizeof words, m, c, long_list, SEGMENT_LIST_CELLS(SEGMENT_CANDIDATES));
    MUST(r.number == SEGMENT_OK && r.valued == SEGMENT_CANDIDATES && r.total == 0 && long_list[1533] == 511);
    c.lengths_length = SEGMENT_CANDIDATES + 1;
    r = segment_rank_candidates(words, sizeof words, m, c, long_list, SEGMENT_LIST_CELLS(SEGMENT_CANDIDATES + 1));
    MUST(r.number == SEGMENT_CANDIDATES_UNFIT);
}

/* The sheet of a word of 4 letters as it is written, into room that is short and more than enough, and for a segment that is refused. */
static void written(const uint8_t *right) {
    static const uint8_t kinds[] = {0};
    static const int32_t letters[] = {4, 41};
    uint8_t out[78];
    uint32_t number = 7;
    int64_t value = 7;
    uint64_t count = 7, length = 7;
    memset(out, 0xa5, sizeof out);
    segment_sheet(lengths, sizeof lengths, kinds, 1, letters, 1, 4096, 1024, out, 75, &number, &value, &count, &length);
    MUST(number == SEGMENT_SHEET_SHORT && value == 0 && count == 0 && length == 0 && out[0] == 0xa5 && out[74] == 0xa5);
    segment_sheet(lengths, sizeof lengths, kinds, 1, letters + 1, 1, 4096, 1024, out, 78, &number, &value, &count, &length);
    MUST(number == SEGMENT_CONDITION_FALSE && value == 0 && count == 1 && length == 0 && out[0] == 0xa5);
    segment_sheet(lengths, sizeof lengths, kinds, 1, letters, 2, 0, 0, out, 78, &number, &value, &count, &length);
    MUST(number == SEGMENT_LISTS_UNEQUAL && count == 0);
    segment_sheet(lengths, sizeof lengths, kinds, 1, letters, 1, 0, 0, out, 78, &number, &value, &count, &length);
    MUST(number == SEGMENT_NEEDS_REGISTERS && count == 0);
    segment_sheet(lengths, 100, kinds, 1, letters, 2, 0, 0, out, 78, &number, &value, &count, &length);
    MUST(number == SEGMENT_FIELD_CUT_SHORT && count == 93 && out[0] == 0xa5 && out[77] == 0xa5);
    segment_sheet(lengths, sizeof lengths, kinds, 1, letters, 1, 4096, 1024, out, 78, &number, &value, &count, &length);
    MUST(number == SEGMENT_OK && value == 4 && length == 76 && memcmp(out, right, 76) == 0 && out[76] == 0xa5 && out[77] == 0xa5);
}

/* The sheet of a word of 4 letters: the list of words inside the segment, and the empty list inside that. Then the same changed. */
static void sheets(void) {
    static const uint8_t kinds[] = {0};
    static const int32_t letters[] = {4, 5};
    uint8_t sheet[20 + 28 + 28 + 1];
    uint32_t number = 7, offset = 7;
    int64_t value = 7;
    size_t i;
    memset(sheet, 0, sizeof sheet);
    sheet[11] = 1, sheet[19] = 4;                                /* production 0, the token covered, 4 letters */
    sheet[23] = 1, sheet[31] = 1, sheet[47] = 4;                 /* production 1, the token covered, inside 0 tags, 4 letters */
    sheet[51] = 3, sheet[55] = 1;                                /* production 3 behind the token */
    segment_judge(lengths, sizeof lengths, kinds, 1, letters, 1, sheet, 76, &number, &value, &offset);
    MUST(number == SEGMENT_OK && value == 4 && offset == 0);
    written(sheet);
    for (i = 0; i < 76; i++) {
        sheet[i] ^= 1;
        segment_judge(lengths, sizeof lengths, kinds, 1, letters, 1, sheet, 76, &number, &value, &offset);
        MUST(number == SEGMENT_SHEET_WRONG && value == 0 && offset == 0);
        sheet[i] ^= 1;
    }
    segment_judge(lengths, sizeof lengths, kinds, 1, letters + 1, 1, sheet, 76, &number, &value, &offset);
    MUST(number == SEGMENT_SHEET_WRONG);
    segment_judge(lengths, sizeof lengths, kinds, 1, letters, 1, sheet, 77, &number, &value, &offset);
    MUST(number == SEGMENT_SHEET_WRONG);
    segment_judge(lengths, sizeof lengths, kinds, 1, letters, 2, sheet, 76, &number, &value, &offset);
    MUST(number == SEGMENT_LISTS_UNEQUAL && value == 0 && offset == 0);
    segment_judge(lengths, 100, kinds, 1, letters, 2, sheet, 76, &number, &value, &offset);
    MUST(number == SEGMENT_FIELD_CUT_SHORT && value == 0 && offset == 93);
}

/* Words and tags, and the same with its condition, the 14 bytes before byte 121, said twice: one table in house order. */
static void house(void) {
    static uint8_t twice[sizeof words + 14], out[sizeof words + 1], other[sizeof twice];
    size_t length = 7;
    uint32_t number = 7, offset = 7;
    memcpy(twice, words, 121);
    memcpy(twice + 121, words + 107, sizeof words - 107);
    memset(out, 0xa5, sizeof out);
    segment_house(twice, sizeof twice, out, sizeof words - 1, &length, &number, &offset);
    MUST(number == SEGMENT_OUTPUT_SHORT && offset == 0 && length == 0 && out[0] == 0xa5);
    segment_house(twice, 100, out, 0, &length, &number, &offset);
    MUST(number == SEGMENT_FIELD_CUT_SHORT && offset == 97 && length == 0);
    segment_house(twice, sizeof twice, out, sizeof words, &length, &number, &offset);
    MUST(number == SEGMENT_OK && offset == 0 && length == sizeof words && out[sizeof words] == 0xa5);
    MUST(memcmp(out, words, 17) == 0 && memcmp(out, words, sizeof words) != 0);
    segment_house(words, sizeof words, other, sizeof other, &length, &number, &offset);
    MUST(number == SEGMENT_OK && length == sizeof words && memcmp(other, out, sizeof words) == 0);
    segment_house(out, sizeof words, other, sizeof other, &length, &number, &offset);
    MUST(number == SEGMENT_OK && length == sizeof words && memcmp(other, out, sizeof words) == 0);
}

static void windows(void) {
    int64_t cells[SEGMENT_WINDOW_CELLS(3)];
    int64_t total, largest;
    uint32_t number, has_largest;
    segment_window_open(3, cells, SEGMENT_WINDOW_CELLS(3) - 1, &number, &total, &largest, &has_largest);
    MUST(number == SEGMENT_WINDOW_UNFIT);
    segment_window_open(3, cells, SEGMENT_WINDOW_CELLS(3), &number, &total, &largest, &has_largest);
    MUST(number == SEGMENT_OK && total == 0 && has_largest == 0);
    segment_window_value(SEGMENT_OK, 5, 32, cells, SEGMENT_WINDOW_CELLS(3), &number, &total, &largest, &has_largest);
    segment_window_value(SEGMENT_OK, -2, 32, cells, SEGMENT_WINDOW_CELLS(3), &number, &total, &largest, &has_largest);
    segment_window_value(SEGMENT_SEGMENT_OVER, 0, 3, cells, SEGMENT_WINDOW_CELLS(3), &number, &total, &largest, &has_largest);
    MUST(number == SEGMENT_OK && total == 3 && has_largest == 1 && largest == 5);
}

int main(void) {
    uint32_t number;
    nothing_lent();
    a_run();
    values();
    in_place();
    many_tokens();
    budgets();
    inner_runs();
    previews();
    rankings();
    sheets();
    house();
    windows();
    for (number = 0; number <= 43; number++) {
        MUST(segment_reason(number)[0] != 0);
    }
    MUST(strcmp(segment_reason(15), segment_reason(99)) == 0 && strcmp(segment_reason(14), segment_reason(15)) != 0);
    MUST(segment_sum(words, sizeof words) == UINT64_C(0xd30e9953d2057f43) && strcmp(SEGMENT_VERSION, "0.3.0") == 0);
    return failed;
}
