/* Runs, inner runs and what goes with them as structs of C, over the functions of segment.h, which includes this file. NULL is allowed for a
 * list of length 0. */
#ifndef SEGMENT_RUN_H
#define SEGMENT_RUN_H

#include "segment.h"

#ifdef __cplusplus
extern "C" {
#endif

/* Memory for one run. SEGMENT_ROOM is all that a run can use: some 100 KB. */
typedef struct {
    int64_t *registers;
    size_t registers_length;
    uint32_t *places;
    size_t places_length;
    uint32_t *program;
    size_t program_length;
} segment_memory;

typedef struct {
    int64_t registers[SEGMENT_REGISTERS];
    uint32_t places[SEGMENT_PLACES];
    uint32_t program[SEGMENT_PROGRAM];
} segment_room;

/* A run: its table, its memory and its record. Read the fields; write none. */
typedef struct {
    const uint8_t *table;
    size_t table_length;
    segment_memory memory;
    segment_record record;
    uint64_t spent; /* the moves that the record counts before the first: SEGMENT_MOVES less the budget */
} segment_run;

/* What a call answers: number is SEGMENT_OK or the refusal's; value is the segment's after a finish; count is the moves made since
 * opening, or with a refusal the tokens read or the table's offset. */
typedef struct {
    uint32_t number;
    int64_t value;
    uint64_t count;
} segment_answer;

SEGMENT_INLINE segment_memory segment_memory_of(segment_room *room) {
    segment_memory m;
    m.registers = room->registers;
    m.registers_length = SEGMENT_REGISTERS;
    m.places = room->places;
    m.places_length = SEGMENT_PLACES;
    m.program = room->program;
    m.program_length = SEGMENT_PROGRAM;
    return m;
}

/* A list's pointer; for NULL, which only a list of length 0 may have, one that is not. */
SEGMENT_INLINE const uint8_t *segment_bytes(const uint8_t *bytes) {
    static const uint8_t none[1] = {0};
    return bytes ? bytes : none;
}

SEGMENT_INLINE const int32_t *segment_values(const int32_t *values) {
    static const int32_t none[1] = {0};
    return values ? values : none;
}

SEGMENT_INLINE segment_memory segment_lent(segment_memory m) {
    static int64_t no_register[1];
    static uint32_t no_word[1];
    if (!m.registers) {
        m.registers = no_register;
    }
    if (!m.places) {
        m.places = no_word;
    }
    if (!m.program) {
        m.program = no_word;
    }
    return m;
}

/* The moves made since opening. */
SEGMENT_INLINE uint64_t segment_moves(const segment_run *run) {
    return run->record.moves < run->spent ? 0 : run->record.moves - run->spent;
}

/* Register k of an open or finished run, counted as the listing counts: 1 is the top. SEGMENT_MARK past the last, and where there is no
 * value yet. */
SEGMENT_INLINE int64_t segment_register(const segment_run *run, uint64_t k) {
    return k >= 1 && k <= run->record.registers ? run->memory.registers[run->record.registers - k] : SEGMENT_MARK;
}

/* The verdict on a table, as an answer. */
SEGMENT_INLINE segment_answer segment_run_check(const uint8_t *table, size_t table_length) {
    segment_answer a = {0, 0, 0};
    uint32_t offset = 0;
    segment_check(segment_bytes(table), table_length, &a.number, &offset);
    a.count = offset;
    return a;
}

/* Opens a run again, for another segment: the same table, memory and budget. */
SEGMENT_INLINE segment_answer segment_run_restart(segment_run *run) {
    segment_answer a = {0, 0, 0};
    const segment_memory *m = &run->memory;
    segment_open(run->table, run->table_length, &run->record, m->registers, m->registers_length, m->places, m->places_length, m->program,
                 m->program_length, &a.number, &a.count);
    if (a.number == SEGMENT_OK) {
        run->record.moves = run->spent;
    }
    return a;
}

/* Opens a run with a budget of moves: the move after it is refused by 35. SEGMENT_MOVES is no budget. Counts are told as if there were
 * none. */
SEGMENT_INLINE segment_answer segment_run_open_with_budget(segment_run *run, const uint8_t *table, size_t table_length,
                                                           segment_memory memory, uint64_t moves) {
    run->table = segment_bytes(table);
    run->table_length = table_length;
    run->memory = segment_lent(memory);
    run->spent = moves < SEGMENT_MOVES ? SEGMENT_MOVES - moves : 0;
    return segment_run_restart(run);
}

SEGMENT_INLINE segment_answer segment_run_open(segment_run *run, const uint8_t *table, size_t table_length, segment_memory memory) {
    return segment_run_open_with_budget(run, table, table_length, memory, SEGMENT_MOVES);
}

/* Feeds tokens with their values. Each call judges the table anew: feed in large pieces. */
SEGMENT_INLINE segment_answer segment_run_feed_values(segment_run *run, const uint8_t *kinds, size_t kinds_length, const int32_t *values,
                                                      size_t values_length) {
    segment_answer a = {0, 0, 0};
    const segment_memory *m = &run->memory;
    segment_feed(run->table, run->table_length, &run->record, m->registers, m->registers_length, m->places, m->places_length, m->program,
                 m->program_length, segment_bytes(kinds), kinds_length, segment_values(values), values_length, &a.number, &a.count);
    if (a.number == SEGMENT_OK) {
        a.count = segment_moves(run);
    }
    return a;
}

/* Feeds tokens whose values are all 0, SEGMENT_PIECE of them in a call: for tables whose tokens carry none. */
#define SEGMENT_PIECE 4096
SEGMENT_INLINE segment_answer segment_run_feed(segment_run *run, const uint8_t *tokens, size_t tokens_length) {
    static const int32_t zeros[SEGMENT_PIECE] = {0};
    segment_answer a;
    tokens = segment_bytes(tokens);
    do {
        size_t piece = tokens_length < SEGMENT_PIECE ? tokens_length : SEGMENT_PIECE;
        a = segment_run_feed_values(run, tokens, piece, zeros, piece);
        tokens_length -= piece;
        tokens += piece;
    } while (a.number == SEGMENT_OK && tokens_length > 0);
    return a;
}

SEGMENT_INLINE segment_answer segment_run_finish(segment_run *run) {
    segment_answer a = {0, 0, 0};
    const segment_memory *m = &run->memory;
    segment_finish(run->table, run->table_length, &run->record, m->registers, m->registers_length, m->places, m->places_length,
                   m->program, m->program_length, &a.number, &a.value, &a.count);
    if (a.number == SEGMENT_OK) {
        a.count = segment_moves(run);
    }
    return a;
}

/* Memory to try tokens on: as many cells as the run's own. A segment_scratch_room is enough for every run. */
typedef struct {
    int64_t *registers;
    size_t registers_length;
    uint32_t *places;
    size_t places_length;
} segment_scratch;

typedef struct {
    int64_t registers[SEGMENT_REGISTERS];
    uint32_t places[SEGMENT_PLACES];
} segment_scratch_room;

SEGMENT_INLINE segment_scratch segment_scratch_of(segment_scratch_room *room) {
    segment_scratch s;
    s.registers = room->registers;
    s.registers_length = SEGMENT_REGISTERS;
    s.places = room->places;
    s.places_length = SEGMENT_PLACES;
    return s;
}

/* The scratch, and the run's program area. */
SEGMENT_INLINE segment_memory segment_tried(const segment_run *run, segment_scratch scratch) {
    segment_memory m;
    m.registers = scratch.registers;
    m.registers_length = scratch.registers_length;
    m.places = scratch.places;
    m.places_length = scratch.places_length;
    m.program = run->memory.program;
    m.program_length = run->memory.program_length;
    return segment_lent(m);
}

/* What feeding one more token would answer; *after, where it is not NULL, is the record that the feed would hand back. The run stays as it
 * is, its program area aside, which every call writes. */
SEGMENT_INLINE segment_answer segment_run_preview(segment_run *run, segment_scratch scratch, uint8_t kind, int32_t value,
                                                  segment_record *after) {
    segment_answer a = {0, 0, 0};
    segment_record next;
    const segment_memory *m = &run->memory;
    const segment_memory s = segment_tried(run, scratch);
    segment_preview(run->table, run->table_length, &run->record, m->registers, m->registers_length, m->places, m->places_length,
                    s.registers, s.registers_length, s.places, s.places_length, s.program, s.program_length, kind, value, &next,
                    &a.number, &a.count);
    if (a.number == SEGMENT_OK) {
        a.count = next.moves < run->spent ? 0 : next.moves - run->spent;
    }
    if (after) {
        *after = next;
    }
    return a;
}

/* The tokens that may come next, with this value for those that carry one: SEGMENT_HAS(tokens, k) says whether token k is among them. */
#define SEGMENT_HAS(tokens, kind) ((kind) < 64 && ((tokens) >> (kind) & 1) == 1)
SEGMENT_INLINE segment_answer segment_run_may(segment_run *run, segment_scratch scratch, int32_t value, uint64_t *tokens) {
    segment_answer a = {0, 0, 0};
    const segment_memory *m = &run->memory;
    const segment_memory s = segment_tried(run, scratch);
    segment_may(run->table, run->table_length, &run->record, m->registers, m->registers_length, m->places, m->places_length, s.registers,
                s.registers_length, s.places, s.places_length, s.program, s.program_length, value, tokens, &a.number, &a.count);
    return a;
}

/* An inner run, over the memory of an outer one: its table and its record. Read the fields; write none. The outer run's budget of moves is
 * the inner run's too, for its own moves. */
typedef struct {
    segment_run *outer;
    const uint8_t *table;
    size_t table_length;
    segment_record record;
} segment_inner_run;

/* The moves made since the inner run's opening. */
SEGMENT_INLINE uint64_t segment_inner_run_moves(const segment_inner_run *inner) {
    return inner->record.moves < inner->outer->spent ? 0 : inner->record.moves - inner->outer->spent;
}

/* Register k of an open inner run: 1 is the top. SEGMENT_MARK past the last, where there is no value yet, and once the run has ended. */
SEGMENT_INLINE int64_t segment_inner_run_register(const segment_inner_run *inner, uint64_t k) {
    const segment_record *r = &inner->record;
    int used = r->status != SEGMENT_STATUS_CLOSED && k >= 1 && k <= r->registers;
    return used ? inner->outer->memory.registers[r->register_base + r->registers - k] : SEGMENT_MARK;
}

/* Opens an inner run above an outer one, which waits until the inner one ends. */
SEGMENT_INLINE segment_answer segment_inner_run_open(segment_inner_run *inner, segment_run *outer, const uint8_t *table,
                                                     size_t table_length) {
    segment_answer a = {0, 0, 0};
    const segment_memory *m = &outer->memory;
    inner->outer = outer;
    inner->table = segment_bytes(table);
    inner->table_length = table_length;
    segment_inner_open(outer->table, outer->table_length, inner->table, table_length, &outer->record, &inner->record, m->registers,
                       m->registers_length, m->places, m->places_length, m->program, m->program_length, &a.number, &a.count);
    if (a.number == SEGMENT_OK) {
        inner->record.moves = outer->spent;
    }
    return a;
}

SEGMENT_INLINE segment_answer segment_inner_run_feed_values(segment_inner_run *inner, const uint8_t *kinds, size_t kinds_length,
                                                            const int32_t *values, size_t values_length) {
    segment_answer a = {0, 0, 0};
    const segment_memory *m = &inner->outer->memory;
    segment_inner_feed(inner->table, inner->table_length, &inner->outer->record, &inner->record, m->registers, m->registers_length,
                       m->places, m->places_length, m->program, m->program_length, segment_bytes(kinds), kinds_length,
                       segment_values(values), values_length, &a.number, &a.count);
    if (a.number == SEGMENT_OK) {
        a.count = segment_inner_run_moves(inner);
    }
    return a;
}

/* Feeds tokens whose values are all 0, SEGMENT_PIECE of them in a call. */
SEGMENT_INLINE segment_answer segment_inner_run_feed(segment_inner_run *inner, const uint8_t *tokens, size_t tokens_length) {
    static const int32_t zeros[SEGMENT_PIECE] = {0};
    segment_answer a;
    tokens = segment_bytes(tokens);
    do {
        size_t piece = tokens_length < SEGMENT_PIECE ? tokens_length : SEGMENT_PIECE;
        a = segment_inner_run_feed_values(inner, tokens, piece, zeros, piece);
        tokens_length -= piece;
        tokens += piece;
    } while (a.number == SEGMENT_OK && tokens_length > 0);
    return a;
}

/* Finishes the inner run's segment; the run ends, and the outer one goes on. */
SEGMENT_INLINE segment_answer segment_inner_run_finish(segment_inner_run *inner) {
    segment_answer a = {0, 0, 0};
    const segment_memory *m = &inner->outer->memory;
    segment_inner_finish(inner->table, inner->table_length, &inner->outer->record, &inner->record, m->registers, m->registers_length,
                         m->places, m->places_length, m->program, m->program_length, &a.number, &a.value, &a.count);
    if (a.number == SEGMENT_OK) {
        a.count = segment_inner_run_moves(inner);
    }
    return a;
}

/* Gives the inner run up; the outer one goes on. */
SEGMENT_INLINE segment_answer segment_inner_run_give_up(segment_inner_run *inner) {
    segment_answer a = {0, 0, 0};
    const segment_memory *m = &inner->outer->memory;
    segment_inner_give_up(inner->table, inner->table_length, &inner->outer->record, &inner->record, m->registers, m->registers_length,
                          m->places, m->places_length, m->program, m->program_length, &a.number, &a.count);
    if (a.number == SEGMENT_OK) {
        a.count = segment_inner_run_moves(inner);
    }
    return a;
}

/* Candidate segments to rank: the tokens of all, one after the other, and how many belong to each. */
typedef struct {
    const uint8_t *kinds;
    size_t kinds_length;
    const int32_t *values;
    size_t values_length;
    const uint32_t *lengths;
    size_t lengths_length;
} segment_candidates;

/* What a ranking answers: number is SEGMENT_OK or the refusal's, which comes with the table's offset or 0. */
typedef struct {
    uint32_t number;
    uint32_t offset;
    size_t valued;
    int64_t total;
    size_t entries;
} segment_ranking;

/* Ranks candidates on memory of their own: not that of a run that is to go on. An entry i is list[3 * i], list[3 * i + 1] and
 * list[3 * i + 2]: number, value, refusal. */
SEGMENT_INLINE segment_ranking segment_rank_candidates(const uint8_t *table, size_t table_length, segment_memory memory,
                                                       segment_candidates c, int64_t *list, size_t list_length) {
    static const uint32_t no_length[1] = {0};
    static int64_t no_cell[1];
    segment_ranking r = {0, 0, 0, 0, 0};
    const segment_memory m = segment_lent(memory);
    segment_rank(segment_bytes(table), table_length, m.registers, m.registers_length, m.places, m.places_length, m.program,
                 m.program_length, list ? list : no_cell, list_length, segment_bytes(c.kinds), c.kinds_length, segment_values(c.values),
                 c.values_length, c.lengths ? c.lengths : no_length, c.lengths_length, &r.valued, &r.total, &r.entries, &r.number,
                 &r.offset);
    return r;
}

#ifdef __cplusplus
}
#endif

#endif
