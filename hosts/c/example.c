/* A first run of the grammar of words and tags: tokens 0 word, 1 open, 2 close; the value is the number of words.
 * Its table is read from the file that is named on the command line (grammars/words.table).
 *
 *     gcc -Ihosts/c -o example hosts/c/example.c target/staticlib/libhost.a */
#include "segment.h"

#include <inttypes.h>
#include <stdio.h>

static uint8_t table[32769];
static size_t table_length;
static segment_room room;
static segment_run run;
static uint8_t listing[100];

static void told(const char *name, segment_answer a) {
    if (a.number == SEGMENT_OK) {
        printf("%s: %" PRIu64 " moves\n", name, a.count);
    } else {
        printf("%s: refused %" PRIu32 " after %" PRIu64 " %s: %s\n", name, a.number, a.count, a.count == 1 ? "token" : "tokens",
               segment_reason(a.number));
    }
}

static void finish(void) {
    segment_answer a = segment_run_finish(&run);
    if (a.number == SEGMENT_OK) {
        printf("value %" PRId64 " after %" PRIu64 " tokens and %" PRIu64 " moves\n", a.value, run.record.tokens, a.count);
    } else {
        told("end", a);
    }
}

static void show_stacks(void) {
    printf("registers from the top:");
    for (uint64_t k = 1; k <= run.record.registers; k++) {
        int64_t value = segment_register(&run, k);
        if (value == SEGMENT_MARK) {
            printf(" mark");
        } else {
            printf(" %" PRId64, value);
        }
    }
    printf("\nplaces from the bottom:");
    for (uint64_t i = 0; i < run.record.places; i++) {
        printf(" %" PRIu32, room.places[i]);
    }
    printf("\n");
}

static void look_at_the_table(void) {
    segment_answer a = segment_run_check(table, table_length);
    printf("table of %zu bytes: number %" PRIu32 ", offset %" PRIu64 ", sum %016" PRIx64 "\n", table_length, a.number, a.count,
           segment_sum(table, table_length));
    size_t start, length;
    uint32_t number, offset, over;
    segment_stretch(table, table_length, 2, &start, &length, &number, &offset);
    printf("production 2: %zu bytes from byte %zu\n", length, start);
    segment_list(table, table_length, room.program, SEGMENT_PROGRAM, listing, sizeof listing, &length, &over);
    printf("%.*s", (int)length, (const char *)listing);
    printf("%s\n", over ? "that is all" : "and more");
}

int main(int argc, char **argv) {
    FILE *file = argc == 2 ? fopen(argv[1], "rb") : NULL;
    if (file == NULL) {
        fprintf(stderr, "usage: example FILE\n");
        return 1;
    }
    table_length = fread(table, 1, sizeof table, file);
    fclose(file);
    look_at_the_table();

    told("opened", segment_run_open(&run, table, table_length, segment_memory_of(&room)));
    told("word open", segment_run_feed(&run, (const uint8_t[]){0, 1}, 2));
    told("no token", segment_run_feed(&run, NULL, 0));
    show_stacks();
    told("word close", segment_run_feed(&run, (const uint8_t[]){0, 2}, 2));
    finish();

    segment_run_restart(&run);
    told("word close", segment_run_feed(&run, (const uint8_t[]){0, 2}, 2));
    segment_run_restart(&run);
    told("open", segment_run_feed(&run, (const uint8_t[]){1}, 1));
    finish();
    segment_run_open_with_budget(&run, table, table_length, segment_memory_of(&room), 20);
    told("three words, 20 moves", segment_run_feed(&run, (const uint8_t[]){0, 0, 0}, 3));
    finish();
    return 0;
}
