/* judge_table FILE..: searches each table file, writes the rows that the search made as a proof
   list, and has the list judged. The judge knows nothing of the search, so that its "accepted" stands
   by itself.

   In the repository's folder, on x86-64 Linux:

       ./archive
       gcc -std=c11 -Wall -Wextra -O2 -I include examples/c/judge_table.c \
           target/staticlib/liblcs.a -o target/judge_table
       target/judge_table examples/a.table examples/b.table

   Exit status: 0 if each file could be read and its table is good, whatever the judge says; else 1. */
#include "lcs.h"

#include <inttypes.h>
#include <stdio.h>

enum {
    TABLE_BYTES_MAX = 36874, /* the longest legal table */
    ROWS_MAX = 1024,
    ROW_WORDS = 103,
    /* A record's head, a state, and 4 products of 24 atoms with their counts. */
    LIST_ROW_BYTES_MAX = 4 + 2 + 4 * (1 + 2 * 24)
};

/* All memory is lent by the caller: the library has none of its own. */
static uint8_t table[TABLE_BYTES_MAX + 1];
static uint16_t work[ROWS_MAX * ROW_WORDS];
static uint16_t run[2 * ROWS_MAX];
static uint8_t list[ROWS_MAX * LIST_ROW_BYTES_MAX];

/* Reads a file to the front of table. Says whether it could, and how long it is; one byte more than a
   table may have is enough to have it refused. */
static int read_table(const char *file, size_t *length)
{
    FILE *in = fopen(file, "rb");
    if (in == NULL)
        return 0;
    *length = fread(table, 1, sizeof table, in);
    int well = !ferror(in);
    fclose(in);
    return well;
}

static void print_refused(const uint64_t out[3])
{
    printf("refused %" PRIu64 ", input %" PRIu64 ", place %" PRIu64 "\n", out[0], out[1], out[2]);
}

static void print_verdict(uint32_t verdict, const uint64_t out[3])
{
    static const char *const names[] = {"safe", "unsafe", "rows full", "atoms full"};
    printf("%s, %" PRIu64 " rows", names[verdict], out[0]);
    if (verdict == 1)
        printf(", %" PRIu64 " steps", out[1]);
    if (verdict > 1)
        printf(" at row %" PRIu64 ", transition %" PRIu64, out[1], out[2]);
}

static void print_judgement(uint32_t judgement, const uint64_t out[3])
{
    switch (judgement) {
    case 0:
        printf("accepted\n");
        break;
    case 1:
        printf("no start\n");
        break;
    case 2:
        printf("bad row %" PRIu64 "\n", out[0]);
        break;
    case 3:
        printf("not closed at row %" PRIu64 ", transition %" PRIu64 "\n", out[0], out[1]);
        break;
    default:
        print_refused(out);
    }
}

/* Searches the table, writes its rows as a list and judges that. Says whether the table is good. */
static int judge_rows(size_t length)
{
    uint64_t out[3];
    uint32_t verdict = lcs_search(table, length, work, ROWS_MAX * ROW_WORDS, run, 2 * ROWS_MAX, out);
    if (verdict == 4) {
        print_refused(out);
        return 0;
    }
    print_verdict(verdict, out);

    /* Rows that a search made are never refused, and the list has room for all there may be. */
    uint64_t rows = out[0];
    lcs_write_list(table, length, work, ROWS_MAX * ROW_WORDS, rows, list, sizeof list, out);
    size_t list_length = (size_t)out[0];
    printf("; its list of %zu bytes: ", list_length);

    uint32_t judgement = lcs_judge(table, length, list, list_length, out);
    print_judgement(judgement, out);
    return 1;
}

int main(int count, char **words)
{
    int status = 0;
    for (int i = 1; i < count; i++) {
        size_t length;
        printf("%s: ", words[i]);
        if (!read_table(words[i], &length)) {
            printf("cannot be read\n");
            status = 1;
        } else if (!judge_rows(length)) {
            status = 1;
        }
    }
    return status;
}
