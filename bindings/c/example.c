/*
 * Three uses of the library. All read a file of the form that the program `sheet` reads: 56 bytes of
 * words, 7,904 of F2 record, then the month file; crates/sheet/stdin is one.
 *
 *     example sheet FILE     prints what `sheet` prints: 151 lines, or `refused`, number, place
 *     example desks FILE     a morning at the desks; it ends with 1 at the first answer that is wrong
 *     example year FILE      the same over a year file, in which the files are those of December
 */
#include "jutetrowel.h"

#include <math.h>
#include <stdio.h>
#include <stdlib.h>
#include <string.h>

/* A file's bytes, and its three parts. */
typedef struct {
    uint8_t bytes[JT_INPUT_BYTES + JT_RECORD_BYTES + JT_MONTH_FILE_BYTES];
    size_t words_size;
    size_t f2_size;
    size_t file_size;
} input;

static size_t least(size_t a, size_t b)
{
    return a < b ? a : b;
}

static int read_input(const char *path, input *in)
{
    FILE *from = fopen(path, "rb");
    size_t size;
    if (from == NULL) {
        perror(path);
        return 0;
    }
    size = fread(in->bytes, 1, sizeof in->bytes, from);
    fclose(from);
    in->words_size = least(size, JT_INPUT_BYTES);
    in->f2_size = least(size - in->words_size, JT_RECORD_BYTES);
    in->file_size = size - in->words_size - in->f2_size;
    return 1;
}

static const uint8_t *f2_of(const input *in)
{
    return in->bytes + in->words_size;
}

static const uint8_t *file_of(const input *in)
{
    return in->bytes + in->words_size + in->f2_size;
}

/* A figure's bits; a NaN's are not decided, and any is shown as one. */
static uint32_t bits(float x)
{
    uint32_t word;
    memcpy(&word, &x, sizeof word);
    return isnan(x) ? UINT32_C(0x7fc00000) : word;
}

static int print_sheet(const input *in)
{
    float figures[JT_FIGURES] = {0};
    jt_showing shown = jt_sheet(in->bytes, in->words_size, f2_of(in), in->f2_size, file_of(in),
                                in->file_size, figures, JT_FIGURES);
    size_t k;
    if (shown.number != 0) {
        printf("refused %lu %lu\n", (unsigned long)shown.number, (unsigned long)shown.place);
        return 0;
    }
    for (k = 0; k < JT_FIGURES; k++) {
        printf("%08lx\n", (unsigned long)bits(figures[k]));
    }
    return 0;
}

static int is_answer(const char *call, jt_answer given, uint32_t number, uint32_t place)
{
    int good = given.number == number && given.place == place;
    printf("%s: %lu %lu%s\n", call, (unsigned long)given.number, (unsigned long)given.place,
           good ? "" : " WRONG");
    return good;
}

static int is_shown(const input *in, const uint32_t *sheet, uint32_t desk, float *figures)
{
    jt_showing shown = jt_show(sheet, desk, f2_of(in), in->f2_size, file_of(in), in->file_size,
                               figures, JT_FIGURES);
    printf("show %lu: %lu points\n", (unsigned long)desk, (unsigned long)shown.points);
    return shown.number == 0;
}

static int is_alike(const float *a, const float *b)
{
    size_t k;
    for (k = 0; k < JT_FIGURES; k++) {
        if (bits(a[k]) != bits(b[k])) {
            return 0;
        }
    }
    return 1;
}

/* There are no layers of a month that there is not. */
static int is_month_judged(const input *in)
{
    const float ab[JT_HOUR_MAPS] = {0};
    jt_layers there = jt_layers_at(13, 100, 12, 1, 1, 1, 1, ab, file_of(in), in->file_size, 78.5f,
                                   -69.0f, 1, 0);
    jt_answer given;
    given.number = there.number;
    given.place = there.place;
    return is_answer("layers in month 13", given, JT_REFUSED_MONTH, 1);
}

/* Desk 1 mends the sunspot number, desk 2 drafts a path and cancels: the sheet is desk 1's. The
 * answers are those of document 01's paragraphs. */
static int at_the_desks(const input *in)
{
    uint32_t sheet[JT_WORKSHEET_WORDS] = {0};
    float before[JT_FIGURES] = {0};
    float draft[JT_FIGURES] = {0};
    float after[JT_FIGURES] = {0};
    int good = is_answer("open", jt_open(in->bytes, in->words_size, sheet), 0, 0);
    good = good && is_shown(in, sheet, 0, before);
    good = good && is_answer("begin 1", jt_begin(sheet, 1), 0, 0);
    good = good && is_answer("begin 1 again", jt_begin(sheet, 1), 15, 0);
    good = good && is_answer("begin 5", jt_begin(sheet, 5), 14, 0);
    good = good && is_answer("begin 2", jt_begin(sheet, 2), 0, 0);
    good = good && is_answer("sunspot 301", jt_change_sunspot(sheet, 1, 301.0f), 2, 2);
    good = good && is_answer("sunspot 110", jt_change_sunspot(sheet, 1, 110.0f), 0, 0);
    good = good && is_answer("path, flag 2", jt_change_path(sheet, 2, 60, 5, 62, -20, 2), 7, 8);
    good = good && is_answer("path", jt_change_path(sheet, 2, 60, 5, 62, -20, 0), 0, 0);
    good = good && is_shown(in, sheet, 1, draft);
    good = good && is_answer("commit 1", jt_commit(sheet, 1), 0, 0);
    good = good && is_answer("commit 2", jt_commit(sheet, 2), JT_REFUSED_STALE, 0);
    good = good && is_answer("cancel 2", jt_cancel(sheet, 2), 0, 0);
    good = good && is_answer("cancel 2 again", jt_cancel(sheet, 2), JT_REFUSED_NO_DRAFT, 0);
    good = good && is_shown(in, sheet, 0, after);
    good = good && is_alike(draft, after) && !is_alike(before, after);
    good = good && is_answer("take back", jt_take_back(sheet), 0, 0);
    good = good && is_answer("take back again", jt_take_back(sheet), 18, 0);
    good = good && is_shown(in, sheet, 0, after);
    good = good && is_alike(before, after);
    good = good && is_month_judged(in);
    puts(good ? "as document 01 has it" : "WRONG");
    return good ? 0 : 1;
}

/* A year file of one month: a directory, that month's file and the records of CCIR up to it. */
#define YEAR_MONTH 12
#define DAW_BYTES (YEAR_MONTH * JT_RECORD_BYTES)

typedef struct {
    uint8_t bytes[JT_DIRECTORY_BYTES + JT_MONTH_FILE_BYTES + DAW_BYTES];
    size_t size;
} year_file;

static void put_word(uint8_t *to, size_t word)
{
    size_t k;
    for (k = 0; k < 4; k++) {
        to[k] = (uint8_t)(word >> (8 * k));
    }
}

/* The next part of a year file, by its pair, counted from 0; `at` is where it starts. */
static size_t put_part(year_file *year, size_t pair, size_t at, size_t size)
{
    put_word(year->bytes + 8 * pair, at);
    put_word(year->bytes + 8 * pair + 4, size);
    return at + size;
}

/* All other months are empty, and so is URSI. */
static void pack(const input *in, year_file *year)
{
    size_t end = JT_DIRECTORY_BYTES;
    size_t pair;
    for (pair = 0; pair < 12; pair++) {
        if (pair + 1 == YEAR_MONTH) {
            memcpy(year->bytes + end, file_of(in), in->file_size);
            end = put_part(year, pair, end, in->file_size);
        } else {
            end = put_part(year, pair, end, 0);
        }
    }
    memset(year->bytes + end, 0, DAW_BYTES);
    memcpy(year->bytes + end + DAW_BYTES - JT_RECORD_BYTES, f2_of(in), in->f2_size);
    end = put_part(year, 12, end, DAW_BYTES);
    year->size = put_part(year, 13, end, 0);
}

static int is_shown_over(const year_file *year, const uint32_t *sheet, uint32_t desk,
                         uint32_t number, float *figures)
{
    jt_showing shown = jt_show_year(sheet, desk, year->bytes, year->size, figures, JT_FIGURES);
    printf("show %lu over the year: %lu points, %lu %lu\n", (unsigned long)desk,
           (unsigned long)shown.points, (unsigned long)shown.number, (unsigned long)shown.place);
    return shown.number == number;
}

/* Desk 1 drafts December, which the year file has: its figures are those over the pair of files. No
 * other month is there, and of URSI no record. */
static int over_a_year(const input *in)
{
    static year_file year;
    uint32_t sheet[JT_WORKSHEET_WORDS] = {0};
    float pair[JT_FIGURES] = {0};
    float figures[JT_FIGURES] = {0};
    jt_span part;
    int good;
    pack(in, &year);
    good = is_answer("directory", jt_year_check(year.bytes, year.size), 0, 0);
    good = good && is_answer("cut", jt_year_check(year.bytes, 100), JT_REFUSED_YEAR, 13);
    part = jt_year_month(year.bytes, year.size, YEAR_MONTH);
    good = good && part.start == JT_DIRECTORY_BYTES && part.size == in->file_size;
    good = good && is_answer("open", jt_open(in->bytes, in->words_size, sheet), 0, 0);
    good = good && is_answer("begin 1", jt_begin(sheet, 1), 0, 0);
    good = good && is_answer("month 13", jt_change_month(sheet, 1, 13), JT_REFUSED_MONTH, 1);
    good = good && is_answer("month 12", jt_change_month(sheet, 1, YEAR_MONTH), 0, 0);
    good = good && is_shown(in, sheet, 1, pair);
    good = good && is_shown_over(&year, sheet, 1, 0, figures) && is_alike(pair, figures);
    good = good && is_shown_over(&year, sheet, 0, JT_REFUSED_ENDED, figures);
    good = good && is_answer("model 2", jt_change_model(sheet, 1, 2), JT_REFUSED_FLAG, 15);
    good = good && is_answer("URSI", jt_change_model(sheet, 1, JT_URSI), 0, 0);
    good = good && is_shown_over(&year, sheet, 1, JT_REFUSED_RECORD, figures);
    puts(good ? "as document 02 has it" : "WRONG");
    return good ? 0 : 1;
}

int main(int count, char **words)
{
    static input in;
    const char *use = count == 3 ? words[1] : "";
    int desks = strcmp(use, "desks") == 0;
    int year = strcmp(use, "year") == 0;
    if (!desks && !year && strcmp(use, "sheet") != 0) {
        fprintf(stderr, "usage: example sheet|desks|year FILE\n");
        return 2;
    }
    if (!read_input(words[2], &in)) {
        return 2;
    }
    if (desks) {
        return at_the_desks(&in);
    }
    return year ? over_a_year(&in) : print_sheet(&in);
}
