/* Reads a file from standard input and says what each of the library's calls
 * answers of it. */
#include <stddef.h>
#include <stdio.h>

#include "vdv.h"

_Static_assert(sizeof(vdv_refusal) == 24 && offsetof(vdv_refusal, line) == 16, "refusal");
_Static_assert(sizeof(vdv_row) == 48 && offsetof(vdv_row, verdict) == 32, "row");
_Static_assert(sizeof(vdv_header_answer) == 176 && offsetof(vdv_header_answer, latin) == 88, "header");
_Static_assert(offsetof(vdv_header_answer, dve) == 128 && offsetof(vdv_header_answer, fft) == 152, "header");
_Static_assert(sizeof(vdv_row_answer) == 72 && offsetof(vdv_row_answer, row) == 24, "row answer");
_Static_assert(sizeof(vdv_value_answer) == 56 && offsetof(vdv_value_answer, amount) == 32, "value");
_Static_assert(sizeof(vdv_length_answer) == 32 && offsetof(vdv_length_answer, length) == 24, "length");
_Static_assert(sizeof(vdv_text_answer) == 40 && offsetof(vdv_text_answer, owner) == 32, "text");

_Static_assert(VDV_SOUND == 0 && VDV_NO_SUCH == 24 && VDV_COMBINATION == 25 && VDV_NO_SUCH_DAY == 26,
               "numbers");
_Static_assert(VDV_NUMBER == 0 && VDV_OPERATOR == 1 && VDV_SUGGESTION == 2 && VDV_MISSING == 3, "kinds");

static uint8_t file[65536];
static uint8_t out[65536];

static void say_value(size_t length, size_t field)
{
    vdv_value_answer value = vdv_value(file, length, 1, 1, field);
    printf("value;%u;%u;%llu;", (unsigned)value.number, (unsigned)value.kind, (unsigned long long)value.amount);
    fwrite(file + value.from, 1, value.to - value.from, stdout);
    printf("\n");
}

static void say_text(size_t length)
{
    vdv_text_answer text = vdv_text(file, length, 1, 1, 2, out, sizeof out);
    printf("text;%u;%u;%.*s\n", (unsigned)text.number, (unsigned)text.owner, (int)text.length, (const char *)out);
}

static void say_table(size_t length)
{
    uint64_t cells[7] = {0, 0, 0, 0, 0, 0, 9};
    vdv_length_answer table = vdv_table(file, length, 1, cells, 7);
    printf("table;%u;%zu", (unsigned)table.number, table.length);
    for (size_t cell = 0; cell < 7; cell++)
        printf(";%llu", (unsigned long long)cells[cell]);
    printf("\n");
}

/* A connection's last column, in section 2, where the number may be missing: its
 * value, what asking for it as a text gives, and its cells. */
static void say_last(size_t length)
{
    enum { COLUMNS = 20, CELLS = 3 * COLUMNS };
    vdv_value_answer value = vdv_value(file, length, 2, 1, COLUMNS);
    vdv_text_answer text = vdv_text(file, length, 2, 1, COLUMNS, out, sizeof out);
    uint64_t cells[CELLS] = {0};
    vdv_length_answer table = vdv_table(file, length, 2, cells, CELLS);
    printf("last;%u;%u;%llu;%zu;%zu;%u;%u", (unsigned)value.number, (unsigned)value.kind,
           (unsigned long long)value.amount, value.from, value.to, (unsigned)text.number, (unsigned)table.number);
    for (size_t cell = CELLS - 3; cell < CELLS; cell++)
        printf(";%llu", (unsigned long long)cells[cell]);
    printf("\n");
}

/* A form as it was put out, behind its number. */
static void say_form(const char *name, vdv_length_answer form)
{
    printf("%s;%u\n", name, (unsigned)form.number);
    fwrite(out, 1, form.length, stdout);
}

static void say_answer(vdv_refusal answer)
{
    switch (answer.number) {
    case VDV_SOUND:
        printf("check;sound\n");
        break;
    case VDV_HEADER:
        printf("check;header;%zu\n", answer.line);
        break;
    default:
        printf("check;%u;%zu;%zu\n", (unsigned)answer.number, answer.section, answer.line);
    }
}

int main(void)
{
    size_t length = fread(file, 1, sizeof file, stdin);
    vdv_refusal answer = vdv_check(file, length);
    say_answer(answer);
    vdv_header_answer header = vdv_header(file, length);
    printf("header;%u;%llu;%llu;%llu;%d;%d;%d;%.*s\n", (unsigned)header.number, (unsigned long long)header.year,
           (unsigned long long)header.second, (unsigned long long)header.day, header.latin, header.dve, header.fft,
           (int)(header.fft_to - header.fft_from), (const char *)file + header.fft_from);
    vdv_row_answer section = vdv_section(file, length, 1);
    printf("section;%u;%u;%zu;%zu\n", (unsigned)section.number, (unsigned)section.row.table, section.row.place,
           section.row.records);
    vdv_row rows[2] = {{0}};
    rows[1].length = 9;
    answer = vdv_list(file, length, rows, 2);
    printf("list;%u;%u;%zu;%zu\n", (unsigned)answer.number, (unsigned)rows[0].table, rows[0].records, rows[1].length);
    say_value(length, 1);
    say_value(length, 2);
    say_value(length, 3);
    say_text(length);
    say_table(length);
    say_last(length);
    say_form("write", vdv_write(file, length, out, sizeof out));
    vdv_length_answer stripped = vdv_strip(file, length, out, sizeof out);
    say_form("strip", stripped);
    for (size_t place = 0; place < stripped.length; place++)
        file[place] = out[place];
    const uint8_t text[] = {'S', 0xfc, 'd'};
    say_form("fill", vdv_fill(file, stripped.length, 1, 1, 2, text, sizeof text, out, sizeof out));
    return 0;
}
