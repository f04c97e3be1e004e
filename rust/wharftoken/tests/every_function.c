/* Calls every function of the header on the sheet of standard input, and prints all that it gets. */
#include <stdio.h>
#include <string.h>
#include "wharftoken.h"

static uint8_t text[WHARFTOKEN_SHEET_BYTES + 1], written[WHARFTOKEN_LONGEST_TEXT];
static struct wharftoken_record record;
static uint8_t *const bytes = (uint8_t *)&record;
static uint8_t decisions[WHARFTOKEN_DECISIONS], forced[WHARFTOKEN_DECISIONS];
static uint8_t places[WHARFTOKEN_OPTIONS];
static uint32_t limits[WHARFTOKEN_LIMITS], totals[WHARFTOKEN_TOTALS];

static void answer(const char *name, uint64_t a)
{
    printf("%s %u %u %u %u\n", name, wharftoken_number(a), wharftoken_line(a), wharftoken_column(a),
           wharftoken_count(a));
}

static void print_bytes(const uint8_t *from, size_t count)
{
    for (size_t i = 0; i < count; i++)
        printf("%u ", (unsigned)from[i]);
    printf("\n");
}

static void print_numbers(const uint32_t *from, size_t count)
{
    for (size_t i = 0; i < count; i++)
        printf("%lu ", (unsigned long)from[i]);
    printf("\n");
}

/* The lines of the sheet, by the fields of the record. */
static void print_record(void)
{
    for (unsigned i = 0; i < record.catalogue_lines; i++)
        printf("%c %u %u\n", record.letters[i], record.befores[i], record.afters[i]);
    for (unsigned i = 0; i < record.option_count; i++)
        printf("F %u %u\n", record.numbers[i], record.weights[i]);
    for (unsigned i = 0; i < record.ordering_count; i++)
        printf("U %u %u %u\n", record.firsts[i], record.seconds[i], record.ordering_weights[i]);
}

int main(void)
{
    size_t length = fread(text, 1, sizeof text, stdin);
    uint64_t a = wharftoken_read(text, length, bytes, sizeof record);

    answer("read", a);
    print_record();
    a = wharftoken_write(bytes, sizeof record, written, sizeof written);
    answer("write", a);
    printf("%s\n", wharftoken_count(a) == length && !memcmp(text, written, length) ? "same" : "another");
    answer("limits", wharftoken_limits(bytes, sizeof record, decisions, sizeof decisions, forced, sizeof forced,
                                       limits, WHARFTOKEN_LIMITS));
    print_bytes(forced, sizeof forced);
    print_numbers(limits, WHARFTOKEN_LIMITS);
    answer("search", wharftoken_search(bytes, sizeof record, 0, decisions, sizeof decisions, totals, WHARFTOKEN_TOTALS));
    print_bytes(decisions, sizeof decisions);
    print_numbers(totals, WHARFTOKEN_TOTALS);
    answer("sequence", wharftoken_sequence(bytes, sizeof record, decisions, sizeof decisions, places, sizeof places));
    print_bytes(places, sizeof places);
    answer("tolerance", wharftoken_search(bytes, sizeof record, WHARFTOKEN_MOST_TOLERANCE + 1, decisions,
                                          sizeof decisions, totals, WHARFTOKEN_TOTALS));
    return 0;
}
