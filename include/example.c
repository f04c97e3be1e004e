/* Reads a sheet from standard input and prints its report. */
#include <stdio.h>
#include "wharftoken.h"

int main(void)
{
    /* One byte more than a sheet may have: what is longer is refused, however long it is. */
    static uint8_t text[WHARFTOKEN_SHEET_BYTES + 1];
    static uint8_t report[WHARFTOKEN_REPORT_BYTES];
    size_t length = fread(text, 1, sizeof text, stdin);
    uint64_t answer = wharftoken_report(text, length, report, sizeof report);
    size_t count = wharftoken_count(answer);

    if (ferror(stdin) || wharftoken_number(answer) != 0)
        return 1;
    return fwrite(report, 1, count, stdout) == count ? 0 : 1;
}
