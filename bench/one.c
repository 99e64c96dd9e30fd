/* The verdict on the plan file on standard input, by the C version, in document 01's lines: `consistent`, `refused` and the number, or
   `violated` and the set, then leaf and outcome of each entry of the run. */
#include <stdio.h>

#include "verdict.h"

int main(void)
{
    static uint8_t file[1 << 16], work[WORK];
    uint8_t record[RECORD] = {0};
    size_t len = fread(file, 1, sizeof file, stdin);
    uint32_t v = plain_verdict(file, len, work, sizeof work, record, sizeof record);
    if (v == CONSISTENT)
        puts("consistent");
    else if (v >= REFUSED)
        printf("refused %u\n", (unsigned)(v - REFUSED));
    else {
        printf("violated %u\n", (unsigned)(v - VIOLATED));
        for (unsigned i = 0; i < RECORD && record[i + 1]; i += 2)
            printf("%u %u\n", record[i], record[i + 1]);
    }
    return 0;
}
