/* The calls from C: numbers come to a list there, and its letter is read beside the list here. Prints
 * "gone 5 come 3 31", and ends with a status other than 0 where that is not what is told. */
#include "ridgeweek.h"
#include <stdio.h>
#include <string.h>

int main(void)
{
    uint64_t here[] = {3, 5, 9, 20};
    uint64_t there[8] = {0};
    uint64_t note[] = {3, 0, 1, 1, 1}; /* the letter of an empty list: every value is 1 */
    const uint64_t numbers[] = {20, 3, 31, 9};
    for (size_t i = 0; i < 4; i++)
        if (ridgeweek_comes(note, 5, there, 8, numbers[i]) != 0)
            return 1;

    uint64_t out[3];
    uint64_t answer = ridgeweek_read(note, 5, here, 4, out, 3, 3);
    if (answer >> 32 != 0)
        return 1;
    char line[64] = "gone";
    size_t gone = answer >> 16, told = gone + (answer & 0xffff);
    for (size_t i = 0; i <= told; i++) {
        if (i == gone)
            strcat(line, " come");
        if (i < told)
            sprintf(line + strlen(line), " %d", (int) out[i]);
    }
    puts(line);
    return strcmp(line, "gone 5 come 3 31") != 0;
}
