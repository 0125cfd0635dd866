/*
 * Reads one run file from standard input, runs it from reset and prints the
 * one line (D01, "The run file and its one line").
 */
#include "plain.h"

#include <stdio.h>

int main(void)
{
    /* One byte more than the longest file, so that a longer one shows. */
    static uint8_t bytes[PLAIN_FILE_LONGEST + 1];
    static char line[PLAIN_LINE_ROOM];
    size_t length = fread(bytes, 1, sizeof bytes, stdin);
    if (ferror(stdin))
        return 1;
    plain_replay(bytes, length, line);
    return fputs(line, stdout) < 0 || fflush(stdout) != 0;
}
