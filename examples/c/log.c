/*
 * Judges the records of standard input under PPCs as they come. Prints how many there were, how many
 * were accepted and how many broke each rule, then the refusal that ended the log and its place.
 */
#include "litmus.h"

#include <stdio.h>
#include <string.h>

static void print(const litmus_tally *tally, const litmus_log_answer *ending)
{
    size_t i;

    printf("%u\n%u\n", tally->records, tally->accepted);
    for (i = 0; i < LITMUS_RULES; i++)
        printf("%u\n", tally->broken[i]);
    printf("%u\n%lu\n", ending->number, (unsigned long)ending->place);
}

int main(void)
{
    static uint8_t buffer[65536]; /* more than LITMUS_RECORD_BYTES */
    static litmus_tally tally;    /* all zeros */
    litmus_log_answer answer;
    size_t size = 0;
    uint64_t from = 0;

    do {
        size += fread(buffer + size, 1, sizeof buffer - size, stdin);
        if (ferror(stdin)) {
            fprintf(stderr, "standard input can't be read\n");
            return 1;
        }
        answer = litmus_log_judge(buffer, size, from, feof(stdin), &tally);
        /* What is left is the start of a record; more of it follows. */
        size -= answer.length;
        from += answer.length;
        memmove(buffer, buffer + answer.length, size);
    } while (!answer.ended);
    print(&tally, &answer);
    return 0;
}
