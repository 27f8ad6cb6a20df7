/* Asks under both models whether a condition holds for the record in a file. */
#include "litmus.h"

#include <stdio.h>
#include <string.h>

/* A text's fault: its number, and its place under the text. */
static void show(const char *text, litmus_condition_answer answer)
{
    printf("text refused with %u\n", answer.number);
    if (answer.place < LITMUS_CONDITION_BYTES)
        printf("    %s\n    %*s^\n", text, (int)answer.place, "");
}

static void ask(const char *model_name, uint64_t model, const uint8_t *record, size_t size,
                const char *text)
{
    litmus_condition_answer answer =
        litmus_condition(record, size, model, (const uint8_t *)text, strlen(text));

    printf("%s: ", model_name);
    if (answer.number == 0)
        printf("%s\n", answer.holds ? "holds" : "does not hold");
    else if (answer.number >= 11 && answer.number <= 18)
        printf("not possible, rule %u\n", answer.number);
    else if (litmus_judge(record, size, model).number == 0)
        show(text, answer); /* the record is accepted, so it is the text */
    else
        printf("refused with %u at byte %lu\n", answer.number, (unsigned long)answer.place);
}

int main(int count, char **words)
{
    static uint8_t record[LITMUS_RECORD_BYTES]; /* the file's first record fits */
    FILE *file = count == 3 ? fopen(words[2], "rb") : NULL;
    size_t size;

    if (file == NULL) {
        fprintf(stderr, "usage: condition TEXT FILE\n");
        return 1;
    }
    size = fread(record, 1, sizeof record, file);
    fclose(file);

    ask("PPCw", LITMUS_PPCW, record, size, words[1]);
    ask("PPCs", LITMUS_PPCS, record, size, words[1]);
    return 0;
}
