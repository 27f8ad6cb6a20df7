/* Judges the record in a file under both models. */
#include "litmus.h"

#include <stdio.h>

static void judge(const char *model_name, uint64_t model, const uint8_t *record, size_t size)
{
    litmus_answer answer = litmus_judge(record, size, model);

    printf("%s: ", model_name);
    if (answer.number == 0)
        printf("possible, finals %u %u %u %u\n", answer.finals[0], answer.finals[1],
               answer.finals[2], answer.finals[3]);
    else if (answer.number >= 11 && answer.number <= 18)
        printf("not possible, rule %u\n", answer.number);
    else
        printf("refused with %u at byte %lu\n", answer.number, (unsigned long)answer.place);
}

int main(int count, char **words)
{
    static uint8_t record[LITMUS_RECORD_BYTES]; /* the file's first record fits */
    FILE *file = count == 2 ? fopen(words[1], "rb") : NULL;
    size_t size;
    litmus_part name;

    if (file == NULL) {
        fprintf(stderr, "usage: example FILE\n");
        return 1;
    }
    size = fread(record, 1, sizeof record, file);
    fclose(file);

    name = litmus_name(record, size);
    printf("%.*s\n", (int)name.length, (const char *)record + name.at);
    judge("PPCw", LITMUS_PPCW, record, size);
    judge("PPCs", LITMUS_PPCS, record, size);
    return 0;
}
