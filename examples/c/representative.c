/* Says whether two files' records are one case but for the labels of threads and addresses. */
#include "litmus.h"

#include <stdio.h>
#include <string.h>

/* The bytes at the front of a file: its first record fits. */
typedef struct {
    uint8_t bytes[LITMUS_RECORD_BYTES];
    size_t size;
} record;

static int read_file(const char *path, record *r)
{
    FILE *file = fopen(path, "rb");

    if (file == NULL) {
        fprintf(stderr, "%s: it can't be opened\n", path);
        return 0;
    }
    r->size = fread(r->bytes, 1, sizeof r->bytes, file);
    fclose(file);
    return 1;
}

/* Of the record and all its renumberings the least. */
static int represent(const char *path, const record *r, record *least)
{
    litmus_answer answer =
        litmus_representative(r->bytes, r->size, least->bytes, sizeof least->bytes, 0);

    if (answer.number != 0)
        fprintf(stderr, "%s: refused with %u at byte %lu\n", path, answer.number,
                (unsigned long)answer.place);
    least->size = (size_t)answer.length;
    return answer.number == 0;
}

static int equal(const record *first, const record *second)
{
    return first->size == second->size && memcmp(first->bytes, second->bytes, first->size) == 0;
}

int main(int count, char **words)
{
    static record files[2], least[2];
    litmus_choice lesser;
    int i;

    if (count != 3) {
        fprintf(stderr, "usage: representative FIRST SECOND\n");
        return 1;
    }
    for (i = 0; i < 2; i++)
        if (!read_file(words[i + 1], &files[i]) || !represent(words[i + 1], &files[i], &least[i]))
            return 1;
    printf("%s\n", equal(&least[0], &least[1]) ? "one case" : "two cases");
    lesser = litmus_lesser(files[0].bytes, files[0].size, files[1].bytes, files[1].size);
    printf("the lesser: %s, %lu bytes\n", lesser.which == 1 ? "the first" : "the second",
           (unsigned long)lesser.length);
    return 0;
}
