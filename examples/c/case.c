/* Builds a case by hand, judges it under both models and writes its record to a file. */
#include "litmus.h"

#include <stdio.h>
#include <string.h>

static void list(litmus_case *c, uint8_t kind, uint8_t thread, uint8_t address, uint32_t value)
{
    size_t e = c->events++;

    c->kind[e] = kind;
    c->thread[e] = thread;
    c->address[e] = address;
    c->value[e] = value;
}

/* The thread sees each of these events before all that are listed behind it. */
static void sees(litmus_case *c, size_t thread, const uint8_t *events, size_t count)
{
    size_t i, j;

    for (i = 0; i < count; i++)
        for (j = i + 1; j < count; j++)
            c->rows[thread * LITMUS_EVENTS + events[i]] |= (uint64_t)1 << events[j];
}

/* Each thread stores its flag, syncs, and finds the other's flag still down. */
static void build(litmus_case *c)
{
    static const uint8_t first[] = {0, 1, 2, 3, 5}, second[] = {3, 4, 5, 0, 2};

    memset(c, 0, sizeof *c);
    c->edition = 1;
    c->threads = 2;
    c->addresses = 2;
    list(c, LITMUS_STORE, 0, 0, 1);
    list(c, LITMUS_SYNC, 0, 0, 0);
    list(c, LITMUS_LOAD, 0, 1, 0);
    list(c, LITMUS_STORE, 1, 1, 1);
    list(c, LITMUS_SYNC, 1, 0, 0);
    list(c, LITMUS_LOAD, 1, 0, 0);
    c->writes[0 * LITMUS_EVENTS] = 0;
    c->writes[1 * LITMUS_EVENTS] = 3;
    sees(c, 0, first, sizeof first);
    sees(c, 1, second, sizeof second);
    c->name_length = strlen("Dekker");
    memcpy(c->name, "Dekker", c->name_length);
}

static void judge(const char *model_name, uint64_t model, litmus_case c)
{
    litmus_answer answer = litmus_case_judge(c, model);
    size_t x;

    printf("%s: ", model_name);
    if (answer.number == 0) {
        printf("possible, finals");
        for (x = 0; x < c.addresses; x++)
            printf(" %u", answer.finals[x]);
        printf("\n");
    } else if (answer.number >= 11 && answer.number <= 18) {
        printf("not possible, rule %u\n", answer.number);
    } else {
        printf("refused with %u\n", answer.number);
    }
}

int main(int count, char **words)
{
    static uint8_t record[LITMUS_RECORD_BYTES];
    FILE *file = count == 2 ? fopen(words[1], "wb") : NULL;
    litmus_case c;
    litmus_answer written;

    if (file == NULL) {
        fprintf(stderr, "usage: case FILE\n");
        return 1;
    }
    build(&c);
    judge("PPCw", LITMUS_PPCW, c);
    judge("PPCs", LITMUS_PPCS, c);
    written = litmus_case_write(c, record, sizeof record, 0);
    printf("%lu bytes\n", (unsigned long)written.length);
    fwrite(record, 1, (size_t)written.length, file);
    return fclose(file) == 0 ? 0 : 1;
}
