/* Runs the trace in a file: which step is the first that is not enabled, or what threads have. */
#include "litmus.h"

#include <stdio.h>

/* The events that have been propagated to a thread, in order. */
static void show(const litmus_storage *end, size_t thread)
{
    const uint8_t *list = end->events + thread * LITMUS_LISTED;
    size_t i;

    printf("thread %lu:", (unsigned long)thread);
    for (i = 0; i < end->listed[thread]; i++) {
        if (list[i] < LITMUS_WRITES)
            printf(" write %u", list[i]);
        else
            printf(" barrier %u", list[i] - LITMUS_WRITES);
    }
    printf("\n");
}

int main(int count, char **words)
{
    static uint8_t trace[LITMUS_TRACE_BYTES]; /* the file's first trace fits */
    FILE *file = count == 2 ? fopen(words[1], "rb") : NULL;
    litmus_trace_answer answer;
    size_t size, thread;

    if (file == NULL) {
        fprintf(stderr, "usage: trace FILE\n");
        return 1;
    }
    size = fread(trace, 1, sizeof trace, file);
    fclose(file);

    answer = litmus_trace(trace, size);
    if (answer.number == 0) {
        printf("every step is enabled; %lu bytes\n", (unsigned long)answer.length);
        for (thread = 0; thread < answer.end.threads; thread++)
            show(&answer.end, thread);
    } else if (answer.number == 31) {
        litmus_steps steps = litmus_trace_read(trace, size).steps;

        printf("step %lu, of kind %u, is not enabled: condition %u\n", (unsigned long)answer.step,
               steps.kind[answer.step], answer.condition);
    } else {
        printf("refused with %u at byte %lu\n", answer.number, (unsigned long)answer.place);
    }
    return 0;
}
