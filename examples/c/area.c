/*
 * Appends the records of standard input to the area in a file, which is mapped into memory. The
 * file has its size already; in a new area all its bytes are FF.
 *
 * The library stores a record's bytes front to back and its flag last. So a process that is killed
 * loses nothing: the system has all its stores, and the next start clears what is unfinished. When
 * the power goes, it is the medium's affair which stores are kept and in which order. An msync
 * between a record and its flag is up to the caller; the program `area` syncs its file there.
 */
#define _POSIX_C_SOURCE 200809L

#include "litmus.h"

#include <fcntl.h>
#include <stdio.h>
#include <string.h>
#include <sys/mman.h>
#include <sys/stat.h>

/* NULL where the file can't be mapped, or has no bytes. */
static uint8_t *map(const char *path, size_t *size)
{
    int file = open(path, O_RDWR);
    struct stat about;
    void *area;

    if (file < 0 || fstat(file, &about) != 0)
        return NULL;
    *size = (size_t)about.st_size;
    area = mmap(NULL, *size, PROT_READ | PROT_WRITE, MAP_SHARED, file, 0);
    return area == MAP_FAILED ? NULL : area;
}

/* Whether a call was not refused. */
static int done(litmus_answer answer)
{
    if (answer.number != 0)
        fprintf(stderr, "refused with %u at byte %lu\n", answer.number,
                (unsigned long)answer.place);
    return answer.number == 0;
}

/* Prints a line, which is out before the next store. */
static int print(const char *what, size_t bytes)
{
    return printf("%s %lu bytes\n", what, (unsigned long)bytes) > 0 && fflush(stdout) == 0;
}

/* Clears what an append that was cut has left. */
static int repair(uint8_t *area, size_t size)
{
    litmus_answer answer = litmus_area_repair(area, size, UINT64_MAX);

    return done(answer) && (answer.length == 0 || print("cleared", (size_t)answer.length));
}

/* Appends the record at the front of the bytes; gives its length, or 0 where that fails. */
static size_t append(uint8_t *area, size_t size, const uint8_t *bytes, size_t count)
{
    litmus_answer answer = litmus_area_append(area, size, bytes, count, UINT64_MAX);
    size_t length = (size_t)answer.length - 1; /* one of the stores was the flag's */

    return done(answer) && print("appended", length) ? length : 0;
}

int main(int count, char **words)
{
    static uint8_t buffer[65536]; /* more than LITMUS_RECORD_BYTES */
    size_t size, held = 0, length;
    uint8_t *area = count == 2 ? map(words[1], &size) : NULL;

    if (area == NULL) {
        fprintf(stderr, "usage: area FILE < RECORDS\n");
        return 1;
    }
    if (!repair(area, size))
        return 1;
    for (;;) {
        held += fread(buffer + held, 1, sizeof buffer - held, stdin);
        if (ferror(stdin)) {
            fprintf(stderr, "standard input can't be read\n");
            return 1;
        }
        if (held == 0)
            return 0;
        length = append(area, size, buffer, held);
        if (length == 0)
            return 1;
        held -= length;
        memmove(buffer, buffer + length, held);
    }
}
