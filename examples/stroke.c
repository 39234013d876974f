/* stroke MAP DISTANCE OUT: looks at a map, selects what is 1 to DISTANCE cm away, and paints a
   stroke: every 40th of the selected slots gets the distance 400 in a copy of the map, which is
   edited in place through a memory mapping. The copy is OUT.tmp, and becomes OUT when all is done. */
#define _POSIX_C_SOURCE 200809L
#include "pciv.h"
#include <errno.h>
#include <fcntl.h>
#include <stdio.h>
#include <stdlib.h>
#include <string.h>
#include <sys/mman.h>
#include <sys/stat.h>
#include <unistd.h>

static const char *copy; /* the name of OUT.tmp, once that file is made */

/* Ends the program, without OUT.tmp, unless something is done; `why` is null for a system call. */
static void must(int done, const char *what, const char *why)
{
    if (done)
        return;
    fprintf(stderr, "stroke: %s: %s\n", what, why != NULL ? why : strerror(errno));
    if (copy != NULL)
        unlink(copy);
    exit(1);
}

static void must_not_refuse(uint64_t number, const pciv_refusal *why)
{
    char numbers[80];
    snprintf(numbers, sizeof numbers, "refused %lu map %lu place %lu", why->number, why->map,
             why->place);
    must(number == PCIV_OK, numbers, pciv_refusal_text(number));
}

static void *memory(size_t count, size_t size)
{
    void *zeros = calloc(count + 1, size);
    must(zeros != NULL, "memory", NULL);
    return zeros;
}

/* Digits alone, and no more than a distance can be. */
static int is_distance(const char *text, unsigned long *distance)
{
    char *end;
    *distance = strtoul(text, &end, 10);
    return *text >= '0' && *text <= '9' && *end == '\0' && *distance <= UINT32_MAX;
}

/* The mean distance in cm, 0 of a map without slots. */
static double mean_distance(const pciv_summary *summary)
{
    return summary->n > 0 ? (double)summary->sum / (double)summary->n : 0;
}

int main(int count, char **arguments)
{
    unsigned long distance;
    if (count != 4 || !is_distance(arguments[2], &distance)) {
        fputs("usage: stroke MAP DISTANCE OUT, with a DISTANCE of 0 to 4294967295\n", stderr);
        return 2;
    }
    const char *map = arguments[1], *out = arguments[3];
    struct stat now, before;
    int fd = open(map, O_RDONLY);
    must(fd >= 0 && fstat(fd, &now) == 0, map, NULL);
    if (stat(out, &before) == 0)
        must(S_ISREG(before.st_mode) &&
                 (before.st_dev != now.st_dev || before.st_ino != now.st_ino),
             out, "is the map itself, or no regular file");
    size_t len = 0, size = (size_t)now.st_size;
    uint8_t *file = memory(size, 1);
    for (ssize_t got = 1; got > 0; len += (size_t)got)
        must((got = read(fd, file + len, size - len)) >= 0, map, NULL);
    must(len == size && close(fd) == 0, map, "has changed");

    pciv_summary summary;
    pciv_refusal why;
    must_not_refuse(pciv_check(file, len, &summary, &why), &why);
    printf("%lu slots, %lu in overflow, %lu bytes, mean %.1f cm\n", summary.n, summary.k,
           summary.len, mean_distance(&summary));

    size_t n = summary.n, words = PCIV_MASK_LEN(n);
    uint64_t *mask = memory(words, sizeof *mask), selected, done;
    must_not_refuse(pciv_near_mask(file, len, (uint32_t)distance, mask, words, &done, &why), &why);
    must_not_refuse(pciv_set_bits(n, mask, words, &selected, &why), &why);
    printf("%lu slots within %lu cm\n", selected, distance);

    size_t edits = 0, capacity = PCIV_LONGEST_FILE(n);
    uint64_t *slots = memory(selected / 40, sizeof *slots);
    uint32_t *distances = memory(selected / 40, sizeof *distances);
    for (size_t slot = 0, seen = 0; slot < n; slot++)
        if (mask[slot / 64] >> slot % 64 & 1 && ++seen % 40 == 0) {
            slots[edits] = slot;
            distances[edits++] = 400;
        }
    pciv_edit_answer *answers = memory(edits, sizeof *answers);

    char *name = memory(strlen(out) + 4, 1);
    sprintf(name, "%s.tmp", out);
    must((fd = open(name, O_RDWR | O_CREAT | O_EXCL, 0666)) >= 0, name, NULL);
    copy = name;
    must((errno = posix_fallocate(fd, 0, (off_t)capacity)) == 0, copy, NULL);
    uint8_t *buffer = mmap(NULL, capacity, PROT_READ | PROT_WRITE, MAP_SHARED, fd, 0);
    must(buffer != MAP_FAILED, copy, NULL);
    memcpy(buffer, file, len);
    must_not_refuse(pciv_edit_all(buffer, capacity, slots, distances, answers, edits, &why), &why);
    uint64_t moved = 0;
    for (size_t i = 0; i < edits; summary = answers[i++].summary) {
        must_not_refuse(answers[i].refusal.number, &answers[i].refusal);
        moved += answers[i].moved;
    }
    must(munmap(buffer, capacity) == 0 && ftruncate(fd, (off_t)summary.len) == 0 &&
             fsync(fd) == 0 && rename(copy, out) == 0,
         out, NULL);
    printf("%zu edits: %lu in overflow, %lu bytes, mean %.1f cm, %lu entries moved\n", edits,
           summary.k, summary.len, mean_distance(&summary), moved);
    return 0;
}
