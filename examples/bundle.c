/* bundle BUNDLE MAP..: packs one to eight maps with the same number of slots, the frames of a burst,
   into BUNDLE, a new file. bundle BUNDLE: reads one. Prints how many frames and slots it has; how many
   slots have a reading in some frame, and the mean of the nearest ones; and the distances by frame at
   the slot that is nearest of all. Where packing fails BUNDLE is not made. Exits with 0 when done, 1 where a
   file cannot be read or written, 2 where it is called in another way, 3 where the library refuses. */
#define _POSIX_C_SOURCE 200809L
#include "pciv.h"
#include <errno.h>
#include <fcntl.h>
#include <stdio.h>
#include <stdlib.h>
#include <string.h>
#include <unistd.h>

static char **names;     /* BUNDLE, then the maps */
static size_t maps;      /* how many */
static const char *made; /* BUNDLE, once that file is made */

/* Ends the program, without a new BUNDLE. */
static void fail(int status)
{
    if (made != NULL)
        unlink(made);
    exit(status);
}

static void must(int done, const char *what)
{
    if (done)
        return;
    fprintf(stderr, "bundle: %s: %s\n", what, strerror(errno));
    fail(1);
}

static const char *reason(uint64_t number)
{
    switch (number) {
    case PCIV_SIZE_MISMATCH:
        return "has not as many slots as the bundle";
    case PCIV_BAD_BUNDLE:
        return "the record at that place is wrong or missing";
    default:
        return pciv_refusal_text(number);
    }
}

/* A fault of a frame is told with the name of its map, or with its number. */
static void must_not_refuse(uint64_t number, const pciv_refusal *why)
{
    if (number == PCIV_OK)
        return;
    uint64_t frame = number == PCIV_SIZE_MISMATCH ? why->place : why->map;
    fprintf(stderr, "refused %lu map %lu place %lu\n", number, why->map, why->place);
    fprintf(stderr, "bundle: %s", names[frame <= maps ? frame : 0]);
    if (frame > maps)
        fprintf(stderr, ", frame %lu", frame);
    fprintf(stderr, ": %s\n", reason(number));
    fail(3);
}

static void *memory(size_t count, size_t size)
{
    void *zeros = calloc(count + 1, size);
    must(zeros != NULL, "memory");
    return zeros;
}

static uint8_t *read_file(const char *name, size_t *len)
{
    uint8_t *file = NULL;
    size_t capacity = 0;
    int fd = open(name, O_RDONLY);
    must(fd >= 0, name);
    *len = 0;
    for (ssize_t got = 1; got > 0; *len += (size_t)got) {
        if (*len == capacity) {
            capacity = 2 * capacity + 65536;
            must((file = realloc(file, capacity)) != NULL, "memory");
        }
        must((got = read(fd, file + *len, capacity - *len)) >= 0, name);
    }
    must(close(fd) == 0, name);
    return file;
}

static void write_new_file(const char *name, const uint8_t *file, size_t len)
{
    int fd = open(name, O_WRONLY | O_CREAT | O_EXCL, 0666);
    must(fd >= 0, name);
    made = name;
    ssize_t put;
    for (size_t done = 0; done < len; done += (size_t)put)
        must((put = write(fd, file + done, len - done)) > 0, name);
    must(fsync(fd) == 0 && close(fd) == 0, name);
}

/* The bundle of the maps. The parts behind them stay null. */
static uint8_t *pack(size_t *len)
{
    pciv_part frames[PCIV_MAX_FRAMES] = {{NULL, 0}};
    for (size_t i = 0; i < maps; i++)
        frames[i].bytes = read_file(names[1 + i], &frames[i].len);
    size_t capacity = pciv_bundle_len(frames, maps);
    uint8_t *bundle = memory(capacity, 1);
    uint64_t written;
    pciv_refusal why;
    must_not_refuse(pciv_bundle_write(frames, maps, bundle, capacity, &written, &why), &why);
    *len = written;
    return bundle;
}

static void look(const uint8_t *bundle, size_t len)
{
    uint64_t slots, frames, count;
    pciv_refusal why;
    must_not_refuse(pciv_bundle_read(bundle, len, &slots, &frames, &why), &why);
    printf("%lu frames of %lu slots, %zu bytes\n", frames, slots, len);

    uint32_t *nearest = memory(slots, sizeof *nearest);
    must_not_refuse(pciv_bundle_nearest(bundle, len, nearest, slots, &count, &why), &why);
    uint64_t readings = 0, sum = 0, least = 0;
    for (uint64_t slot = 0; slot < count; slot++) {
        if (nearest[slot] == 0)
            continue;
        if (readings == 0 || nearest[slot] < nearest[least])
            least = slot;
        readings++;
        sum += nearest[slot];
    }
    if (readings == 0) {
        puts("no readings");
        return;
    }
    printf("nearest readings: %lu slots, mean %.1f cm\n", readings, (double)sum / (double)readings);

    uint32_t row[PCIV_MAX_FRAMES];
    must_not_refuse(pciv_bundle_row(bundle, len, least, row, &why), &why);
    printf("nearest slot: %lu, by frame", least);
    for (size_t i = 0; i < frames; i++)
        printf(" %u", row[i]);
    puts(" cm");
}

int main(int count, char **arguments)
{
    if (count < 2 || count > 2 + PCIV_MAX_FRAMES) {
        fputs("usage: bundle BUNDLE MAP.., to pack one to eight maps; bundle BUNDLE, to read it\n",
              stderr);
        return 2;
    }
    names = arguments + 1;
    maps = (size_t)count - 2;
    size_t len;
    uint8_t *bundle = maps > 0 ? pack(&len) : read_file(names[0], &len);
    if (maps > 0)
        write_new_file(names[0], bundle, len);
    look(bundle, len);
    must(fflush(stdout) == 0, "standard output");
    return 0;
}
