/* repair MAP SLOTS FAR OUT: repairs a map whose header or sparse index is spoiled, of so many slots
   and overflow (far) entries. Prints a line for each correction, its four numbers and then what it is
   about, and last the summary of the repaired map. That is OUT.tmp at first and becomes OUT when all
   is done; OUT may be MAP. Exits with 0 when done, 1 where a file cannot be read or written, 2 where
   it is called in another way, 3 where the library refuses. */
#define _POSIX_C_SOURCE 200809L
#include "pciv.h"
#include <errno.h>
#include <fcntl.h>
#include <stdio.h>
#include <stdlib.h>
#include <string.h>
#include <sys/stat.h>
#include <unistd.h>

#define MAX_SLOTS 1048576

static const char *copy; /* the name of OUT.tmp, once that file is made */

/* Ends the program, without OUT.tmp, unless something is done; `why` is null for a system call. */
static void must(int done, const char *what, const char *why)
{
    if (done)
        return;
    fprintf(stderr, "repair: %s: %s\n", what, why != NULL ? why : strerror(errno));
    if (copy != NULL)
        unlink(copy);
    exit(1);
}

static void *memory(size_t count, size_t size)
{
    void *zeros = calloc(count + 1, size);
    must(zeros != NULL, "memory", NULL);
    return zeros;
}

/* Digits alone, and no more than 64 bits hold. */
static int is_count(const char *text, uint64_t *count)
{
    char *end;
    errno = 0;
    *count = strtoull(text, &end, 10);
    return *text >= '0' && *text <= '9' && *end == '\0' && errno == 0;
}

static uint8_t *read_file(const char *name, size_t *len)
{
    uint8_t *file = NULL;
    size_t capacity = 0;
    int fd = open(name, O_RDONLY);
    must(fd >= 0, name, NULL);
    *len = 0;
    for (ssize_t got = 1; got > 0; *len += (size_t)got) {
        if (*len == capacity) {
            capacity = 2 * capacity + 65536;
            must((file = realloc(file, capacity)) != NULL, "memory", NULL);
        }
        must((got = read(fd, file + *len, capacity - *len)) >= 0, name, NULL);
    }
    must(close(fd) == 0, name, NULL);
    return file;
}

/* Writes OUT.tmp, with the mode that OUT has, and gives it the name OUT. */
static void write_file(const char *out, const uint8_t *file, size_t len)
{
    struct stat before;
    int is_there = stat(out, &before) == 0;
    must(!is_there || S_ISREG(before.st_mode), out, "is no regular file");
    char *name = memory(strlen(out) + 4, 1);
    sprintf(name, "%s.tmp", out);
    int fd = open(name, O_WRONLY | O_CREAT | O_EXCL, 0666);
    must(fd >= 0, name, NULL);
    copy = name;
    must(!is_there || fchmod(fd, before.st_mode & 07777) == 0, copy, NULL);
    ssize_t put;
    for (size_t done = 0; done < len; done += (size_t)put)
        must((put = write(fd, file + done, len - done)) > 0, copy, NULL);
    must(fsync(fd) == 0 && close(fd) == 0 && rename(copy, out) == 0, out, NULL);
}

static const char *field_at(uint64_t offset)
{
    switch (offset) {
    case 0:
        return "header: the letters PCIV";
    case 4:
        return "header: the zeros behind them";
    case 8:
        return "header: slots";
    case 16:
        return "header: overflow entries";
    case 24:
        return "header: index entries";
    default:
        return "header: step of the index";
    }
}

static const char *about(const pciv_correction *line)
{
    switch (line->kind) {
    case PCIV_CORRECTION_FIELD:
        return field_at(line->place);
    case PCIV_CORRECTION_DROPPED:
        return "overflow entry dropped: its slot";
    case PCIV_CORRECTION_SET:
        return "slot without an overflow entry: now 254 cm";
    default:
        return "index made anew: its bytes";
    }
}

/* What a refusal means for a map to be repaired. */
static const char *reason(uint64_t number)
{
    switch (number) {
    case PCIV_BAD_COUNTS:
        return "more overflow entries than slots";
    case PCIV_BAD_LENGTH:
        return "ends before its overflow entries do";
    default:
        return pciv_refusal_text(number);
    }
}

int main(int count, char **arguments)
{
    uint64_t n, k;
    if (count != 5 || !is_count(arguments[2], &n) || !is_count(arguments[3], &k)) {
        fputs("usage: repair MAP SLOTS FAR OUT, with how many slots and overflow entries MAP has\n",
              stderr);
        return 2;
    }
    const char *map = arguments[1];
    size_t len, slots = n <= MAX_SLOTS ? n : 0, entries = k <= slots ? k : 0;
    uint8_t *file = read_file(map, &len);

    size_t capacity = PCIV_LONGEST_FILE(slots), most = PCIV_MOST_CORRECTIONS(slots, entries);
    uint8_t *out = memory(capacity, 1);
    pciv_correction *lines = memory(most, sizeof *lines);
    uint64_t corrections;
    pciv_summary summary;
    pciv_refusal why;
    if (pciv_repair_all(file, len, n, k, out, capacity, lines, most, &summary, &corrections,
                        &why) != PCIV_OK) {
        fprintf(stderr, "refused %lu map %lu place %lu\nrepair: %s: %s\n", why.number, why.map,
                why.place, map, reason(why.number));
        return 3;
    }
    for (size_t i = 0; i < corrections; i++)
        printf("%lu %lu %lu %lu (%s)\n", lines[i].kind, lines[i].place, lines[i].before,
               lines[i].after, about(&lines[i]));
    printf("%lu corrections: %lu slots, %lu in overflow, %lu bytes, mean %.1f cm\n", corrections,
           summary.n, summary.k, summary.len,
           summary.n > 0 ? (double)summary.sum / (double)summary.n : 0);
    must(fflush(stdout) == 0, "standard output", NULL);
    write_file(arguments[4], out, summary.len);
    return 0;
}
