/* Calls every function of pciv.h on maps built by hand and on refused input. If it fails, the
   library, the header or the way they are linked is wrong for C programs. */
#define _DEFAULT_SOURCE
#include "pciv.h"

#include <stdio.h>
#include <stdlib.h>
#include <string.h>
#include <sys/mman.h>

/* Unlike assert, also checks in release builds. */
#define EXPECT(condition)                                                                  \
    do {                                                                                   \
        if (!(condition)) {                                                                \
            fprintf(stderr, "c_smoke: %s:%d: %s\n", __FILE__, __LINE__, #condition);       \
            exit(1);                                                                       \
        }                                                                                  \
    } while (0)

#define MAP_LEN 68
#define OTHER_LEN 56
#define BUNDLE_LEN (12 + 6 + MAP_LEN + 6 + OTHER_LEN)
#define N 4
#define DIRTY 0xA5

/* A routine that combines two files into a third. */
typedef uint64_t combine(const uint8_t *a, size_t a_len, const uint8_t *b, size_t b_len,
                         uint8_t *out, size_t out_len, pciv_summary *summary,
                         pciv_refusal *refusal);

/* A routine that makes a mask of a file. */
typedef uint64_t threshold(const uint8_t *file, size_t file_len, uint32_t t, uint64_t *out,
                           size_t out_len, uint64_t *count, pciv_refusal *refusal);

/* A routine that combines two masks. */
typedef uint64_t combine_masks(size_t n, const uint64_t *a, size_t a_len, const uint64_t *b,
                               size_t b_len, uint64_t *out, size_t out_len, uint64_t *count,
                               pciv_refusal *refusal);

/* A routine that makes a file of a file and a mask. */
typedef uint64_t mask_file(const uint8_t *file, size_t file_len, const uint64_t *mask,
                           size_t mask_len, uint8_t *out, size_t out_len, pciv_summary *summary,
                           pciv_refusal *refusal);

static const char REPORT[] = "slots 4\nfar 2\nstep 0\nindex 0\nsum 809\nreadings 3\n";

/* The file of the distances 0, 254, 255, 300. */
static void build_map(uint8_t file[MAP_LEN])
{
    static const uint8_t parts[] = {
        0, 254, 255, 255,                            /* primary array */
        2, 0, 0, 0, 0, 0, 0, 0, 0xFF, 0x00, 0, 0,    /* slot 2: 255 */
        3, 0, 0, 0, 0, 0, 0, 0, 0x2C, 0x01, 0, 0     /* slot 3: 300 */
    };
    memset(file, 0, MAP_LEN);
    memcpy(file, "PCIV", 4);
    file[8] = N;
    file[16] = 2;
    memcpy(file + 40, parts, sizeof parts);
}

/* The file of the distances 1, 1, 1, 4294967295. */
static void build_other(uint8_t file[OTHER_LEN])
{
    static const uint8_t parts[] = {
        1, 1, 1, 255,                                  /* primary array */
        3, 0, 0, 0, 0, 0, 0, 0, 0xFF, 0xFF, 0xFF, 0xFF /* slot 3: 4294967295 */
    };
    memset(file, 0, OTHER_LEN);
    memcpy(file, "PCIV", 4);
    file[8] = N;
    file[16] = 1;
    memcpy(file + 40, parts, sizeof parts);
}

static int is_dirty(const void *memory, size_t len)
{
    const uint8_t *bytes = (const uint8_t *)memory;
    for (size_t i = 0; i < len; i++)
        if (bytes[i] != DIRTY)
            return 0;
    return 1;
}

static int is_refusal(const pciv_refusal *refusal, uint64_t number, uint64_t map, uint64_t place)
{
    return refusal->number == number && refusal->map == map && refusal->place == place;
}

static void test_check(const uint8_t *file)
{
    pciv_summary summary;
    pciv_refusal refusal;
    memset(&summary, DIRTY, sizeof summary);
    memset(&refusal, DIRTY, sizeof refusal);
    EXPECT(sizeof summary == 48 && offsetof(pciv_summary, sum) == 40);
    EXPECT(pciv_check(file, MAP_LEN - 1, &summary, &refusal) == PCIV_BAD_LENGTH);
    EXPECT(is_refusal(&refusal, PCIV_BAD_LENGTH, 1, 0));
    EXPECT(is_dirty(&summary, sizeof summary));
    EXPECT(pciv_check(file, MAP_LEN, &summary, &refusal) == PCIV_OK);
    EXPECT(is_refusal(&refusal, PCIV_OK, 0, 0));
    EXPECT(summary.n == N && summary.k == 2 && summary.m == 0);
    EXPECT(summary.step == 0 && summary.len == MAP_LEN && summary.sum == 809);
}

static void test_primary(const uint8_t *file)
{
    static const uint8_t empty[40] = "PCIV"; /* the file of no distances */
    uint64_t span[2];
    pciv_part part;
    EXPECT(pciv_primary_span(file, MAP_LEN, span) == N && span[0] == 40 && span[1] == N);
    EXPECT(pciv_primary_span(file, 39, span) == 0 && span[0] == 0 && span[1] == 0);
    part = pciv_primary(file, MAP_LEN);
    EXPECT(part.bytes == file + 40 && part.len == N);
    part = pciv_primary(file, 39);
    EXPECT(part.bytes == file && part.len == 0);
    part = pciv_primary(empty, sizeof empty);
    EXPECT(part.bytes == empty + 40 && part.len == 0);
}

static void test_lookup(const uint8_t *file)
{
    static const uint32_t distances[N] = {0, 254, 255, 300};
    static const uint64_t entries[N] = {2, 2, 0, 1};
    uint32_t distance;
    uint64_t entry;
    pciv_refusal refusal;
    memset(&distance, DIRTY, sizeof distance);
    memset(&entry, DIRTY, sizeof entry);
    EXPECT(pciv_lookup(file, MAP_LEN, N, &distance, &entry, &refusal) == PCIV_SLOT_OUT_OF_RANGE);
    EXPECT(is_refusal(&refusal, PCIV_SLOT_OUT_OF_RANGE, 0, 0));
    EXPECT(is_dirty(&distance, sizeof distance) && is_dirty(&entry, sizeof entry));
    for (uint64_t slot = 0; slot < N; slot++) {
        EXPECT(pciv_lookup(file, MAP_LEN, slot, &distance, &entry, &refusal) == PCIV_OK);
        EXPECT(is_refusal(&refusal, PCIV_OK, 0, 0));
        EXPECT(distance == distances[slot] && entry == entries[slot]);
    }
}

/* The refusal of a list of three slots, which changes neither of two lists that are so long. */
static void test_lookup_list_refused(const uint8_t *file, const uint64_t *slots,
                                     size_t distances_len, size_t entries_len, uint64_t refused,
                                     uint64_t place)
{
    uint32_t distances[3];
    uint64_t entries[3], count;
    pciv_refusal refusal;
    memset(distances, DIRTY, sizeof distances);
    memset(entries, DIRTY, sizeof entries);
    memset(&count, DIRTY, sizeof count);
    EXPECT(pciv_lookup_list(file, MAP_LEN, slots, 3, distances, distances_len, entries, entries_len,
                            &count, &refusal) == refused);
    EXPECT(is_refusal(&refusal, refused, 0, place) && is_dirty(&count, sizeof count));
    EXPECT(is_dirty(distances, sizeof distances) && is_dirty(entries, sizeof entries));
}

static void test_lookup_list(const uint8_t *file)
{
    static const uint64_t slots[] = {3, 0, 3, 2};
    static const uint64_t beyond[] = {3, N, 3};
    uint32_t distances[6];
    uint64_t entries[5], count;
    pciv_refusal refusal;
    test_lookup_list_refused(file, beyond, 3, 3, PCIV_SLOT_OUT_OF_RANGE, 1);
    test_lookup_list_refused(file, beyond, 2, 0, PCIV_SLOT_OUT_OF_RANGE, 1);
    test_lookup_list_refused(file, slots, 2, 3, PCIV_BUFFER_TOO_SMALL, 0);
    test_lookup_list_refused(file, slots, 3, 2, PCIV_BUFFER_TOO_SMALL, 0);
    test_lookup_list_refused(file, slots, 3, 0, PCIV_BUFFER_TOO_SMALL, 0);
    memset(distances, DIRTY, sizeof distances);
    memset(entries, DIRTY, sizeof entries);
    EXPECT(pciv_lookup_list(file, MAP_LEN, slots, 4, distances, 6, entries, 5, &count, &refusal) ==
           PCIV_OK);
    EXPECT(is_refusal(&refusal, PCIV_OK, 0, 0) && count == 4);
    EXPECT(distances[0] == 300 && distances[1] == 0 && distances[2] == 300 && distances[3] == 255);
    EXPECT(entries[0] == 1 && entries[1] == 2 && entries[2] == 1 && entries[3] == 0);
    EXPECT(is_dirty(distances + 4, 2 * sizeof *distances));
    EXPECT(is_dirty(entries + 4, sizeof *entries));
}

static void test_scan(const uint8_t *file)
{
    uint32_t distances[N + 1];
    uint64_t count;
    pciv_refusal refusal;
    memset(distances, DIRTY, sizeof distances);
    memset(&count, DIRTY, sizeof count);
    EXPECT(pciv_scan(file, MAP_LEN, distances, N - 1, &count, &refusal) == PCIV_BUFFER_TOO_SMALL);
    EXPECT(is_refusal(&refusal, PCIV_BUFFER_TOO_SMALL, 0, 0));
    EXPECT(is_dirty(distances, sizeof distances) && is_dirty(&count, sizeof count));
    EXPECT(pciv_scan(file, MAP_LEN, distances, N + 1, &count, &refusal) == PCIV_OK);
    EXPECT(is_refusal(&refusal, PCIV_OK, 0, 0) && count == N);
    EXPECT(distances[0] == 0 && distances[1] == 254 && distances[2] == 255);
    EXPECT(distances[3] == 300 && is_dirty(&distances[N], sizeof distances[N]));
}

static void test_totals(const uint8_t *file)
{
    uint64_t sum, readings;
    pciv_refusal refusal;
    memset(&sum, DIRTY, sizeof sum);
    memset(&readings, DIRTY, sizeof readings);
    EXPECT(pciv_sum(file, 39, &sum, &refusal) == PCIV_TRUNCATED_HEADER);
    EXPECT(is_refusal(&refusal, PCIV_TRUNCATED_HEADER, 1, 0) && is_dirty(&sum, sizeof sum));
    EXPECT(pciv_readings(file, 39, &readings, &refusal) == PCIV_TRUNCATED_HEADER);
    EXPECT(is_refusal(&refusal, PCIV_TRUNCATED_HEADER, 1, 0));
    EXPECT(is_dirty(&readings, sizeof readings));
    EXPECT(pciv_sum(file, MAP_LEN, &sum, &refusal) == PCIV_OK && sum == 809);
    EXPECT(is_refusal(&refusal, PCIV_OK, 0, 0));
    EXPECT(pciv_readings(file, MAP_LEN, &readings, &refusal) == PCIV_OK && readings == 3);
    EXPECT(is_refusal(&refusal, PCIV_OK, 0, 0));
}

static int is_summary(const pciv_summary *summary, uint64_t n, uint64_t k, uint64_t len,
                      uint64_t sum)
{
    return summary->n == n && summary->k == k && summary->m == 0 && summary->step == 0 &&
           summary->len == len && summary->sum == sum;
}

static uint64_t sum_of(const uint32_t distances[N])
{
    uint64_t sum = 0;
    for (size_t i = 0; i < N; i++)
        sum += distances[i];
    return sum;
}

/* Whether the buffer holds a file with these distances and their sum, and what follows is dirty. */
static int is_file_of(const uint8_t *out, size_t out_len, const pciv_summary *summary,
                      const uint32_t expected[N])
{
    uint32_t distances[N];
    uint64_t count;
    pciv_refusal refusal;
    return summary->len <= out_len &&
           pciv_scan(out, summary->len, distances, N, &count, &refusal) == PCIV_OK &&
           memcmp(distances, expected, sizeof distances) == 0 &&
           summary->sum == sum_of(expected) && is_dirty(out + summary->len, out_len - summary->len);
}

/* Whether the buffer holds the map, and what follows is dirty. */
static int is_map(const uint8_t *out, size_t out_len, const pciv_summary *summary,
                  const uint8_t *file)
{
    return is_summary(summary, N, 2, MAP_LEN, 809) && memcmp(out, file, MAP_LEN) == 0 &&
           is_dirty(out + MAP_LEN, out_len - MAP_LEN);
}

static void test_write(const uint8_t *file)
{
    static const uint32_t distances[N] = {0, 254, 255, 300};
    uint8_t out[MAP_LEN + 8];
    pciv_summary summary;
    pciv_refusal refusal;
    memset(out, DIRTY, sizeof out);
    memset(&summary, DIRTY, sizeof summary);
    EXPECT(pciv_write(distances, N, out, MAP_LEN - 1, &summary, &refusal) ==
           PCIV_BUFFER_TOO_SMALL);
    EXPECT(is_refusal(&refusal, PCIV_BUFFER_TOO_SMALL, 0, 0));
    EXPECT(is_dirty(out, sizeof out) && is_dirty(&summary, sizeof summary));
    EXPECT(pciv_write(distances, N, out, sizeof out, &summary, &refusal) == PCIV_OK);
    EXPECT(is_refusal(&refusal, PCIV_OK, 0, 0) && is_map(out, sizeof out, &summary, file));
}

static void test_close(const uint8_t *file)
{
    static const uint8_t primary[N] = {0, 254, 255, 255};
    static const uint64_t slots[] = {2, 3};
    static const uint32_t distances[] = {255, 300};
    uint8_t out[MAP_LEN + 8];
    pciv_summary summary;
    pciv_refusal refusal;
    memset(out, DIRTY, sizeof out);
    memset(&summary, DIRTY, sizeof summary);
    EXPECT(pciv_close(primary, N, slots, 2, distances, 1, out, sizeof out, &summary, &refusal) ==
           PCIV_BAD_OVERFLOW_ENTRY);
    EXPECT(is_refusal(&refusal, PCIV_BAD_OVERFLOW_ENTRY, 1, 1));
    EXPECT(pciv_close(primary, N, slots, 1, distances, 1, out, sizeof out, &summary, &refusal) ==
           PCIV_MISSING_OVERFLOW_ENTRY);
    EXPECT(is_refusal(&refusal, PCIV_MISSING_OVERFLOW_ENTRY, 1, 3));
    EXPECT(pciv_close(primary, N, slots, 2, distances, 2, out, 3, &summary, &refusal) ==
           PCIV_BUFFER_TOO_SMALL);
    EXPECT(is_refusal(&refusal, PCIV_BUFFER_TOO_SMALL, 0, 0));
    EXPECT(is_dirty(out, sizeof out) && is_dirty(&summary, sizeof summary));
    EXPECT(pciv_close(primary, N, slots, 2, distances, 2, out, sizeof out, &summary, &refusal) ==
           PCIV_OK);
    EXPECT(is_refusal(&refusal, PCIV_OK, 0, 0) && is_map(out, sizeof out, &summary, file));
}

static void test_close_entries(const uint8_t *file)
{
    static const uint8_t primary[N] = {0, 254, 255, 255};
    static const pciv_entry entries[] = {{2, 255}, {3, 300}};
    uint8_t out[MAP_LEN + 8];
    pciv_summary summary;
    pciv_refusal refusal;
    memset(out, DIRTY, sizeof out);
    memset(&summary, DIRTY, sizeof summary);
    EXPECT(pciv_close_entries(primary, N, entries + 1, 1, out, sizeof out, &summary, &refusal) ==
           PCIV_MISSING_OVERFLOW_ENTRY);
    EXPECT(is_refusal(&refusal, PCIV_MISSING_OVERFLOW_ENTRY, 1, 2));
    EXPECT(pciv_close_entries(primary, 3, entries, 2, out, sizeof out, &summary, &refusal) ==
           PCIV_BAD_OVERFLOW_ENTRY);
    EXPECT(is_refusal(&refusal, PCIV_BAD_OVERFLOW_ENTRY, 1, 1));
    EXPECT(is_dirty(out, sizeof out) && is_dirty(&summary, sizeof summary));
    EXPECT(pciv_close_entries(primary, N, entries, 2, out, sizeof out, &summary, &refusal) ==
           PCIV_OK);
    EXPECT(is_refusal(&refusal, PCIV_OK, 0, 0) && is_map(out, sizeof out, &summary, file));
}

/* The map with the other one, to a file of k overflow entries; damaged files and a short buffer. */
static void test_combine(combine *call, const uint8_t *a, const uint8_t *b, uint64_t k,
                         const uint32_t expected[N])
{
    const uint64_t len = 40 + N + 12 * k;
    uint8_t out[100];
    pciv_summary summary;
    pciv_refusal refusal;
    memset(out, DIRTY, sizeof out);
    memset(&summary, DIRTY, sizeof summary);
    EXPECT(call(a, 39, b, 39, out, sizeof out, &summary, &refusal) == PCIV_TRUNCATED_HEADER);
    EXPECT(is_refusal(&refusal, PCIV_TRUNCATED_HEADER, 1, 0));
    EXPECT(call(a, MAP_LEN, b, 55, out, sizeof out, &summary, &refusal) == PCIV_BAD_LENGTH);
    EXPECT(is_refusal(&refusal, PCIV_BAD_LENGTH, 2, 0));
    EXPECT(call(a, MAP_LEN, b, OTHER_LEN, out, len - 1, &summary, &refusal) ==
           PCIV_BUFFER_TOO_SMALL);
    EXPECT(is_refusal(&refusal, PCIV_BUFFER_TOO_SMALL, 0, 0));
    EXPECT(is_dirty(out, sizeof out) && is_dirty(&summary, sizeof summary));
    EXPECT(call(a, MAP_LEN, b, OTHER_LEN, out, sizeof out, &summary, &refusal) == PCIV_OK);
    EXPECT(is_refusal(&refusal, PCIV_OK, 0, 0));
    EXPECT(is_summary(&summary, N, k, len, sum_of(expected)));
    EXPECT(is_file_of(out, sizeof out, &summary, expected));
}

static void test_sum_maps(const uint8_t *a, const uint8_t *b)
{
    static const uint32_t doubled[N] = {0, 508, 510, 600};
    uint8_t empty[40] = "PCIV";
    uint8_t out[100];
    pciv_summary summary;
    pciv_refusal refusal;
    memset(out, DIRTY, sizeof out);
    memset(&summary, DIRTY, sizeof summary);
    EXPECT(pciv_sum_maps(a, MAP_LEN, empty, 40, out, 3, &summary, &refusal) == PCIV_SIZE_MISMATCH);
    EXPECT(is_refusal(&refusal, PCIV_SIZE_MISMATCH, 0, 0));
    EXPECT(pciv_sum_maps(a, MAP_LEN, b, OTHER_LEN, out, 3, &summary, &refusal) ==
           PCIV_DISTANCE_OVERFLOW);
    EXPECT(is_refusal(&refusal, PCIV_DISTANCE_OVERFLOW, 0, 3));
    EXPECT(is_dirty(out, sizeof out) && is_dirty(&summary, sizeof summary));
    EXPECT(pciv_sum_maps(a, MAP_LEN, a, MAP_LEN, out, sizeof out, &summary, &refusal) == PCIV_OK);
    EXPECT(is_refusal(&refusal, PCIV_OK, 0, 0) && is_summary(&summary, N, 3, 80, 1618));
    EXPECT(is_file_of(out, sizeof out, &summary, doubled));
}

static void test_shift(const uint8_t *a, const uint8_t *b)
{
    static const uint32_t nearer[N] = {0, 1, 1, 46};
    static const uint32_t farther[N] = {0, 255, 256, 301};
    static const uint32_t in_overflow[N] = {0, 554, 555, 600};
    uint8_t out[100];
    pciv_summary summary;
    pciv_refusal refusal;
    memset(out, DIRTY, sizeof out);
    memset(&summary, DIRTY, sizeof summary);
    EXPECT(pciv_shift(b, OTHER_LEN, 1, out, 3, &summary, &refusal) == PCIV_DISTANCE_OVERFLOW);
    EXPECT(is_refusal(&refusal, PCIV_DISTANCE_OVERFLOW, 0, 3));
    EXPECT(pciv_shift(a, MAP_LEN, 1, out, 79, &summary, &refusal) == PCIV_BUFFER_TOO_SMALL);
    EXPECT(is_refusal(&refusal, PCIV_BUFFER_TOO_SMALL, 0, 0));
    EXPECT(is_dirty(out, sizeof out) && is_dirty(&summary, sizeof summary));
    EXPECT(pciv_shift(a, MAP_LEN, -254, out, sizeof out, &summary, &refusal) == PCIV_OK);
    EXPECT(is_refusal(&refusal, PCIV_OK, 0, 0) && is_summary(&summary, N, 0, 44, 48));
    EXPECT(is_file_of(out, sizeof out, &summary, nearer));
    EXPECT(pciv_shift(a, MAP_LEN, 1, out, sizeof out, &summary, &refusal) == PCIV_OK);
    EXPECT(is_summary(&summary, N, 3, 80, 812) && is_file_of(out, sizeof out, &summary, farther));
    EXPECT(pciv_shift(a, MAP_LEN, 300, out, 80, &summary, &refusal) == PCIV_OK);
    EXPECT(is_summary(&summary, N, 3, 80, 1709));
    EXPECT(is_file_of(out, sizeof out, &summary, in_overflow));
    EXPECT(pciv_shift(a, MAP_LEN, 0, out, sizeof out, &summary, &refusal) == PCIV_OK);
    EXPECT(is_summary(&summary, N, 2, MAP_LEN, 809) && memcmp(out, a, MAP_LEN) == 0);
}

static void test_signed_difference(const uint8_t *a, const uint8_t *b)
{
    static const int64_t expected[N] = {1, -253, -254, 4294966995};
    int64_t out[N + 1];
    uint64_t count;
    pciv_refusal refusal;
    memset(out, DIRTY, sizeof out);
    memset(&count, DIRTY, sizeof count);
    EXPECT(pciv_signed_difference(a, MAP_LEN, b, 39, out, N, &count, &refusal) ==
           PCIV_TRUNCATED_HEADER);
    EXPECT(is_refusal(&refusal, PCIV_TRUNCATED_HEADER, 2, 0));
    EXPECT(pciv_signed_difference(a, MAP_LEN, b, OTHER_LEN, out, N - 1, &count, &refusal) ==
           PCIV_BUFFER_TOO_SMALL);
    EXPECT(is_refusal(&refusal, PCIV_BUFFER_TOO_SMALL, 0, 0));
    EXPECT(is_dirty(out, sizeof out) && is_dirty(&count, sizeof count));
    EXPECT(pciv_signed_difference(a, MAP_LEN, b, OTHER_LEN, out, N + 1, &count, &refusal) ==
           PCIV_OK);
    EXPECT(is_refusal(&refusal, PCIV_OK, 0, 0) && count == N);
    EXPECT(memcmp(out, expected, sizeof expected) == 0 && is_dirty(&out[N], sizeof out[N]));
}

static void test_arithmetic(const uint8_t *a, const uint8_t *b)
{
    static const uint32_t minima[N] = {0, 1, 1, 300};
    static const uint32_t maxima[N] = {1, 254, 255, 4294967295};
    static const uint32_t differences[N] = {0, 253, 254, 0};
    test_combine(pciv_minimum, a, b, 1, minima);
    test_combine(pciv_maximum, a, b, 2, maxima);
    test_combine(pciv_difference, a, b, 0, differences);
    test_sum_maps(a, b);
    test_shift(a, b);
    test_signed_difference(a, b);
}

static void test_threshold(threshold *call, const uint8_t *file, uint32_t t, uint64_t expected)
{
    uint64_t out[2];
    uint64_t count;
    pciv_refusal refusal;
    memset(out, DIRTY, sizeof out);
    memset(&count, DIRTY, sizeof count);
    EXPECT(call(file, 39, t, out, 0, &count, &refusal) == PCIV_TRUNCATED_HEADER);
    EXPECT(is_refusal(&refusal, PCIV_TRUNCATED_HEADER, 1, 0));
    EXPECT(call(file, MAP_LEN, t, out, 0, &count, &refusal) == PCIV_BUFFER_TOO_SMALL);
    EXPECT(is_refusal(&refusal, PCIV_BUFFER_TOO_SMALL, 0, 0));
    EXPECT(is_dirty(out, sizeof out) && is_dirty(&count, sizeof count));
    EXPECT(call(file, MAP_LEN, t, out, 2, &count, &refusal) == PCIV_OK);
    EXPECT(is_refusal(&refusal, PCIV_OK, 0, 0) && count == 1);
    EXPECT(out[0] == expected && is_dirty(&out[1], sizeof out[1]));
}

/* The masks of slots 0, 1 and of slots 1, 2, of four. */
static void test_combine_masks(combine_masks *call, uint64_t expected)
{
    static const uint64_t a[] = {3, 0}, b[] = {6}, past[] = {16};
    uint64_t out[2];
    uint64_t count;
    pciv_refusal refusal;
    memset(out, DIRTY, sizeof out);
    memset(&count, DIRTY, sizeof count);
    EXPECT(call(1048577, a, 1, b, 1, out, 2, &count, &refusal) == PCIV_TOO_MANY_SLOTS);
    EXPECT(is_refusal(&refusal, PCIV_TOO_MANY_SLOTS, 1, 0));
    EXPECT(call(N, a, 2, b, 1, out, 0, &count, &refusal) == PCIV_BAD_MASK);
    EXPECT(call(N, a, 1, past, 1, out, 0, &count, &refusal) == PCIV_BAD_MASK);
    EXPECT(is_refusal(&refusal, PCIV_BAD_MASK, 0, 0));
    EXPECT(call(N, a, 1, b, 1, out, 0, &count, &refusal) == PCIV_BUFFER_TOO_SMALL);
    EXPECT(is_refusal(&refusal, PCIV_BUFFER_TOO_SMALL, 0, 0));
    EXPECT(is_dirty(out, sizeof out) && is_dirty(&count, sizeof count));
    EXPECT(call(N, a, 1, b, 1, out, 2, &count, &refusal) == PCIV_OK);
    EXPECT(is_refusal(&refusal, PCIV_OK, 0, 0) && count == 1);
    EXPECT(out[0] == expected && is_dirty(&out[1], sizeof out[1]));
}

static void test_one_mask(void)
{
    static const uint64_t mask[] = {12}, past[] = {16};
    static const uint32_t expected[N] = {0, 0, 1, 1};
    uint64_t words[2];
    uint8_t out[50];
    uint64_t count;
    pciv_summary summary;
    pciv_refusal refusal;
    memset(words, DIRTY, sizeof words);
    memset(out, DIRTY, sizeof out);
    memset(&summary, DIRTY, sizeof summary);
    memset(&count, DIRTY, sizeof count);
    EXPECT(pciv_mask_not(N, past, 1, words, 0, &count, &refusal) == PCIV_BAD_MASK);
    EXPECT(pciv_mask_not(N, mask, 1, words, 0, &count, &refusal) == PCIV_BUFFER_TOO_SMALL);
    EXPECT(pciv_set_bits(N, past, 1, &count, &refusal) == PCIV_BAD_MASK);
    EXPECT(pciv_map_of_mask(N, past, 1, out, 0, &summary, &refusal) == PCIV_BAD_MASK);
    EXPECT(pciv_map_of_mask(N, mask, 1, out, 43, &summary, &refusal) == PCIV_BUFFER_TOO_SMALL);
    EXPECT(is_refusal(&refusal, PCIV_BUFFER_TOO_SMALL, 0, 0));
    EXPECT(is_dirty(words, sizeof words) && is_dirty(&count, sizeof count));
    EXPECT(is_dirty(out, sizeof out) && is_dirty(&summary, sizeof summary));
    EXPECT(pciv_mask_not(N, mask, 1, words, 2, &count, &refusal) == PCIV_OK);
    EXPECT(count == 1 && words[0] == 3 && is_dirty(&words[1], sizeof words[1]));
    EXPECT(pciv_set_bits(N, mask, 1, &count, &refusal) == PCIV_OK && count == 2);
    EXPECT(pciv_map_of_mask(N, mask, 1, out, sizeof out, &summary, &refusal) == PCIV_OK);
    EXPECT(is_refusal(&refusal, PCIV_OK, 0, 0) && is_summary(&summary, N, 0, 44, 2));
    EXPECT(is_file_of(out, sizeof out, &summary, expected));
}

/* A map with the mask of slots 1 and 2. */
static void test_mask_file(mask_file *call, const uint8_t *file, uint64_t k,
                           const uint32_t expected[N])
{
    static const uint64_t mask[] = {6}, past[] = {16};
    const uint64_t len = 40 + N + 12 * k;
    uint8_t out[100];
    pciv_summary summary;
    pciv_refusal refusal;
    memset(out, DIRTY, sizeof out);
    memset(&summary, DIRTY, sizeof summary);
    EXPECT(call(file, 39, past, 1, out, 3, &summary, &refusal) == PCIV_TRUNCATED_HEADER);
    EXPECT(is_refusal(&refusal, PCIV_TRUNCATED_HEADER, 1, 0));
    EXPECT(call(file, MAP_LEN, past, 1, out, 3, &summary, &refusal) == PCIV_BAD_MASK);
    EXPECT(is_refusal(&refusal, PCIV_BAD_MASK, 0, 0));
    EXPECT(call(file, MAP_LEN, mask, 1, out, len - 1, &summary, &refusal) ==
           PCIV_BUFFER_TOO_SMALL);
    EXPECT(is_refusal(&refusal, PCIV_BUFFER_TOO_SMALL, 0, 0));
    EXPECT(is_dirty(out, sizeof out) && is_dirty(&summary, sizeof summary));
    EXPECT(call(file, MAP_LEN, mask, 1, out, sizeof out, &summary, &refusal) == PCIV_OK);
    EXPECT(is_refusal(&refusal, PCIV_OK, 0, 0));
    EXPECT(is_summary(&summary, N, k, len, sum_of(expected)));
    EXPECT(is_file_of(out, sizeof out, &summary, expected));
}

static void test_masks(const uint8_t *a, const uint8_t *b)
{
    static const uint64_t last[] = {8};
    static const uint32_t kept[N] = {0, 254, 255, 0};
    static const uint32_t incremented[N] = {0, 255, 256, 300};
    uint8_t out[100];
    pciv_summary summary;
    pciv_refusal refusal;
    EXPECT(PCIV_MASK_LEN(0) == 0 && PCIV_MASK_LEN(64) == 1 && PCIV_MASK_LEN(65) == 2);
    test_threshold(pciv_mask_below, a, 255, 3);
    test_threshold(pciv_mask_at_most, a, 255, 7);
    test_threshold(pciv_mask_above, a, 255, 8);
    test_threshold(pciv_mask_at_least, a, 255, 12);
    test_threshold(pciv_near_mask, a, 0, 0);
    test_threshold(pciv_near_mask, a, 254, 2);
    test_threshold(pciv_near_mask, a, 255, 6);
    test_combine_masks(pciv_mask_and, 2);
    test_combine_masks(pciv_mask_or, 7);
    test_combine_masks(pciv_mask_xor, 5);
    test_one_mask();
    test_mask_file(pciv_keep_masked, a, 1, kept);
    test_mask_file(pciv_increment_masked, a, 3, incremented);
    EXPECT(pciv_increment_masked(b, OTHER_LEN, last, 1, out, 3, &summary, &refusal) ==
           PCIV_DISTANCE_OVERFLOW);
    EXPECT(is_refusal(&refusal, PCIV_DISTANCE_OVERFLOW, 0, 3));
}

static void test_figures(const uint8_t *a, const uint8_t *b)
{
    uint8_t empty[40] = "PCIV";
    double figure;
    pciv_refusal refusal;
    memset(&figure, DIRTY, sizeof figure);
    EXPECT(pciv_bray_curtis(a, MAP_LEN, b, 39, &figure, &refusal) == PCIV_TRUNCATED_HEADER);
    EXPECT(is_refusal(&refusal, PCIV_TRUNCATED_HEADER, 2, 0));
    EXPECT(pciv_jaccard(a, MAP_LEN, empty, 40, 255, &figure, &refusal) == PCIV_SIZE_MISMATCH);
    EXPECT(is_refusal(&refusal, PCIV_SIZE_MISMATCH, 0, 0) && is_dirty(&figure, sizeof figure));
    EXPECT(pciv_jaccard(a, MAP_LEN, b, OTHER_LEN, 255, &figure, &refusal) == PCIV_OK);
    EXPECT(is_refusal(&refusal, PCIV_OK, 0, 0) && figure == 0.5);
    EXPECT(pciv_bray_curtis(a, MAP_LEN, b, OTHER_LEN, &figure, &refusal) == PCIV_OK);
    EXPECT(figure == 4294967503.0 / 4294968107.0);
    EXPECT(pciv_bray_curtis(empty, 40, empty, 40, &figure, &refusal) == PCIV_OK && figure == 0.0);
}

static void test_edit(const uint8_t *file)
{
    static const uint32_t shorter[N] = {0, 254, 254, 300};
    static const uint8_t zeros[12];
    uint8_t buffer[MAP_LEN + 4];
    pciv_summary summary;
    uint64_t moved;
    pciv_refusal refusal;
    memset(buffer, DIRTY, sizeof buffer);
    memcpy(buffer, file, MAP_LEN);
    memset(&summary, DIRTY, sizeof summary);
    memset(&moved, DIRTY, sizeof moved);
    EXPECT(pciv_edit(buffer, MAP_LEN - 1, 2, 254, &summary, &moved, &refusal) == PCIV_BAD_LENGTH);
    EXPECT(is_refusal(&refusal, PCIV_BAD_LENGTH, 1, 0) && moved == 0);
    memset(&moved, DIRTY, sizeof moved);
    EXPECT(pciv_edit(buffer, sizeof buffer, N, 254, &summary, &moved, &refusal) ==
           PCIV_SLOT_OUT_OF_RANGE);
    EXPECT(is_refusal(&refusal, PCIV_SLOT_OUT_OF_RANGE, 0, 0) && moved == 0);
    memset(&moved, DIRTY, sizeof moved);
    EXPECT(pciv_edit(buffer, sizeof buffer, 1, 255, &summary, &moved, &refusal) ==
           PCIV_BUFFER_TOO_SMALL);
    EXPECT(is_refusal(&refusal, PCIV_BUFFER_TOO_SMALL, 0, 0) && moved == 0);
    EXPECT(memcmp(buffer, file, MAP_LEN) == 0 && is_dirty(&summary, sizeof summary));
    memset(&moved, DIRTY, sizeof moved);
    EXPECT(pciv_edit(buffer, sizeof buffer, 2, 254, &summary, &moved, &refusal) == PCIV_OK);
    EXPECT(is_refusal(&refusal, PCIV_OK, 0, 0) && is_summary(&summary, N, 1, 56, 808));
    EXPECT(moved == 1);
    EXPECT(is_file_of(buffer, 56, &summary, shorter));
    EXPECT(memcmp(buffer + 56, zeros, 12) == 0 && is_dirty(buffer + MAP_LEN, 4));
}

/* The edit of slot 1 to 255 makes the file 80 bytes long: a buffer of 79 is refused and stays as it
   is, one of 80 is enough. */
static void test_edit_capacity(const uint8_t *file)
{
    static const uint8_t edited[80] = {
        'P', 'C', 'I', 'V', 0, 0, 0, 0,              /* "PCIV", zeros */
        4, 0, 0, 0, 0, 0, 0, 0,                      /* n */
        3, 0, 0, 0, 0, 0, 0, 0,                      /* k */
        0, 0, 0, 0, 0, 0, 0, 0,                      /* m */
        0, 0, 0, 0, 0, 0, 0, 0,                      /* step */
        0, 255, 255, 255,                            /* primary array */
        1, 0, 0, 0, 0, 0, 0, 0, 0xFF, 0x00, 0, 0,    /* slot 1: 255 */
        2, 0, 0, 0, 0, 0, 0, 0, 0xFF, 0x00, 0, 0,    /* slot 2: 255 */
        3, 0, 0, 0, 0, 0, 0, 0, 0x2C, 0x01, 0, 0     /* slot 3: 300 */
    };
    uint8_t buffer[80];
    pciv_summary summary;
    uint64_t moved;
    pciv_refusal refusal;
    memset(buffer, DIRTY, sizeof buffer);
    memcpy(buffer, file, MAP_LEN);
    memset(&summary, DIRTY, sizeof summary);
    memset(&moved, DIRTY, sizeof moved);
    EXPECT(pciv_edit(buffer, 79, 1, 255, &summary, &moved, &refusal) == PCIV_BUFFER_TOO_SMALL);
    EXPECT(is_refusal(&refusal, 12, 0, 0) && is_dirty(&summary, sizeof summary) && moved == 0);
    EXPECT(memcmp(buffer, file, MAP_LEN) == 0 && is_dirty(buffer + MAP_LEN, 80 - MAP_LEN));
    EXPECT(pciv_edit(buffer, 80, 1, 255, &summary, &moved, &refusal) == PCIV_OK);
    EXPECT(is_refusal(&refusal, 0, 0, 0) && is_summary(&summary, 4, 3, 80, 810) && moved == 2);
    EXPECT(memcmp(buffer, edited, 80) == 0);
    EXPECT(pciv_edit(buffer, 80, 3, 400, &summary, &moved, &refusal) == PCIV_OK && moved == 0);
    EXPECT(is_summary(&summary, 4, 3, 80, 910));
    EXPECT(pciv_edit(buffer, 80, 3, 400, &summary, &moved, &refusal) == PCIV_OK && moved == 0);
    EXPECT(is_summary(&summary, 4, 3, 80, 910));
}

static void test_edit_list(const uint8_t *file)
{
    static const uint64_t slots[] = {2, N, 0};
    static const uint32_t distances[] = {254, 1, 7};
    static const uint32_t expected[N] = {7, 254, 254, 300};
    uint8_t buffer[MAP_LEN];
    pciv_edit_answer answers[4];
    uint64_t *numbers = (uint64_t *)answers;
    uint64_t count;
    pciv_refusal refusal;
    memcpy(buffer, file, MAP_LEN);
    memset(answers, DIRTY, sizeof answers);
    memset(&count, DIRTY, sizeof count);
    EXPECT(sizeof(pciv_edit_answer) == 80 && offsetof(pciv_edit_answer, moved) == 72);
    EXPECT(sizeof(pciv_edit_answer) == PCIV_ANSWER_LEN * sizeof(uint64_t));
    EXPECT(pciv_edit_list(buffer, MAP_LEN, slots, 3, distances, 2, numbers, 0, &count, &refusal) ==
           PCIV_SLOT_OUT_OF_RANGE);
    EXPECT(is_refusal(&refusal, PCIV_SLOT_OUT_OF_RANGE, 0, 2));
    EXPECT(pciv_edit_list(buffer, MAP_LEN, slots, 3, distances, 3, numbers, 29, &count, &refusal) ==
           PCIV_BUFFER_TOO_SMALL);
    EXPECT(is_refusal(&refusal, PCIV_BUFFER_TOO_SMALL, 0, 0));
    EXPECT(memcmp(buffer, file, MAP_LEN) == 0);
    EXPECT(is_dirty(answers, sizeof answers) && is_dirty(&count, sizeof count));
    EXPECT(pciv_edit_list(buffer, MAP_LEN, slots, 3, distances, 3, numbers, 40, &count, &refusal) ==
           PCIV_OK);
    EXPECT(is_refusal(&refusal, PCIV_OK, 0, 0) && count == 3);
    EXPECT(answers[0].moved == 1 && answers[1].moved == 0 && answers[2].moved == 0);
    EXPECT(is_refusal(&answers[0].refusal, PCIV_OK, 0, 0));
    EXPECT(is_summary(&answers[0].summary, N, 1, 56, 808));
    EXPECT(numbers[7] == 56 && numbers[8] == 808 && numbers[9] == 1);
    EXPECT(is_refusal(&answers[1].refusal, PCIV_SLOT_OUT_OF_RANGE, 0, 0));
    EXPECT(is_summary(&answers[1].summary, 0, 0, 0, 0));
    EXPECT(is_refusal(&answers[2].refusal, PCIV_OK, 0, 0));
    EXPECT(is_summary(&answers[2].summary, N, 1, 56, 815));
    EXPECT(is_dirty(&answers[3], sizeof answers[3]));
    EXPECT(is_file_of(buffer, 56, &answers[2].summary, expected));
}

static int is_correction(const pciv_correction *line, uint64_t kind, uint64_t place, uint64_t before,
                         uint64_t after)
{
    return line->kind == kind && line->place == place && line->before == before &&
           line->after == after;
}

/* The map with its entries swapped: the second one is dropped, and its slot set to 254. */
static void test_repair(const uint8_t *file)
{
    static const uint32_t expected[N] = {0, 254, 254, 300};
    uint8_t swapped[MAP_LEN], out[MAP_LEN];
    pciv_correction lines[4];
    uint64_t *numbers = (uint64_t *)lines;
    uint64_t count;
    pciv_summary summary;
    pciv_refusal refusal;
    memcpy(swapped, file, 44);
    memcpy(swapped + 44, file + 56, 12);
    memcpy(swapped + 56, file + 44, 12);
    memset(out, DIRTY, sizeof out);
    memset(lines, DIRTY, sizeof lines);
    memset(&count, DIRTY, sizeof count);
    memset(&summary, DIRTY, sizeof summary);
    EXPECT(sizeof(pciv_correction) == 32 && offsetof(pciv_correction, after) == 24);
    EXPECT(sizeof(pciv_correction) == PCIV_CORRECTION_LEN * sizeof(uint64_t));
    EXPECT(pciv_repair(swapped, MAP_LEN, 1048577, UINT64_MAX, out, MAP_LEN, numbers, 16, &summary,
                       &count, &refusal) == PCIV_TOO_MANY_SLOTS);
    EXPECT(is_refusal(&refusal, PCIV_TOO_MANY_SLOTS, 1, 0));
    EXPECT(pciv_repair(swapped, MAP_LEN, N, N + 1, out, MAP_LEN, numbers, 16, &summary, &count,
                       &refusal) == PCIV_BAD_COUNTS);
    EXPECT(is_refusal(&refusal, PCIV_BAD_COUNTS, 1, 0));
    EXPECT(pciv_repair(swapped, MAP_LEN - 1, N, 2, out, MAP_LEN, numbers, 16, &summary, &count,
                       &refusal) == PCIV_BAD_LENGTH);
    EXPECT(is_refusal(&refusal, PCIV_BAD_LENGTH, 1, 0));
    EXPECT(pciv_repair(swapped, MAP_LEN, N, 2, out, 55, numbers, 16, &summary, &count, &refusal) ==
           PCIV_BUFFER_TOO_SMALL);
    EXPECT(pciv_repair(swapped, MAP_LEN, N, 2, out, 56, numbers, 11, &summary, &count, &refusal) ==
           PCIV_BUFFER_TOO_SMALL);
    EXPECT(is_refusal(&refusal, PCIV_BUFFER_TOO_SMALL, 0, 0));
    EXPECT(is_dirty(out, sizeof out) && is_dirty(lines, sizeof lines));
    EXPECT(is_dirty(&summary, sizeof summary) && is_dirty(&count, sizeof count));
    EXPECT(pciv_repair(swapped, MAP_LEN, N, 2, out, MAP_LEN, numbers, 16, &summary, &count,
                       &refusal) == PCIV_OK);
    EXPECT(is_refusal(&refusal, PCIV_OK, 0, 0) && count == 3);
    EXPECT(is_correction(&lines[0], PCIV_CORRECTION_FIELD, 16, 2, 1));
    EXPECT(is_correction(&lines[1], PCIV_CORRECTION_DROPPED, 1, 2, 0));
    EXPECT(is_correction(&lines[2], PCIV_CORRECTION_SET, 2, 255, 254));
    EXPECT(is_dirty(&lines[3], sizeof lines[3]) && is_dirty(out + 56, MAP_LEN - 56));
    EXPECT(is_summary(&summary, N, 1, 56, 808) && is_file_of(out, 56, &summary, expected));
}

/* The lines as structs; a sound file gives itself and none. */
static void test_repair_all(const uint8_t *file)
{
    static const uint32_t expected[N] = {0, 254, 255, 254};
    uint8_t out[PCIV_LONGEST_FILE(N)];
    pciv_correction lines[PCIV_MOST_CORRECTIONS(N, 2)];
    uint64_t count;
    pciv_summary summary;
    pciv_refusal refusal;
    memset(lines, DIRTY, sizeof lines);
    EXPECT(pciv_repair_all(file, MAP_LEN, N, 2, out, sizeof out, NULL, 0, &summary, &count,
                           &refusal) == PCIV_OK);
    EXPECT(count == 0 && is_summary(&summary, N, 2, MAP_LEN, 809));
    EXPECT(memcmp(out, file, MAP_LEN) == 0);
    EXPECT(pciv_repair_all(file, MAP_LEN, N, 1, out, sizeof out, lines, 2, &summary, &count,
                           &refusal) == PCIV_BUFFER_TOO_SMALL);
    EXPECT(memcmp(out, file, MAP_LEN) == 0 && is_dirty(lines, sizeof lines) && count == 0);
    EXPECT(pciv_repair_all(file, MAP_LEN, N, 1, out, sizeof out, lines, 3, &summary, &count,
                           &refusal) == PCIV_OK);
    EXPECT(count == 3 && is_correction(&lines[0], PCIV_CORRECTION_FIELD, 16, 2, 1));
    EXPECT(is_correction(&lines[1], PCIV_CORRECTION_SET, 3, 255, 254));
    EXPECT(is_correction(&lines[2], PCIV_CORRECTION_INDEX, 0, 12, 0));
    EXPECT(is_dirty(&lines[3], sizeof lines[3]));
    EXPECT(is_summary(&summary, N, 1, 56, 763) && is_file_of(out, 56, &summary, expected));
}

/* The bundle of the map and the other one. */
static void build_bundle(uint8_t bundle[BUNDLE_LEN])
{
    static const uint8_t records[][6] = {
        {8, 0, 0, 0, 0, 0}, {N, 0, 0, 0, 2, 0}, /* record 0: slots, frames */
        {MAP_LEN + 2, 0, 0, 0, 1, 0},           /* record 1 */
        {OTHER_LEN + 2, 0, 0, 0, 1, 0}          /* record 2 */
    };
    memcpy(bundle, records, 18);
    build_map(bundle + 18);
    memcpy(bundle + 18 + MAP_LEN, records[3], 6);
    build_other(bundle + 24 + MAP_LEN);
}

/* The refusal of each call on a bundle, before those of slot and list, which changes nothing else. */
static void test_bundle_refused(const uint8_t *bundle, size_t len, uint64_t number, uint64_t map,
                                uint64_t place)
{
    uint64_t slots, frames, count;
    uint32_t row[PCIV_MAX_FRAMES], distances[N];
    pciv_refusal refusal;
    memset(&slots, DIRTY, sizeof slots);
    memset(&frames, DIRTY, sizeof frames);
    memset(row, DIRTY, sizeof row);
    memset(distances, DIRTY, sizeof distances);
    memset(&count, DIRTY, sizeof count);
    EXPECT(pciv_bundle_read(bundle, len, &slots, &frames, &refusal) == number);
    EXPECT(is_refusal(&refusal, number, map, place));
    EXPECT(pciv_bundle_row(bundle, len, UINT64_MAX, row, &refusal) == number);
    EXPECT(is_refusal(&refusal, number, map, place));
    EXPECT(pciv_bundle_nearest(bundle, len, distances, 0, &count, &refusal) == number);
    EXPECT(is_refusal(&refusal, number, map, place));
    EXPECT(is_dirty(&slots, sizeof slots) && is_dirty(&frames, sizeof frames));
    EXPECT(is_dirty(row, sizeof row) && is_dirty(distances, sizeof distances));
    EXPECT(is_dirty(&count, sizeof count));
}

/* The same for a bundle with one byte changed. */
static void test_bundle_damage(const uint8_t *sound, size_t at, uint8_t byte, uint64_t number,
                               uint64_t map, uint64_t place)
{
    uint8_t bundle[BUNDLE_LEN];
    memcpy(bundle, sound, BUNDLE_LEN);
    bundle[at] = byte;
    test_bundle_refused(bundle, BUNDLE_LEN, number, map, place);
}

static void test_bundle_faults(void)
{
    uint8_t bundle[BUNDLE_LEN + 3] = {0};
    build_bundle(bundle);
    test_bundle_refused(bundle, 0, PCIV_BAD_BUNDLE, 0, 0);
    test_bundle_refused(bundle, 11, PCIV_BAD_BUNDLE, 0, 0);
    test_bundle_refused(bundle, 12, PCIV_BAD_BUNDLE, 0, 1);
    test_bundle_refused(bundle, 85, PCIV_BAD_BUNDLE, 0, 1);
    test_bundle_refused(bundle, 86, PCIV_BAD_BUNDLE, 0, 2);
    test_bundle_refused(bundle, BUNDLE_LEN - 1, PCIV_BAD_BUNDLE, 0, 2);
    test_bundle_refused(bundle, BUNDLE_LEN + 1, PCIV_BAD_BUNDLE, 0, 3);
    test_bundle_refused(bundle, BUNDLE_LEN + 3, PCIV_BAD_BUNDLE, 0, 3);
    test_bundle_damage(bundle, 0, 9, PCIV_BAD_BUNDLE, 0, 0);
    test_bundle_damage(bundle, 4, 1, PCIV_BAD_BUNDLE, 0, 0);
    test_bundle_damage(bundle, 10, 0, PCIV_BAD_BUNDLE, 0, 0);
    test_bundle_damage(bundle, 10, 9, PCIV_BAD_BUNDLE, 0, 0);
    test_bundle_damage(bundle, 10, 1, PCIV_BAD_BUNDLE, 0, 2);
    test_bundle_damage(bundle, 10, 3, PCIV_BAD_BUNDLE, 0, 3);
    test_bundle_damage(bundle, 12, 1, PCIV_BAD_BUNDLE, 0, 1);
    test_bundle_damage(bundle, 16, 0, PCIV_BAD_BUNDLE, 0, 1);
    test_bundle_damage(bundle, 90, 0, PCIV_BAD_BUNDLE, 0, 2);
    test_bundle_damage(bundle, 18, 'p', PCIV_BAD_MAGIC, 1, 0);
    test_bundle_damage(bundle, 74, 2, PCIV_BAD_OVERFLOW_ENTRY, 1, 1);
    test_bundle_damage(bundle, 133, 255, PCIV_MISSING_OVERFLOW_ENTRY, 2, 1);
    test_bundle_damage(bundle, 6, N + 1, PCIV_SIZE_MISMATCH, 0, 1);
}

static void test_bundle(void)
{
    static const uint32_t rows[N][2] = {{0, 1}, {254, 1}, {255, 1}, {300, 4294967295}};
    uint8_t bundle[BUNDLE_LEN];
    uint64_t slots, frames, count;
    uint32_t row[PCIV_MAX_FRAMES], distances[N + 1];
    pciv_refusal refusal;
    build_bundle(bundle);
    EXPECT(pciv_bundle_read(bundle, BUNDLE_LEN, &slots, &frames, &refusal) == PCIV_OK);
    EXPECT(is_refusal(&refusal, PCIV_OK, 0, 0) && slots == N && frames == 2);
    for (uint64_t slot = 0; slot < N; slot++) {
        memset(row, DIRTY, sizeof row);
        EXPECT(pciv_bundle_row(bundle, BUNDLE_LEN, slot, row, &refusal) == PCIV_OK);
        EXPECT(is_refusal(&refusal, PCIV_OK, 0, 0));
        EXPECT(row[0] == rows[slot][0] && row[1] == rows[slot][1]);
        for (size_t absent = 2; absent < PCIV_MAX_FRAMES; absent++)
            EXPECT(row[absent] == 0);
    }
    memset(row, DIRTY, sizeof row);
    EXPECT(pciv_bundle_row(bundle, BUNDLE_LEN, N, row, &refusal) == PCIV_SLOT_OUT_OF_RANGE);
    EXPECT(is_refusal(&refusal, PCIV_SLOT_OUT_OF_RANGE, 0, 0) && is_dirty(row, sizeof row));
    memset(distances, DIRTY, sizeof distances);
    memset(&count, DIRTY, sizeof count);
    EXPECT(pciv_bundle_nearest(bundle, BUNDLE_LEN, distances, N - 1, &count, &refusal) ==
           PCIV_BUFFER_TOO_SMALL);
    EXPECT(is_refusal(&refusal, PCIV_BUFFER_TOO_SMALL, 0, 0));
    EXPECT(is_dirty(distances, sizeof distances) && is_dirty(&count, sizeof count));
    EXPECT(pciv_bundle_nearest(bundle, BUNDLE_LEN, distances, N + 1, &count, &refusal) == PCIV_OK);
    EXPECT(is_refusal(&refusal, PCIV_OK, 0, 0) && count == N);
    EXPECT(distances[0] == 1 && distances[1] == 1 && distances[2] == 1 && distances[3] == 300);
    EXPECT(is_dirty(&distances[N], sizeof distances[N]));
}

/* A refusal of the writer, which changes nothing else. */
static void test_bundle_not_written(const pciv_part *frames, size_t count, size_t out_len,
                                    uint64_t number, uint64_t map, uint64_t place)
{
    uint8_t out[BUNDLE_LEN];
    uint64_t written;
    pciv_refusal refusal;
    memset(out, DIRTY, sizeof out);
    memset(&written, DIRTY, sizeof written);
    EXPECT(pciv_bundle_write(frames, count, out, out_len, &written, &refusal) == number);
    EXPECT(is_refusal(&refusal, number, map, place));
    EXPECT(is_dirty(out, sizeof out) && is_dirty(&written, sizeof written));
}

/* Frames behind the count are not looked at: here they lie where nothing can be read. */
static void test_bundle_unread(const uint8_t *file)
{
    const size_t page = 4096;
    void *closed = mmap(NULL, page, PROT_NONE, MAP_PRIVATE | MAP_ANONYMOUS, -1, 0);
    uint8_t out[12 + 6 + MAP_LEN];
    uint64_t written;
    pciv_part frames[PCIV_MAX_FRAMES];
    pciv_refusal refusal;
    EXPECT(closed != MAP_FAILED);
    for (size_t i = 0; i < PCIV_MAX_FRAMES; i++) {
        frames[i].bytes = closed;
        frames[i].len = page;
    }
    EXPECT(pciv_bundle_write(frames, 0, out, sizeof out, &written, &refusal) == PCIV_BAD_BUNDLE);
    EXPECT(pciv_bundle_write(frames, 9, out, sizeof out, &written, &refusal) == PCIV_BAD_BUNDLE);
    frames[0].bytes = file;
    frames[0].len = MAP_LEN;
    EXPECT(pciv_bundle_write(frames, 1, out, sizeof out, &written, &refusal) == PCIV_OK);
    EXPECT(written == sizeof out);
    EXPECT(munmap(closed, page) == 0);
}

static void test_bundle_write(const uint8_t *file, const uint8_t *other)
{
    static const uint8_t empty[40] = "PCIV";
    uint8_t bundle[BUNDLE_LEN], out[PCIV_MAX_FRAMES * (6 + MAP_LEN) + 20];
    uint64_t written;
    pciv_part frames[PCIV_MAX_FRAMES] = {{file, MAP_LEN}, {other, OTHER_LEN}, {file, 39}};
    pciv_refusal refusal;
    EXPECT(sizeof frames == 128 && offsetof(pciv_part, len) == 8);
    EXPECT(pciv_bundle_len(frames, 2) == BUNDLE_LEN && pciv_bundle_len(frames, 0) == 12);
    test_bundle_not_written(frames, 0, BUNDLE_LEN, PCIV_BAD_BUNDLE, 0, 0);
    test_bundle_not_written(frames, 9, BUNDLE_LEN, PCIV_BAD_BUNDLE, 0, 0);
    test_bundle_not_written(frames, SIZE_MAX, 0, PCIV_BAD_BUNDLE, 0, 0);
    test_bundle_not_written(frames, 2, BUNDLE_LEN - 1, PCIV_BUFFER_TOO_SMALL, 0, 0);
    test_bundle_not_written(frames, 3, 0, PCIV_TRUNCATED_HEADER, 3, 0);
    frames[2].bytes = empty;
    frames[2].len = sizeof empty;
    test_bundle_not_written(frames, 3, 0, PCIV_SIZE_MISMATCH, 0, 3);
    frames[2].bytes = file;
    frames[2].len = 39;
    memset(out, DIRTY, sizeof out);
    EXPECT(pciv_bundle_write(frames, 2, out, sizeof out, &written, &refusal) == PCIV_OK);
    EXPECT(is_refusal(&refusal, PCIV_OK, 0, 0) && written == BUNDLE_LEN);
    build_bundle(bundle);
    EXPECT(memcmp(out, bundle, BUNDLE_LEN) == 0);
    EXPECT(is_dirty(out + BUNDLE_LEN, sizeof out - BUNDLE_LEN));
    for (size_t i = 0; i < PCIV_MAX_FRAMES; i++) {
        frames[i].bytes = file;
        frames[i].len = MAP_LEN;
    }
    EXPECT(pciv_bundle_len(frames, 8) == sizeof out - 8);
    EXPECT(pciv_bundle_len(frames, 9) == sizeof out - 8);
    EXPECT(pciv_bundle_write(frames, 8, out, sizeof out, &written, &refusal) == PCIV_OK);
    EXPECT(written == sizeof out - 8 && is_dirty(out + written, 8));
}

/* The table of a constant has its distances and nothing of what it held, zeros after a refusal. */
static void test_fill_table(void)
{
    static const uint32_t constants[] = {1, 254, 255, 510, UINT32_MAX};
    uint32_t table[257];
    pciv_refusal refusal;
    memset(table, DIRTY, sizeof table);
    for (size_t i = 0; i < sizeof constants / sizeof constants[0]; i++) {
        EXPECT(pciv_fill_table(constants[i], table, &refusal) == PCIV_OK);
        EXPECT(is_refusal(&refusal, PCIV_OK, 0, 0) && table[0] == 0);
        for (uint32_t d = 1; d < 256; d++)
            EXPECT(table[d] == (constants[i] < d ? 1 : constants[i] / d));
    }
    memset(table, DIRTY, sizeof table);
    EXPECT(pciv_fill_table(0, table, &refusal) == PCIV_ZERO_CONSTANT);
    EXPECT(is_refusal(&refusal, PCIV_ZERO_CONSTANT, 0, 0));
    for (size_t d = 0; d < 256; d++)
        EXPECT(table[d] == 0);
    EXPECT(is_dirty(&table[256], sizeof table[256]));
}

/* A refusal of the map of a frame, which changes nothing else. */
static void test_frame_refused(const uint8_t *frame, size_t len, const uint32_t *table,
                               size_t out_len, uint64_t number, uint64_t map)
{
    uint8_t out[80];
    pciv_summary summary;
    pciv_refusal refusal;
    memset(out, DIRTY, sizeof out);
    memset(&summary, DIRTY, sizeof summary);
    EXPECT(pciv_map_of_frame(frame, len, table, out, out_len, &summary, &refusal) == number);
    EXPECT(is_refusal(&refusal, number, map, 0));
    EXPECT(is_dirty(out, sizeof out) && is_dirty(&summary, sizeof summary));
}

static void test_map_of_frame(void)
{
    static const uint8_t frame[] = {0, 1, 2, 3, 255};
    static const uint8_t parts[] = {
        0, 255, 255, 170, 2,                         /* primary array */
        1, 0, 0, 0, 0, 0, 0, 0, 0xFE, 0x01, 0, 0,    /* slot 1: 510 */
        2, 0, 0, 0, 0, 0, 0, 0, 0xFF, 0x00, 0, 0     /* slot 2: 255 */
    };
    static const uint32_t zeros[256];
    const size_t capacities[] = {69, 80, PCIV_LONGEST_FILE(5)};
    uint8_t *many = (uint8_t *)calloc(1048577, 1);
    uint8_t out[PCIV_LONGEST_FILE(5) + 8];
    uint32_t table[256], original[256];
    pciv_summary summary;
    pciv_refusal refusal;
    EXPECT(many != NULL && pciv_fill_table(510, table, &refusal) == PCIV_OK);
    memcpy(original, table, sizeof table);
    test_frame_refused(frame, 5, table, 68, PCIV_BUFFER_TOO_SMALL, 0);
    test_frame_refused(frame, 5, table, 0, PCIV_BUFFER_TOO_SMALL, 0);
    test_frame_refused(many, 1048577, table, 80, PCIV_TOO_MANY_SLOTS, 1);
    test_frame_refused(many, 1048576, table, 80, PCIV_BUFFER_TOO_SMALL, 0);
    for (size_t i = 0; i < 3; i++) {
        memset(out, DIRTY, sizeof out);
        EXPECT(pciv_map_of_frame(frame, 5, table, out, capacities[i], &summary, &refusal) ==
               PCIV_OK);
        EXPECT(is_refusal(&refusal, PCIV_OK, 0, 0) && is_summary(&summary, 5, 2, 69, 937));
        EXPECT(memcmp(out, "PCIV", 4) == 0 && memcmp(out + 40, parts, sizeof parts) == 0);
        EXPECT(is_dirty(out + 69, sizeof out - 69));
        EXPECT(pciv_check(out, 69, &summary, &refusal) == PCIV_OK && summary.sum == 937);
    }
    EXPECT(memcmp(table, original, sizeof table) == 0);
    EXPECT(pciv_map_of_frame(frame, 5, zeros, out, 45, &summary, &refusal) == PCIV_OK);
    EXPECT(is_summary(&summary, 5, 0, 45, 0) && memcmp(out + 40, zeros, 5) == 0);
    EXPECT(out[45] == parts[5]);
    free(many);
}

static void test_report(const uint8_t *file)
{
    const size_t len = strlen(REPORT);
    uint8_t text[160];
    uint64_t count;
    pciv_refusal refusal;
    memset(text, DIRTY, sizeof text);
    memset(&count, DIRTY, sizeof count);
    EXPECT(pciv_report(file, MAP_LEN, text, len - 1, &count, &refusal) == PCIV_BUFFER_TOO_SMALL);
    EXPECT(is_refusal(&refusal, PCIV_BUFFER_TOO_SMALL, 0, 0));
    EXPECT(is_dirty(text, sizeof text) && is_dirty(&count, sizeof count));
    EXPECT(pciv_report(file, MAP_LEN, text, sizeof text, &count, &refusal) == PCIV_OK);
    EXPECT(is_refusal(&refusal, PCIV_OK, 0, 0) && count == len);
    EXPECT(memcmp(text, REPORT, len) == 0 && is_dirty(text + len, sizeof text - len));
    EXPECT(pciv_report(file, 0, text, sizeof text, &count, &refusal) == PCIV_OK);
    EXPECT(count == 24 && memcmp(text, "refused 1 map 1 place 0\n", 24) == 0);
}

/* The refusal of the map with one byte changed. */
static void test_damage(const uint8_t *map, size_t at, uint8_t byte, uint64_t number, uint64_t place)
{
    uint8_t file[MAP_LEN];
    pciv_summary summary;
    pciv_refusal refusal;
    memcpy(file, map, MAP_LEN);
    file[at] = byte;
    EXPECT(pciv_check(file, MAP_LEN, &summary, &refusal) == number);
    EXPECT(is_refusal(&refusal, number, 1, place));
}

/* The string and the number say what the three numbers say; #if can compare them. */
static void test_version(void)
{
#if PCIV_VERSION_NUMBER < 6003
#error "this header is older than 0.6.3"
#endif
    char text[32];
    snprintf(text, sizeof text, "%d.%d.%d", PCIV_VERSION_MAJOR, PCIV_VERSION_MINOR,
             PCIV_VERSION_PATCH);
    EXPECT(strcmp(text, PCIV_VERSION) == 0);
    EXPECT(PCIV_VERSION_NUMBER ==
           PCIV_VERSION_MAJOR * 1000000 + PCIV_VERSION_MINOR * 1000 + PCIV_VERSION_PATCH);
}

/* pciv_write needs pciv_file_len bytes for n slots, the first k of them in overflow, and no fewer. */
static void test_length(size_t n, size_t k, size_t len)
{
    uint32_t *distances = (uint32_t *)calloc(n + 1, sizeof *distances);
    uint8_t *out = (uint8_t *)malloc(len);
    pciv_summary summary;
    pciv_refusal refusal;
    EXPECT(distances != NULL && out != NULL);
    EXPECT(pciv_file_len(n, k) == len && len <= PCIV_LONGEST_FILE(n));
    for (size_t i = 0; i < k; i++)
        distances[i] = 255;
    EXPECT(pciv_write(distances, n, out, len - 1, &summary, &refusal) == PCIV_BUFFER_TOO_SMALL);
    EXPECT(pciv_write(distances, n, out, len, &summary, &refusal) == PCIV_OK);
    EXPECT(summary.k == k && summary.len == len && summary.sum == 255 * k);
    free(distances);
    free(out);
}

/* The table of docs/FORMAT.md, "Derived counts", and the lengths that README.md names. */
static void test_lengths(void)
{
    test_length(5000, 2048, 29616);
    test_length(5000, 2049, 46028);
    test_length(5000, 4096, 86960);
    test_length(5000, 4097, 76060);
    test_length(1048576, 1048576, 13664296);
    test_length(19200, 2145, 62148);
    test_length(786432, 7864, 912296);
    test_length(0, 0, 40);
    EXPECT(PCIV_LONGEST_FILE(1048576) == 13664296 && PCIV_LONGEST_FILE(0) == 32808);
}

/* Each number has words of its own; a number without a meaning has the words for that. */
static void test_refusal_text(void)
{
    EXPECT(strcmp(pciv_refusal_text(PCIV_OK), "not refused") == 0);
    EXPECT(strcmp(pciv_refusal_text(PCIV_BUFFER_TOO_SMALL),
                  "the result does not fit into the buffer") == 0);
    EXPECT(strcmp(pciv_refusal_text(PCIV_ZERO_CONSTANT), "the device constant is 0") == 0);
    EXPECT(strcmp(pciv_refusal_text(UINT64_MAX), "unknown refusal") == 0);
    for (uint64_t a = 0; a < 21; a++) {
        int has_meaning = a <= PCIV_BAD_BUNDLE || a == PCIV_ZERO_CONSTANT;
        EXPECT((strcmp(pciv_refusal_text(a), "unknown refusal") != 0) == has_meaning);
        for (uint64_t b = 0; has_meaning && b < a; b++)
            EXPECT(strcmp(pciv_refusal_text(a), pciv_refusal_text(b)) != 0);
    }
}

static void test_edit_all(const uint8_t *file)
{
    static const uint64_t slots[] = {2, N, 0};
    static const uint32_t distances[] = {254, 1, 7};
    static const uint32_t expected[N] = {7, 254, 254, 300};
    uint8_t buffer[MAP_LEN];
    pciv_edit_answer answers[4];
    pciv_refusal refusal;
    memcpy(buffer, file, MAP_LEN);
    memset(answers, DIRTY, sizeof answers);
    EXPECT(pciv_edit_all(buffer, MAP_LEN - 1, slots, distances, answers, 3, &refusal) ==
           PCIV_BAD_LENGTH);
    EXPECT(is_refusal(&refusal, PCIV_BAD_LENGTH, 1, 0));
    EXPECT(memcmp(buffer, file, MAP_LEN) == 0 && is_dirty(answers, sizeof answers));
    EXPECT(pciv_edit_all(buffer, MAP_LEN, slots, distances, answers, 3, &refusal) == PCIV_OK);
    EXPECT(is_refusal(&refusal, PCIV_OK, 0, 0));
    EXPECT(is_refusal(&answers[0].refusal, PCIV_OK, 0, 0));
    EXPECT(is_summary(&answers[0].summary, N, 1, 56, 808));
    EXPECT(is_refusal(&answers[1].refusal, PCIV_SLOT_OUT_OF_RANGE, 0, 0));
    EXPECT(is_refusal(&answers[2].refusal, PCIV_OK, 0, 0));
    EXPECT(answers[0].moved == 1 && answers[1].moved == 0 && answers[2].moved == 0);
    EXPECT(is_file_of(buffer, 56, &answers[2].summary, expected));
    EXPECT(is_dirty(&answers[3], sizeof answers[3]));
    EXPECT(pciv_edit_all(buffer, MAP_LEN, NULL, NULL, NULL, 0, &refusal) == PCIV_OK);
}

/* An empty slice may be null, whichever of a call's slices it is: reading. */
static void test_null_read(const uint8_t *file)
{
    static const uint64_t slots[] = {3, 1, 3};
    static const uint8_t empty[40] = "PCIV";
    uint8_t text[160];
    uint64_t span[2], number = 7, count = 7, entry;
    uint32_t distance;
    pciv_summary summary;
    pciv_refusal why;
    EXPECT(pciv_check(NULL, 0, &summary, &why) == PCIV_TRUNCATED_HEADER);
    EXPECT(pciv_primary_span(NULL, 0, span) == 0 && span[0] == 0 && span[1] == 0);
    EXPECT(pciv_primary(NULL, 0).len == 0);
    EXPECT(pciv_lookup(NULL, 0, 0, &distance, &entry, &why) == PCIV_TRUNCATED_HEADER);
    EXPECT(pciv_lookup_list(NULL, 0, slots, 3, &distance, 1, &entry, 1, &count, &why) ==
           PCIV_TRUNCATED_HEADER);
    EXPECT(pciv_lookup_list(file, MAP_LEN, slots, 1, NULL, 0, &entry, 1, &count, &why) ==
           PCIV_BUFFER_TOO_SMALL);
    EXPECT(pciv_lookup_list(file, MAP_LEN, slots, 1, &distance, 1, NULL, 0, &count, &why) ==
           PCIV_BUFFER_TOO_SMALL);
    EXPECT(pciv_lookup_list(file, MAP_LEN, NULL, 0, NULL, 0, NULL, 0, &count, &why) == PCIV_OK);
    EXPECT(count == 0);
    EXPECT(pciv_scan(NULL, 0, &distance, 1, &count, &why) == PCIV_TRUNCATED_HEADER);
    EXPECT(pciv_scan(file, MAP_LEN, NULL, 0, &count, &why) == PCIV_BUFFER_TOO_SMALL);
    EXPECT(pciv_scan(empty, 40, NULL, 0, &count, &why) == PCIV_OK && count == 0);
    EXPECT(pciv_sum(NULL, 0, &number, &why) == PCIV_TRUNCATED_HEADER);
    EXPECT(pciv_readings(NULL, 0, &number, &why) == PCIV_TRUNCATED_HEADER && number == 7);
    EXPECT(pciv_report(file, MAP_LEN, NULL, 0, &count, &why) == PCIV_BUFFER_TOO_SMALL);
    EXPECT(pciv_report(NULL, 0, text, sizeof text, &count, &why) == PCIV_OK && count == 24);
}

/* The same for routines of two files; out is null where the result is a file. */
static void test_null_pair(combine *call, const uint8_t *file)
{
    uint8_t out[100];
    pciv_summary summary;
    pciv_refusal why;
    EXPECT(call(NULL, 0, file, MAP_LEN, out, sizeof out, &summary, &why) == PCIV_TRUNCATED_HEADER);
    EXPECT(why.map == 1);
    EXPECT(call(file, MAP_LEN, NULL, 0, out, sizeof out, &summary, &why) == PCIV_TRUNCATED_HEADER);
    EXPECT(why.map == 2);
    EXPECT(call(file, MAP_LEN, file, MAP_LEN, NULL, 0, &summary, &why) == PCIV_BUFFER_TOO_SMALL);
}

/* The same for writing, combining, editing and repairing. */
static void test_null_write(const uint8_t *file)
{
    static const uint8_t primary[N] = {0, 254, 255, 255};
    static const uint64_t slots[] = {2, 3};
    static const uint32_t distances[] = {255, 300};
    static const pciv_entry entries[] = {{2, 255}, {3, 300}};
    uint8_t out[100];
    int64_t change;
    double figure;
    uint64_t answers[2 * PCIV_ANSWER_LEN], count = 7, moved = 7;
    pciv_summary summary;
    pciv_refusal why;
    EXPECT(pciv_write(NULL, 0, out, 40, &summary, &why) == PCIV_OK);
    EXPECT(is_summary(&summary, 0, 0, 40, 0));
    EXPECT(pciv_write(distances, 2, NULL, 0, &summary, &why) == PCIV_BUFFER_TOO_SMALL);
    EXPECT(pciv_close(NULL, 0, NULL, 0, NULL, 0, out, 40, &summary, &why) == PCIV_OK);
    EXPECT(pciv_close(primary, N, NULL, 0, distances, 2, out, 68, &summary, &why) ==
           PCIV_BAD_OVERFLOW_ENTRY);
    EXPECT(pciv_close(primary, N, slots, 2, NULL, 0, out, 68, &summary, &why) ==
           PCIV_BAD_OVERFLOW_ENTRY);
    EXPECT(pciv_close(primary, N, slots, 2, distances, 2, NULL, 0, &summary, &why) ==
           PCIV_BUFFER_TOO_SMALL);
    EXPECT(pciv_close_entries(NULL, 0, NULL, 0, out, 40, &summary, &why) == PCIV_OK);
    EXPECT(pciv_close_entries(NULL, 0, entries, 2, out, 68, &summary, &why) ==
           PCIV_BAD_OVERFLOW_ENTRY);
    EXPECT(pciv_close_entries(primary, N, NULL, 0, out, 68, &summary, &why) ==
           PCIV_MISSING_OVERFLOW_ENTRY);
    EXPECT(pciv_close_entries(primary, N, entries, 2, NULL, 0, &summary, &why) ==
           PCIV_BUFFER_TOO_SMALL);
    test_null_pair(pciv_minimum, file);
    test_null_pair(pciv_maximum, file);
    test_null_pair(pciv_sum_maps, file);
    test_null_pair(pciv_difference, file);
    EXPECT(pciv_shift(NULL, 0, 1, out, sizeof out, &summary, &why) == PCIV_TRUNCATED_HEADER);
    EXPECT(pciv_shift(file, MAP_LEN, 1, NULL, 0, &summary, &why) == PCIV_BUFFER_TOO_SMALL);
    EXPECT(pciv_shift(file, MAP_LEN, -1, NULL, 0, &summary, &why) == PCIV_BUFFER_TOO_SMALL);
    EXPECT(pciv_signed_difference(NULL, 0, file, MAP_LEN, &change, 1, &count, &why) ==
           PCIV_TRUNCATED_HEADER);
    EXPECT(pciv_signed_difference(file, MAP_LEN, NULL, 0, &change, 1, &count, &why) ==
           PCIV_TRUNCATED_HEADER);
    EXPECT(pciv_signed_difference(file, MAP_LEN, file, MAP_LEN, NULL, 0, &count, &why) ==
           PCIV_BUFFER_TOO_SMALL);
    EXPECT(pciv_bray_curtis(NULL, 0, file, MAP_LEN, &figure, &why) == PCIV_TRUNCATED_HEADER);
    EXPECT(pciv_bray_curtis(file, MAP_LEN, NULL, 0, &figure, &why) == PCIV_TRUNCATED_HEADER);
    EXPECT(pciv_jaccard(NULL, 0, file, MAP_LEN, 1, &figure, &why) == PCIV_TRUNCATED_HEADER);
    EXPECT(pciv_jaccard(file, MAP_LEN, NULL, 0, 1, &figure, &why) == PCIV_TRUNCATED_HEADER);
    memcpy(out, file, MAP_LEN);
    EXPECT(pciv_edit(NULL, 0, 1, 1, &summary, &moved, &why) == PCIV_TRUNCATED_HEADER);
    EXPECT(moved == 0);
    EXPECT(pciv_edit_list(NULL, 0, slots, 2, distances, 2, answers, 20, &count, &why) ==
           PCIV_TRUNCATED_HEADER);
    EXPECT(pciv_edit_list(out, MAP_LEN, NULL, 0, distances, 2, answers, 20, &count, &why) ==
           PCIV_SLOT_OUT_OF_RANGE);
    EXPECT(pciv_edit_list(out, MAP_LEN, slots, 2, NULL, 0, answers, 20, &count, &why) ==
           PCIV_SLOT_OUT_OF_RANGE);
    EXPECT(pciv_edit_list(out, MAP_LEN, slots, 2, distances, 2, NULL, 0, &count, &why) ==
           PCIV_BUFFER_TOO_SMALL);
    EXPECT(pciv_edit_list(out, MAP_LEN, NULL, 0, NULL, 0, NULL, 0, &count, &why) == PCIV_OK);
    EXPECT(count == 0 && memcmp(out, file, MAP_LEN) == 0);
    EXPECT(pciv_repair(NULL, 0, 0, 0, out, 100, answers, 20, &summary, &count, &why) ==
           PCIV_BAD_LENGTH);
    EXPECT(pciv_repair(file, MAP_LEN, N, 2, NULL, 0, answers, 20, &summary, &count, &why) ==
           PCIV_BUFFER_TOO_SMALL);
    EXPECT(pciv_repair(file, MAP_LEN, N, 1, out, 100, NULL, 0, &summary, &count, &why) ==
           PCIV_BUFFER_TOO_SMALL);
    EXPECT(pciv_repair(file, MAP_LEN, N, 2, out, 68, NULL, 0, &summary, &count, &why) == PCIV_OK);
    EXPECT(count == 0 && memcmp(out, file, MAP_LEN) == 0);
}

/* The same for bundles, and for parts that are null. */
static void test_null_bundles(const uint8_t *file)
{
    static const uint8_t empty[40] = "PCIV";
    pciv_part frames[PCIV_MAX_FRAMES] = {{empty, sizeof empty}};
    uint8_t out[100];
    uint32_t row[PCIV_MAX_FRAMES], distance;
    uint64_t slots, count = 7, written;
    pciv_refusal why;
    EXPECT(pciv_bundle_read(NULL, 0, &slots, &count, &why) == PCIV_BAD_BUNDLE);
    EXPECT(pciv_bundle_row(NULL, 0, 0, row, &why) == PCIV_BAD_BUNDLE);
    EXPECT(pciv_bundle_nearest(NULL, 0, &distance, 1, &count, &why) == PCIV_BAD_BUNDLE);
    EXPECT(pciv_bundle_write(frames, 1, NULL, 0, &written, &why) == PCIV_BUFFER_TOO_SMALL);
    EXPECT(pciv_bundle_write(frames, 1, out, 58, &written, &why) == PCIV_OK && written == 58);
    EXPECT(pciv_bundle_nearest(out, 58, NULL, 0, &count, &why) == PCIV_OK && count == 0);
    EXPECT(pciv_bundle_write(frames, 2, out, 99, &written, &why) == PCIV_TRUNCATED_HEADER);
    EXPECT(why.map == 2);
    frames[0].bytes = file;
    frames[0].len = MAP_LEN;
    EXPECT(pciv_bundle_write(frames, 1, out, 86, &written, &why) == PCIV_OK && written == 86);
    EXPECT(pciv_bundle_nearest(out, 86, NULL, 0, &count, &why) == PCIV_BUFFER_TOO_SMALL);
}

/* The same for disparity frames. A table is never empty. */
static void test_null_frames(void)
{
    static const uint8_t frame[] = {7};
    uint32_t table[256];
    uint8_t out[40];
    pciv_summary summary;
    pciv_refusal why;
    EXPECT(pciv_fill_table(510, table, &why) == PCIV_OK);
    EXPECT(pciv_map_of_frame(NULL, 0, table, out, 40, &summary, &why) == PCIV_OK);
    EXPECT(is_summary(&summary, 0, 0, 40, 0) && memcmp(out, "PCIV", 4) == 0);
    EXPECT(pciv_map_of_frame(NULL, 0, table, NULL, 0, &summary, &why) == PCIV_BUFFER_TOO_SMALL);
    EXPECT(pciv_map_of_frame(frame, 1, table, NULL, 0, &summary, &why) == PCIV_BUFFER_TOO_SMALL);
}

/* The same for masks: a mask of no slots has no words. */
static void test_null_masks(const uint8_t *file)
{
    static threshold *const thresholds[] = {pciv_mask_below, pciv_mask_at_most, pciv_mask_above,
                                            pciv_mask_at_least, pciv_near_mask};
    static combine_masks *const pairs[] = {pciv_mask_and, pciv_mask_or, pciv_mask_xor};
    static mask_file *const files[] = {pciv_keep_masked, pciv_increment_masked};
    static const uint8_t empty[40] = "PCIV";
    static const uint64_t mask[] = {6};
    uint8_t out[100];
    uint64_t word, count;
    pciv_summary summary;
    pciv_refusal why;
    for (size_t i = 0; i < 5; i++) {
        EXPECT(thresholds[i](NULL, 0, 9, &word, 1, &count, &why) == PCIV_TRUNCATED_HEADER);
        EXPECT(thresholds[i](file, MAP_LEN, 9, NULL, 0, &count, &why) == PCIV_BUFFER_TOO_SMALL);
        EXPECT(thresholds[i](empty, 40, 9, NULL, 0, &count, &why) == PCIV_OK && count == 0);
    }
    for (size_t i = 0; i < 3; i++) {
        EXPECT(pairs[i](N, NULL, 0, mask, 1, &word, 1, &count, &why) == PCIV_BAD_MASK);
        EXPECT(pairs[i](N, mask, 1, NULL, 0, &word, 1, &count, &why) == PCIV_BAD_MASK);
        EXPECT(pairs[i](N, mask, 1, mask, 1, NULL, 0, &count, &why) == PCIV_BUFFER_TOO_SMALL);
        EXPECT(pairs[i](0, NULL, 0, NULL, 0, NULL, 0, &count, &why) == PCIV_OK && count == 0);
    }
    EXPECT(pciv_mask_not(N, NULL, 0, &word, 1, &count, &why) == PCIV_BAD_MASK);
    EXPECT(pciv_mask_not(N, mask, 1, NULL, 0, &count, &why) == PCIV_BUFFER_TOO_SMALL);
    EXPECT(pciv_mask_not(0, NULL, 0, NULL, 0, &count, &why) == PCIV_OK && count == 0);
    EXPECT(pciv_set_bits(N, NULL, 0, &count, &why) == PCIV_BAD_MASK);
    EXPECT(pciv_set_bits(0, NULL, 0, &count, &why) == PCIV_OK && count == 0);
    EXPECT(pciv_map_of_mask(N, NULL, 0, out, 44, &summary, &why) == PCIV_BAD_MASK);
    EXPECT(pciv_map_of_mask(N, mask, 1, NULL, 0, &summary, &why) == PCIV_BUFFER_TOO_SMALL);
    EXPECT(pciv_map_of_mask(0, NULL, 0, out, 40, &summary, &why) == PCIV_OK);
    for (size_t i = 0; i < 2; i++) {
        EXPECT(files[i](NULL, 0, mask, 1, out, 99, &summary, &why) == PCIV_TRUNCATED_HEADER);
        EXPECT(files[i](file, MAP_LEN, NULL, 0, out, 99, &summary, &why) == PCIV_BAD_MASK);
        EXPECT(files[i](file, MAP_LEN, mask, 1, NULL, 0, &summary, &why) == PCIV_BUFFER_TOO_SMALL);
        EXPECT(files[i](empty, 40, NULL, 0, out, 40, &summary, &why) == PCIV_OK);
    }
}

int main(void)
{
    uint8_t file[MAP_LEN], other[OTHER_LEN];
    uint8_t original[MAP_LEN], other_original[OTHER_LEN];
    build_map(file);
    build_map(original);
    build_other(other);
    build_other(other_original);
    test_check(file);
    test_primary(file);
    test_lookup(file);
    test_lookup_list(file);
    test_scan(file);
    test_totals(file);
    test_write(file);
    test_close(file);
    test_close_entries(file);
    test_arithmetic(file, other);
    test_masks(file, other);
    test_figures(file, other);
    test_edit(file);
    test_edit_capacity(file);
    test_edit_list(file);
    test_repair(file);
    test_repair_all(file);
    test_bundle_faults();
    test_bundle();
    test_bundle_write(file, other);
    test_bundle_unread(file);
    test_fill_table();
    test_map_of_frame();
    test_report(file);
    test_version();
    test_lengths();
    test_refusal_text();
    test_edit_all(file);
    test_null_read(file);
    test_null_write(file);
    test_null_bundles(file);
    test_null_frames();
    test_null_masks(file);
    test_damage(file, 0, 'p', PCIV_BAD_MAGIC, 0);
    test_damage(file, 15, 1, PCIV_TOO_MANY_SLOTS, 0);
    test_damage(file, 16, N + 1, PCIV_BAD_COUNTS, 0);
    test_damage(file, 56, 2, PCIV_BAD_OVERFLOW_ENTRY, 1);
    test_damage(file, 41, 255, PCIV_MISSING_OVERFLOW_ENTRY, 1);
    EXPECT(memcmp(file, original, MAP_LEN) == 0);
    EXPECT(memcmp(other, other_original, OTHER_LEN) == 0);
    puts("c_smoke: ok");
    return 0;
}
