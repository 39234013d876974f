/* Faults for the fuzzer to find, one in each build: FAULT is a name below. The library's own function is there under the
   name exact_NAME. */
#include "pciv.h"

#include <string.h>

#define lookup_last_of_index 1
#define check_last_index_entry 2
#define sum_maps_place 3
#define jaccard_rounds_twice 4
#define write_byte_behind 5
#define edit_byte_left 6
#define scan_reads_behind 7
#define lookup_list_writes_behind 8
#define lookup_list_inline_zero 9
#define lookup_list_one_length 10
#define edit_counts_own_entry 11
#define check_narrow_sum 12
#define edit_leaves_sum 13
#define repair_tells_given_count 14
#define repair_index_by_length 15
#define repair_list_rounded_up 16
#define bundle_read_place_of_missing 17
#define bundle_row_past_count 18
#define bundle_nearest_takes_zeros 19
#define bundle_write_looks_further 20
#define fill_table_rounds_up 21
#define map_of_frame_marks_inline 22
#define map_of_frame_header_of_refused 23

static uint64_t field(const uint8_t *file, size_t at)
{
    uint64_t number;
    memcpy(&number, file + at, sizeof number);
    return number;
}

/* The sum of the distances, of a file that is sound but for its index. */
static uint64_t sum_of(const uint8_t *file)
{
    const uint8_t *entries = file + 40 + field(file, 8);
    uint64_t sum = 0;
    for (const uint8_t *byte = file + 40; byte < entries; byte++)
        sum += *byte < 255 ? *byte : 0;
    for (uint64_t i = 0; i < field(file, 16); i++) {
        uint32_t distance;
        memcpy(&distance, entries + 12 * i + 8, sizeof distance);
        sum += distance;
    }
    return sum;
}

/* The frame count of a bundle. */
static size_t frame_count(const uint8_t *bundle)
{
    return bundle[10];
}

/* The number of records, where the last one ends at the end. */
static uint64_t record_count(const uint8_t *bundle, size_t len)
{
    uint64_t count = 0;
    for (size_t at = 0; at < len; count++) {
        uint32_t length;
        if (len - at < sizeof length)
            return UINT64_MAX;
        memcpy(&length, bundle + at, sizeof length);
        if (length > len - at - sizeof length)
            return UINT64_MAX;
        at += sizeof length + length;
    }
    return count;
}

#if FAULT == lookup_last_of_index
/* The last slot is wrong where there is a sparse index. */
uint64_t exact_pciv_lookup(const uint8_t *, size_t, uint64_t, uint32_t *, uint64_t *,
                           pciv_refusal *);

uint64_t pciv_lookup(const uint8_t *file, size_t file_len, uint64_t slot, uint32_t *distance,
                     uint64_t *entry, pciv_refusal *refusal)
{
    uint64_t number = exact_pciv_lookup(file, file_len, slot, distance, entry, refusal);
    if (number == PCIV_OK && field(file, 32) > 0 && slot == field(file, 8) - 1)
        *distance ^= 1;
    return number;
}

#elif FAULT == check_last_index_entry || FAULT == check_narrow_sum
/* Two faults of one function, each at its place. */
uint64_t exact_pciv_check(const uint8_t *, size_t, pciv_summary *, pciv_refusal *);

uint64_t pciv_check(const uint8_t *file, size_t file_len, pciv_summary *summary,
                    pciv_refusal *refusal)
{
    uint64_t number = exact_pciv_check(file, file_len, summary, refusal);
    /* The sum is cut off at 32 bits. */
    if (number == PCIV_OK && FAULT == check_narrow_sum)
        summary->sum = (uint32_t)summary->sum;
    /* The last index entry is not looked at. */
    if (number == PCIV_BAD_INDEX_ENTRY && FAULT == check_last_index_entry &&
        refusal->place == field(file, 24) - 1) {
        pciv_summary said = {field(file, 8),  field(file, 16), field(file, 24),
                             field(file, 32), file_len,        sum_of(file)};
        *summary = said;
        memset(refusal, 0, sizeof *refusal);
        return PCIV_OK;
    }
    return number;
}

#elif FAULT == sum_maps_place
/* The place of a sum that is too large is that of the slot before, from slot 3 on. */
uint64_t exact_pciv_sum_maps(const uint8_t *, size_t, const uint8_t *, size_t, uint8_t *, size_t,
                             pciv_summary *, pciv_refusal *);

uint64_t pciv_sum_maps(const uint8_t *a, size_t a_len, const uint8_t *b, size_t b_len, uint8_t *out,
                       size_t out_len, pciv_summary *summary, pciv_refusal *refusal)
{
    uint64_t number = exact_pciv_sum_maps(a, a_len, b, b_len, out, out_len, summary, refusal);
    if (number == PCIV_DISTANCE_OVERFLOW && refusal->place >= 3)
        refusal->place--;
    return number;
}

#elif FAULT == jaccard_rounds_twice
/* The figure is 1 minus a quotient. */
uint64_t exact_pciv_jaccard(const uint8_t *, size_t, const uint8_t *, size_t, uint32_t, double *,
                            pciv_refusal *);

uint64_t pciv_jaccard(const uint8_t *a, size_t a_len, const uint8_t *b, size_t b_len, uint32_t t,
                      double *figure, pciv_refusal *refusal)
{
    uint64_t number = exact_pciv_jaccard(a, a_len, b, b_len, t, figure, refusal);
    if (number == PCIV_OK)
        *figure = 1.0 - (1.0 - *figure);
    return number;
}

#elif FAULT == write_byte_behind
/* The byte behind the file becomes 0. */
uint64_t exact_pciv_write(const uint32_t *, size_t, uint8_t *, size_t, pciv_summary *,
                          pciv_refusal *);

uint64_t pciv_write(const uint32_t *distances, size_t distances_len, uint8_t *out, size_t out_len,
                    pciv_summary *summary, pciv_refusal *refusal)
{
    uint64_t number = exact_pciv_write(distances, distances_len, out, out_len, summary, refusal);
    if (number == PCIV_OK && summary->len < out_len)
        out[summary->len] = 0;
    return number;
}

#elif FAULT == edit_byte_left || FAULT == edit_counts_own_entry || FAULT == edit_leaves_sum
/* Three faults of one function, each at its place. */
uint64_t exact_pciv_edit(uint8_t *, size_t, uint64_t, uint32_t, pciv_summary *, uint64_t *,
                         pciv_refusal *);

uint64_t pciv_edit(uint8_t *buffer, size_t buffer_len, uint64_t slot, uint32_t distance,
                   pciv_summary *summary, uint64_t *moved, pciv_refusal *refusal)
{
    uint64_t k = 0, len = 0, sum = 0;
    if (buffer_len >= 40) {
        k = field(buffer, 16);
        len = 40 + field(buffer, 8) + 12 * k + 16 * field(buffer, 24);
        if (len <= buffer_len)
            pciv_sum(buffer, len, &sum, refusal);
    }
    uint64_t number = exact_pciv_edit(buffer, buffer_len, slot, distance, summary, moved, refusal);
    /* A byte that a shorter file has left free is not 0, where more than an entry is free. */
    if (number == PCIV_OK && FAULT == edit_byte_left && summary->len + 12 < len)
        buffer[len - 1] = 1;
    /* The slot's own entry counts as moved where it is gone and others have moved. */
    if (number == PCIV_OK && FAULT == edit_counts_own_entry && summary->k < k && *moved > 0)
        ++*moved;
    /* The sum stays as it was where the slot stays in overflow. */
    if (number == PCIV_OK && FAULT == edit_leaves_sum && summary->k == k && distance >= 255)
        summary->sum = sum;
    return number;
}

#elif FAULT == scan_reads_behind
/* The byte behind the file is read. */
uint64_t exact_pciv_scan(const uint8_t *, size_t, uint32_t *, size_t, uint64_t *, pciv_refusal *);

uint64_t pciv_scan(const uint8_t *file, size_t file_len, uint32_t *distances, size_t distances_len,
                   uint64_t *count, pciv_refusal *refusal)
{
    uint64_t number = exact_pciv_scan(file, file_len, distances, distances_len, count, refusal);
    if (number == PCIV_OK)
        (void)*(const volatile uint8_t *)(file + file_len);
    return number;
}

#elif FAULT == lookup_list_writes_behind || FAULT == lookup_list_inline_zero || \
    FAULT == lookup_list_one_length
/* Three faults of one function, each at its place. */
uint64_t exact_pciv_lookup_list(const uint8_t *, size_t, const uint64_t *, size_t, uint32_t *,
                                size_t, uint64_t *, size_t, uint64_t *, pciv_refusal *);

uint64_t pciv_lookup_list(const uint8_t *file, size_t file_len, const uint64_t *slots,
                          size_t slots_len, uint32_t *distances, size_t distances_len,
                          uint64_t *entries, size_t entries_len, uint64_t *count,
                          pciv_refusal *refusal)
{
    /* The list of entries is judged by the length of the other list. */
    size_t len = FAULT == lookup_list_one_length ? distances_len : entries_len;
    uint64_t number = exact_pciv_lookup_list(file, file_len, slots, slots_len, distances,
                                             distances_len, entries, len, count, refusal);
    /* The element behind the list of distances is written as it was. */
    if (number == PCIV_OK && FAULT == lookup_list_writes_behind) {
        volatile uint32_t *behind = distances + distances_len;
        *behind = *behind;
    }
    /* The number of an inline distance is 0. */
    if (number == PCIV_OK && FAULT == lookup_list_inline_zero)
        for (size_t i = 0; i < slots_len; i++)
            entries[i] = distances[i] < 255 ? 0 : entries[i];
    return number;
}

#elif FAULT == repair_tells_given_count || FAULT == repair_index_by_length || \
    FAULT == repair_list_rounded_up
/* Three faults of one function, each at its place. */
uint64_t exact_pciv_repair(const uint8_t *, size_t, uint64_t, uint64_t, uint8_t *, size_t,
                           uint64_t *, size_t, pciv_summary *, uint64_t *, pciv_refusal *);

uint64_t pciv_repair(const uint8_t *file, size_t file_len, uint64_t n, uint64_t k, uint8_t *out,
                     size_t out_len, uint64_t *corrections, size_t corrections_len,
                     pciv_summary *summary, uint64_t *count, pciv_refusal *refusal)
{
    /* A line that does not wholly fit into the list is written all the same. */
    size_t len = corrections_len;
    if (FAULT == repair_list_rounded_up)
        len = (len + PCIV_CORRECTION_LEN - 1) / PCIV_CORRECTION_LEN * PCIV_CORRECTION_LEN;
    uint64_t number = exact_pciv_repair(file, file_len, n, k, out, out_len, corrections, len,
                                        summary, count, refusal);
    pciv_correction *lines = (pciv_correction *)corrections;
    /* The line about the number of entries has that of the entries given, not of those kept. */
    for (size_t i = 0; number == PCIV_OK && FAULT == repair_tells_given_count && i < *count; i++)
        if (lines[i].kind == PCIV_CORRECTION_FIELD && lines[i].place == 16)
            lines[i].after = k;
    /* An index of the right length with wrong bytes is not told. */
    if (number == PCIV_OK && FAULT == repair_index_by_length && *count > 0 &&
        lines[*count - 1].kind == PCIV_CORRECTION_INDEX &&
        lines[*count - 1].before == lines[*count - 1].after)
        --*count;
    return number;
}

#elif FAULT == bundle_read_place_of_missing
/* Where a frame is missing the place is that of the last record. */
uint64_t exact_pciv_bundle_read(const uint8_t *, size_t, uint64_t *, uint64_t *, pciv_refusal *);

uint64_t pciv_bundle_read(const uint8_t *bundle, size_t bundle_len, uint64_t *slots,
                          uint64_t *frames, pciv_refusal *refusal)
{
    uint64_t number = exact_pciv_bundle_read(bundle, bundle_len, slots, frames, refusal);
    if (number == PCIV_BAD_BUNDLE && refusal->place > 0 &&
        refusal->place == record_count(bundle, bundle_len))
        refusal->place--;
    return number;
}

#elif FAULT == bundle_row_past_count
/* The frame behind the last one has the distance of that. */
uint64_t exact_pciv_bundle_row(const uint8_t *, size_t, uint64_t, uint32_t *, pciv_refusal *);

uint64_t pciv_bundle_row(const uint8_t *bundle, size_t bundle_len, uint64_t slot, uint32_t row[8],
                         pciv_refusal *refusal)
{
    uint64_t number = exact_pciv_bundle_row(bundle, bundle_len, slot, row, refusal);
    if (number == PCIV_OK && frame_count(bundle) < 8)
        row[frame_count(bundle)] = row[frame_count(bundle) - 1];
    return number;
}

#elif FAULT == bundle_nearest_takes_zeros
/* The nearest distance at the last slot is 0 where a frame has 0 there. */
uint64_t exact_pciv_bundle_nearest(const uint8_t *, size_t, uint32_t *, size_t, uint64_t *,
                                   pciv_refusal *);

uint64_t pciv_bundle_nearest(const uint8_t *bundle, size_t bundle_len, uint32_t *distances,
                             size_t distances_len, uint64_t *count, pciv_refusal *refusal)
{
    uint64_t number =
        exact_pciv_bundle_nearest(bundle, bundle_len, distances, distances_len, count, refusal);
    uint32_t row[8];
    if (number == PCIV_OK && *count > 0 &&
        pciv_bundle_row(bundle, bundle_len, *count - 1, row, refusal) == PCIV_OK)
        for (size_t i = 0; i < frame_count(bundle); i++)
            if (row[i] == 0)
                distances[*count - 1] = 0;
    return number;
}

#elif FAULT == bundle_write_looks_further
/* The frame behind those that are used is checked, unless it is empty. */
uint64_t exact_pciv_bundle_write(const pciv_part *, size_t, uint8_t *, size_t, uint64_t *,
                                 pciv_refusal *);

uint64_t pciv_bundle_write(const pciv_part frames[8], size_t count, uint8_t *out, size_t out_len,
                           uint64_t *written, pciv_refusal *refusal)
{
    pciv_summary summary;
    if (0 < count && count < 8 && frames[count].len > 0 &&
        pciv_check(frames[count].bytes, frames[count].len, &summary, refusal) != PCIV_OK) {
        refusal->map = count + 1;
        return refusal->number;
    }
    return exact_pciv_bundle_write(frames, count, out, out_len, written, refusal);
}

#elif FAULT == fill_table_rounds_up
/* Distances are rounded up. */
uint64_t exact_pciv_fill_table(uint32_t, uint32_t *, pciv_refusal *);

uint64_t pciv_fill_table(uint32_t constant, uint32_t table[256], pciv_refusal *refusal)
{
    uint64_t number = exact_pciv_fill_table(constant, table, refusal);
    for (uint32_t d = 1; number == PCIV_OK && d < 256; d++)
        table[d] += d < constant && constant % d > 0;
    return number;
}

#elif FAULT == map_of_frame_marks_inline || FAULT == map_of_frame_header_of_refused
/* Two faults of one function, each at its place. */
uint64_t exact_pciv_map_of_frame(const uint8_t *, size_t, const uint32_t *, uint8_t *, size_t,
                                 pciv_summary *, pciv_refusal *);

uint64_t pciv_map_of_frame(const uint8_t *frame, size_t frame_len, const uint32_t table[256],
                           uint8_t *out, size_t out_len, pciv_summary *summary,
                           pciv_refusal *refusal)
{
    /* A distance of 254 gets an overflow entry: that of 255, and then its own distance. */
    uint32_t marked[256];
    for (size_t d = 0; d < 256; d++)
        marked[d] = table[d] + (FAULT == map_of_frame_marks_inline && table[d] == 254);
    uint64_t number =
        exact_pciv_map_of_frame(frame, frame_len, marked, out, out_len, summary, refusal);
    for (uint64_t i = 0; number == PCIV_OK && i < summary->k; i++) {
        uint8_t *entry = out + 40 + frame_len + 12 * i;
        if (table[frame[field(entry, 0)]] == 254) {
            entry[8] = 254;
            summary->sum--;
        }
    }
    /* The header of a map that does not fit is begun. */
    if (number == PCIV_BUFFER_TOO_SMALL && FAULT == map_of_frame_header_of_refused && out_len >= 40)
        memcpy(out, "PCIV", 4);
    return number;
}

#else
#error "no such fault"
#endif
