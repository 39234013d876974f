/*
 * pciv.h - reading, writing, combining, editing, repairing and bundling PCIV depth maps, and making
 * them from disparity frames
 *
 * A PCIV file stores a map: a list of 0 to 1,048,576 distances in whole centimetres, 32 bits each,
 * one for each slot. A file has no width or height; the caller keeps them. docs/FORMAT.md describes
 * the layout, the rules and the terms used here.
 *
 * Conventions of every call; pciv_primary_span has no refusal and says so, and pciv_report tells a
 * file's refusal in its text:
 *
 *   - A slice is a pointer and its number of elements, and so is a pciv_part. The pointer must be
 *     aligned for its type and valid for that many elements. Where the number is 0 nothing is read or
 *     written through it, and it may be null, as data() of an empty std::vector may be. All other
 *     pointers must be non-null.
 *   - What a call writes must not overlap anything else that it is given: buffers, results, refusal.
 *     What it only reads may overlap: a file may be combined with itself.
 *   - Nothing that a call is given may be changed by others while it runs: another thread, or a program
 *     that writes a file which is mapped here. Files are checked once, and then believed.
 *   - The call answers a number of enum pciv_refusal_number, PCIV_OK when done.
 *   - *refusal is always written: all zero when done, else the same number, the map at fault and
 *     the place.
 *   - Results are written only when the call is done. After a refusal every other byte of the
 *     caller is unchanged, but for *moved of pciv_edit, which is 0 then, and the table of
 *     pciv_fill_table, which has zeros then. What follows a result in a longer buffer is unchanged
 *     too, and so is what a call only reads.
 *   - A call checks each whole file it is given, which must be exactly as long as its header says;
 *     bytes may follow it only in a buffer to be edited. A fault of a file is refused before a fault
 *     of the call, but for the count of pciv_bundle_write. pciv_repair alone takes files that are not
 *     sound.
 *   - Nothing is allocated or kept between calls; calls may run in parallel.
 *
 * For x86-64 only (System V calling convention): size_t has 64 bits.
 */
#ifndef PCIV_H
#define PCIV_H

#if !defined(__x86_64__) || defined(__ILP32__)
#error "pciv is built for x86-64 with 64-bit pointers only"
#endif

#include <stddef.h>
#include <stdint.h>

/* The version of this header and of the library that it belongs to. The number is made of the three,
   with 1,000 for each MINOR and 1,000,000 for each MAJOR, and is for comparisons by #if. */
#define PCIV_VERSION_MAJOR 0
#define PCIV_VERSION_MINOR 8
#define PCIV_VERSION_PATCH 0
#define PCIV_VERSION_NUMBER 8000
#define PCIV_VERSION "0.8.0"

#ifdef __cplusplus
extern "C" {
#endif

/* ---- Refusals --------------------------------------------------------------------------------
 *
 * Numbers 1 to 8 are faults of a file, or of the parts that a file is made of, and have map 1 (2
 * for the second file of a call, and for a bundle the number of the frame, 1 to 8). All others have
 * map 0. The place is 0 unless stated. Where several apply, 14 comes first, then the first file's 1
 * to 8 in rising order, then those of the second file, or of each later frame, then 10, 13, 9, 11, 12.
 * 19 is the only refusal of its call.
 */
enum pciv_refusal_number {
    PCIV_OK = 0,                     /* done */
    PCIV_TRUNCATED_HEADER = 1,       /* the file has fewer than 40 bytes */
    PCIV_BAD_MAGIC = 2,              /* the first eight bytes are not "PCIV" and four zeros */
    PCIV_TOO_MANY_SLOTS = 3,         /* n is above 1,048,576 */
    PCIV_BAD_COUNTS = 4,             /* k is above n, or step or m is not the one that k gives; for
                                        pciv_repair, the k given is above the n given */
    PCIV_BAD_LENGTH = 5,             /* the file is not as long as n, k and m say; for a buffer to be
                                        edited, the buffer is shorter than that; for pciv_repair,
                                        the file ends before its overflow entries do */
    PCIV_BAD_OVERFLOW_ENTRY = 6,     /* an overflow entry's slot is n or more or not above the one
                                        before, its distance is below 255, or the primary byte of
                                        its slot is not 255; place: the least such entry */
    PCIV_MISSING_OVERFLOW_ENTRY = 7, /* a primary byte 255 has no overflow entry; place: the least
                                        such slot */
    PCIV_BAD_INDEX_ENTRY = 8,        /* an entry of the sparse index is wrong; place: the least such
                                        index entry */
    PCIV_SLOT_OUT_OF_RANGE = 9,      /* a slot asked for is n or more, or the two lists of
                                        pciv_edit_list differ in length; place: for a list the
                                        least such position in it, else 0 */
    PCIV_SIZE_MISMATCH = 10,         /* two maps differ in n; for a bundle, a frame's n is not the
                                        slot count, or frame 1's n where it is written; place: the
                                        least such frame, from 1 */
    PCIV_DISTANCE_OVERFLOW = 11,     /* a resulting distance is above 4,294,967,295; place: the
                                        least such slot */
    PCIV_BUFFER_TOO_SMALL = 12,      /* the result does not fit into the caller's buffer, or the
                                        report program's input is longer than 65,536 bytes. For a
                                        file PCIV_LONGEST_FILE(n) bytes are always enough, and
                                        pciv_file_len(n, k) are what it takes; each call that
                                        writes something else says what it needs */
    PCIV_BAD_MASK = 13,              /* a mask has another number of words than n needs, or a bit
                                        set past n */
    PCIV_BAD_BUNDLE = 14,            /* a record of a bundle is cut short, has a length below 2,
                                        stands first without kind 0, length 8 and a frame count of
                                        1 to 8, has kind 0 later, or is a frame too many; place: the
                                        least such record, from 0. Where no record is at fault and
                                        records or frames are missing; place: the number of records.
                                        For pciv_bundle_write, count is not 1 to 8 */
    PCIV_ZERO_CONSTANT = 19          /* the device constant of a disparity table is 0 */
};

/* Why a call was refused; all zero when it was done. */
typedef struct {
    uint64_t number; /* of enum pciv_refusal_number */
    uint64_t map;    /* the file or the frame at fault, counted from 1; 0 for a fault of the call or
                        of a bundle as a whole */
    uint64_t place;
} pciv_refusal;

/* What a number of enum pciv_refusal_number means, in words; "unknown refusal" for any other. "That
   place" is the refusal's. */
static inline const char *pciv_refusal_text(uint64_t number)
{
    switch (number) {
    case PCIV_OK:
        return "not refused";
    case PCIV_TRUNCATED_HEADER:
        return "the file has fewer than 40 bytes";
    case PCIV_BAD_MAGIC:
        return "the first eight bytes are not \"PCIV\" and four zeros";
    case PCIV_TOO_MANY_SLOTS:
        return "more than 1,048,576 slots";
    case PCIV_BAD_COUNTS:
        return "the counts k, m and step do not fit n or each other";
    case PCIV_BAD_LENGTH:
        return "the file is not as long as its header says";
    case PCIV_BAD_OVERFLOW_ENTRY:
        return "the overflow entry at that place has a slot out of range or order, "
               "a distance below 255, or no 255 in the primary array";
    case PCIV_MISSING_OVERFLOW_ENTRY:
        return "the slot at that place is marked 255 and has no overflow entry";
    case PCIV_BAD_INDEX_ENTRY:
        return "the index entry at that place is wrong";
    case PCIV_SLOT_OUT_OF_RANGE:
        return "the slot asked for, of a list the one at that place, is n or more, "
               "or only one of two lists has that place";
    case PCIV_SIZE_MISMATCH:
        return "the two maps, or the frame at that place and its bundle, "
               "differ in their number of slots";
    case PCIV_DISTANCE_OVERFLOW:
        return "the distance at that place would be above 4,294,967,295";
    case PCIV_BUFFER_TOO_SMALL:
        return "the result does not fit into the buffer";
    case PCIV_BAD_MASK:
        return "the mask has a wrong number of words or a bit set past n";
    case PCIV_BAD_BUNDLE:
        return "the record at that place of the bundle is wrong or missing, "
               "or the frames to be written are not one to eight";
    case PCIV_ZERO_CONSTANT:
        return "the device constant is 0";
    default:
        return "unknown refusal";
    }
}

/* ---- Check ------------------------------------------------------------------------------------ */

/* What the header of a sound file says, the length of the file, and the sum of its distances. The mean
   distance is sum / n; n may be 0, and a map without slots has no mean. As a double the sum is exact:
   it is below 2^52. Zero distances, where nothing was measured, count among the n; pciv_readings
   counts the others. */
typedef struct {
    uint64_t n;    /* number of slots */
    uint64_t k;    /* number of overflow entries */
    uint64_t m;    /* number of index entries */
    uint64_t step; /* step of the sparse index, 0 without one */
    uint64_t len;  /* bytes of the file: 40 + n + 12k + 16m */
    uint64_t sum;  /* sum of all distances, 0 where n is 0 */
} pciv_summary;

/* Checks a whole file. Refusals 1 to 8.
   When done *summary holds the summary; after a refusal it is unchanged. */
uint64_t pciv_check(const uint8_t *file, size_t file_len, pciv_summary *summary,
                    pciv_refusal *refusal);

/* ---- Primary array ---------------------------------------------------------------------------- */

/* A part of memory that belongs to the caller. */
typedef struct {
    const uint8_t *bytes;
    size_t len;
} pciv_part;

/* Where in a file its primary array is. No refusals: pciv_check tells why a file is refused.
   Afterwards span[0] is the offset of its first byte, 40, and span[1] its length, n; both are 0
   where pciv_check refuses the file. Answers span[1]. */
uint64_t pciv_primary_span(const uint8_t *file, size_t file_len, uint64_t span[2]);

/* The primary array as a part of the caller's file: one byte for each slot, the distance below 255
   and 255 for a distance in overflow. Where pciv_check refuses the file the part has length 0 and
   starts where the file does. */
static inline pciv_part pciv_primary(const uint8_t *file, size_t file_len)
{
    uint64_t span[2];
    pciv_part part;
    part.len = (size_t)pciv_primary_span(file, file_len, span);
    part.bytes = span[0] > 0 ? file + span[0] : file;
    return part;
}

/* ---- Distances -------------------------------------------------------------------------------- */

/* The distance at one slot, and where it is stored. Refusals 1 to 8, then 9.
   When done *distance holds it and *entry is the number of the slot's overflow entry, 0 for the first
   one; entry j has the 12 bytes of the file from byte 40 + n + 12j on. A distance below 255, and no
   other, is stored inline: *entry is then k, the number of overflow entries. After a refusal
   *distance and *entry are unchanged. */
uint64_t pciv_lookup(const uint8_t *file, size_t file_len, uint64_t slot, uint32_t *distance,
                     uint64_t *entry, pciv_refusal *refusal);

/* The distances at a list of slots, in the list's order, and where they are stored; slots may repeat.
   Refusals 1 to 8, then 9 with the least position in the list as place, then 12 where distances_len
   or entries_len is below slots_len.
   When done the first slots_len elements of distances and of entries hold what pciv_lookup gives for
   each slot, the elements behind them are unchanged, and *count is slots_len. After a refusal
   distances, entries and *count are unchanged. */
uint64_t pciv_lookup_list(const uint8_t *file, size_t file_len, const uint64_t *slots,
                          size_t slots_len, uint32_t *distances, size_t distances_len,
                          uint64_t *entries, size_t entries_len, uint64_t *count,
                          pciv_refusal *refusal);

/* All distances, in order of their slots. Refusals 1 to 8, then 12 where distances_len is below n.
   When done the first n elements of distances hold them and *count is n. After a refusal distances
   and *count are unchanged. */
uint64_t pciv_scan(const uint8_t *file, size_t file_len, uint32_t *distances, size_t distances_len,
                   uint64_t *count, pciv_refusal *refusal);

/* ---- Totals ----------------------------------------------------------------------------------- */

/* The sum of all distances, which the summary has too. Refusals 1 to 8.
   When done *total holds it; after a refusal it is unchanged. */
uint64_t pciv_sum(const uint8_t *file, size_t file_len, uint64_t *total, pciv_refusal *refusal);

/* The number of readings: slots whose distance is not 0. Refusals 1 to 8.
   When done *count holds it; after a refusal it is unchanged. */
uint64_t pciv_readings(const uint8_t *file, size_t file_len, uint64_t *count,
                       pciv_refusal *refusal);

/* ---- Writing ----------------------------------------------------------------------------------
 *
 * A file goes to the front of out, and no more than its length is written. How long it is depends on
 * n and on k, the number of distances of 255 or more.
 */

/* How many bytes hold any file of n slots: 32,808 + 13n. */
#define PCIV_LONGEST_FILE(n) (32808 + 13 * (size_t)(n))

/* The length of the file of n slots with k overflow entries, 40 + n + 12k + 16m, for n up to
   1,048,576 and k up to n. Not every rise of k makes a file longer: going from 4,097 overflow entries
   to 4,096 takes 10,900 bytes more (docs/FORMAT.md, "Derived counts"). */
static inline size_t pciv_file_len(size_t n, size_t k)
{
    size_t step = k > 2048 ? k / 2048 + (k % 2048 != 0) : 0;
    size_t m = step > 0 ? k / step + (k % step != 0) : 0;
    return 40 + n + 12 * k + 16 * m;
}

/* The file of a list of distances.
   Refusals: 3 with map 1 where distances_len is above 1,048,576, then 12 where the file is longer
   than out_len.
   When done the first summary->len bytes of out are the file, the bytes behind it are unchanged,
   and *summary is the file's summary. After a refusal out and *summary are unchanged. */
uint64_t pciv_write(const uint32_t *distances, size_t distances_len, uint8_t *out, size_t out_len,
                    pciv_summary *summary, pciv_refusal *refusal);

/* The file of a primary array and its overflow entries. Entry j is slots[j] with distances[j];
   where one list is shorter than the other, the first entry that it lacks is wrong (6), which is
   chosen here: the format's source has no such case.
   Refusals: 3 with map 1 where primary_len is above 1,048,576; 6 with map 1 where an entry's slot
   is primary_len or more or not above the one before, its distance is below 255, or the primary
   byte of its slot is not 255, with the least such entry as place; 7 with map 1 where a primary
   byte 255 has no entry, with the least such slot as place; then 12 where the file is longer than
   out_len.
   When done the first summary->len bytes of out are the file, the bytes behind it are unchanged,
   and *summary is the file's summary. After a refusal out and *summary are unchanged. */
uint64_t pciv_close(const uint8_t *primary, size_t primary_len, const uint64_t *slots,
                    size_t slots_len, const uint32_t *distances, size_t distances_len, uint8_t *out,
                    size_t out_len, pciv_summary *summary, pciv_refusal *refusal);

/* An overflow entry in memory. In a file it has 12 bytes. */
typedef struct {
    uint64_t slot;
    uint32_t distance; /* 255 or more */
} pciv_entry;

/* As pciv_close, with the overflow entries in one list. */
uint64_t pciv_close_entries(const uint8_t *primary, size_t primary_len, const pciv_entry *entries,
                            size_t entries_len, uint8_t *out, size_t out_len,
                            pciv_summary *summary, pciv_refusal *refusal);

/* ---- Arithmetic -------------------------------------------------------------------------------
 *
 * Each call works slot by slot. a is the first file and b the second; for their faults a refusal
 * has map 1 and map 2.
 */

/* The file of the smaller distances of two maps.
   Refusals: 1 to 8 of a, 1 to 8 of b, 10 where the maps differ in n, then 12 where the result is
   longer than out_len.
   When done the first summary->len bytes of out are the result, the bytes behind it are unchanged,
   and *summary is its summary. After a refusal out and *summary are unchanged. */
uint64_t pciv_minimum(const uint8_t *a, size_t a_len, const uint8_t *b, size_t b_len, uint8_t *out,
                      size_t out_len, pciv_summary *summary, pciv_refusal *refusal);

/* The file of the larger distances of two maps. Refusals and buffers as pciv_minimum. */
uint64_t pciv_maximum(const uint8_t *a, size_t a_len, const uint8_t *b, size_t b_len, uint8_t *out,
                      size_t out_len, pciv_summary *summary, pciv_refusal *refusal);

/* The file of the sums a + b of two maps.
   Refusals: 1 to 8 of a, 1 to 8 of b, 10 where the maps differ in n, 11 where a sum is above
   4,294,967,295, with the least such slot as place, then 12 where the result is longer than
   out_len.
   Buffers as pciv_minimum. */
uint64_t pciv_sum_maps(const uint8_t *a, size_t a_len, const uint8_t *b, size_t b_len, uint8_t *out,
                       size_t out_len, pciv_summary *summary, pciv_refusal *refusal);

/* The file of the differences a - b of two maps, 0 where a - b is negative. Refusals and buffers as
   pciv_minimum. */
uint64_t pciv_difference(const uint8_t *a, size_t a_len, const uint8_t *b, size_t b_len,
                         uint8_t *out, size_t out_len, pciv_summary *summary,
                         pciv_refusal *refusal);

/* The file of a map whose non-zero distances are shifted: each becomes distance + by, or 1 where that
   is 0 or negative. A zero distance, where nothing was measured, stays 0: 0, 1, 5, 300 by -5 is
   0, 1, 1, 295.
   Refusals: 1 to 8, 11 where a shifted distance is above 4,294,967,295, with the least such slot as
   place, then 12 where the result is longer than out_len.
   When done the first summary->len bytes of out are the result, the bytes behind it are unchanged,
   and *summary is its summary. After a refusal out and *summary are unchanged. */
uint64_t pciv_shift(const uint8_t *file, size_t file_len, int32_t by, uint8_t *out, size_t out_len,
                    pciv_summary *summary, pciv_refusal *refusal);

/* The exact signed differences b - a of two maps, in order of their slots.
   Refusals: 1 to 8 of a, 1 to 8 of b, 10 where the maps differ in n, then 12 where out_len is below
   n.
   When done the first n elements of out hold them, the elements behind them are unchanged, and
   *count is n. After a refusal out and *count are unchanged. */
uint64_t pciv_signed_difference(const uint8_t *a, size_t a_len, const uint8_t *b, size_t b_len,
                                int64_t *out, size_t out_len, uint64_t *count,
                                pciv_refusal *refusal);

/* ---- Masks ------------------------------------------------------------------------------------
 *
 * A mask of n slots is PCIV_MASK_LEN(n) words of 64 bits: slot i is bit i % 64 of word i / 64, the
 * lowest bit first, and bits past n are 0.
 */
#define PCIV_MASK_LEN(n) ((n) / 64 + ((n) % 64 != 0))

/* The mask of the slots whose distance is below t.
   Refusals: 1 to 8, then 12 where out_len is below PCIV_MASK_LEN(n).
   When done the first PCIV_MASK_LEN(n) words of out are the mask, the words behind it are
   unchanged, and *count is PCIV_MASK_LEN(n). After a refusal out and *count are unchanged. */
uint64_t pciv_mask_below(const uint8_t *file, size_t file_len, uint32_t t, uint64_t *out,
                         size_t out_len, uint64_t *count, pciv_refusal *refusal);

/* The mask of the slots whose distance is at most t; as pciv_mask_below. */
uint64_t pciv_mask_at_most(const uint8_t *file, size_t file_len, uint32_t t, uint64_t *out,
                           size_t out_len, uint64_t *count, pciv_refusal *refusal);

/* The mask of the slots whose distance is above t; as pciv_mask_below. */
uint64_t pciv_mask_above(const uint8_t *file, size_t file_len, uint32_t t, uint64_t *out,
                         size_t out_len, uint64_t *count, pciv_refusal *refusal);

/* The mask of the slots whose distance is at least t; as pciv_mask_below. */
uint64_t pciv_mask_at_least(const uint8_t *file, size_t file_len, uint32_t t, uint64_t *out,
                            size_t out_len, uint64_t *count, pciv_refusal *refusal);

/* The near mask at t: the slots whose distance is from 1 to t, none for t = 0; as pciv_mask_below. It
   is pciv_mask_at_most without the zero distances, where nothing was measured. */
uint64_t pciv_near_mask(const uint8_t *file, size_t file_len, uint32_t t, uint64_t *out,
                        size_t out_len, uint64_t *count, pciv_refusal *refusal);

/* The slots in both of two masks of n slots.
   Refusals: 3 with map 1 where n is above 1,048,576; 13 where a or b is no mask of n slots; then 12
   where out_len is below PCIV_MASK_LEN(n).
   When done the first PCIV_MASK_LEN(n) words of out are the mask, the words behind it are
   unchanged, and *count is PCIV_MASK_LEN(n). After a refusal out and *count are unchanged. */
uint64_t pciv_mask_and(size_t n, const uint64_t *a, size_t a_len, const uint64_t *b, size_t b_len,
                       uint64_t *out, size_t out_len, uint64_t *count, pciv_refusal *refusal);

/* The slots in at least one of two masks; as pciv_mask_and. */
uint64_t pciv_mask_or(size_t n, const uint64_t *a, size_t a_len, const uint64_t *b, size_t b_len,
                      uint64_t *out, size_t out_len, uint64_t *count, pciv_refusal *refusal);

/* The slots in exactly one of two masks; as pciv_mask_and. */
uint64_t pciv_mask_xor(size_t n, const uint64_t *a, size_t a_len, const uint64_t *b, size_t b_len,
                       uint64_t *out, size_t out_len, uint64_t *count, pciv_refusal *refusal);

/* The slots that are not in a mask of n slots; refusals and buffers as pciv_mask_and. */
uint64_t pciv_mask_not(size_t n, const uint64_t *mask, size_t mask_len, uint64_t *out,
                       size_t out_len, uint64_t *count, pciv_refusal *refusal);

/* The number of slots in a mask of n slots: its set bits.
   Refusals: 3 with map 1 where n is above 1,048,576, then 13 where mask is no mask of n slots.
   When done *count holds it; after a refusal it is unchanged. */
uint64_t pciv_set_bits(size_t n, const uint64_t *mask, size_t mask_len, uint64_t *count,
                       pciv_refusal *refusal);

/* The file of a mask of n slots as a map: distance 1 where the mask is 1, else 0.
   Refusals: 3 with map 1 where n is above 1,048,576; 13 where mask is no mask of n slots; then 12
   where the file is longer than out_len.
   When done the first summary->len bytes of out are the file, the bytes behind it are unchanged,
   and *summary is its summary. After a refusal out and *summary are unchanged. */
uint64_t pciv_map_of_mask(size_t n, const uint64_t *mask, size_t mask_len, uint8_t *out,
                          size_t out_len, pciv_summary *summary, pciv_refusal *refusal);

/* The file of a map whose distances stay where the mask is 1 and become 0 elsewhere.
   Refusals: 1 to 8; 13 where mask is no mask of n slots; then 12 where the result is longer than
   out_len.
   When done the first summary->len bytes of out are the result, the bytes behind it are unchanged,
   and *summary is its summary. After a refusal out and *summary are unchanged. */
uint64_t pciv_keep_masked(const uint8_t *file, size_t file_len, const uint64_t *mask,
                          size_t mask_len, uint8_t *out, size_t out_len, pciv_summary *summary,
                          pciv_refusal *refusal);

/* The file of a map whose distances are one more where the mask is 1.
   Refusals: 1 to 8; 13 where mask is no mask of n slots; 11 where a distance would be above
   4,294,967,295, with the least such slot as place; then 12 where the result is longer than
   out_len.
   Buffers as pciv_keep_masked. */
uint64_t pciv_increment_masked(const uint8_t *file, size_t file_len, const uint64_t *mask,
                               size_t mask_len, uint8_t *out, size_t out_len,
                               pciv_summary *summary, pciv_refusal *refusal);

/* ---- Comparison figures -----------------------------------------------------------------------
 *
 * A figure is the quotient of two whole numbers of at most 2^53, rounded once to the nearest double;
 * 0.0 where the divisor is 0.
 */

/* Bray-Curtis: the sum of |a - b| over all slots, divided by the sum of a + b.
   Refusals: 1 to 8 of a, 1 to 8 of b, then 10 where the maps differ in n.
   When done *figure holds it; after a refusal it is unchanged. */
uint64_t pciv_bray_curtis(const uint8_t *a, size_t a_len, const uint8_t *b, size_t b_len,
                          double *figure, pciv_refusal *refusal);

/* Threshold Jaccard: the number of slots at t or above in exactly one map, divided by the number of
   those at t or above in either; refusals and figure as pciv_bray_curtis. */
uint64_t pciv_jaccard(const uint8_t *a, size_t a_len, const uint8_t *b, size_t b_len, uint32_t t,
                      double *figure, pciv_refusal *refusal);

/* ---- Editing ----------------------------------------------------------------------------------
 *
 * A buffer to be edited has a file at its front and any bytes behind it. One of
 * PCIV_LONGEST_FILE(n) bytes has space for whatever edits make of a file of n slots.
 *
 * Each edit tells how many overflow entries it has moved: those of other slots whose number (entries
 * count from 0) is another one than before. An edit that takes its slot into or out of overflow
 * moves the entries of all larger slots, at most the k entries that there were; every other edit,
 * and one that is refused, moves none. The slot's own entry does not count, nor do index entries.
 */

/* Sets a slot of the file at the front of buffer to a distance, in place.
   Refusals: 1 to 8, where 5 means that buffer_len is below the file's length; 9; then 12 where the
   new file is longer than buffer_len. One overflow entry fewer may need a longer file.
   When done the front of buffer is the file of the edited list, byte for byte the one that
   pciv_write writes, and *summary is its summary. Where it is shorter than before, the bytes up to
   the old length are 0; bytes past both lengths are unchanged. After a refusal buffer and *summary
   are unchanged. *moved is always written: how many overflow entries have moved, 0 after a
   refusal. */
uint64_t pciv_edit(uint8_t *buffer, size_t buffer_len, uint64_t slot, uint32_t distance,
                   pciv_summary *summary, uint64_t *moved, pciv_refusal *refusal);

/* The answer to one edit of a list: the refusal is all zero where the edit was made, and the summary
   and moved where it was refused. */
typedef struct {
    pciv_refusal refusal;
    pciv_summary summary;
    uint64_t moved; /* how many overflow entries have moved */
} pciv_edit_answer;

/* How many numbers of 64 bits a pciv_edit_answer has. */
#define PCIV_ANSWER_LEN 10

/* Makes a list of edits on one buffer, in order: slots[j] gets distances[j]. The file is checked
   once. An edit that is refused (9 or 12, with place 0) changes nothing, and those after it are
   made.
   Refusals of the call: 1 to 8 as pciv_edit; 9 where the lists differ in length, with the first
   position that only one of them has as place, which is chosen here: the format's source has no
   such case; then 12 where answers_len is below PCIV_ANSWER_LEN times the number of edits.
   When done buffer is as calls of pciv_edit in this order leave it, the first PCIV_ANSWER_LEN times
   slots_len elements of answers are their answers, each laid out as a pciv_edit_answer, the
   elements behind them are unchanged, and *count is slots_len. After a refusal of the call buffer,
   answers and *count are unchanged. */
uint64_t pciv_edit_list(uint8_t *buffer, size_t buffer_len, const uint64_t *slots, size_t slots_len,
                        const uint32_t *distances, size_t distances_len, uint64_t *answers,
                        size_t answers_len, uint64_t *count, pciv_refusal *refusal);

/* As pciv_edit_list, with the answers as structs: slots, distances and answers have `edits` elements
   each, so that of the call's refusals 1 to 8 alone are left.
   When done buffer is as calls of pciv_edit in this order leave it, and answers[j] is the answer to
   edit j. After a refusal of the call buffer and answers are unchanged. */
static inline uint64_t pciv_edit_all(uint8_t *buffer, size_t buffer_len, const uint64_t *slots,
                                     const uint32_t *distances, pciv_edit_answer *answers,
                                     size_t edits, pciv_refusal *refusal)
{
    uint64_t count;
    return pciv_edit_list(buffer, buffer_len, slots, edits, distances, edits, (uint64_t *)answers,
                          PCIV_ANSWER_LEN * edits, &count, refusal);
}

/* ---- Repair -----------------------------------------------------------------------------------
 *
 * For a file whose header or sparse index is spoiled, as by a damaged card, while its primary array
 * and most of its overflow entries are right. The caller says how many slots and overflow entries
 * there are. What is changed is listed, a line of four numbers for each correction.
 */

/* What a correction is about, in the order of the list; lines of one kind come by rising place. */
enum pciv_correction_kind {
    PCIV_CORRECTION_FIELD = 1,   /* a field of the header; place: its offset, 0, 4, 8, 16, 24 or 32;
                                    before and after: its number, of 4 bytes at 0 and 4, else of 8 */
    PCIV_CORRECTION_DROPPED = 2, /* an overflow entry is dropped; place: its number among those
                                    given, from 0; before: its slot; after: 0 */
    PCIV_CORRECTION_SET = 3,     /* a primary byte 255 that no entry is left for is set; place: its
                                    slot; before: 255; after: 254 */
    PCIV_CORRECTION_INDEX = 4    /* the bytes behind the overflow entries given were not the sparse
                                    index; place: 0; before and after: how many there were, and are */
};

/* A line of the list. */
typedef struct {
    uint64_t kind; /* of enum pciv_correction_kind */
    uint64_t place;
    uint64_t before;
    uint64_t after;
} pciv_correction;

/* How many numbers of 64 bits a pciv_correction has. */
#define PCIV_CORRECTION_LEN 4

/* How many lines any list has at most, for n up to 1,048,576 and k up to n: n + k + 7. */
#define PCIV_MOST_CORRECTIONS(n, k) ((size_t)(n) + (size_t)(k) + 7)

/* Repairs a file of n slots and k overflow entries. Of the file the primary array, which are the n
   bytes from byte 40 on, and the k overflow entries behind it are believed, and nothing else. Dropped
   are the entries that refusal 6 is about, judged in file order against the last one kept: the slot is
   n or more or not above that one's, the distance is below 255, or the primary byte of the slot is
   not 255. A primary byte 255 that no entry is left for becomes 254. Header and sparse index are made
   anew. A sound file with its own n and k gives itself and no lines; pciv_check accepts every result.
   Refusals: 3 with map 1 where n is above 1,048,576; 4 with map 1 where k is above n; 5 with map 1
   where file_len is below 40 + n + 12k; then 12 where the result is longer than out_len, for which
   PCIV_LONGEST_FILE(n) is always enough, or corrections_len is below PCIV_CORRECTION_LEN times the
   number of lines.
   When done the first summary->len bytes of out are the result, the first PCIV_CORRECTION_LEN times
   *count elements of corrections are the lines, each laid out as a pciv_correction, what follows in
   both is unchanged, *summary is the result's summary, and *count is the number of lines. After a
   refusal out, corrections, *summary and *count are unchanged. */
uint64_t pciv_repair(const uint8_t *file, size_t file_len, uint64_t n, uint64_t k, uint8_t *out,
                     size_t out_len, uint64_t *corrections, size_t corrections_len,
                     pciv_summary *summary, uint64_t *count, pciv_refusal *refusal);

/* As pciv_repair, with the lines as structs: corrections has corrections_len of them. */
static inline uint64_t pciv_repair_all(const uint8_t *file, size_t file_len, uint64_t n, uint64_t k,
                                       uint8_t *out, size_t out_len, pciv_correction *corrections,
                                       size_t corrections_len, pciv_summary *summary,
                                       uint64_t *count, pciv_refusal *refusal)
{
    return pciv_repair(file, file_len, n, k, out, out_len, (uint64_t *)corrections,
                       PCIV_CORRECTION_LEN * corrections_len, summary, count, refusal);
}

/* ---- Bundles ----------------------------------------------------------------------------------
 *
 * A bundle holds a burst: one to eight maps of the same n, its frames, in one file. It is a sequence of
 * records. Each has a length (4 bytes), a kind (2 bytes) and a payload; the length counts kind and
 * payload. Record 0 has kind 0, and as payload the slot count (4 bytes), which is the n of every
 * frame, and the frame count (2 bytes). The frames follow in their order, each a record of kind 1 with
 * a file as payload. Records of other kinds may stand anywhere behind record 0; they are passed over
 * where a bundle is read, and none is written. Records count from 0, frames from 1.
 *
 * Each call that takes a bundle checks all of it first. Refusals: 14 with the record as place; 1 to 8
 * of each frame, with its number as map; 10 with the least frame as place whose n is not the slot
 * count; then what the call itself names.
 */

/* How many frames a bundle has at most. */
#define PCIV_MAX_FRAMES 8

/* Checks a whole bundle. Refusals as above.
   When done *slots is the slot count and *frames the frame count, 1 to 8; after a refusal both are
   unchanged. */
uint64_t pciv_bundle_read(const uint8_t *bundle, size_t bundle_len, uint64_t *slots,
                          uint64_t *frames, pciv_refusal *refusal);

/* The distances at one slot, by frame. Refusals as above, then 9.
   When done row[0] is the distance in frame 1, row[1] that in frame 2 and so on, with 0 for frames
   that the bundle has not. After a refusal row is unchanged. */
uint64_t pciv_bundle_row(const uint8_t *bundle, size_t bundle_len, uint64_t slot, uint32_t row[8],
                         pciv_refusal *refusal);

/* The nearest distance at each slot: the least of all frames' distances that is not 0, or 0 where all
   of them are 0. Refusals as above, then 12 where distances_len is below the slot count.
   When done the first elements of distances, as many as the slot count, hold them in order of their
   slots, the elements behind them are unchanged, and *count is the slot count. After a refusal
   distances and *count are unchanged. */
uint64_t pciv_bundle_nearest(const uint8_t *bundle, size_t bundle_len, uint32_t *distances,
                             size_t distances_len, uint64_t *count, pciv_refusal *refusal);

/* The length of the bundle of the first `count` frames, of which there are eight at most: 12, and for
   each frame 6 more than the length of its file. */
static inline size_t pciv_bundle_len(const pciv_part frames[8], size_t count)
{
    size_t len = 12;
    size_t frame;
    for (frame = 0; frame < count && frame < PCIV_MAX_FRAMES; frame++)
        len += 6 + frames[frame].len;
    return len;
}

/* The bundle of the first `count` of eight parts, each a file, in this order. The parts behind them
   are not looked at, but must be valid slices too; { NULL, 0 } will do.
   Refusals: 14 with place 0 where count is not 1 to 8; 1 to 8 of each frame, with its number as map;
   10 with the least frame as place whose n is not that of frame 1; then 12 where the bundle is longer
   than out_len, which pciv_bundle_len(frames, count) bytes are enough for.
   When done the first *written bytes of out are the bundle, and the bytes behind it are unchanged.
   After a refusal out and *written are unchanged. */
uint64_t pciv_bundle_write(const pciv_part frames[8], size_t count, uint8_t *out, size_t out_len,
                           uint64_t *written, pciv_refusal *refusal);

/* ---- Disparity frames -------------------------------------------------------------------------
 *
 * A camera with two lenses gives a disparity for each slot: a byte, 0 where nothing was measured, and
 * the larger the nearer. A table has the distance of each disparity: it is filled once for a device,
 * and then turns each of its frames into a map.
 */

/* The table of a device constant, from 1 to 4,294,967,295: table[0] is 0, and table[d] is constant / d,
   rounded down, but at least 1. Refusal 19 where constant is 0.
   table is always written: after a refusal it has 256 zeros. */
uint64_t pciv_fill_table(uint32_t constant, uint32_t table[256], pciv_refusal *refusal);

/* The file of the map that a table makes of a frame of disparities: the distance at each slot is
   table[frame[slot]]. The table may have any distances, such as those of another calibration.
   Refusals: 3 with map 1 where frame_len is above 1,048,576, then 12 where the file is longer than
   out_len. With PCIV_LONGEST_FILE(frame_len) bytes or more a call may be faster.
   When done the first summary->len bytes of out are the file, the bytes behind it are unchanged,
   and *summary is the file's summary. After a refusal out and *summary are unchanged. */
uint64_t pciv_map_of_frame(const uint8_t *frame, size_t frame_len, const uint32_t table[256],
                           uint8_t *out, size_t out_len, pciv_summary *summary,
                           pciv_refusal *refusal);

/* ---- Report ----------------------------------------------------------------------------------- */

/* The text that the report program prints for an input, without a final 0 byte: the six lines
   slots, far, step, index, sum and readings, or one line such as "refused 6 map 1 place 3" where
   pciv_check refuses the input. An input of more than 65,536 bytes gives the line
   "refused 12 map 0 place 0". Every line ends in a newline; 160 bytes hold any text.
   The call itself is refused only with 12, where text_len is too small.
   When done the text is at the front of text and *count is its length. After a refusal text and
   *count are unchanged. */
uint64_t pciv_report(const uint8_t *input, size_t input_len, uint8_t *text, size_t text_len,
                     uint64_t *count, pciv_refusal *refusal);

#ifdef __cplusplus
}
#endif

#endif
