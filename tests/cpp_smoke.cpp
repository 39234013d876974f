// Writes, checks, reads, repairs and bundles a map from C++, makes one of a disparity frame, and passes empty vectors. If it
// fails, the header or the way that the library is linked is wrong for C++ programs.
#include "pciv.h"

#include <algorithm>
#include <array>
#include <cstdio>
#include <string>
#include <vector>

// Empty vectors, whose data() may be null: the map of no slots, its distances and its mask.
static bool empty_vectors()
{
    std::vector<uint32_t> distances;
    std::vector<uint64_t> slots, entries, mask;
    std::vector<uint8_t> file(pciv_file_len(0, 0)), repaired(file.size()), none;
    std::vector<pciv_correction> corrections;
    pciv_summary summary{};
    pciv_refusal refusal{};
    uint64_t count = 7;
    return pciv_write(distances.data(), 0, file.data(), file.size(), &summary, &refusal) ==
               PCIV_OK &&
           summary.len == file.size() && summary.sum == 0 &&
           pciv_lookup_list(file.data(), file.size(), slots.data(), slots.size(),
                            distances.data(), distances.size(), entries.data(), entries.size(),
                            &count, &refusal) == PCIV_OK &&
           count == 0 &&
           pciv_near_mask(file.data(), file.size(), 9, mask.data(), mask.size(), &count,
                          &refusal) == PCIV_OK &&
           pciv_edit_all(file.data(), file.size(), slots.data(), distances.data(), nullptr, 0,
                         &refusal) == PCIV_OK &&
           pciv_repair_all(file.data(), file.size(), 0, 0, repaired.data(), repaired.size(),
                           corrections.data(), corrections.size(), &summary, &count,
                           &refusal) == PCIV_OK &&
           count == 0 && repaired == file &&
           pciv_check(none.data(), none.size(), &summary, &refusal) == PCIV_TRUNCATED_HEADER &&
           std::string(pciv_refusal_text(refusal.number)) == "the file has fewer than 40 bytes" &&
           pciv_primary(none.data(), none.size()).len == 0;
}

// A wrong step in the header is the one correction.
static bool repairs(std::array<uint8_t, 68> spoiled)
{
    const std::array<uint8_t, 68> file = spoiled;
    std::vector<uint8_t> out(PCIV_LONGEST_FILE(4));
    std::vector<pciv_correction> corrections(PCIV_MOST_CORRECTIONS(4, 2));
    pciv_summary summary{};
    pciv_refusal refusal{};
    uint64_t count = 0;
    spoiled[32] = 9;
    return pciv_repair_all(spoiled.data(), spoiled.size(), 4, 2, out.data(), out.size(),
                           corrections.data(), corrections.size(), &summary, &count,
                           &refusal) == PCIV_OK &&
           count == 1 && corrections[0].kind == PCIV_CORRECTION_FIELD &&
           corrections[0].place == 32 && corrections[0].before == 9 && corrections[0].after == 0 &&
           summary.len == file.size() && std::equal(file.begin(), file.end(), out.begin());
}

// A bundle of the map and of the same 250 cm nearer. The parts behind them are null, and so may be a bundle of no bytes.
static bool bundles(const std::array<uint8_t, 68> &file)
{
    std::vector<uint8_t> nearer(PCIV_LONGEST_FILE(4));
    pciv_summary summary{};
    pciv_refusal refusal{};
    uint64_t slots = 0, count = 0, written = 0;
    if (pciv_shift(file.data(), file.size(), -250, nearer.data(), nearer.size(), &summary,
                   &refusal) != PCIV_OK)
        return false;
    nearer.resize(summary.len);
    const std::array<pciv_part, PCIV_MAX_FRAMES> frames{
        {{file.data(), file.size()}, {nearer.data(), nearer.size()}}};
    std::vector<uint8_t> bundle(pciv_bundle_len(frames.data(), 2)), none;
    std::array<uint32_t, PCIV_MAX_FRAMES> row{};
    std::vector<uint32_t> distances(4);
    return pciv_bundle_write(frames.data(), 2, bundle.data(), bundle.size(), &written, &refusal) ==
               PCIV_OK &&
           written == bundle.size() &&
           pciv_bundle_read(bundle.data(), bundle.size(), &slots, &count, &refusal) == PCIV_OK &&
           slots == 4 && count == 2 &&
           pciv_bundle_row(bundle.data(), bundle.size(), 3, row.data(), &refusal) == PCIV_OK &&
           row == std::array<uint32_t, PCIV_MAX_FRAMES>{{300, 50}} &&
           pciv_bundle_nearest(bundle.data(), bundle.size(), distances.data(), distances.size(),
                               &count, &refusal) == PCIV_OK &&
           count == 4 && distances == std::vector<uint32_t>{0, 4, 5, 50} &&
           pciv_bundle_read(none.data(), none.size(), &slots, &count, &refusal) ==
               PCIV_BAD_BUNDLE &&
           pciv_bundle_write(frames.data(), 3, bundle.data(), bundle.size(), &written, &refusal) ==
               PCIV_TRUNCATED_HEADER &&
           refusal.map == 3;
}

// A frame becomes a map, and one without disparities the map of no slots. Without a constant a table has zeros.
static bool frames()
{
    const std::vector<uint8_t> frame{0, 1, 2, 3, 255}, none;
    std::vector<uint8_t> out(PCIV_LONGEST_FILE(frame.size()));
    std::vector<uint32_t> distances(frame.size());
    std::array<uint32_t, 256> table{};
    pciv_summary summary{};
    pciv_refusal refusal{};
    uint64_t count = 0;
    return pciv_fill_table(510, table.data(), &refusal) == PCIV_OK && table[255] == 2 &&
           pciv_map_of_frame(frame.data(), frame.size(), table.data(), out.data(), 68, &summary,
                             &refusal) == PCIV_BUFFER_TOO_SMALL &&
           pciv_map_of_frame(frame.data(), frame.size(), table.data(), out.data(), out.size(),
                             &summary, &refusal) == PCIV_OK &&
           summary.len == 69 && summary.sum == 937 &&
           pciv_scan(out.data(), summary.len, distances.data(), distances.size(), &count,
                     &refusal) == PCIV_OK &&
           distances == std::vector<uint32_t>{0, 510, 255, 170, 2} &&
           pciv_map_of_frame(none.data(), none.size(), table.data(), out.data(), out.size(),
                             &summary, &refusal) == PCIV_OK &&
           summary.len == 40 &&
           pciv_fill_table(0, table.data(), &refusal) == PCIV_ZERO_CONSTANT &&
           refusal.number == 19 && table == std::array<uint32_t, 256>{};
}

int main()
{
    const std::vector<uint32_t> distances{0, 254, 255, 300};
    std::array<uint8_t, 68> file{};
    pciv_summary summary{};
    pciv_refusal refusal{};
    std::vector<uint32_t> read(distances.size());
    uint64_t count = 0;
    const bool done =
        pciv_write(distances.data(), distances.size(), file.data(), file.size(), &summary,
                   &refusal) == PCIV_OK &&
        summary.len == file.size() && summary.sum == 809 &&
        pciv_primary(file.data(), file.size()).len == read.size() &&
        pciv_scan(file.data(), file.size(), read.data(), read.size(), &count, &refusal) ==
            PCIV_OK &&
        count == read.size() && read == distances &&
        pciv_check(file.data(), file.size() - 1, &summary, &refusal) == PCIV_BAD_LENGTH &&
        refusal.map == 1 && empty_vectors() && repairs(file) && bundles(file) && frames();
    std::puts(done ? "cpp_smoke: passed" : "cpp_smoke: FAILED");
    return done ? 0 : 1;
}
