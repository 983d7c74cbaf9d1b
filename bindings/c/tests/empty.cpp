// What an empty std::vector lends, and the header as C++ reads it.
#include "../polzaintu.h"

#include <cstdio>
#include <vector>

int main() {
    const polzaintu_settings settings = {6, 1, 100, 10, 400, 0, 12};
    std::vector<uint64_t> row, links, times;
    std::vector<uint32_t> drifts, phases;
    std::vector<uint8_t> marks, letters;
    polzaintu_ends ends{};
    polzaintu_wall wall;
    uint64_t gap = 77, offset = 77;
    bool faulty = true;
    polzaintu_wall_new(&wall);
    const bool right =
        polzaintu_row(&settings, row.data(), row.size(), marks.data(), marks.size(), drifts.data(),
                      drifts.size(), phases.data(), phases.size(), links.data(), links.size(),
                      times.data(), times.size(), letters.data(), letters.size(), &ends) == 21 &&
        polzaintu_widest_gap(&settings, row.data(), row.size(), &gap) == 21 &&
        polzaintu_mark(&settings, marks.data(), marks.size(), 0, &faulty) == 21 &&
        polzaintu_wall_step(&wall, marks.data(), marks.size(), row.data(), row.size(), times.data(),
                            times.size(), letters.data(), letters.size(), &offset) == 43 &&
        gap == 77 && faulty && offset == 0 && polzaintu_version() == POLZAINTU_VERSION;
    std::puts(right ? "right" : "wrong");
    return right ? 0 : 1;
}
