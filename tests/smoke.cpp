// The header and the archive, used from C++: every kind of answer, by value, and what is lent.

#include <array>
#include <cstdint>
#include <cstdio>
#include <cstring>
#include <type_traits>
#include <vector>

#include "khuyurek.h"

namespace {

int failures = 0;

void expect(bool is_so, const char *what) {
    if (!is_so) {
        std::printf("not so: %s\n", what);
        ++failures;
    }
}

#define EXPECT(condition) expect((condition), #condition)

// Handed over as C hands them over.
template <typename T>
constexpr bool plain() {
    return std::is_standard_layout<T>::value && std::is_trivial<T>::value;
}

static_assert(plain<khuyurek_aco_answer>() && plain<khuyurek_aco_stream>(), "");
static_assert(plain<khuyurek_acb_answer>() && plain<khuyurek_report>(), "");
static_assert(plain<khuyurek_descriptor_typed>() && plain<khuyurek_compared>(), "");
static_assert(KHUYUREK_LIMIT == 16777216u && KHUYUREK_VERSION >= 2, "");

const std::vector<std::uint8_t> gray = {0, 1, 0, 1, 0, 8, 0x27, 0x10, 0, 0, 0, 0, 0, 0};
const std::vector<std::uint8_t> ase_gray = {'A', 'S', 'E', 'F', 0, 1, 0, 0, 0, 0, 0, 1, 0, 1, 0, 0, 0, 14,
                                            0, 1, 0, 0, 'G', 'r', 'a', 'y', 0x3F, 0x80, 0, 0, 0, 2};
const std::vector<std::uint8_t> root = {0, 0, 0, 16, 0, 0, 0, 0, 0, 0, 0, 1, 'a', 0, 0, 0, 0};

void swatches() {
    const khuyurek_aco_answer judged = khuyurek_aco_judge(gray.data(), gray.size());
    EXPECT(judged.number == KHUYUREK_ACCEPTED && judged.colours == 1 && judged.lists == 1);
    std::array<std::uint32_t, KHUYUREK_ACO_WIDTH> table = {};
    EXPECT(khuyurek_aco_read(gray.data(), gray.size(), table.data(), table.size() - 1).number == KHUYUREK_NO_ROOM);
    EXPECT(table[0] == 0);
    EXPECT(khuyurek_aco_read(gray.data(), gray.size(), table.data(), table.size()).number == KHUYUREK_ACCEPTED);
    EXPECT(table[0] == 8 && table[1] == 10000 && table[7] == KHUYUREK_INK_NOT_STATED);
    const khuyurek_length length = khuyurek_aco_length(table.data(), table.size(), gray.data(), gray.size());
    std::vector<std::uint8_t> out(length.length);
    EXPECT(khuyurek_aco_write(table.data(), table.size(), gray.data(), gray.size(), out.data(), out.size()).number == 0);
    EXPECT(khuyurek_aco_judge(out.data(), out.size()).lists == 2);

    std::vector<std::uint8_t> store(KHUYUREK_ACO_STORE);
    khuyurek_aco_stream stream = khuyurek_aco_stream_start(store.data(), store.size()).stream;
    for (const std::uint8_t &byte : out) {
        stream = khuyurek_aco_stream_feed(stream, store.data(), store.size(), &byte, 1).stream;
    }
    const khuyurek_aco_finished finished = khuyurek_aco_stream_finish(stream, store.data(), store.size());
    EXPECT(finished.answer.number == 0 && finished.answer.colours == 1 && finished.stream.ended == 1);
    EXPECT(std::memcmp(store.data(), gray.data() + 4, 10) == 0);
}

void palettes() {
    const khuyurek_ase_start start = khuyurek_ase_walk_start(ase_gray.data(), ase_gray.size());
    const khuyurek_ase_step step = khuyurek_ase_walk(ase_gray.data(), ase_gray.size(), start.at);
    EXPECT(step.number == 0 && step.done == 0 && step.model == KHUYUREK_GRAY && step.channels[0] == 0x3F800000u);
    EXPECT(khuyurek_ase_walk(ase_gray.data(), ase_gray.size(), step.next).done == 1);
    EXPECT(khuyurek_to_sample(step.model, step.channels[0]).sample == 10000);
    std::array<std::uint32_t, KHUYUREK_COMPARE_WIDTH> table = {};
    const khuyurek_compared compared = khuyurek_compare(KHUYUREK_ACO, gray.data(), gray.size(), KHUYUREK_ASE,
                                                        ase_gray.data(), ase_gray.size(), table.data(), table.size());
    EXPECT(compared.number == 0 && compared.positions == 1 && compared.differences == 0);
}

void others() {
    khuyurek_report report = {{0}};
    report = khuyurek_report_add(report, KHUYUREK_ACO, gray.data(), gray.size()).report;
    report = khuyurek_report_merge(report, report).report;
    EXPECT(report.totals[0] == 2 && report.totals[19] == 2);
    EXPECT(khuyurek_acb_judge(gray.data(), gray.size()).number == KHUYUREK_WRONG_MARK);
    EXPECT(khuyurek_resource_judge(gray.data(), 0).blocks == 0);
    std::uint32_t first = 7, length = 7, next = 7, depth = 7, kind = 7;
    const khuyurek_descriptor_answer answer =
        khuyurek_descriptor_read(root.data(), root.size(), &first, 1, &length, 1, &next, 1, &depth, 1, &kind, 1);
    EXPECT(answer.rows == 1 && first == 0 && length == root.size() && next == 1 && depth == 0 && kind == 0x4F626A63u);
}

}  // namespace

int main() {
    swatches();
    palettes();
    others();
    if (failures == 0) {
        std::printf("C++ %ld agrees\n", static_cast<long>(__cplusplus));
    }
    return failures == 0 ? 0 : 1;
}
