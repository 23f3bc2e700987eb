// The header and the archive in C++: ID has one head and four instructions, and at 7 it is 7.
#include "nespralha.h"
#include <cstdio>
#include <string>
#include <vector>

int main() {
    const std::string text = "ID\t1\tn\tn\ta\n";
    const auto *bytes = reinterpret_cast<const std::uint8_t *>(text.data());
    std::vector<nespralha_head> heads(NESPRALHA_MOST_HEADS);
    std::vector<std::uint32_t> code(NESPRALHA_MOST_CODE_WORDS), work(NESPRALHA_WORK_WORDS), args{7};
    const nespralha_checked checked = nespralha_check(bytes, text.size(), heads.data(), heads.size());
    const nespralha_checked translated = nespralha_translate(bytes, text.size(), code.data(), code.size());
    const nespralha_answer answer =
        nespralha_run(bytes, text.size(), args.data(), args.size(), 100, code.data(), code.size(), work.data(), work.size());
    std::printf("C++: %u\t%u\t%u\t%u\t%u\t%u\n", answer.number, answer.value, answer.line, answer.field, answer.steps, answer.rewrites);
    const bool checks = checked.number == NESPRALHA_HALT && checked.functions == 1 && translated.instructions == 4 && heads[0].body == 2;
    const bool runs = answer.number == NESPRALHA_HALT && answer.value == 7 && answer.steps == 5 && answer.rewrites == 1;
    return !(checks && runs);
}
