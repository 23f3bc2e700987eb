#include "nespralha.h"
#include <stdio.h>
int main(void) {
    static const char rule[] = "DIF\t2\tnn\tn\t-\ta\tb\n";
    static uint32_t code[NESPRALHA_MOST_CODE_WORDS], work[NESPRALHA_WORK_WORDS], readings[] = {3, 4294967290};
    struct nespralha_answer a = nespralha_run((const uint8_t *)rule, sizeof rule - 1, readings, 2, 100,
                                              code, NESPRALHA_MOST_CODE_WORDS, work, NESPRALHA_WORK_WORDS);
    printf("%u %u %u %u %u %u\n", a.number, a.value, a.line, a.field, a.steps, a.rewrites);
    return a.number != NESPRALHA_HALT;
}
