/* Asks the engine's library one thing about the book on the standard input, for the benchmark.
 *
 *     ask first                       prints the first resolution by Line, or E
 *     ask judge TAKEN HELD DENIED     prints the verdict on the pair
 *
 * A refusal prints F, its number and its line. */
#include <inttypes.h>
#include <stdio.h>
#include <stdlib.h>
#include <string.h>

#include "bantameasel.h"

static uint8_t text[BANTAMEASEL_MOST_TEXT + 1];

static int refused(uint32_t number, uint64_t line) {
    printf("F%4" PRIu32 "%4" PRIu64 "\n", number, line);
    return 0;
}

static int first(size_t length) {
    bantameasel_answer answer = bantameasel_first(text, length);
    uint8_t line[BANTAMEASEL_MOST_LINE];
    if (answer.refusal != 0) return refused(answer.refusal, answer.line);
    if (answer.found == 0) return puts("E") < 0;
    bantameasel_length written = bantameasel_line(text, length, answer.pair, line, sizeof line);
    if (written.refusal != 0) return refused(written.refusal, written.line);
    return fwrite(line, 1, written.length, stdout) != written.length;
}

static int judge(size_t length, char **pair) {
    uint64_t number[3];
    for (int place = 0; place < 3; place++) number[place] = strtoull(pair[place], NULL, 10);
    bantameasel_pair asked = {number[0], number[1], number[2]};
    bantameasel_verdict answer = bantameasel_judge(text, length, asked);
    if (answer.refusal != 0) return refused(answer.refusal, answer.line);
    return printf("verdict %" PRIu32 "\n", answer.verdict) < 0;
}

int main(int count, char **arguments) {
    size_t length = fread(text, 1, sizeof text, stdin);
    if (count == 2 && strcmp(arguments[1], "first") == 0) return first(length);
    if (count == 5 && strcmp(arguments[1], "judge") == 0) return judge(length, arguments + 2);
    fprintf(stderr, "use: ask first | ask judge TAKEN HELD DENIED\n");
    return 2;
}
