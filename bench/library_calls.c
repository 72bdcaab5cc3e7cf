/* The processor time of a call, over memory that it has had before: library_calls FILE ROUNDS. Prints nanoseconds for each
 * of so many calls, after one more that nothing is told of. */
#include <stdio.h>
#include <stdlib.h>
#include <time.h>

#include "udsnorm.h"

#define MOST ((size_t)1 << 28)

int main(int count, char **words)
{
    uint8_t *log = malloc(MOST), *text = malloc(4 * MOST + 512);
    FILE *file = count == 3 ? fopen(words[1], "rb") : NULL;
    size_t length = file && log && text ? fread(log, 1, MOST, file) : 0;
    long round, rounds = length > 0 ? atol(words[2]) : 0;
    struct udsnorm_answer answer;
    clock_t begun = 0;

    for (round = -1; round < rounds; round++) {
        if (round == 0)
            begun = clock();
        udsnorm_normalise(UDSNORM_TESTER, UDSNORM_UNIT, UDSNORM_LIMIT, log, length, text, 4 * MOST + 512, &answer);
    }
    if (rounds < 1 || answer.status != UDSNORM_DONE)
        return EXIT_FAILURE;
    printf("%.0f\n", 1e9 * (double)(clock() - begun) / CLOCKS_PER_SEC / (double)rounds);
    return EXIT_SUCCESS;
}
