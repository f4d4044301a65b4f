/*
 * The bench programs over the model: raw event bytes on standard input, a chip of the part with select 0 on an array of
 * FFh. What it prints is what the kit's own program for that part must print.
 *
 *     bench x24f128|x24128
 */
#include <stdio.h>
#include <string.h>

#include "model.h"

#define MOST 4096

int main(int argc, char **argv)
{
    static uint8_t trace[MOST + 1], answers[MOST], array[CREP_ARRAY];
    size_t n = fread(trace, 1, sizeof trace, stdin), i;
    struct crep_chip chip;
    uint8_t refusal = n > MOST ? 4 : 0;

    if (argc != 2 || (strcmp(argv[1], "x24f128") != 0 && strcmp(argv[1], "x24128") != 0))
        return 2;
    model_new(&chip, strcmp(argv[1], "x24128") == 0 ? CREP_X24128 : CREP_X24F128, 0);
    memset(array, 0xff, sizeof array);
    if (!refusal)
        refusal = model_run(&chip, array, sizeof array, trace, n, answers, sizeof answers);
    if (refusal) {
        printf("refused %d\n", refusal);
        return 0;
    }
    printf("event note\n");
    for (i = 0; i < n; i++)
        if (CREP_NOTE(answers[i]))
            printf("%zu %d\n", i, CREP_NOTE(answers[i]));
    printf("%zu events\n", n);
    return 0;
}
