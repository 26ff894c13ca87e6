/* Prints the two figures of a plan file, or the number of its refusal.
 * usage: plan_figures FILE
 * Exit status: 0 for an accepted plan, 1 for a refused plan, 2 if there is no file.
 * The figures are guaranteed if every holder keeps to its entry's declared length. If even one hold is longer, they promise
 * nothing.
 */
#include <stdio.h>

#include "bittmelon.h"

int main(int argc, char **argv)
{
    static uint8_t bytes[BITTMELON_MAX_PLAN_BYTES]; /* the longest plan */
    FILE *file = argc == 2 ? fopen(argv[1], "rb") : NULL;
    if (!file) {
        fprintf(stderr, "usage: plan_figures FILE\n");
        return 2;
    }
    size_t count = fread(bytes, 1, sizeof bytes, file);
    fclose(file);
    uint32_t refusal = bittmelon_plan_refusal(bytes, count);
    if (refusal != 0) {
        printf("refused %u\n", refusal);
        return 1;
    }
    printf("read %u write %u\n", bittmelon_read_figure(bytes, count), bittmelon_write_figure(bytes, count));
    return 0;
}
