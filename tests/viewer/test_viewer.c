/* Calls the viewer's three functions on the plan bytes of a vectors file and compares the numbers.
 * usage: test_viewer vectors.txt
 * Each string lies at the very end of a page with no page after it, so that a byte read past the end stops the program.
 * The last line is `N passed, M failed`; the exit status is 0 only if none failed.
 */
#include <stdio.h>
#include <stdlib.h>
#include <string.h>
#include <sys/mman.h>
#include <unistd.h>

#include "bittmelon.h"

enum { MOST = 2048 };

static unsigned passed, failed;

static int digit(int c) { return c <= '9' ? c - '0' : c - 'a' + 10; }

static void compare(const char *word, const uint8_t *bytes, size_t count, const unsigned want[3])
{
    unsigned got[3] = {bittmelon_plan_refusal(bytes, count), bittmelon_read_figure(bytes, count),
                       bittmelon_write_figure(bytes, count)};
    if (memcmp(got, want, sizeof got) == 0) {
        passed++;
        return;
    }
    failed++;
    printf("%s: got %u %u %u, want %u %u %u\n", word, got[0], got[1], got[2], want[0], want[1], want[2]);
}

int main(int argc, char **argv)
{
    FILE *file = argc == 2 ? fopen(argv[1], "r") : NULL;
    if (!file) {
        fprintf(stderr, "usage: test_viewer vectors.txt\n");
        return 2;
    }
    size_t page = (size_t)sysconf(_SC_PAGESIZE);
    uint8_t *block = mmap(NULL, 2 * page, PROT_READ | PROT_WRITE, MAP_PRIVATE | MAP_ANONYMOUS, -1, 0);
    if (block == MAP_FAILED || mprotect(block + page, page, PROT_NONE) != 0) {
        fprintf(stderr, "test_viewer: no memory\n");
        return 2;
    }
    static char line[2 * MOST + 200];
    while (fgets(line, sizeof line, file)) {
        unsigned want[3];
        int used = 0;
        if (sscanf(line, "%u %u %u %n", &want[0], &want[1], &want[2], &used) != 3) {
            fprintf(stderr, "test_viewer: a line that is no vector: %s", line);
            return 2;
        }
        char *hex = line + used, *word = strchr(hex, ' ');
        size_t count = *hex == '-' ? 0 : (size_t)(word - hex) / 2;
        uint8_t *bytes = block + page - count;
        for (size_t i = 0; i < count; i++)
            bytes[i] = (uint8_t)(digit(hex[2 * i]) * 16 + digit(hex[2 * i + 1]));
        word[strcspn(word, "\n")] = 0;
        compare(word + 1, bytes, count, want);
    }
    const unsigned refused_short[3] = {BITTMELON_SHORT, 0, 0};
    compare("a null pointer with length 0", NULL, 0, refused_short);
    printf("%u passed, %u failed\n", passed, failed);
    return failed != 0;
}
