/* Shows the dearest and the cheapest iteration of a form file beside one another, block by block, by each of the timing
   desk's two ways: the full walk and the sweep. What a training tool would do with the calls of include/somniaret.h.

       two_ways FORM [BUDGET]

   Ends with 0 where the form was read and both ways were asked, 1 where the file cannot be read, 2 for wrong usage. */

#include <errno.h>
#include <inttypes.h>
#include <stdio.h>
#include <stdlib.h>
#include <string.h>

#include "somniaret.h"

/* A longest form has 3,665 bytes; what is longer is refused by its first 3,682. */
enum { MOST_BYTES = 4096, USUAL_BUDGET = 100000 };

/* Both routes of one way, the heaviest and then the lightest, a byte for each block; zeros where it was refused. */
struct routes {
    uint8_t bytes[SOMNIARET_ROUTES_BYTES];
};

enum { NOT_ON_IT = 0, JUMP = 1, FALL = 2, LAST = 3 };

/* How many blocks the routes have: the heaviest ends in the last block. */
static size_t blocks_of(const struct routes *routes)
{
    for (size_t block = 0; block < SOMNIARET_MOST_BLOCKS; block++)
        if (routes->bytes[block] == LAST)
            return block + 1;
    return 0;
}

static uint8_t dearest_at(const struct routes *routes, size_t block)
{
    return block < blocks_of(routes) ? routes->bytes[block] : NOT_ON_IT;
}

static uint8_t cheapest_at(const struct routes *routes, size_t block)
{
    return block < blocks_of(routes) ? routes->bytes[blocks_of(routes) + block] : NOT_ON_IT;
}

static const char *way(uint8_t byte)
{
    switch (byte) {
    case JUMP:
        return "jump";
    case FALL:
        return "fall";
    case LAST:
        return "end";
    default:
        return "-";
    }
}

static void show_refusal(const char *what, uint64_t number, uint64_t place)
{
    if (number != 0)
        printf("%s: refused %" PRIu64 " at %" PRIu64 "\n", what, number, place);
}

/* A number for the dearest and the cheapest of each way. */
static void show_numbers(const char *what, uint64_t walk, uint64_t walk_least, uint64_t sweep, uint64_t sweep_least)
{
    printf("%-10s %12" PRIu64 " %12" PRIu64 " %12" PRIu64 " %12" PRIu64 "\n", what, walk, walk_least, sweep,
           sweep_least);
}

static void show_block(size_t block, const struct routes *walked, const struct routes *swept)
{
    uint8_t bytes[4] = {dearest_at(walked, block), cheapest_at(walked, block), dearest_at(swept, block),
                        cheapest_at(swept, block)};
    if (bytes[0] != NOT_ON_IT || bytes[1] != NOT_ON_IT || bytes[2] != NOT_ON_IT || bytes[3] != NOT_ON_IT)
        printf("block %-4zu %12s %12s %12s %12s\n", block, way(bytes[0]), way(bytes[1]), way(bytes[2]), way(bytes[3]));
}

int main(int argc, char **argv)
{
    if (argc != 2 && argc != 3) {
        fprintf(stderr, "usage: %s FORM [BUDGET]\n", argv[0]);
        return 2;
    }
    uint32_t budget = USUAL_BUDGET;
    if (argc == 3) {
        char *end;
        errno = 0;
        unsigned long asked = strtoul(argv[2], &end, 10);
        if (errno != 0 || *end != '\0' || argv[2][0] < '0' || argv[2][0] > '9' || asked > UINT32_MAX) {
            fprintf(stderr, "%s: the budget is a number up to %" PRIu32 "\n", argv[0], UINT32_MAX);
            return 2;
        }
        budget = (uint32_t)asked;
    }

    uint8_t form[MOST_BYTES];
    FILE *file = fopen(argv[1], "rb");
    if (file == NULL) {
        fprintf(stderr, "%s: %s: %s\n", argv[0], argv[1], strerror(errno));
        return 1;
    }
    size_t length = fread(form, 1, sizeof form, file);
    int broken = ferror(file);
    fclose(file);
    if (broken) {
        fprintf(stderr, "%s: %s cannot be read\n", argv[0], argv[1]);
        return 1;
    }

    struct routes walked = {{0}};
    struct routes swept = {{0}};
    struct somniaret_walk_answer walk = somniaret_walk(form, length, budget, walked.bytes, sizeof walked.bytes);
    struct somniaret_sweep_answer sweep = somniaret_sweep(form, length, swept.bytes, sizeof swept.bytes);

    show_refusal("full walk", walk.number, walk.place);
    show_refusal("sweep", sweep.number, sweep.place);
    printf("%-10s %25s %25s\n", "", "full walk", "sweep");
    printf("%-10s %25" PRIu64 " %25" PRIu64 "\n", "iterations", walk.iterations, sweep.iterations);
    printf("%-10s %25" PRIu64 "\n", "walked", walk.walked);
    printf("%-10s %25s %25" PRIu64 "\n", "kept", "", sweep.kept);
    printf("%-10s %12s %12s %12s %12s\n", "", "dearest", "cheapest", "dearest", "cheapest");
    show_numbers("iteration", walk.weight, walk.least, sweep.weight, sweep.least);
    show_numbers("whole loop", walk.bound, walk.least_total, sweep.bound, sweep.least_total);
    for (size_t block = 0; block < SOMNIARET_MOST_BLOCKS; block++)
        show_block(block, &walked, &swept);
    return 0;
}
