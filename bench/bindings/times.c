/* Times extracting the host name of a record, from C beside Rattle's own calls. `times FILE..` prints
 * rows of Markdown; `times SIDE ROUNDS FILE` makes the calls of one side alone, for callgrind. */
#define _POSIX_C_SOURCE 199309L
#include "wispuddera.h"

#define BATCHES 60
#define LONGEST 16645

#include "../times.h"

uint64_t rattle_names(const uint8_t *bytes, size_t count, size_t rounds);
uint64_t rattle_places(const uint8_t *bytes, size_t count, size_t rounds);

/* As in bench/bindings/rounds.rt.in: one of two copies in turn, and a number for each answer. */
__attribute__((noinline)) uint64_t c_names(const uint8_t *bytes, size_t count, size_t rounds) {
    uint64_t sum = 0;
    size_t half = count / 2, round;
    for (round = 0; round < rounds; round++) {
        const uint8_t *copy = round % 2 == 0 ? bytes : bytes + half;
        wispuddera_found name = WISPUDDERA_EMPTY;
        if (wispuddera_find_server_name_in_record(copy, half, &name) == WISPUDDERA_READ && name.place.length > 0) {
            sum += name.place.length * 256 + copy[name.place.offset];
        }
    }
    return sum;
}

static const side sides[] = {c_names, rattle_names, rattle_places};
enum { SIDES = sizeof sides / sizeof *sides };

/* Prints a row: the median times, and the median and quartiles of the ratios of C to Rattle. */
static void show(const char *path, const uint8_t *bytes, size_t count) {
    static double times[SIDES][BATCHES], ratios[SIDES][BATCHES];
    const char *name = strrchr(path, '/');
    size_t rounds = 1000, batch, i;
    rounds = (size_t)(0.002 / time_of(c_names, bytes, count, rounds)) + 1;
    for (batch = 0; batch < BATCHES; batch++) {
        for (i = 0; i < SIDES; i++) {
            size_t turn = (batch + i) % SIDES;
            times[turn][batch] = time_of(sides[turn], bytes, count, rounds);
        }
        for (i = 1; i < SIDES; i++) {
            ratios[i][batch] = times[0][batch] / times[i][batch];
        }
    }
    for (i = 0; i < SIDES; i++) {
        qsort(times[i], BATCHES, sizeof(double), rises);
        qsort(ratios[i], BATCHES, sizeof(double), rises);
    }
    printf("| %s, %zu bytes | %.1f", name == NULL ? path : name + 1, count / 2, times[0][BATCHES / 2] * 1e9);
    for (i = 1; i < SIDES; i++) {
        printf(" | %.1f | %.2f | %.2f to %.2f", times[i][BATCHES / 2] * 1e9, ratios[i][BATCHES / 2], ratios[i][BATCHES / 4],
               ratios[i][3 * BATCHES / 4]);
    }
    printf(" |\n");
}

int main(int argc, char **argv) {
    static uint8_t bytes[2 * LONGEST];
    size_t count;
    int i;
    if (argc == 4 && strlen(argv[1]) == 1) {
        count = two_copies(argv[3], bytes);
        return sides[(argv[1][0] - '0') % SIDES](bytes, count, (size_t)atol(argv[2])) == 0;
    }
    for (i = 1; i < argc; i++) {
        uint64_t wanted;
        size_t turn;
        count = two_copies(argv[i], bytes);
        wanted = c_names(bytes, count, 2);
        for (turn = 0; turn < SIDES; turn++) {
            if (wanted == 0 || sides[turn](bytes, count, 2) != wanted) {
                fprintf(stderr, "times: %s: the sides answer different names, or none\n", argv[i]);
                return 1;
            }
        }
        show(argv[i], bytes, count);
    }
    return 0;
}
