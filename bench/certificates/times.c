/* Times reading a certificate's fields in place, beside openssl's d2i_X509 and X509_free.
 * `times FILE..` prints rows of Markdown. */
#define _POSIX_C_SOURCE 199309L
#include <openssl/x509.h>

#define BATCHES 60
#define LONGEST 65536

#include "../times.h"

uint64_t rattle_certificates(const uint8_t *bytes, size_t count, size_t rounds);
uint64_t rattle_parsed(const uint8_t *bytes, size_t count, size_t rounds);

/* As in bench/certificates/rounds.rt.in: one of two copies in turn. No decoded field is read. */
static uint64_t openssl_certificates(const uint8_t *bytes, size_t count, size_t rounds) {
    uint64_t sum = 0;
    size_t half = count / 2, round;
    for (round = 0; round < rounds; round++) {
        const unsigned char *copy = round % 2 == 0 ? bytes : bytes + half;
        X509 *one = d2i_X509(NULL, &copy, (long)half);
        sum += one != NULL;
        X509_free(one);
    }
    return sum;
}

static const side sides[] = {openssl_certificates, rattle_certificates, rattle_parsed};
enum { SIDES = sizeof sides / sizeof *sides };

/* Prints a row: the median times, and the median and quartiles of the ratios of openssl to ours
 * with all fields. */
static void show(const char *path, const uint8_t *bytes, size_t count) {
    double times[SIDES][BATCHES], ratios[BATCHES];
    const char *name = strrchr(path, '/');
    size_t rounds[SIDES], batch, i;
    for (i = 0; i < SIDES; i++) {
        rounds[i] = (size_t)(0.002 / time_of(sides[i], bytes, count, 200)) + 1;
    }
    for (batch = 0; batch < BATCHES; batch++) {
        for (i = 0; i < SIDES; i++) {
            size_t turn = (batch + i) % SIDES;
            times[turn][batch] = time_of(sides[turn], bytes, count, rounds[turn]);
        }
        ratios[batch] = times[0][batch] / times[1][batch];
    }
    for (i = 0; i < SIDES; i++) {
        qsort(times[i], BATCHES, sizeof(double), rises);
    }
    qsort(ratios, BATCHES, sizeof(double), rises);
    printf("| %s, %zu bytes | %.0f | %.0f | %.0f | %.0f | %.0f to %.0f |\n", name == NULL ? path : name + 1, count / 2, times[2][BATCHES / 2] * 1e9,
           times[1][BATCHES / 2] * 1e9, times[0][BATCHES / 2] * 1e9, ratios[BATCHES / 2], ratios[BATCHES / 4], ratios[3 * BATCHES / 4]);
}

int main(int argc, char **argv) {
    static uint8_t bytes[2 * LONGEST];
    int i;
    for (i = 1; i < argc; i++) {
        size_t count = two_copies(argv[i], bytes);
        if (rattle_certificates(bytes, count, 1) == 0 || openssl_certificates(bytes, count, 1) == 0) {
            fprintf(stderr, "times: %s: a side doesn't read it\n", argv[i]);
            return 1;
        }
        show(argv[i], bytes, count);
    }
    return 0;
}
