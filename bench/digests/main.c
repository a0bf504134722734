// Checks that the library and plain C agree, then prints how long the library takes for a value, by plain C's time.
#include "plain.h"
#include <stdio.h>
#include <stdlib.h>
#include <string.h>
#include <time.h>

#ifdef WITH_OPENSSL
#include <openssl/evp.h>
#endif

// The library's functions: a value as a pointer and a length, and the place of the digest.
void locker_sha1(const uint8_t *value, size_t length, uint8_t *out);
void locker_sha256(const uint8_t *value, size_t length, uint8_t *out);

typedef void Digest(const uint8_t *value, size_t length, uint8_t *out);

enum { LONGEST = 8192, ROUNDS = 31 };

static uint8_t value[LONGEST];

static uint32_t random_state = 1;

static uint32_t next_random(void) {
    random_state ^= random_state << 13;
    random_state ^= random_state >> 17;
    random_state ^= random_state << 5;
    return random_state;
}

static void check(const char *name, Digest *ours, Digest *plain, size_t width, size_t length) {
    uint8_t a[32] = {0}, b[32] = {0};
    ours(value, length, a);
    plain(value, length, b);
    if (memcmp(a, b, width) != 0) {
        fprintf(stderr, "%s: the digests of %zu bytes differ\n", name, length);
        exit(1);
    }
}

static void check_all(const char *name, Digest *ours, Digest *plain, size_t width) {
    for (size_t length = 0; length <= 300; length++) {
        check(name, ours, plain, width, length);
    }
    for (int i = 0; i < 3000; i++) {
        for (size_t k = 0; k < 64; k++) {
            value[next_random() % LONGEST] = (uint8_t)next_random();
        }
        check(name, ours, plain, width, next_random() % (LONGEST + 1));
    }
}

static double seconds(void) {
    struct timespec t;
    clock_gettime(CLOCK_MONOTONIC, &t);
    return (double)t.tv_sec + (double)t.tv_nsec * 1e-9;
}

// The time for one digest, in nanoseconds: each digest goes into the next value.
static double time_once(Digest *f, size_t length, int times) {
    uint8_t out[32];
    double start = seconds();
    for (int i = 0; i < times; i++) {
        f(value, length, out);
        value[0] ^= out[0];
    }
    return (seconds() - start) * 1e9 / times;
}

static int by_size(const void *x, const void *y) {
    double a = *(const double *)x, b = *(const double *)y;
    return (a > b) - (a < b);
}

static double median(double *times) {
    qsort(times, ROUNDS, sizeof *times, by_size);
    return times[ROUNDS / 2];
}

#ifdef WITH_OPENSSL
static EVP_MD_CTX *context;

static void openssl_sha1(const uint8_t *v, size_t length, uint8_t *out) {
    EVP_DigestInit_ex(context, EVP_sha1(), NULL), EVP_DigestUpdate(context, v, length), EVP_DigestFinal_ex(context, out, NULL);
}

static void openssl_sha256(const uint8_t *v, size_t length, uint8_t *out) {
    EVP_DigestInit_ex(context, EVP_sha256(), NULL), EVP_DigestUpdate(context, v, length), EVP_DigestFinal_ex(context, out, NULL);
}
#endif

static void measure(const char *name, Digest *ours, Digest *plain, Digest *openssl, size_t length) {
    int times = (int)(2000000 / (length + 64));
    double a[ROUNDS], b[ROUNDS], c[ROUNDS];
    for (int i = 0; i < ROUNDS; i++) {
        a[i] = time_once(ours, length, times);
        b[i] = time_once(plain, length, times);
        c[i] = openssl ? time_once(openssl, length, times) : 0;
    }
    double p = median(b);
    printf("%-8s %5zu bytes: ours %.2f of plain C's time", name, length, median(a) / p);
    if (openssl) {
        printf(", OpenSSL %.2f", median(c) / p);
    }
    printf("\n");
}

int main(void) {
    Digest *short_openssl = NULL, *long_openssl = NULL;
#ifdef WITH_OPENSSL
    context = EVP_MD_CTX_new();
    short_openssl = openssl_sha1, long_openssl = openssl_sha256;
#endif
    check_all("SHA-1", locker_sha1, plain_sha1, 20);
    check_all("SHA-256", locker_sha256, plain_sha256, 32);
    for (int i = 0; i < 2; i++) {
        size_t length = i == 0 ? 32 : 1024;
        measure("SHA-1", locker_sha1, plain_sha1, short_openssl, length);
        measure("SHA-256", locker_sha256, plain_sha256, long_openssl, length);
    }
    return 0;
}
