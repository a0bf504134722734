// SHA-1 and SHA-256 in plain C, straight from FIPS 180-4.
#include <stddef.h>
#include <stdint.h>

void plain_sha1(const uint8_t *value, size_t length, uint8_t out[20]);
void plain_sha256(const uint8_t *value, size_t length, uint8_t out[32]);
