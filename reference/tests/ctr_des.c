// cc ctr_des.c -lgcrypt -lnettle && ./a.out | cmp - ctr_des.txt
//
// The lines of ctr_des.py by two other hands, libgcrypt 1.10.1 and nettle 3.8.1.
// It stops with 1 where they differ.

#include <gcrypt.h>
#include <inttypes.h>
#include <nettle/ctr.h>
#include <nettle/des.h>
#include <stdio.h>
#include <string.h>

static const uint8_t KEY[8] = {0x01, 0x23, 0x45, 0x67, 0x89, 0xab, 0xcd, 0xef};
static const uint64_t FIRSTS[] = {
    0, 1, UINT32_MAX, 0x00ffffffffffffff, -8192, -5, -2, -1,
};
static const size_t LENGTHS[] = {0, 1, 7, 8, 9, 15, 16, 17, 24, 31, 63, 64, 65, 100};

static int by_libgcrypt(const uint8_t *counter, uint8_t *text, size_t length) {
    gcry_cipher_hd_t cipher;
    gcry_check_version(NULL);
    if (gcry_cipher_open(&cipher, GCRY_CIPHER_DES, GCRY_CIPHER_MODE_CTR, 0)) return 1;
    int failed = gcry_cipher_setkey(cipher, KEY, 8)
        || gcry_cipher_setctr(cipher, counter, 8)
        || gcry_cipher_encrypt(cipher, text, length, NULL, 0);
    gcry_cipher_close(cipher);
    return failed;
}

static int by_nettle(uint8_t *counter, uint8_t *text, size_t length) {
    struct des_ctx key;
    int failed = !des_set_key(&key, KEY);
    ctr_crypt(&key, (nettle_cipher_func *)des_encrypt, 8, counter, length, text, text);
    return failed;
}

static int line(uint64_t first, size_t length) {
    uint8_t counter[8], one[100], other[100];
    for (size_t i = 0; i < 8; i++) counter[i] = first >> (56 - 8 * i);
    for (size_t i = 0; i < length; i++) one[i] = other[i] = 53 * i + 31 * length + 7;
    if (by_libgcrypt(counter, one, length) || by_nettle(counter, other, length)) return 1;
    if (memcmp(one, other, length)) return 1;
    printf("%016" PRIx64 " %zu %s", first, length, length ? "" : "-");
    for (size_t i = 0; i < length; i++) printf("%02x", one[i]);
    printf("\n");
    return 0;
}

int main(void) {
    for (size_t f = 0; f < sizeof FIRSTS / sizeof *FIRSTS; f++)
        for (size_t l = 0; l < sizeof LENGTHS / sizeof *LENGTHS; l++)
            if (line(FIRSTS[f], LENGTHS[l])) return 1;
    return 0;
}
