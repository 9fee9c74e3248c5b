/* Writes the SHA-256 of its input in hexadecimal (FIPS 180-4), as sha256sum does. */

#include "guest.h"

typedef unsigned word;

static const word constants[64] = {
    0x428A2F98, 0x71374491, 0xB5C0FBCF, 0xE9B5DBA5, 0x3956C25B, 0x59F111F1, 0x923F82A4, 0xAB1C5ED5,
    0xD807AA98, 0x12835B01, 0x243185BE, 0x550C7DC3, 0x72BE5D74, 0x80DEB1FE, 0x9BDC06A7, 0xC19BF174,
    0xE49B69C1, 0xEFBE4786, 0x0FC19DC6, 0x240CA1CC, 0x2DE92C6F, 0x4A7484AA, 0x5CB0A9DC, 0x76F988DA,
    0x983E5152, 0xA831C66D, 0xB00327C8, 0xBF597FC7, 0xC6E00BF3, 0xD5A79147, 0x06CA6351, 0x14292967,
    0x27B70A85, 0x2E1B2138, 0x4D2C6DFC, 0x53380D13, 0x650A7354, 0x766A0ABB, 0x81C2C92E, 0x92722C85,
    0xA2BFE8A1, 0xA81A664B, 0xC24B8B70, 0xC76C51A3, 0xD192E819, 0xD6990624, 0xF40E3585, 0x106AA070,
    0x19A4C116, 0x1E376C08, 0x2748774C, 0x34B0BCB5, 0x391C0CB3, 0x4ED8AA4A, 0x5B9CCA4F, 0x682E6FF3,
    0x748F82EE, 0x78A5636F, 0x84C87814, 0x8CC70208, 0x90BEFFFA, 0xA4506CEB, 0xBEF9A3F7, 0xC67178F2,
};

static word hash[8] = {
    0x6A09E667, 0xBB67AE85, 0x3C6EF372, 0xA54FF53A, 0x510E527F, 0x9B05688C, 0x1F83D9AB, 0x5BE0CD19,
};

static inline word turn(word x, int bits)
{
    return x >> bits | x << (32 - bits);
}

/* Takes the next block of 64 bytes, as 16 words, into the hash. */
static void take_block(const word *block)
{
    word w[64], s[8];
    for (int k = 0; k < 16; k++)
        w[k] = block[k];
    for (int k = 16; k < 64; k++)
        w[k] = (turn(w[k - 2], 17) ^ turn(w[k - 2], 19) ^ w[k - 2] >> 10) + w[k - 7]
            + (turn(w[k - 15], 7) ^ turn(w[k - 15], 18) ^ w[k - 15] >> 3) + w[k - 16];
    for (int k = 0; k < 8; k++)
        s[k] = hash[k];
    for (int k = 0; k < 64; k++) {
        word first = s[7] + (turn(s[4], 6) ^ turn(s[4], 11) ^ turn(s[4], 25))
            + ((s[4] & s[5]) ^ (~s[4] & s[6])) + constants[k] + w[k];
        word second = (turn(s[0], 2) ^ turn(s[0], 13) ^ turn(s[0], 22))
            + ((s[0] & s[1]) ^ (s[0] & s[2]) ^ (s[1] & s[2]));
        for (int i = 7; i > 0; i--)
            s[i] = s[i - 1];
        s[4] += first;
        s[0] = first + second;
    }
    for (int k = 0; k < 8; k++)
        hash[k] += s[k];
}

static word block[16];
static unsigned long long size;

/* Takes one more byte; a block is taken when it is full. */
static void take_byte(int byte)
{
    unsigned at = (unsigned)size % 64;
    word above = at % 4 ? block[at / 4] << 8 : 0;
    block[at / 4] = above | (word)byte;
    size++;
    if (at == 63)
        take_block(block);
}

int main(void)
{
    int byte;
    while ((byte = get_byte()) >= 0)
        take_byte(byte);
    unsigned long long bits = 8 * size;
    take_byte(0x80);
    while (size % 64 != 56)
        take_byte(0);
    for (int shift = 56; shift >= 0; shift -= 8)
        take_byte((int)(bits >> shift & 0xFF));
    for (int k = 0; k < 8; k++)
        for (int shift = 28; shift >= 0; shift -= 4)
            put_byte("0123456789abcdef"[hash[k] >> shift & 15]);
    put_byte('\n');
    flush();
    return 0;
}
