/* What bench/tables.sh times beside the program: reading a file packet by packet, and the CRC of sections by a table of
 * 256 entries; and a stream of sections that are full of small items. */
#include <stdint.h>
#include <stdio.h>
#include <stdlib.h>
#include <string.h>

enum { SIZE = 188, PIECE = 1024, SECTION = 4096 };

static _Noreturn void fail(const char *text) {
    fprintf(stderr, "tables: %s\n", text);
    exit(1);
}

/* How many packets of the file begin with the sync byte. Each is copied to a place of its own, as a packet is. */
static uint64_t packets(const char *name) {
    static uint8_t piece[PIECE * SIZE];
    uint8_t packet[SIZE];
    uint64_t count = 0;
    FILE *file = fopen(name, "rb");
    if (file == NULL)
        fail("the file can't be opened");
    setvbuf(file, NULL, _IONBF, 0);
    size_t got;
    while ((got = fread(piece, SIZE, PIECE, file)) != 0)
        for (size_t k = 0; k < got; k++) {
            memcpy(packet, piece + k * SIZE, SIZE);
            /* The copy is made, whatever is read of it. */
            __asm__ volatile("" : : "r"(packet) : "memory");
            count += packet[0] == 0x47;
        }
    if (ferror(file))
        fail("the file can't be read");
    fclose(file);
    return count;
}

static uint32_t table[256];

static void fill_table(void) {
    for (uint32_t i = 0; i < 256; i++) {
        uint32_t crc = i << 24;
        for (int bit = 0; bit < 8; bit++)
            crc = crc << 1 ^ (crc >> 31 ? 0x04C11DB7u : 0);
        table[i] = crc;
    }
}

static uint32_t crc32(const uint8_t *bytes, size_t length) {
    uint32_t crc = 0xFFFFFFFFu;
    for (size_t i = 0; i < length; i++)
        crc = crc << 8 ^ table[(crc >> 24) ^ bytes[i]];
    return crc;
}

/* A number of the CRCs of so many sections, each with the CRC before in its first bytes. */
static uint64_t crcs(uint32_t count) {
    uint8_t bytes[SECTION];
    uint64_t sum = 0;
    for (int i = 0; i < SECTION; i++)
        bytes[i] = (uint8_t)(i * 7);
    for (uint32_t n = 0; n < count; n++) {
        uint32_t crc = crc32(bytes, SECTION);
        bytes[0] = (uint8_t)(crc >> 24);
        bytes[1] = (uint8_t)(crc >> 16);
        bytes[2] = (uint8_t)(crc >> 8);
        bytes[3] = (uint8_t)crc;
        sum = sum * 31 + crc;
    }
    return sum;
}

/* A CAT of 4,096 bytes: 2,042 descriptors with no body. */
static void fill_cat(uint8_t *bytes) {
    static const uint8_t header[8] = {0x01, 0xBF, 0xFD, 0xFF, 0xFF, 0xC1, 0x00, 0x00};
    memcpy(bytes, header, 8);
    for (int i = 8; i < SECTION - 4; i += 2) {
        bytes[i] = 0x80;
        bytes[i + 1] = 0;
    }
    uint32_t crc = crc32(bytes, SECTION - 4);
    for (int i = 0; i < 4; i++)
        bytes[SECTION - 4 + i] = (uint8_t)(crc >> (24 - 8 * i));
}

/* Writes the packets of so many such CATs. */
static void items(uint32_t count) {
    uint8_t cat[1 + SECTION];
    uint32_t counter = 0;
    cat[0] = 0;
    fill_cat(cat + 1);
    for (uint32_t n = 0; n < count; n++)
        for (size_t at = 0; at < sizeof cat; at += SIZE - 4) {
            uint8_t packet[SIZE] = {0x47, at == 0 ? 0x40 : 0x00, 0x01, (uint8_t)(0x10 | (counter++ & 15))};
            size_t left = sizeof cat - at;
            memset(packet + 4, 0xFF, SIZE - 4);
            memcpy(packet + 4, cat + at, left < SIZE - 4 ? left : SIZE - 4);
            if (fwrite(packet, SIZE, 1, stdout) != 1)
                fail("the packets can't be written");
        }
}

int main(int count, char **words) {
    if (count != 3)
        fail("words are packets FILE, crcs COUNT or items COUNT");
    fill_table();
    if (strcmp(words[1], "packets") == 0)
        printf("%llu\n", (unsigned long long)packets(words[2]));
    else if (strcmp(words[1], "items") == 0)
        items((uint32_t)strtoul(words[2], NULL, 10));
    else
        printf("%llu\n", (unsigned long long)crcs((uint32_t)strtoul(words[2], NULL, 10)));
    return 0;
}
