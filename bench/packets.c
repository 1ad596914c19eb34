// What bench/packets.sh times beside the program: header fields, scrambled payloads and the sample stream, in plain C.
#include <stdint.h>
#include <stdio.h>
#include <stdlib.h>
#include <string.h>
#ifdef WITH_EVP
#include <openssl/evp.h>
#endif

enum { SIZE = 188, PACKETS = 4096, PIECE = 64, COUNTERS = 8192 };

static const uint8_t pat[16] = {0x00, 0xB0, 0x0D, 0x00, 0x01, 0xC1, 0x00, 0x00,
                                0x00, 0x01, 0xF0, 0x00, 0x2A, 0xB1, 0x04, 0xB2};
static const uint8_t pmt[26] = {0x02, 0xB0, 0x17, 0x00, 0x01, 0xC1, 0x00, 0x00, 0xE1, 0x00, 0xF0, 0x00, 0x1B,
                                0xE1, 0x00, 0xF0, 0x00, 0x0F, 0xE1, 0x01, 0xF0, 0x00, 0x2F, 0x44, 0xB9, 0x9B};

static uint64_t state;
static uint8_t counters[COUNTERS];

static void generate(uint8_t *bytes, int count) {
    uint64_t x = state;
    for (int i = 0; i < count; i++) {
        x = 6364136223846793005u * x + 1442695040888963407u;
        bytes[i] = (uint8_t)(x >> 56);
    }
    state = x;
}

static void put_header(uint8_t *packet, int unit_start, int pid, int control) {
    int counter = pid == 0x1FFF ? 0 : counters[pid];
    counters[pid] = (uint8_t)((counter + 1) % 16);
    packet[0] = 0x47;
    packet[1] = (uint8_t)(unit_start << 6 | pid >> 8);
    packet[2] = (uint8_t)pid;
    packet[3] = (uint8_t)(control << 4 | counter);
}

static void put_section(uint8_t *packet, int pid, const uint8_t *section, int length) {
    put_header(packet, 1, pid, 1);
    packet[4] = 0;
    memcpy(packet + 5, section, (size_t)length);
    memset(packet + 5 + length, 0xFF, (size_t)(SIZE - 5 - length));
}

static void put_packet(uint8_t *packet, uint32_t k) {
    int pid = k % 4 == 3 ? 0x0101 : 0x0100;
    switch (k % 100) {
    case 0:
        put_section(packet, 0x0000, pat, sizeof pat);
        break;
    case 1:
        put_section(packet, 0x1000, pmt, sizeof pmt);
        break;
    case 2:
        put_header(packet, 0, 0x1FFF, 1);
        memset(packet + 4, 0xFF, SIZE - 4);
        break;
    default:
        if (k % 10 == 9) {
            put_header(packet, 0, pid, 3);
            packet[4] = 7;
            packet[5] = 0;
            memset(packet + 6, 0xFF, 6);
            generate(packet + 12, SIZE - 12);
        } else {
            put_header(packet, 0, pid, 1);
            generate(packet + 4, SIZE - 4);
        }
    }
}

static uint64_t header(const uint8_t *p) {
    unsigned sync = p[0], error = p[1] >> 7, unit_start = p[1] >> 6 & 1, priority = p[1] >> 5 & 1;
    unsigned pid = (p[1] & 0x1Fu) << 8 | p[2];
    unsigned scrambling = p[3] >> 6, adaptation = p[3] >> 4 & 3, counter = p[3] & 15;
    return sync + 3 * error + 5 * unit_start + 7 * priority + 11 * pid + 13 * scrambling + 17 * adaptation +
           19 * counter;
}

static uint64_t headers(uint8_t (*packets)[SIZE], uint32_t count) {
    uint64_t sum = 0;
    for (uint32_t i = 0; i < count; i++)
        sum = sum * 31 + header(packets[i % PACKETS]);
    return sum;
}

#ifdef WITH_EVP
// One packet under one word, at a new position each time: 64 bits of block counter, 64 of stream number, low byte
// first.
static uint64_t scrambled(const uint8_t *clear, uint32_t count) {
    uint8_t word[32], start[16], packet[SIZE];
    int pid = (clear[1] & 0x1F) << 8 | clear[2], length;
    uint64_t sum = 0;
    EVP_CIPHER_CTX *context = EVP_CIPHER_CTX_new();
    memset(word, 0x5A, sizeof word);
    memset(start, 0, sizeof start);
    if (!context || !EVP_EncryptInit_ex(context, EVP_chacha20(), NULL, word, start))
        exit(1);
    for (uint32_t position = 0; position < count; position++) {
        uint64_t number = ((uint64_t)pid << 48) + position;
        for (int i = 0; i < 8; i++)
            start[8 + i] = (uint8_t)(number >> 8 * i);
        memcpy(packet, clear, SIZE);
        packet[3] |= 0x80;
        if (!EVP_EncryptInit_ex(context, NULL, NULL, NULL, start) ||
            !EVP_EncryptUpdate(context, packet + 4, &length, packet + 4, SIZE - 4))
            exit(1);
        sum = sum * 31 + (uint8_t)(packet[4] ^ packet[68] ^ packet[132] ^ packet[187]);
    }
    EVP_CIPHER_CTX_free(context);
    return sum;
}
#endif

static void write_sample(uint32_t number, uint32_t count, const char *name) {
    static uint8_t piece[PIECE][SIZE];
    FILE *file = fopen(name, "wb");
    if (!file)
        exit(1);
    setvbuf(file, NULL, _IONBF, 0);
    state = number;
    for (uint32_t done = 0; done < count;) {
        uint32_t some = count - done < PIECE ? count - done : PIECE;
        for (uint32_t i = 0; i < some; i++)
            put_packet(piece[i], done + i);
        if (fwrite(piece, SIZE, some, file) != some)
            exit(1);
        done += some;
    }
    if (fclose(file))
        exit(1);
}

int main(int count, char **words) {
    static uint8_t packets[PACKETS][SIZE];
    if (count == 5 && !strcmp(words[1], "sample")) {
        write_sample((uint32_t)strtoul(words[2], NULL, 10), (uint32_t)strtoul(words[3], NULL, 10), words[4]);
        return 0;
    }
    if (count != 3)
        return 1;
    state = 1;
    for (uint32_t k = 0; k < PACKETS; k++)
        put_packet(packets[k], k);
    uint32_t times = (uint32_t)strtoul(words[2], NULL, 10);
    if (!strcmp(words[1], "headers"))
        printf("%llu\n", (unsigned long long)headers(packets, times));
#ifdef WITH_EVP
    else if (!strcmp(words[1], "scramble"))
        printf("%llu\n", (unsigned long long)scrambled(packets[4], times));
#endif
    else
        return 1;
    return 0;
}
