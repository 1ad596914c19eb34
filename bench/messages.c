// What bench/messages.sh times beside the program: a period's entitlements, written, read and searched, in plain C.
#include <stdint.h>
#include <stdio.h>
#include <stdlib.h>
#include <string.h>

enum {
    SIZE = 188,
    SETS = 8191,
    SECTIONS = (SETS + 2) / 3,
    FIRST = 8192,
    HEIGHT = 20,
    PID = 496,
    ENTRY = 40,
    PREFIX = 27
};

struct entry {
    uint32_t i, j;
    uint8_t wrapped[32];
};

struct emm {
    uint32_t period, sets;
    uint16_t sections, index;
    uint8_t check[16], count;
    struct entry entries[3];
};

static uint32_t table[256];

static void make_table(void) {
    for (uint32_t byte = 0; byte < 256; byte++) {
        uint32_t x = byte << 24;
        for (int bit = 0; bit < 8; bit++)
            x = x & 0x80000000u ? x << 1 ^ 0x04C11DB7u : x << 1;
        table[byte] = x;
    }
}

static uint32_t crc32(const uint8_t *bytes, int length) {
    uint32_t crc = 0xFFFFFFFFu;
    for (int i = 0; i < length; i++)
        crc = crc << 8 ^ table[crc >> 24 ^ bytes[i]];
    return crc;
}

static void put16(uint8_t *p, uint32_t x) {
    p[0] = (uint8_t)(x >> 8);
    p[1] = (uint8_t)x;
}

static void put32(uint8_t *p, uint32_t x) {
    put16(p, x >> 16);
    put16(p + 2, x);
}

static uint32_t get16(const uint8_t *p) { return (uint32_t)p[0] << 8 | p[1]; }
static uint32_t get32(const uint8_t *p) { return get16(p) << 16 | get16(p + 2); }

static struct emm section_of(uint32_t period, const uint8_t *check, const struct entry *entries, uint32_t sets,
                             uint32_t index) {
    struct emm emm = {.period = period, .sets = sets, .sections = (uint16_t)((sets + 2) / 3), .index = (uint16_t)index};
    uint32_t left = sets - 3 * index;
    emm.count = (uint8_t)(left < 3 ? left : 3);
    memcpy(emm.check, check, 16);
    memcpy(emm.entries, entries + 3 * index, emm.count * sizeof *entries);
    return emm;
}

static void write_emm(uint8_t *packet, const struct emm *emm, int counter) {
    int length = 12 + PREFIX + ENTRY * emm->count;
    uint8_t *s = packet + 5, *body = s + 8;
    packet[0] = 0x47;
    packet[1] = 0x40 | PID >> 8;
    packet[2] = PID & 0xFF;
    packet[3] = (uint8_t)(0x10 | counter);
    packet[4] = 0;
    s[0] = 0x82;
    put16(s + 1, 0xB000u | (uint32_t)(length - 3));
    put16(s + 3, emm->index);
    s[5] = 0xC1;
    s[6] = s[7] = 0;
    put32(body, emm->period);
    put32(body + 4, emm->sets);
    put16(body + 8, emm->sections);
    memcpy(body + 10, emm->check, 16);
    body[26] = emm->count;
    for (int k = 0; k < emm->count; k++) {
        uint8_t *p = body + PREFIX + ENTRY * k;
        put32(p, emm->entries[k].i);
        put32(p + 4, emm->entries[k].j);
        memcpy(p + 8, emm->entries[k].wrapped, 32);
    }
    put32(s + length - 4, crc32(s, length - 4));
    memset(s + length, 0xFF, (size_t)(SIZE - 5 - length));
}

// Node j is node i or below it.
static int is_above(uint32_t i, uint32_t j) {
    while (j > i)
        j /= 2;
    return i == j;
}

static int is_set(uint32_t i, uint32_t j, uint32_t sets) {
    if (!i && !j)
        return sets <= 1;
    return 1 <= i && i < j && i < 1u << HEIGHT && j < 2u << HEIGHT && is_above(i, j);
}

// Whether the packet is a section of entitlements that breaks no rule, which is then read.
static int read_emm(struct emm *emm, const uint8_t *packet) {
    const uint8_t *s = packet + 5, *body = s + 8;
    if (packet[0] != 0x47 || !(packet[1] & 0x40) || (packet[3] & 0x30) != 0x10 || packet[4])
        return 0;
    int length = 3 + (int)(get16(s + 1) & 0x0FFF);
    if (s[0] != 0x82 || s[1] >> 4 != 0xB || length > SIZE - 5 || length < 12 + PREFIX || s[5] != 0xC1 || s[6] || s[7])
        return 0;
    if (crc32(s, length))
        return 0;
    emm->period = get32(body);
    emm->sets = get32(body + 4);
    emm->sections = (uint16_t)get16(body + 8);
    emm->index = (uint16_t)get16(s + 3);
    memcpy(emm->check, body + 10, 16);
    emm->count = body[26];
    uint32_t before = 3u * emm->index, left = emm->sets > before ? emm->sets - before : 0;
    uint32_t sections = emm->sets ? emm->sets / 3 + (emm->sets % 3 > 0) : 1;
    if (length != 12 + PREFIX + ENTRY * emm->count || emm->sections != sections || emm->index >= sections ||
        emm->count != (left < 3 ? left : 3))
        return 0;
    for (int k = 0; k < emm->count; k++) {
        const uint8_t *p = body + PREFIX + ENTRY * k;
        struct entry *entry = emm->entries + k;
        entry->i = get32(p);
        entry->j = get32(p + 4);
        memcpy(entry->wrapped, p + 8, 32);
        if (!is_set(entry->i, entry->j, emm->sets))
            return 0;
        if (k && (entry[-1].i > entry->i || (entry[-1].i == entry->i && entry[-1].j >= entry->j)))
            return 0;
    }
    memset(emm->entries + emm->count, 0, (3u - emm->count) * sizeof *emm->entries);
    return 1;
}

static int contains(const struct entry *entry, uint32_t leaf) {
    uint32_t node = (1u << HEIGHT) + leaf;
    return (!entry->i && !entry->j) || (is_above(entry->i, node) && !is_above(entry->j, node));
}

// The first bytes of the wrapped key of the first set that has the leaf.
static int key_in(uint64_t *key, const uint8_t (*packets)[SIZE], uint32_t leaf) {
    struct emm emm;
    for (int x = 0; x < SECTIONS; x++) {
        if (!read_emm(&emm, packets[x]))
            continue;
        for (int k = 0; k < emm.count; k++)
            if (contains(emm.entries + k, leaf)) {
                const uint8_t *wrapped = emm.entries[k].wrapped;
                *key = (uint64_t)get32(wrapped) << 32 | get32(wrapped + 4);
                return 1;
            }
    }
    return 0;
}

int main(int count, char **words) {
    static struct entry entries[SETS];
    static uint8_t packets[SECTIONS][SIZE];
    const uint32_t leaf = ((FIRST + SETS - 1) * 2 + 1) * 64 - (1u << HEIGHT);
    uint8_t check[16];
    uint64_t state = 1, sum = 0, key;
    if (count != 3 || strcmp(words[1], "emms"))
        return 1;
    make_table();
    memset(check, 0x5A, sizeof check);
    for (uint32_t k = 0; k < SETS; k++) {
        entries[k].i = FIRST + k;
        entries[k].j = 2 * (FIRST + k);
        for (int b = 0; b < 32; b++) {
            state = 6364136223846793005u * state + 1442695040888963407u;
            entries[k].wrapped[b] = (uint8_t)(state >> 56);
        }
    }
    uint32_t times = (uint32_t)strtoul(words[2], NULL, 10);
    for (uint32_t period = 0; period < times; period++) {
        uint64_t bytes = 0;
        for (uint32_t x = 0; x < SECTIONS; x++) {
            struct emm emm = section_of(period, check, entries, SETS, x);
            write_emm(packets[x], &emm, (int)(x % 16));
        }
        if (!key_in(&key, (const uint8_t(*)[SIZE])packets, leaf))
            return 1;
        for (int x = 0; x < SECTIONS; x++)
            bytes = bytes * 31 + packets[x][163];
        sum = sum * 31 + key + bytes;
    }
    printf("%llu\n", (unsigned long long)sum);
    return 0;
}
