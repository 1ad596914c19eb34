// What bench/receive.sh times beside the program: a receiver in plain C, with ChaCha20 and SHA-256 by OpenSSL. It is
// called as the program is, `receive CARD STREAM OUT`, and makes the same file, line and exit of the same stream.
#include <openssl/evp.h>
#include <openssl/sha.h>
#include <stdarg.h>
#include <stdint.h>
#include <stdio.h>
#include <stdlib.h>
#include <string.h>

enum {
    SIZE = 188,
    PIDS = 8192,
    LOWEST = 0x20,
    HIGHEST = 0x1FEF,
    FIRST = 15,
    MOST_HELD = 4096,
    MOST_PLACES = 256,
    MOST_SECTIONS = 65536,
    LONGEST_CARD = 60 + 32 * 210,
    BUFFER = 65536
};
enum { DONE, REVOKED = 3, DEVICE, BAD_CARD = 8, BAD_STREAM = 10, UNHEARD = 13, UNCLOSED, GAPS, NO_CAT };

struct place {
    int pid;
    uint64_t position;
};

// A part of a control message, or with all its places a whole one.
struct message {
    uint32_t number, period, word, clear, since;
    int closing, part, last, count;
    uint8_t wrapped[32], check[16];
    struct place places[MOST_PLACES];
};

struct held {
    uint64_t number, position;
    uint8_t packet[SIZE];
};

static uint8_t card[LONGEST_CARD + 1];
static int height, ca;
static uint32_t leaf;

static int tuned, emm_pid, ecm_pid, closed;
static uint64_t written;

// The current period: what its sections say, which of them were seen, whether a message told of it, and its key.
static uint32_t period, period_sets;
static int period_sections, period_seen, period_told, has_key;
static uint8_t period_check[16], period_key[32], marks[MOST_SECTIONS];
static int64_t revoked = -1, unheard = -1;

static struct message coming, last;
static int is_coming, next_part, has_last;

static struct held held[MOST_HELD];
static int held_count, is_open;
static uint8_t word[32];
static uint64_t tracked[PIDS], confirmed[PIDS];

static FILE *out;
static EVP_CIPHER_CTX *cipher;
static uint32_t crc_table[256];

static int ended(int status, const char *text, ...) {
    va_list values;
    va_start(values, text);
    vprintf(text, values);
    va_end(values);
    if (out && fclose(out))
        status = DEVICE;
    exit(status);
}

static int refused(uint64_t packet, const char *cause) {
    return ended(BAD_STREAM, "stream packet %llu: %s\n", (unsigned long long)packet, cause);
}

static uint64_t number_at(const uint8_t *bytes, int count) {
    uint64_t number = 0;
    for (int i = 0; i < count; i++)
        number = number << 8 | bytes[i];
    return number;
}

static const char *hexadecimal(const uint8_t *bytes, char *text) {
    for (int i = 0; i < 16; i++)
        sprintf(text + 2 * i, "%02x", bytes[i]);
    return text;
}

// Packets and sections.

static int pid_of(const uint8_t *p) { return (p[1] & 0x1F) << 8 | p[2]; }

static int payload_start(const uint8_t *p) {
    switch (p[3] >> 4 & 3) {
    case 1:
        return 4;
    case 3:
        return p[4] <= 182 ? 5 + p[4] : SIZE;
    default:
        return SIZE;
    }
}

static int is_positional(int pid) { return LOWEST <= pid && pid <= HIGHEST; }

static void make_crc_table(void) {
    for (uint32_t i = 0; i < 256; i++) {
        uint32_t crc = i << 24;
        for (int k = 0; k < 8; k++)
            crc = crc << 1 ^ (crc >> 31 ? 0x04C11DB7 : 0);
        crc_table[i] = crc;
    }
}

static uint32_t crc_of(const uint8_t *bytes, int count) {
    uint32_t crc = 0xFFFFFFFF;
    for (int i = 0; i < count; i++)
        crc = crc << 8 ^ crc_table[crc >> 24 ^ bytes[i]];
    return crc;
}

static int section_length(const uint8_t *section) { return (section[1] & 0x0F) << 8 | section[2]; }

// A table of this kind by itself in a packet, up to its loops.
static const uint8_t *table_in(const uint8_t *p, int id, int least) {
    int start = payload_start(p), left = SIZE - start - 1, length;
    const uint8_t *section = p + start + 1;
    if (left < 3 || !(p[1] & 0x40) || p[start] || section[0] != id || !(section[1] & 0x80))
        return NULL;
    if ((left > 6 && section[6]) || (left > 7 && section[7]))
        return NULL;
    length = section_length(section);
    if (3 + length > left || length < least || crc_of(section, length - 1) != number_at(section + length - 1, 4))
        return NULL;
    for (int i = 3 + length; i < left; i++)
        if (section[i] != 0xFF)
            return NULL;
    return section;
}

// Whether items fill the bytes, each with so many bytes of which the last is the length of what follows.
static int are_filled(const uint8_t *bytes, int count, int head, int bits) {
    int at = 0;
    while (at < count) {
        if (at + head > count)
            return 0;
        at += head + (int)(number_at(bytes + at + head - 1 - (bits > 8), 1 + (bits > 8)) & ((1u << bits) - 1));
    }
    return at == count;
}

// Whether each stream's descriptors fill its loop.
static int are_streams(const uint8_t *bytes, int count) {
    if (!are_filled(bytes, count, 5, 12))
        return 0;
    for (int at = 0; at < count;) {
        int length = (bytes[at + 3] & 0x0F) << 8 | bytes[at + 4];
        if (!are_filled(bytes + at + 5, length, 2, 8))
            return 0;
        at += 5 + length;
    }
    return 1;
}

static void tune(const uint8_t *p) {
    const uint8_t *section = payload_start(p) < SIZE ? table_in(p, 1, 9) : NULL;
    int end;
    if (!section)
        return;
    end = section_length(section) - 1;
    if (!are_filled(section + 8, end - 8, 2, 8))
        return;
    for (int at = 8; at < end; at += 2 + section[at + 1]) {
        const uint8_t *d = section + at;
        if (d[0] != 9 || d[1] != 6 || (int)number_at(d + 2, 2) != ca)
            continue;
        emm_pid = (int)number_at(d + 4, 2) & 0x1FFF;
        ecm_pid = (int)number_at(d + 6, 2) & 0x1FFF;
        if (is_positional(emm_pid) && is_positional(ecm_pid) && emm_pid != ecm_pid) {
            tuned = 1;
            return;
        }
    }
}

// A section of this project that a packet begins with; its extension and numbers are not judged.
static const uint8_t *message_in(const uint8_t *p) {
    int start = payload_start(p), left = SIZE - start - 1, length;
    const uint8_t *section = p + start + 1;
    if (left < 3 || !(p[1] & 0x40) || p[start])
        return NULL;
    length = section_length(section);
    if ((section[1] & 0xF0) != 0xB0 || length < 9 || 3 + length > left || section[5] != 0xC1)
        return NULL;
    return crc_of(section, length - 1) == number_at(section + length - 1, 4) ? section : NULL;
}

// Keys.

static void digest(const uint8_t *from, int tag, uint8_t *to) {
    uint8_t text[33], sum[32];
    memcpy(text, from, 32);
    text[32] = (uint8_t)tag;
    SHA256(text, 33, sum);
    memcpy(to, sum, 32);
}

static void check_value(const uint8_t *key, uint8_t *check) {
    uint8_t sum[32];
    digest(key, 'V', sum);
    memcpy(check, sum, 16);
}

static void begin_stream(const uint8_t *key, uint64_t number) {
    uint8_t start[16] = {0};
    for (int i = 0; i < 8; i++)
        start[8 + i] = (uint8_t)(number >> 8 * i);
    if (!EVP_EncryptInit_ex(cipher, NULL, NULL, key, start))
        exit(DEVICE);
}

static void lay(uint8_t *to, const uint8_t *from, int count) {
    int length;
    if (!EVP_EncryptUpdate(cipher, to, &length, from, count))
        exit(DEVICE);
}

static void unwrap(const uint8_t *key, uint32_t number, const uint8_t *wrapped, uint8_t *to) {
    begin_stream(key, number);
    lay(to, wrapped, 32);
}

static int depth_of(uint32_t node) {
    int depth = 0;
    while (node >> (depth + 1))
        depth++;
    return depth;
}

static int is_below(uint32_t node, uint32_t top) {
    int steps = depth_of(node) - depth_of(top);
    return steps >= 0 && node >> steps == top;
}

static int has_leaf(uint32_t i, uint32_t j) {
    uint32_t node = (1u << height) + leaf;
    return i == 0 || (is_below(node, i) && !is_below(node, j));
}

// The key of a set that has the leaf.
static void key_of(uint32_t i, uint32_t j, uint8_t *key) {
    uint32_t node = (1u << height) + leaf;
    int a = depth_of(i), depth = depth_of(j), b = a + 1, place = 0;
    if (i == 0) {
        memcpy(key, card + 12, 32);
        return;
    }
    while (j >> (depth - b) == node >> (height - b))
        b++;
    for (int k = 0; k < a; k++)
        place += height - k;
    memcpy(key, card + 44 + 32 * (place + b - a - 1), 32);
    for (int level = b; level < depth; level++)
        digest(key, j >> (depth - level - 1) & 1 ? 'R' : 'L', key);
    digest(key, 'M', key);
}

// Periods.

static void judge_period(void) {
    int all = period_seen;
    if (!period_told || has_key)
        return;
    for (int i = 0; i < period_sections; i++)
        all &= marks[i];
    if (all && revoked < 0)
        revoked = period;
    if (!all && unheard < 0)
        unheard = period;
}

static void move_to(uint32_t q) {
    if (q <= period)
        return;
    judge_period();
    memset(marks, 0, (size_t)(period_seen ? period_sections : 0));
    period = q;
    period_seen = period_told = has_key = period_sections = 0;
}

static int is_set(uint32_t sets, uint32_t i, uint32_t j) {
    if (i == 0 && j == 0)
        return sets <= 1;
    return i >= 1 && i < 1u << height && j < 2u << height && j != i && is_below(j, i);
}

static void take_entitlement(uint64_t n, const uint8_t *p) {
    const uint8_t *section = message_in(p), *body;
    int length = section ? section_length(section) : 0, index, sections, count;
    uint32_t q, sets;
    if (!section || section[0] != 0x82 || section[6] || section[7] || length < 36)
        return;
    body = section + 8;
    index = (int)number_at(section + 3, 2);
    q = (uint32_t)number_at(body, 4);
    sets = (uint32_t)number_at(body + 4, 4);
    sections = (int)number_at(body + 8, 2);
    count = body[26];
    uint64_t due = sets == 0 ? 1 : ((uint64_t)sets + 2) / 3, before = 3 * (uint64_t)index;
    uint64_t here = sets > before ? sets - before : 0;
    if (length != 36 + 40 * count || (uint64_t)sections != due || index >= sections ||
        (uint64_t)count != (here > 3 ? 3 : here))
        refused(n, "bad emm count");
    for (int k = 0; k < count; k++)
        if (!is_set(sets, (uint32_t)number_at(body + 27 + 40 * k, 4), (uint32_t)number_at(body + 31 + 40 * k, 4)))
            refused(n, "bad emm node");
    for (int k = 1; k < count; k++)
        if (memcmp(body + 27 + 40 * (k - 1), body + 27 + 40 * k, 8) >= 0)
            refused(n, "bad emm order");
    if (q < period)
        return;
    move_to(q);
    if (period_seen && (period_sets != sets || period_sections != sections || memcmp(period_check, body + 10, 16)))
        refused(n, "bad emm mixed");
    period_seen = 1;
    period_sets = sets;
    period_sections = sections;
    memcpy(period_check, body + 10, 16);
    marks[index] = 1;
    for (int k = 0; k < count && !has_key; k++) {
        const uint8_t *entry = body + 27 + 40 * k;
        uint32_t i = (uint32_t)number_at(entry, 4), j = (uint32_t)number_at(entry + 4, 4);
        uint8_t key[32], check[16];
        char found[33], named[33];
        if (!has_leaf(i, j))
            continue;
        key_of(i, j, key);
        unwrap(key, q, entry + 8, period_key);
        check_value(period_key, check);
        if (memcmp(check, body + 10, 16))
            ended(BAD_STREAM, "stream packet %llu: wrong key of period %u %s %s\n", (unsigned long long)n, q,
                  hexadecimal(check, found), hexadecimal(body + 10, named));
        has_key = 1;
    }
}

// Held packets.

static void drop_held(void) {
    for (int k = 0; k < held_count; k++)
        tracked[pid_of(held[k].packet)] = FIRST;
    for (int k = 0; has_last && k < last.count; k++)
        tracked[last.places[k].pid] = FIRST;
    held_count = is_open = 0;
}

static void hold(uint64_t n, const uint8_t *p) {
    int pid = pid_of(p);
    struct held *one = &held[held_count];
    if (!is_open)
        return;
    if (held_count == MOST_HELD) {
        drop_held();
        return;
    }
    if (is_positional(pid) && payload_start(p) < SIZE)
        tracked[pid] += ((p[3] & 15) + 15 - tracked[pid] % 16) % 16 + 1;
    one->number = n;
    one->position = tracked[pid];
    memcpy(one->packet, p, SIZE);
    held_count++;
}

static void put(const uint8_t *p) {
    if (fwrite(p, SIZE, 1, out) != 1)
        exit(DEVICE);
    written++;
}

// A packet without the project's descriptor, where it is a PMT that begins with it.
static void put_restored(uint8_t *p) {
    uint8_t ours[6] = {9, 4, (uint8_t)(ca >> 8), (uint8_t)ca, (uint8_t)(0xE0 | ecm_pid >> 8), (uint8_t)ecm_pid};
    uint8_t *section = (uint8_t *)table_in(p, 2, 13);
    int length, info;
    uint32_t crc;
    if (!section) {
        put(p);
        return;
    }
    length = section_length(section);
    info = (section[10] & 0x0F) << 8 | section[11];
    if (info > length - 13 || !are_filled(section + 12, info, 2, 8) ||
        !are_streams(section + 12 + info, length - 13 - info) || info < 6 || memcmp(section + 12, ours, 6)) {
        put(p);
        return;
    }
    memmove(section + 12, section + 18, (size_t)(length - 19));
    length -= 6;
    info -= 6;
    section[1] = (uint8_t)((section[1] & 0xF0) | length >> 8);
    section[2] = (uint8_t)length;
    section[10] = (uint8_t)((section[10] & 0xF0) | info >> 8);
    section[11] = (uint8_t)info;
    crc = crc_of(section, length - 1);
    for (int i = 0; i < 4; i++)
        section[length - 1 + i] = (uint8_t)(crc >> (24 - 8 * i));
    memset(section + 3 + length, 0xFF, 6);
    put(p);
}

static void put_one(struct held *one) {
    uint8_t *p = one->packet;
    int pid = pid_of(p), start = payload_start(p);
    if (p[3] < 0x40) {
        if (is_positional(pid) && start < SIZE)
            put_restored(p);
        else
            put(p);
        return;
    }
    if (!is_positional(pid) || start == SIZE || (uint32_t)(p[3] >> 6) != 2 + last.word % 2)
        refused(one->number, "parity");
    if (confirmed[pid] < tracked[pid] || confirmed[pid] > tracked[pid] + 15)
        return;
    p[3] &= 0x3F;
    begin_stream(NULL, ((uint64_t)pid << 48) + one->position);
    lay(p + start, p + start, SIZE - start);
    put(p);
}

static void confirm(const struct message *b) {
    for (int k = 0; k < b->count; k++)
        confirmed[b->places[k].pid] = b->places[k].position;
    begin_stream(word, 0);
    for (int k = 0; k < held_count; k++)
        put_one(&held[k]);
    for (int k = 0; k < b->count; k++)
        confirmed[b->places[k].pid] = 0;
}

// Control messages.

static int is_back(const struct message *b) {
    int k = 0;
    if (b->period < period)
        return 1;
    if (!has_last)
        return 0;
    if (b->period < last.period || b->word < last.word || b->clear < last.clear)
        return 1;
    for (int i = 0; i < last.count; i++) {
        while (k < b->count && b->places[k].pid < last.places[i].pid)
            k++;
        if (k == b->count || b->places[k].pid != last.places[i].pid || b->places[k].position < last.places[i].position)
            return 1;
    }
    return 0;
}

static void complete(uint64_t n) {
    uint8_t check[16];
    char found[33], named[33];
    if (is_back(&coming))
        refused(n, "bad ecm back");
    if (has_last && is_open && coming.since <= last.number)
        confirm(&coming);
    drop_held();
    move_to(coming.period);
    period_told = 1;
    last = coming;
    has_last = 1;
    if (has_key) {
        unwrap(period_key, last.word, last.wrapped, word);
        check_value(word, check);
        if (memcmp(check, last.check, 16))
            ended(BAD_STREAM, "stream packet %llu: wrong word %u %s %s\n", (unsigned long long)n, last.word,
                  hexadecimal(check, found), hexadecimal(last.check, named));
        for (int k = 0; k < last.count; k++)
            tracked[last.places[k].pid] = last.places[k].position;
        is_open = 1;
    }
    closed = last.closing;
}

static int same_header(const struct message *a, const struct message *b, int version, int other) {
    return version == other && a->period == b->period && a->word == b->word && a->clear == b->clear &&
           a->since == b->since && a->closing == b->closing && a->last == b->last &&
           !memcmp(a->wrapped, b->wrapped, 32) && !memcmp(a->check, b->check, 16);
}

// A part as it is read; 0 where the packet is of another kind.
static int read_part(uint64_t n, const uint8_t *p, struct message *part) {
    const uint8_t *section = message_in(p), *body;
    int version, most, flags, length;
    if (!section || (section[0] & 0xFA) != 0x80)
        return 0;
    version = section[0] & 4 ? 2 : 1;
    most = version == 2 ? 12 : 13;
    flags = version == 2 ? 20 : 16;
    length = section_length(section);
    if (number_at(section + 3, 2) || section[6] > section[7] || length < flags + 59)
        return 0;
    body = section + 8;
    part->part = section[6];
    part->last = section[7];
    part->number = (uint32_t)number_at(body, 4);
    part->period = (uint32_t)number_at(body + 4, 4);
    part->word = (uint32_t)number_at(body + 8, 4);
    part->clear = (uint32_t)number_at(body + 12, 4);
    part->since = version == 2 ? (uint32_t)number_at(body + 16, 4) : part->number - (part->number > 0);
    part->closing = body[flags];
    memcpy(part->wrapped, body + flags + 1, 32);
    memcpy(part->check, body + flags + 33, 16);
    part->count = body[flags + 49];
    if (length != flags + 59 + 8 * part->count || part->count > most ||
        (part->part != part->last && part->count != most) || (part->part && !part->count))
        refused(n, "bad ecm count");
    for (int k = 0; k < part->count; k++) {
        part->places[k].pid = (int)number_at(body + flags + 50 + 8 * k, 2);
        part->places[k].position = number_at(body + flags + 52 + 8 * k, 6);
        if (!is_positional(part->places[k].pid))
            refused(n, "bad ecm pid");
    }
    for (int k = 1; k < part->count; k++)
        if (part->places[k].pid <= part->places[k - 1].pid)
            refused(n, "bad ecm order");
    if (part->closing > 1 || (section[0] & 1u) != part->word % 2 ||
        (part->since >= part->number && (part->since || part->number)))
        refused(n, "bad ecm mixed");
    return version;
}

static void take_part(uint64_t n, const uint8_t *p) {
    static struct message part;
    static int coming_version;
    int version = read_part(n, p, &part);
    if (!version || (has_last && part.number <= last.number))
        return;
    if (part.part == 0) {
        coming = part;
        coming_version = version;
        is_coming = 1;
    } else if (is_coming && part.number == coming.number && part.part == next_part) {
        if (!same_header(&part, &coming, version, coming_version))
            refused(n, "bad ecm mixed");
        if (part.count && coming.count && part.places[0].pid <= coming.places[coming.count - 1].pid)
            refused(n, "bad ecm order");
        if (coming.count + part.count > MOST_PLACES)
            refused(n, "bad ecm count");
        memcpy(coming.places + coming.count, part.places, (size_t)part.count * sizeof *part.places);
        coming.count += part.count;
    } else {
        is_coming = 0;
        return;
    }
    next_part = part.part + 1;
    if (part.part == part.last) {
        is_coming = 0;
        complete(n);
    }
}

static void offer(uint64_t n, const uint8_t *p) {
    int pid = pid_of(p);
    if (closed)
        return;
    if (!tuned) {
        if (pid == 1)
            tune(p);
    } else if (pid == emm_pid)
        take_entitlement(n, p);
    else if (pid == ecm_pid)
        take_part(n, p);
    else if (pid != 1)
        hold(n, p);
}

static int end(void) {
    if (!tuned)
        return ended(NO_CAT, "no CAT for this card\n");
    if (!closed)
        return ended(UNCLOSED, "stream ends before message %llu\n", has_last ? last.number + 1ull : 0);
    judge_period();
    if (revoked >= 0)
        return ended(REVOKED, "receiver %u is revoked in period %lld\n", leaf, (long long)revoked);
    if (unheard >= 0)
        return ended(UNHEARD, "receiver %u did not hear its entitlement for period %lld\n", leaf, (long long)unheard);
    if (last.clear > written)
        return ended(GAPS, "%llu clear packets are missing\n", (unsigned long long)(last.clear - written));
    return ended(DONE, "");
}

static void read_card(const char *name) {
    FILE *file = fopen(name, "rb");
    uint8_t sum[32];
    char found[33], due[33];
    size_t count = file ? fread(card, 1, sizeof card, file) : 0;
    if (!file || ferror(file))
        exit(DEVICE);
    fclose(file);
    if (memcmp(card, "SDCD", 4))
        ended(BAD_CARD, "card: magic\n");
    if (card[4] != 1)
        ended(BAD_CARD, "card: version\n");
    height = card[5];
    if (height < 1 || height > 20)
        ended(BAD_CARD, "card: height\n");
    leaf = (uint32_t)number_at(card + 6, 4);
    if (leaf >> height)
        ended(BAD_CARD, "card: leaf\n");
    if (count != (size_t)(60 + 16 * height * (height + 1)))
        ended(BAD_CARD, "card: length\n");
    SHA256(card, count - 16, sum);
    if (memcmp(card + count - 16, sum, 16))
        ended(BAD_CARD, "card: check %s %s\n", hexadecimal(card + count - 16, found), hexadecimal(sum, due));
    ca = (int)number_at(card + 10, 2);
}

int main(int words, char **word_list) {
    static uint8_t piece[BUFFER / SIZE * SIZE];
    FILE *stream;
    uint64_t n = 0;
    size_t count;
    if (words != 5 || strcmp(word_list[1], "receive"))
        return ended(1, "usage\n");
    read_card(word_list[2]);
    stream = fopen(word_list[3], "rb");
    out = fopen(word_list[4], "wb");
    cipher = EVP_CIPHER_CTX_new();
    if (!stream || !out || !cipher || !EVP_EncryptInit_ex(cipher, EVP_chacha20(), NULL, card, card))
        return DEVICE;
    setvbuf(stream, NULL, _IONBF, 0);
    setvbuf(out, NULL, _IOFBF, BUFFER);
    make_crc_table();
    for (int pid = 0; pid < PIDS; pid++)
        tracked[pid] = FIRST;
    while ((count = fread(piece, 1, sizeof piece, stream)) > 0) {
        size_t at = 0;
        for (; at + SIZE <= count; at += SIZE, n++) {
            if (piece[at] != 0x47)
                refused(n, "no sync");
            offer(n, piece + at);
        }
        if (at < count)
            refused(n, "torn");
    }
    return ferror(stream) ? DEVICE : end();
}
