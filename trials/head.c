/* Makes the broadcast of a clear stream, as `sdca head SITE BOOK CLEAR OUT` does, from docs/FORMATS.md alone, with
   SHA-256 and ChaCha20 of OpenSSL. A period's entitlement packets are kept, and so are the words of a crypto period. A
   clear packet that is refused ends it with exit status 9. */
#define OPENSSL_SUPPRESS_DEPRECATED /* The older calls of SHA-256 are the quicker ones: nothing is looked up before    \
                                       the first hash. */
#include <fcntl.h>
#include <openssl/evp.h>
#include <openssl/sha.h>
#include <stdbool.h>
#include <stdint.h>
#include <stdio.h>
#include <stdlib.h>
#include <string.h>
#include <unistd.h>

enum {
    PACKET_BYTES = 188,
    PIECE_PACKETS = 348,
    PIECE_BYTES = PIECE_PACKETS * PACKET_BYTES,
    OUTPUT_BYTES = 1 << 16,
    PIDS = 8192,
    LOWEST_POSITIONAL = 0x20,
    HIGHEST_POSITIONAL = 0x1FEF,
    FIRST_POSITION = 15,
    MOST_PLACES = 256,
    KEY_BYTES = 32,
    CHECK_BYTES = 16,
    MOST_HEIGHT = 20,
    MOST_REVOKED = 65536,
    PERIOD_SETS = 3, /* The sets of a section of entitlements. */
    REFUSED = 9,
};

enum kind { PASSED, PMT, SCRAMBLED };

struct site {
    unsigned height, ca, emm, ecm, every, cryptos, span, messages;
    uint8_t master[KEY_BYTES];
};

struct set {
    uint32_t i, j;
};

/* A line of the book: 0 ends a period, and the others revoke a leaf's node or, above SUBSCRIBE, subscribe it. */
enum { SUBSCRIBE = 1 << 30 };

static struct site site;
static uint32_t *commands;
static size_t command_count, command_next;
static unsigned last_period;

/* The nodes of the revoked leaves, ascending, and the cover of the others. */
static uint32_t revoked[MOST_REVOKED + 1];
static size_t revoked_count;
static struct set sets[2 * MOST_REVOKED];
static size_t set_count;

static uint8_t (*emms)[PACKET_BYTES];
static size_t emm_count, emm_room;

static uint8_t period_key[KEY_BYTES], word[KEY_BYTES], wrapped_word[KEY_BYTES], word_check[CHECK_BYTES];
static EVP_CIPHER_CTX *cipher; /* Under the control word. */

static uint32_t taken;
static uint64_t positions[PIDS];
static uint16_t pids[MOST_PLACES];
static size_t pid_count;
static bool is_pmt[PIDS];
static uint8_t cat[PACKET_BYTES];
static unsigned cat_counter, emm_counter, ecm_counter;

static int input, output;
static uint8_t gathered[OUTPUT_BYTES];
static size_t gathered_count;

static uint32_t crc_tables[8][256];

static _Noreturn void fail(const char *text) {
    fprintf(stderr, "head: %s\n", text);
    exit(1);
}

/* CRC_32, eight bytes a step. */

static void make_crc_tables(void) {
    for (uint32_t byte = 0; byte < 256; byte++) {
        uint32_t crc = byte << 24;
        for (int bit = 0; bit < 8; bit++)
            crc = crc << 1 ^ (crc >> 31 ? UINT32_C(0x04C11DB7) : 0);
        crc_tables[0][byte] = crc;
    }
    for (int table = 1; table < 8; table++)
        for (int byte = 0; byte < 256; byte++) {
            uint32_t crc = crc_tables[table - 1][byte];
            crc_tables[table][byte] = crc << 8 ^ crc_tables[0][crc >> 24];
        }
}

static uint32_t read_number(const uint8_t *at, int bytes) {
    uint32_t number = 0;
    for (int byte = 0; byte < bytes; byte++)
        number = number << 8 | at[byte];
    return number;
}

static uint8_t *put_number(uint8_t *at, uint64_t number, int bytes) {
    for (int byte = bytes - 1; byte >= 0; byte--)
        *at++ = (uint8_t)(number >> 8 * byte);
    return at;
}

static uint8_t *put_bytes(uint8_t *at, const uint8_t *bytes, size_t count) {
    memcpy(at, bytes, count);
    return at + count;
}

static uint32_t crc_of(const uint8_t *bytes, size_t count) {
    uint32_t crc = UINT32_MAX;
    for (; count >= 8; count -= 8, bytes += 8) {
        uint32_t high = crc ^ read_number(bytes, 4);
        crc = crc_tables[7][high >> 24] ^ crc_tables[6][high >> 16 & 255] ^ crc_tables[5][high >> 8 & 255] ^
              crc_tables[4][high & 255] ^ crc_tables[3][bytes[4]] ^ crc_tables[2][bytes[5]] ^ crc_tables[1][bytes[6]] ^
              crc_tables[0][bytes[7]];
    }
    for (; count > 0; count--)
        crc = crc << 8 ^ crc_tables[0][crc >> 24 ^ *bytes++];
    return crc;
}

/* Keys. */

static void hash(const uint8_t *key, const uint8_t *tail, size_t tail_count, uint8_t *digest) {
    SHA256_CTX context;
    if (SHA256_Init(&context) != 1 || SHA256_Update(&context, key, KEY_BYTES) != 1 ||
        SHA256_Update(&context, tail, tail_count) != 1 || SHA256_Final(digest, &context) != 1)
        fail("OpenSSL can't hash");
}

static void hash_tagged(const uint8_t *key, uint8_t tag, uint8_t *digest) { hash(key, &tag, 1, digest); }

static void hash_numbered(uint8_t tag, uint32_t number, uint8_t *digest) {
    uint8_t tail[5] = {tag};
    put_number(tail + 1, number, 4);
    hash(site.master, tail, sizeof tail, digest);
}

static void check_of(const uint8_t *key, uint8_t *check) {
    uint8_t digest[KEY_BYTES];
    hash_tagged(key, 'V', digest);
    memcpy(check, digest, CHECK_BYTES);
}

static void set_key(struct set set, uint8_t *key) {
    uint8_t label[KEY_BYTES];
    if (set.i == 0) {
        hash_tagged(site.master, 'A', key);
        return;
    }
    hash_numbered('I', set.i, label);
    int levels = __builtin_clz(set.i) - __builtin_clz(set.j);
    for (int level = levels - 1; level >= 0; level--)
        hash_tagged(label, set.j >> level & 1 ? 'R' : 'L', label);
    hash_tagged(label, 'M', key);
}

/* Lays the keystream of this number over the bytes: 64 bits of block counter, 64 of stream number, low byte first. */
static void lay(EVP_CIPHER_CTX *context, const uint8_t *key, uint64_t number, uint8_t *bytes, int count) {
    uint8_t start[16] = {0};
    int length;
    for (int byte = 0; byte < 8; byte++)
        start[8 + byte] = (uint8_t)(number >> 8 * byte);
    if (EVP_EncryptInit_ex(context, NULL, NULL, key, start) != 1 ||
        EVP_EncryptUpdate(context, bytes, &length, bytes, count) != 1)
        fail("OpenSSL can't encrypt");
}

static void wrap(const uint8_t *key, uint32_t number, const uint8_t *text, uint8_t *wrapped) {
    static EVP_CIPHER_CTX *context;
    if (context == NULL) {
        context = EVP_CIPHER_CTX_new();
        if (context == NULL || EVP_EncryptInit_ex(context, EVP_chacha20(), NULL, NULL, NULL) != 1)
            fail("OpenSSL has no ChaCha20");
    }
    memcpy(wrapped, text, KEY_BYTES);
    lay(context, key, number, wrapped, KEY_BYTES);
}

/* Site and book. */

static void read_site(const char *name) {
    char master[2 * KEY_BYTES + 1];
    FILE *file = fopen(name, "r");
    if (file == NULL ||
        fscanf(file, "height %u master %64s ca %4x emm %u ecm %u ecm-every %u crypto-ecms %u period-cryptos %u",
               &site.height, master, &site.ca, &site.emm, &site.ecm, &site.every, &site.cryptos, &site.span) != 8)
        fail("the site can't be read");
    if (fscanf(file, " messages %u", &site.messages) != 1)
        site.messages = 1;
    for (int at = 0; at < KEY_BYTES; at++)
        if (sscanf(master + 2 * at, "%2hhx", &site.master[at]) != 1)
            fail("the master is not hexadecimal");
    if (site.height < 1 || site.height > MOST_HEIGHT || site.emm >= PIDS || site.ecm >= PIDS)
        fail("the site is out of range");
    fclose(file);
}

static void read_book(const char *name) {
    char line[64];
    size_t room = 0;
    FILE *file = fopen(name, "r");
    if (file == NULL)
        fail("the book can't be read");
    while (fgets(line, sizeof line, file) != NULL) {
        if (command_count == room) {
            room = room == 0 ? 1024 : 2 * room;
            commands = realloc(commands, room * sizeof *commands);
            if (commands == NULL)
                fail("out of memory");
        }
        uint32_t node = UINT32_C(1) << site.height;
        if (strncmp(line, "revoke ", 7) == 0)
            commands[command_count++] = node + (uint32_t)strtoul(line + 7, NULL, 10);
        else if (strncmp(line, "subscribe ", 10) == 0)
            commands[command_count++] = SUBSCRIBE + node + (uint32_t)strtoul(line + 10, NULL, 10);
        else {
            commands[command_count++] = 0;
            last_period++;
        }
    }
    fclose(file);
}

/* The cover of a period. */

/* How many of these ascending nodes are less than the bound. */
static size_t count_below(const uint32_t *nodes, size_t count, uint32_t bound) {
    size_t low = 0, high = count;
    while (low < high) {
        size_t middle = low + (high - low) / 2;
        if (nodes[middle] < bound)
            low = middle + 1;
        else
            high = middle;
    }
    return low;
}

static void take_command(uint32_t command) {
    uint32_t node = command % SUBSCRIBE;
    size_t at = count_below(revoked, revoked_count, node);
    bool is_revoked = at < revoked_count && revoked[at] == node;
    if (command < SUBSCRIBE && !is_revoked) {
        if (revoked_count > MOST_REVOKED)
            fail("too many leaves are revoked");
        memmove(revoked + at + 1, revoked + at, (revoked_count - at) * sizeof *revoked);
        revoked[at] = node;
        revoked_count++;
    } else if (command >= SUBSCRIBE && is_revoked) {
        revoked_count--;
        memmove(revoked + at, revoked + at + 1, (revoked_count - at) * sizeof *revoked);
    }
}

/* Adds the sets of the chain that begins at node i and of those below it. The nodes are the revoked leaves below i, and
   the chain's end is the lowest node above them all. */
static void add_sets(uint32_t i, const uint32_t *nodes, size_t count) {
    uint32_t first = nodes[0], last = nodes[count - 1];
    unsigned levels = 0;
    for (; first >> levels != last >> levels; levels++)
        ;
    uint32_t j = first >> levels;
    if (i != j)
        sets[set_count++] = (struct set){i, j};
    if (levels == 0)
        return;
    size_t left = count_below(nodes, count, (2 * j + 1) << (levels - 1));
    add_sets(2 * j, nodes, left);
    add_sets(2 * j + 1, nodes + left, count - left);
}

/* The order of two sets of one cover, which differ in i. */
static int compare_sets(const void *a, const void *b) {
    uint32_t left = ((const struct set *)a)->i, right = ((const struct set *)b)->i;
    return (left > right) - (left < right);
}

static void make_sets(void) {
    set_count = 0;
    if (revoked_count == 0) {
        sets[set_count++] = (struct set){0, 0};
        return;
    }
    add_sets(1, revoked, revoked_count);
    qsort(sets, set_count, sizeof *sets, compare_sets);
}

/* Sections and packets of the project's own. */

/* The place of a section's extension in the packet that is to hold it. */
static uint8_t *begin_section(uint8_t *packet, unsigned pid, uint8_t table_id) {
    memset(packet, 0xFF, PACKET_BYTES);
    packet[0] = 0x47;
    put_number(packet + 1, 0x4000 | pid, 2);
    packet[3] = 0x10;
    packet[4] = 0;
    packet[5] = table_id;
    return packet + 8;
}

static void end_section(uint8_t *packet, uint8_t *end) {
    uint8_t *section = packet + 5;
    put_number(section + 1, 0xB000u | (unsigned)(end + 4 - section - 3), 2);
    put_number(end, crc_of(section, (size_t)(end - section)), 4);
}

static uint8_t *put_header(uint8_t *at, unsigned extension, unsigned number, unsigned last) {
    at = put_number(at, extension, 2);
    at = put_number(at, 0xC1, 1);
    at = put_number(at, number, 1);
    return put_number(at, last, 1);
}

static void make_cat(void) {
    uint8_t *at = put_header(begin_section(cat, 1, 1), 0xFFFF, 0, 0);
    at = put_number(at, 0x0906, 2);
    at = put_number(at, site.ca, 2);
    at = put_number(at, 0xE000 + site.emm, 2);
    at = put_number(at, 0xE000 + site.ecm, 2);
    end_section(cat, at);
}

static void make_emm(uint32_t period, const uint8_t *check, size_t section) {
    uint8_t *packet = emms[section];
    size_t first = PERIOD_SETS * section;
    size_t count = set_count - first < PERIOD_SETS ? set_count - first : PERIOD_SETS;
    uint8_t *at = put_header(begin_section(packet, site.emm, 0x82), (unsigned)section, 0, 0);
    at = put_number(at, period, 4);
    at = put_number(at, set_count, 4);
    at = put_number(at, emm_count, 2);
    at = put_bytes(at, check, CHECK_BYTES);
    at = put_number(at, count, 1);
    for (size_t entry = first; entry < first + count; entry++) {
        uint8_t key[KEY_BYTES];
        set_key(sets[entry], key);
        at = put_number(at, sets[entry].i, 4);
        at = put_number(at, sets[entry].j, 4);
        wrap(key, period, period_key, at);
        at += KEY_BYTES;
    }
    end_section(packet, at);
}

static void begin_period(uint32_t period) {
    uint8_t check[CHECK_BYTES];
    while (command_next < command_count && commands[command_next] != 0)
        take_command(commands[command_next++]);
    command_next++;
    make_sets();
    emm_count = set_count == 0 ? 1 : (set_count + PERIOD_SETS - 1) / PERIOD_SETS;
    if (emm_count > emm_room) {
        emm_room = emm_count;
        emms = realloc(emms, emm_room * sizeof *emms);
        if (emms == NULL)
            fail("out of memory");
    }
    hash_numbered('P', period, period_key);
    check_of(period_key, check);
    for (size_t section = 0; section < emm_count; section++)
        make_emm(period, check, section);
}

static void begin_crypto_period(uint32_t number) {
    hash_numbered('C', number, word);
    check_of(word, word_check);
    wrap(period_key, number, word, wrapped_word);
    if (cipher == NULL) {
        cipher = EVP_CIPHER_CTX_new();
        if (cipher == NULL)
            fail("OpenSSL has no context");
    }
    if (EVP_EncryptInit_ex(cipher, EVP_chacha20(), NULL, word, NULL) != 1)
        fail("OpenSSL has no ChaCha20");
}

/* Output. */

static void write_gathered(void) {
    for (size_t done = 0; done < gathered_count;) {
        ssize_t count = write(output, gathered + done, gathered_count - done);
        if (count <= 0)
            fail("the broadcast can't be written");
        done += (size_t)count;
    }
    gathered_count = 0;
}

/* The place of the next packet. */
static uint8_t *next_packet(void) {
    if (gathered_count + PACKET_BYTES > OUTPUT_BYTES)
        write_gathered();
    uint8_t *packet = gathered + gathered_count;
    gathered_count += PACKET_BYTES;
    return packet;
}

static uint8_t *send(const uint8_t *packet) { return memcpy(next_packet(), packet, PACKET_BYTES); }

static void send_counted(const uint8_t *packet, unsigned *counter) {
    send(packet)[3] = (uint8_t)(0x10 | *counter);
    *counter = (*counter + 1) % 16;
}

static void send_tables(void) {
    send_counted(cat, &cat_counter);
    for (size_t section = 0; section < emm_count; section++)
        send_counted(emms[section], &emm_counter);
}

static uint32_t since(uint32_t number) {
    if (number == 0)
        return 0;
    return site.messages == 2 ? (number - 1) / site.cryptos * site.cryptos : number - 1;
}

static void send_part(uint32_t number, uint32_t period, uint32_t crypto, bool closing, size_t part, size_t parts,
                      size_t most) {
    uint8_t packet[PACKET_BYTES];
    size_t first = part * most, count = pid_count - first < most ? pid_count - first : most;
    uint8_t table_id = (uint8_t)((site.messages == 2 ? 0x84 : 0x80) + crypto % 2);
    uint8_t *at = put_header(begin_section(packet, site.ecm, table_id), 0, (unsigned)part, (unsigned)parts - 1);
    at = put_number(at, number, 4);
    at = put_number(at, period, 4);
    at = put_number(at, crypto, 4);
    at = put_number(at, taken, 4);
    if (site.messages == 2)
        at = put_number(at, since(number), 4);
    at = put_number(at, closing, 1);
    at = put_bytes(at, wrapped_word, KEY_BYTES);
    at = put_bytes(at, word_check, CHECK_BYTES);
    at = put_number(at, count, 1);
    for (size_t place = first; place < first + count; place++) {
        at = put_number(at, pids[place], 2);
        at = put_number(at, positions[pids[place]], 6);
    }
    end_section(packet, at);
    send_counted(packet, &ecm_counter);
}

static void send_message(uint32_t number, uint32_t period, uint32_t crypto, bool closing) {
    size_t most = site.messages == 2 ? 12 : 13;
    size_t parts = pid_count == 0 ? 1 : (pid_count + most - 1) / most;
    for (size_t part = 0; part < parts; part++)
        send_part(number, period, crypto, closing, part, parts, most);
}

/* Clear packets. */

static unsigned payload_start(const uint8_t *packet) {
    switch (packet[3] >> 4 & 3) {
    case 1:
        return 4;
    case 3:
        return packet[4] <= 182 ? 5u + packet[4] : PACKET_BYTES;
    default:
        return PACKET_BYTES;
    }
}

/* The section of a table that is the packet's only one, and its length, or NULL. */
static const uint8_t *section_in(const uint8_t *packet, unsigned start, uint8_t table_id, unsigned least,
                                 unsigned *length) {
    const uint8_t *section = packet + start + 1;
    unsigned room = PACKET_BYTES - start - 1;
    if ((packet[1] & 0x40) == 0 || packet[start] != 0 || room < 12 || section[0] != table_id || section[1] >> 7 == 0 ||
        section[6] != 0 || section[7] != 0)
        return NULL;
    unsigned section_length = read_number(section + 1, 2) & 0xFFF;
    *length = 3 + section_length;
    if (section_length < least || *length > room)
        return NULL;
    if (crc_of(section, *length) != 0)
        return NULL;
    for (unsigned at = *length; at < room; at++)
        if (section[at] != 0xFF)
            return NULL;
    return section;
}

/* Whether items fill these bytes: each has a number of bytes before its length, and that many more as the length says.
 */
static bool fill(const uint8_t *bytes, unsigned count, unsigned before, unsigned width, bool streams) {
    while (count > 0) {
        if (count < before + width)
            return false;
        unsigned length = width == 1 ? bytes[before] : read_number(bytes + before, 2) & 0xFFF;
        if (count - before - width < length || (streams && !fill(bytes + before + width, length, 1, 1, false)))
            return false;
        bytes += before + width + length;
        count -= before + width + length;
    }
    return true;
}

/* The PMT that the packet is by itself, and its length, or NULL. */
static const uint8_t *pmt_in(const uint8_t *packet, unsigned start, unsigned *length) {
    const uint8_t *section = section_in(packet, start, 2, 13, length);
    if (section == NULL)
        return NULL;
    unsigned info = read_number(section + 10, 2) & 0xFFF, body = *length - 16;
    if (info > body || !fill(section + 12, info, 1, 1, false) || !fill(section + 12 + info, body - info, 3, 2, true))
        return NULL;
    return section;
}

static void own_descriptor(uint8_t *descriptor) {
    put_number(descriptor, 0x0904, 2);
    put_number(descriptor + 2, site.ca, 2);
    put_number(descriptor + 4, 0xE000 + site.ecm, 2);
}

/* Whether a PMT that has no room begins with the project's CA_descriptor. */
static bool is_full_own(const uint8_t *packet, unsigned start) {
    uint8_t descriptor[6];
    unsigned length;
    const uint8_t *section = pmt_in(packet, start, &length);
    if (section == NULL || start + 1 + length + sizeof descriptor <= PACKET_BYTES)
        return false;
    own_descriptor(descriptor);
    return (read_number(section + 10, 2) & 0xFFF) >= sizeof descriptor &&
           memcmp(section + 12, descriptor, sizeof descriptor) == 0;
}

static void send_pmt(const uint8_t *packet, unsigned start) {
    uint8_t *sent = send(packet);
    unsigned length;
    if (pmt_in(packet, start, &length) == NULL || start + 1 + length + 6 > PACKET_BYTES)
        return;
    uint8_t *section = sent + start + 1;
    memmove(section + 18, section + 12, length - 16);
    own_descriptor(section + 12);
    put_number(section + 1, read_number(section + 1, 2) + 6, 2);
    put_number(section + 10, read_number(section + 10, 2) + 6, 2);
    put_number(section + length + 2, crc_of(section, length + 2), 4);
}

static void send_scrambled(const uint8_t *packet, unsigned start, unsigned pid, uint64_t position, uint32_t crypto) {
    uint8_t *sent = send(packet);
    lay(cipher, NULL, ((uint64_t)pid << 48) + position, sent + start, (int)(PACKET_BYTES - start));
    sent[3] |= (uint8_t)(0x80 | (crypto % 2) << 6);
}

/* Marks the PIDs of the PMTs of a current PAT. */
static void learn(const uint8_t *section, unsigned length) {
    if ((section[5] & 1) == 0)
        return;
    memset(is_pmt, 0, sizeof is_pmt);
    for (unsigned at = 8; at < length - 4; at += 4)
        if (read_number(section + at, 2) != 0)
            is_pmt[read_number(section + at + 2, 2) & 0x1FFF] = true;
}

static void add_pid(uint16_t pid) {
    size_t at = pid_count++;
    for (; at > 0 && pids[at - 1] > pid; at--)
        pids[at] = pids[at - 1];
    pids[at] = pid;
}

static _Noreturn void refuse(void) {
    write_gathered();
    printf("clear packet %u is refused\n", taken);
    exit(REFUSED);
}

/* What stands before the packet, where something does. */
static void send_before(uint32_t crypto) {
    if (taken % site.every != 0)
        return;
    uint32_t period = crypto / site.span < last_period ? crypto / site.span : last_period;
    if (taken % (site.every * site.cryptos) == 0) {
        static uint32_t begun = UINT32_MAX;
        if (period != begun)
            begin_period(period);
        begun = period;
        begin_crypto_period(crypto);
        send_tables();
    }
    send_message(taken / site.every, period, crypto, false);
}

static void take(const uint8_t *packet) {
    unsigned pid = (packet[1] & 0x1Fu) << 8 | packet[2], start = payload_start(packet), length = 0;
    bool placed = LOWEST_POSITIONAL <= pid && pid <= HIGHEST_POSITIONAL && start < PACKET_BYTES;
    enum kind kind = !placed ? PASSED : is_pmt[pid] ? PMT : SCRAMBLED;
    bool first = placed && positions[pid] == FIRST_POSITION;
    const uint8_t *pat = NULL;
    if (packet[3] >> 6 != 0 || pid == 1 || pid == site.emm || pid == site.ecm)
        refuse();
    if (pid == 0 && start < PACKET_BYTES) {
        pat = section_in(packet, start, 0, 9, &length);
        if (pat == NULL || length % 4 != 0)
            refuse();
    }
    if ((kind == PMT && is_full_own(packet, start)) || (first && pid_count == MOST_PLACES) || taken == UINT32_MAX)
        refuse();
    uint32_t crypto = taken / (site.every * site.cryptos);
    send_before(crypto);
    if (placed)
        positions[pid] += ((packet[3] & 15u) + 15 - positions[pid] % 16) % 16 + 1;
    if (kind == PASSED)
        send(packet);
    else if (kind == PMT)
        send_pmt(packet, start);
    else
        send_scrambled(packet, start, pid, positions[pid], crypto);
    if (first)
        add_pid((uint16_t)pid);
    if (pat != NULL)
        learn(pat, length);
    taken++;
}

static void send_closing(void) {
    uint32_t last = taken == 0 ? 0 : taken - 1, crypto = last / (site.every * site.cryptos);
    if (taken == 0) {
        begin_period(0);
        begin_crypto_period(0);
        send_tables();
    }
    uint32_t period = crypto / site.span < last_period ? crypto / site.span : last_period;
    send_message((uint32_t)(((uint64_t)taken + site.every - 1) / site.every), period, crypto, true);
}

static void take_all(void) {
    static uint8_t piece[PIECE_BYTES];
    size_t held = 0;
    for (;;) {
        ssize_t count = read(input, piece + held, sizeof piece - held);
        if (count < 0)
            fail("the clear stream can't be read");
        if (count == 0)
            break;
        held += (size_t)count;
        size_t done = 0;
        for (; held - done >= PACKET_BYTES; done += PACKET_BYTES) {
            if (piece[done] != 0x47)
                refuse();
            take(piece + done);
        }
        held -= done;
        memmove(piece, piece + done, held);
    }
    if (held != 0)
        refuse();
}

int main(int count, char **words) {
    if (count != 6 || strcmp(words[1], "head") != 0)
        fail("the words are head SITE BOOK CLEAR OUT");
    read_site(words[2]);
    read_book(words[3]);
    input = open(words[4], O_RDONLY);
    output = open(words[5], O_WRONLY | O_CREAT | O_TRUNC, 0666);
    if (input < 0 || output < 0)
        fail("a file can't be opened");
    for (int pid = 0; pid < PIDS; pid++)
        positions[pid] = FIRST_POSITION;
    make_crc_tables();
    make_cat();
    take_all();
    send_closing();
    write_gathered();
    if (close(output) != 0)
        fail("the broadcast can't be closed");
    return 0;
}
