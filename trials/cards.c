/* Makes the card of a leaf, as `sdca card SITE LEAF OUT` does, from docs/FORMATS.md alone. Without words it prints
 * `usage`. */
#define OPENSSL_SUPPRESS_DEPRECATED /* The older calls are the quicker ones: nothing is looked up and set up before    \
                                       the first hash. */
#include <openssl/sha.h>
#include <stdint.h>
#include <stdio.h>
#include <stdlib.h>
#include <string.h>

enum {
    LABEL_BYTES = 32,
    HEAD_BYTES = 12,
    CHECK_BYTES = 16,
    MOST_HEIGHT = 20,
    MOST_LABELS = MOST_HEIGHT * (MOST_HEIGHT + 1) / 2,
    MOST_CARD_BYTES = HEAD_BYTES + LABEL_BYTES + LABEL_BYTES * MOST_LABELS + CHECK_BYTES,
};

struct site {
    unsigned height;
    unsigned ca;
    uint8_t master[LABEL_BYTES];
};

static _Noreturn void fail(const char *text) {
    fprintf(stderr, "cards: %s\n", text);
    exit(1);
}

static void read_site(const char *name, struct site *site) {
    char master[2 * LABEL_BYTES + 1];
    FILE *file = fopen(name, "r");
    if (file == NULL || fscanf(file, "height %u master %64s ca %4x", &site->height, master, &site->ca) != 3)
        fail("the site can't be read");
    if (site->height < 1 || site->height > MOST_HEIGHT)
        fail("the height is not 1 to 20");
    for (int at = 0; at < LABEL_BYTES; at++)
        if (sscanf(master + 2 * at, "%2hhx", &site->master[at]) != 1)
            fail("the master is not hexadecimal");
    fclose(file);
}

static uint32_t read_leaf(const char *text, unsigned height) {
    char *end;
    unsigned long leaf = strtoul(text, &end, 10);
    if (end == text || *end != '\0' || leaf >> height != 0)
        fail("the tree has no such leaf");
    return (uint32_t)leaf;
}

static uint8_t *put_number(uint8_t *at, uint32_t number, int bytes) {
    for (int byte = bytes - 1; byte >= 0; byte--)
        *at++ = (uint8_t)(number >> 8 * byte);
    return at;
}

static void hash(const uint8_t *bytes, size_t count, const uint8_t *tail, size_t tail_count, uint8_t *digest) {
    SHA256_CTX context;
    if (SHA256_Init(&context) != 1 || SHA256_Update(&context, bytes, count) != 1 ||
        SHA256_Update(&context, tail, tail_count) != 1 || SHA256_Final(digest, &context) != 1)
        fail("OpenSSL can't hash");
}

static void hash_tagged(const uint8_t *key, uint8_t tag, uint8_t *digest) { hash(key, LABEL_BYTES, &tag, 1, digest); }

static void node_label(const uint8_t *master, uint32_t node, uint8_t *label) {
    uint8_t tail[5] = {'I'};
    put_number(tail + 1, node, 4);
    hash(master, LABEL_BYTES, tail, sizeof tail, label);
}

/* The label of a child, from that of its parent: the left or the right third. */
static void child_label(const uint8_t *parent, uint32_t child, uint8_t *label) {
    hash_tagged(parent, child % 2 == 0 ? 'L' : 'R', label);
}

/* The labels of the nodes that hang beside the path from an ancestor down to the leaf's node, which is so many levels
 * below. */
static uint8_t *put_labels(uint8_t *at, const struct site *site, uint32_t leaf_node, unsigned levels) {
    uint8_t label[LABEL_BYTES], parent[LABEL_BYTES];
    node_label(site->master, leaf_node >> levels, parent);
    while (levels > 0) {
        uint32_t node = leaf_node >> --levels;
        child_label(parent, node ^ 1, at);
        at += LABEL_BYTES;
        if (levels == 0)
            break;
        child_label(parent, node, label);
        memcpy(parent, label, LABEL_BYTES);
    }
    return at;
}

static size_t make_card(const struct site *site, uint32_t leaf, uint8_t *card) {
    uint8_t digest[SHA256_DIGEST_LENGTH];
    uint8_t *at = card;
    memcpy(at, "SDCD", 4);
    at = put_number(at + 4, 1, 1);
    at = put_number(at, site->height, 1);
    at = put_number(at, leaf, 4);
    at = put_number(at, site->ca, 2);
    hash_tagged(site->master, 'A', at);
    at += LABEL_BYTES;
    for (unsigned levels = site->height; levels > 0; levels--)
        at = put_labels(at, site, (UINT32_C(1) << site->height) + leaf, levels);
    hash(card, (size_t)(at - card), NULL, 0, digest);
    memcpy(at, digest, CHECK_BYTES);
    return (size_t)(at - card) + CHECK_BYTES;
}

static void write_file(const char *name, const uint8_t *bytes, size_t count) {
    FILE *file = fopen(name, "w");
    if (file == NULL || setvbuf(file, NULL, _IONBF, 0) != 0 || fwrite(bytes, 1, count, file) != count ||
        fclose(file) != 0)
        fail("the card can't be written");
}

int main(int count, char **words) {
    static uint8_t card[MOST_CARD_BYTES];
    struct site site;
    if (count != 5 || strcmp(words[1], "card") != 0) {
        puts("usage");
        return 1;
    }
    read_site(words[2], &site);
    size_t bytes = make_card(&site, read_leaf(words[3], site.height), card);
    write_file(words[4], card, bytes);
    return 0;
}
