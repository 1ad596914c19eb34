/* Prints the cover of each period of a book, as `sdca cover SITE BOOK` does, from docs/FORMATS.md alone: the revoked
   leaves are kept in a sorted array, and each period is a plain recursion over it. */
#include <inttypes.h>
#include <stdint.h>
#include <stdio.h>
#include <stdlib.h>
#include <string.h>

enum { MOST_HEIGHT = 20, MOST_LEAVES = 1 << MOST_HEIGHT, LINE_BYTES = 64, OUTPUT_BYTES = 1 << 16 };

struct set {
    uint32_t i;
    uint32_t j;
};

/* The nodes of the revoked leaves, ascending. */
static uint32_t revoked[MOST_LEAVES];
static size_t revoked_count;

static struct set sets[2 * MOST_LEAVES];
static size_t set_count;

static _Noreturn void fail(const char *text) {
    fprintf(stderr, "cover: %s\n", text);
    exit(1);
}

static FILE *open_file(const char *name) {
    FILE *file = fopen(name, "r");
    if (file == NULL)
        fail("a file can't be read");
    return file;
}

static unsigned read_height(const char *name) {
    unsigned height;
    FILE *file = open_file(name);
    if (fscanf(file, "height %u", &height) != 1 || height < 1 || height > MOST_HEIGHT)
        fail("the site has no height");
    fclose(file);
    return height;
}

/* How many of these ascending nodes are less than the bound. */
static size_t count_below(const uint32_t *nodes, size_t count, uint32_t bound) {
    size_t low = 0, high = count;
    while (low < high) {
        size_t middle = low + (high - low) / 2;
        if (nodes[middle] < bound)
            low = middle + 1;
        else
            high = middle;
    }
    return low;
}

static void revoke(uint32_t node) {
    size_t at = count_below(revoked, revoked_count, node);
    if (at < revoked_count && revoked[at] == node)
        return;
    memmove(revoked + at + 1, revoked + at, (revoked_count - at) * sizeof *revoked);
    revoked[at] = node;
    revoked_count++;
}

static void subscribe(uint32_t node) {
    size_t at = count_below(revoked, revoked_count, node);
    if (at == revoked_count || revoked[at] != node)
        return;
    revoked_count--;
    memmove(revoked + at, revoked + at + 1, (revoked_count - at) * sizeof *revoked);
}

/* Adds the sets of the chain that begins at node i and of those below it. The nodes are the revoked leaves below i, and
   the chain's end is the lowest node above them all. */
static void add_sets(uint32_t i, const uint32_t *nodes, size_t count) {
    uint32_t first = nodes[0], last = nodes[count - 1];
    unsigned levels = 0;
    for (; first >> levels != last >> levels; levels++)
        ;
    uint32_t j = first >> levels;
    if (i != j)
        sets[set_count++] = (struct set){i, j};
    if (levels == 0)
        return;
    size_t left = count_below(nodes, count, (2 * j + 1) << (levels - 1));
    add_sets(2 * j, nodes, left);
    add_sets(2 * j + 1, nodes + left, count - left);
}

/* The order of two sets of one cover, which differ in i. */
static int compare_sets(const void *a, const void *b) {
    uint32_t left = ((const struct set *)a)->i, right = ((const struct set *)b)->i;
    return (left > right) - (left < right);
}

static void print_period(unsigned period) {
    set_count = 0;
    if (revoked_count == 0) {
        printf("period %u revoked 0 sets 1\nall\n", period);
        return;
    }
    add_sets(1, revoked, revoked_count);
    qsort(sets, set_count, sizeof *sets, compare_sets);
    printf("period %u revoked %zu sets %zu\n", period, revoked_count, set_count);
    for (size_t at = 0; at < set_count; at++)
        printf("%" PRIu32 " %" PRIu32 "\n", sets[at].i, sets[at].j);
}

static uint32_t leaf_node(const char *text, unsigned height) {
    char *end;
    unsigned long leaf = strtoul(text, &end, 10);
    if (end == text || *end != '\0' || leaf >> height != 0)
        fail("a line of the book has no leaf");
    return (UINT32_C(1) << height) + (uint32_t)leaf;
}

int main(int count, char **words) {
    static char output[OUTPUT_BYTES];
    char line[LINE_BYTES];
    unsigned period = 0;
    if (count != 4 || strcmp(words[1], "cover") != 0)
        fail("the words are cover SITE BOOK");
    if (setvbuf(stdout, output, _IOFBF, sizeof output) != 0)
        fail("the output has no buffer");
    unsigned height = read_height(words[2]);
    FILE *book = open_file(words[3]);
    while (fgets(line, sizeof line, book) != NULL) {
        line[strcspn(line, "\n")] = '\0';
        if (strncmp(line, "revoke ", 7) == 0)
            revoke(leaf_node(line + 7, height));
        else if (strncmp(line, "subscribe ", 10) == 0)
            subscribe(leaf_node(line + 10, height));
        else if (strcmp(line, "period") == 0)
            print_period(period++);
        else
            fail("a line of the book is no command");
    }
    print_period(period);
    if (ferror(book) || fclose(book) != 0 || fclose(stdout) != 0)
        fail("a file can't be read or written");
    return 0;
}
