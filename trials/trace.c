/* Traces a coalition of random leaves beside 1,000 random revoked ones, as sd_bench's work `traces` does, from
   docs/FORMATS.md alone: each round takes a cover from scratch, by a recursion over a sorted array, and asks a box that
   looks at its leaves one by one. */
#include <inttypes.h>
#include <stdint.h>
#include <stdio.h>
#include <stdlib.h>
#include <string.h>

enum { HEIGHT = 20, LEAVES = 1 << HEIGHT, REVOKED = 1000, MOST_REVOKED = 65536 };

struct set {
    uint32_t i;
    uint32_t j;
};

/* The nodes of the leaves that are revoked or found, and those of the coalition, ascending. */
static uint32_t gone[MOST_REVOKED];
static size_t gone_count;
static uint32_t members[MOST_REVOKED];
static size_t member_count;

static struct set sets[2 * MOST_REVOKED];
static size_t set_count;

static uint64_t state = 1, asked;

static _Noreturn void fail(const char *text) {
    fprintf(stderr, "trace: %s\n", text);
    exit(1);
}

static uint32_t draw(uint32_t bound) {
    state = state * UINT64_C(6364136223846793005) + UINT64_C(1442695040888963407);
    return (uint32_t)(state >> 33) % bound;
}

/* How many of these ascending nodes are less than the bound. */
static size_t count_below(const uint32_t *nodes, size_t count, uint32_t bound) {
    size_t low = 0, high = count;
    while (low < high) {
        size_t middle = low + (high - low) / 2;
        if (nodes[middle] < bound)
            low = middle + 1;
        else
            high = middle;
    }
    return low;
}

static int has(const uint32_t *nodes, size_t count, uint32_t node) {
    size_t at = count_below(nodes, count, node);
    return at < count && nodes[at] == node;
}

static void insert(uint32_t *nodes, size_t *count, uint32_t node) {
    size_t at = count_below(nodes, *count, node);
    memmove(nodes + at + 1, nodes + at, (*count - at) * sizeof *nodes);
    nodes[at] = node;
    ++*count;
}

/* So many draws of leaves that aren't gone; one that was drawn before stays. */
static void draw_leaves(uint32_t *nodes, size_t *count, size_t draws) {
    for (; draws > 0; draws--) {
        uint32_t node = LEAVES + draw(LEAVES);
        if (!has(gone, gone_count, node) && !has(nodes, *count, node))
            insert(nodes, count, node);
    }
}

/* Adds the sets of the chain that begins at node i and of those below it. The nodes are the leaves below i that are
   gone, and the chain's end is the lowest node above them all. */
static void add_sets(uint32_t i, const uint32_t *nodes, size_t count) {
    uint32_t first = nodes[0], last = nodes[count - 1];
    unsigned levels = 0;
    for (; first >> levels != last >> levels; levels++)
        ;
    uint32_t j = first >> levels;
    if (i != j)
        sets[set_count++] = (struct set){i, j};
    if (levels == 0)
        return;
    size_t left = count_below(nodes, count, (2 * j + 1) << (levels - 1));
    add_sets(2 * j, nodes, left);
    add_sets(2 * j + 1, nodes + left, count - left);
}

/* The order of two sets of one cover, which differ in i. */
static int compare_sets(const void *a, const void *b) {
    uint32_t left = ((const struct set *)a)->i, right = ((const struct set *)b)->i;
    return (left > right) - (left < right);
}

static unsigned depth(uint32_t v) { return 31 - (unsigned)__builtin_clz(v); }

static int is_above(uint32_t i, uint32_t j) { return depth(i) <= depth(j) && j >> (depth(j) - depth(i)) == i; }

static int has_member(struct set set) {
    for (size_t at = 0; at < member_count; at++)
        if (is_above(set.i, members[at]) && !is_above(set.j, members[at]))
            return 1;
    return 0;
}

/* Whether the box opens where the keys of all but the first of these sets are right. */
static int probe(const struct set *list, size_t count, size_t wrong) {
    asked++;
    for (size_t at = wrong; at < count; at++)
        if (has_member(list[at]))
            return 1;
    return 0;
}

/* The halves of the set, or 0 where it has one leaf. */
static int halve(struct set set, struct set *first, struct set *second) {
    uint32_t child = set.j;
    while (child / 2 != set.i)
        child /= 2;
    if (child != set.j) {
        *first = (struct set){set.i, child};
        *second = (struct set){child, set.j};
        return 1;
    }
    uint32_t sibling = child ^ 1;
    if (sibling >= LEAVES)
        return 0;
    *first = (struct set){sibling, 2 * sibling};
    *second = (struct set){sibling, 2 * sibling + 1};
    return 1;
}

/* The least number that 2 to it is at least as great as this one. */
static unsigned log_of(size_t number) {
    unsigned log = 0;
    for (; (size_t)1 << log < number; log++)
        ;
    return log;
}

int main(int count, char **words) {
    if (count != 3 || strcmp(words[1], "traces") != 0)
        fail("the words are traces LEAVES");
    unsigned long draws = strtoul(words[2], NULL, 10);
    if (draws == 0 || draws > MOST_REVOKED - REVOKED)
        fail("the coalition is too small or too great");
    draw_leaves(gone, &gone_count, REVOKED);
    draw_leaves(members, &member_count, draws);
    uint64_t sum = 0, found = 0, tests = 0;
    long worst = -HEIGHT;
    for (;;) {
        uint64_t before = asked;
        uint32_t splits = 0;
        struct set first, second;
        set_count = 0;
        add_sets(1, gone, gone_count);
        qsort(sets, set_count, sizeof *sets, compare_sets);
        if (!probe(sets, set_count, 0))
            break;
        size_t low = 0, high = set_count;
        while (low + 1 < high) {
            size_t middle = (low + high) / 2;
            if (probe(sets, set_count, middle))
                low = middle;
            else
                high = middle;
        }
        struct set set = sets[low];
        for (; halve(set, &first, &second); splits++)
            set = probe(&first, 1, 0) ? first : second;
        uint32_t node = set.j ^ 1, trials = (uint32_t)(asked - before);
        long over = (long)trials - (HEIGHT + 2 + (long)log_of(set_count));
        worst = over > worst ? over : worst;
        sum = ((sum * 31 + node - LEAVES) * 31 + trials) * 31 + splits;
        tests += trials;
        found++;
        insert(gone, &gone_count, node);
    }
    printf("%" PRIu64 "\n", sum);
    fprintf(stderr, "%" PRIu64 " %" PRIu64 " %ld %zu\n", found, tests, worst, set_count);
    return 0;
}
