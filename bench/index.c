/* Takes periods of random commands by an index of the revoked leaves, as sd_bench's works `changes` and `kept` do: a
   count for each node that is at or above a revoked leaf, in a hash table with open addressing. */
#include <inttypes.h>
#include <stdint.h>
#include <stdio.h>
#include <stdlib.h>
#include <string.h>

enum { HEIGHT = 20, LEAVES = 1 << HEIGHT, SLOT_BITS = 20, SLOTS = 1 << SLOT_BITS, MOST_REVOKED = 65536 };

/* A node with its count. Node 0 marks a free slot. */
struct slot {
    uint32_t node;
    uint32_t count;
};

struct set {
    uint32_t i;
    uint32_t j;
};

static struct slot slots[SLOTS];
static size_t slot_count;

/* The revoked leaves in the order in which they came. */
static uint32_t revoked[MOST_REVOKED];
static size_t revoked_count;

static struct set *sets;
static size_t set_count, set_room;

static uint64_t state = 1;

static _Noreturn void fail(const char *text) {
    fprintf(stderr, "index: %s\n", text);
    exit(1);
}

static uint32_t draw(uint32_t bound) {
    state = state * UINT64_C(6364136223846793005) + UINT64_C(1442695040888963407);
    return (uint32_t)(state >> 33) % bound;
}

static size_t home(uint32_t node) { return (node * UINT32_C(2654435769)) >> (32 - SLOT_BITS); }

/* The slot of the node, or the free one where it would be. */
static size_t slot_of(uint32_t node) {
    size_t at = home(node);
    while (slots[at].node != 0 && slots[at].node != node)
        at = (at + 1) % SLOTS;
    return at;
}

static uint32_t count_of(uint32_t node) { return slots[slot_of(node)].count; }

static void raise(uint32_t node) {
    struct slot *slot = &slots[slot_of(node)];
    if (slot->node == 0) {
        slot->node = node;
        slot_count++;
    }
    slot->count++;
}

/* Takes the slot out: what stands after it and belongs before it moves up. */
static void remove_slot(size_t at) {
    size_t next = at;
    for (;;) {
        next = (next + 1) % SLOTS;
        if (slots[next].node == 0)
            break;
        if ((next - home(slots[next].node)) % SLOTS >= (next - at) % SLOTS) {
            slots[at] = slots[next];
            at = next;
        }
    }
    slots[at] = (struct slot){0, 0};
    slot_count--;
}

static void lower(uint32_t node) {
    size_t at = slot_of(node);
    if (--slots[at].count == 0)
        remove_slot(at);
}

static void revoke(uint32_t leaf) {
    if (count_of(LEAVES + leaf) == 1)
        return;
    for (uint32_t node = LEAVES + leaf; node != 0; node >>= 1)
        raise(node);
    revoked[revoked_count++] = leaf;
}

static void subscribe(size_t place) {
    uint32_t leaf = revoked[place];
    revoked[place] = revoked[--revoked_count];
    for (uint32_t node = LEAVES + leaf; node != 0; node >>= 1)
        lower(node);
}

static void add_set(uint32_t i, uint32_t j) {
    if (set_count == set_room) {
        set_room = set_room == 0 ? 1024 : 2 * set_room;
        sets = realloc(sets, set_room * sizeof *sets);
        if (sets == NULL)
            fail("out of memory");
    }
    sets[set_count++] = (struct set){i, j};
}

/* Adds the sets of the chain from node i on through node v, and of those below v, which counts so many revoked leaves.
 */
static void add_sets(uint32_t i, uint32_t v, uint32_t count) {
    while (v < LEAVES) {
        uint32_t left = count_of(2 * v);
        if (left != 0 && left != count) {
            if (i != v)
                add_set(i, v);
            add_sets(2 * v, 2 * v, left);
            add_sets(2 * v + 1, 2 * v + 1, count - left);
            return;
        }
        v = left == 0 ? 2 * v + 1 : 2 * v;
    }
    if (i != v)
        add_set(i, v);
}

/* The order of two sets of one cover, which differ in i. */
static int compare_sets(const void *a, const void *b) {
    uint32_t left = ((const struct set *)a)->i, right = ((const struct set *)b)->i;
    return (left > right) - (left < right);
}

static void make_sets(void) {
    set_count = 0;
    if (count_of(1) == 0) {
        add_set(0, 0);
        return;
    }
    add_sets(1, 1, count_of(1));
    qsort(sets, set_count, sizeof *sets, compare_sets);
}

static void take_command(size_t most) {
    int subscribes = draw(4) == 0;
    if (revoked_count > 0 && (subscribes || revoked_count >= most))
        subscribe(draw((uint32_t)revoked_count));
    else
        revoke(draw(LEAVES));
}

int main(int count, char **words) {
    if (count != 3)
        fail("the words are WORK PERIODS");
    int narrow = strncmp(words[1], "few-", 4) == 0;
    const char *work = narrow ? words[1] + 4 : words[1];
    int kept = strcmp(work, "kept") == 0;
    if (!kept && strcmp(work, "changes") != 0)
        fail("the work is changes or kept");
    unsigned long periods = strtoul(words[2], NULL, 10);
    unsigned commands = narrow ? 100 : 1000;
    size_t most = narrow ? 10000 : MOST_REVOKED;
    for (size_t turn = 0; turn < most; turn++)
        revoke(draw(LEAVES));
    uint64_t sum = 0;
    for (unsigned long period = 0; period < periods; period++) {
        for (unsigned turn = 0; turn < commands; turn++)
            take_command(most);
        if (!kept) {
            sum = sum * 31 + revoked_count;
            continue;
        }
        make_sets();
        for (size_t at = 0; at < set_count; at++)
            sum = (sum * 31 + sets[at].i) * 31 + sets[at].j;
    }
    printf("%" PRIu64 "\n", sum);
    fprintf(stderr, "%zu nodes\n", slot_count);
    return 0;
}
