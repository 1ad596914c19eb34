/* Writes a file of packets again with a few changes that a number decides: faults NUMBER FROM TO. Changed are bits and
   bytes; packets are left out, doubled and swapped; a byte is put in; the end is cut off. */
#include <inttypes.h>
#include <stdint.h>
#include <stdio.h>
#include <stdlib.h>
#include <string.h>

enum { PACKET = 188, MOST_BYTES = 16 << 20, MOST_CHANGES = 4 };

static unsigned char bytes[MOST_BYTES + PACKET * MOST_CHANGES], held[PACKET];
static size_t length;
static uint64_t state;

static _Noreturn void fail(const char *text) {
    fprintf(stderr, "faults: %s\n", text);
    exit(1);
}

static size_t draw(size_t bound) {
    state = state * UINT64_C(6364136223846793005) + UINT64_C(1442695040888963407);
    return (size_t)(state >> 33) % bound;
}

/* Takes so many bytes out, or puts so many in, which are those that stood there. */
static void leave_out(size_t at, size_t count) {
    memmove(bytes + at, bytes + at + count, length - at - count);
    length -= count;
}

static void put_in(size_t at, size_t count) {
    memmove(bytes + at + count, bytes + at, length - at);
    length += count;
}

static void swap(size_t one, size_t other) {
    memcpy(held, bytes + one * PACKET, PACKET);
    memmove(bytes + one * PACKET, bytes + other * PACKET, PACKET);
    memcpy(bytes + other * PACKET, held, PACKET);
}

/* A place in a packet: in its header or the start of its section more often than in the rest. */
static size_t draw_place(void) {
    size_t packet = draw(length / PACKET);
    return packet * PACKET + draw(draw(3) == 0 ? PACKET : 32);
}

static void change(void) {
    size_t packets = length / PACKET;
    if (packets == 0)
        return;
    switch (draw(16)) {
    case 0:
        leave_out(draw(packets) * PACKET, PACKET);
        break;
    case 1:
    case 2:
        put_in(draw(packets) * PACKET, PACKET);
        break;
    case 3:
    case 4:
        swap(draw(packets), draw(packets));
        break;
    case 5:
        put_in(draw(length), 1);
        break;
    case 6:
        length -= draw(PACKET);
        break;
    case 7:
    case 8:
    case 9:
    case 10:
        bytes[draw_place()] ^= (unsigned char)(1 << draw(8));
        break;
    default:
        bytes[draw_place()] = (unsigned char)draw(256);
        break;
    }
}

int main(int count, char **words) {
    if (count != 4)
        fail("NUMBER FROM TO are the words");
    FILE *from = fopen(words[2], "rb"), *to = fopen(words[3], "wb");
    if (from == NULL || to == NULL)
        fail("a file can't be opened");
    state = strtoull(words[1], NULL, 10) * UINT64_C(0x9E3779B97F4A7C15);
    length = fread(bytes, 1, MOST_BYTES, from);
    for (size_t changes = 1 + draw(MOST_CHANGES); changes > 0; changes--)
        change();
    if (fwrite(bytes, 1, length, to) != length || fclose(to) != 0)
        fail("the file can't be written");
    return 0;
}
