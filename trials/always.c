/* always SECONDS FILE..: writes the files again and again, one after the other, as a stream of 40 Mbit/s has them in so
 * many seconds, with one damage a second, as fast as it is taken. It says on the standard error how many bytes it wrote.
 */
#include <fcntl.h>
#include <stdint.h>
#include <stdio.h>
#include <stdlib.h>
#include <string.h>
#include <sys/stat.h>
#include <unistd.h>

enum { PACKET = 188, SECOND = 5000000, MOST_FILES = 64, MOST_BURST = 1500, KINDS = 5 };

static uint64_t state = 7;

static uint64_t below(uint64_t n) {
    state = state * 6364136223846793005u + 1442695040888963407u;
    return (state >> 33) % n;
}

static unsigned char *files[MOST_FILES];
static size_t sizes[MOST_FILES];
static int count, file;
static size_t at;
static uint64_t written;

static void put(const unsigned char *bytes, size_t size) {
    while (size > 0) {
        ssize_t done = write(1, bytes, size);
        if (done <= 0) exit(1);
        bytes += done;
        size -= done;
        written += done;
    }
}

static void step(size_t size) {
    at += size;
    if (at >= sizes[file]) {
        at = 0;
        file = (file + 1) % count;
    }
}

/* Writes so many bytes of the files as they are. */
static void plain(size_t size) {
    while (size > 0) {
        size_t part = sizes[file] - at < size ? sizes[file] - at : size;
        put(files[file] + at, part);
        step(part);
        size -= part;
    }
}

/* One damage: a wrong bit, a mark, a gap, garbage, or a packet twice. */
static void damage(void) {
    unsigned char bytes[MOST_BURST];
    size_t rest = sizes[file] - at;
    size_t size = rest < PACKET ? rest : PACKET;
    switch (below(KINDS)) {
    case 0:
        memcpy(bytes, files[file] + at, size);
        bytes[below(size)] ^= 1 << below(8);
        put(bytes, size);
        step(size);
        break;
    case 1:
        size = PACKET - at % PACKET + PACKET;
        if (rest < size) break;
        memcpy(bytes, files[file] + at, size);
        bytes[PACKET - at % PACKET + 1 < size ? PACKET - at % PACKET + 1 : 0] |= 0x80;
        put(bytes, size);
        step(size);
        break;
    case 2:
        size = 1 + below(MOST_BURST);
        step(rest < size ? rest : size);
        break;
    case 3:
        size = 1 + below(MOST_BURST);
        for (size_t i = 0; i < size; i++) bytes[i] = below(256);
        put(bytes, size);
        break;
    default:
        plain(PACKET - at % PACKET);
        if (sizes[file] - at < PACKET) break;
        memcpy(bytes, files[file] + at, PACKET);
        put(bytes, PACKET);
        plain(PACKET);
        put(bytes, PACKET);
    }
}

int main(int words, char **word) {
    if (words < 3 || words - 2 > MOST_FILES) return 2;
    count = words - 2;
    for (int i = 0; i < count; i++) {
        int from = open(word[i + 2], O_RDONLY);
        struct stat found;
        if (from < 0 || fstat(from, &found) != 0) return 1;
        sizes[i] = found.st_size;
        files[i] = malloc(sizes[i]);
        for (size_t done = 0; done < sizes[i];) {
            ssize_t more = read(from, files[i] + done, sizes[i] - done);
            if (more <= 0) return 1;
            done += more;
        }
        close(from);
    }
    for (long second = atol(word[1]); second > 0; second--) {
        size_t before = below(SECOND);
        plain(before);
        damage();
        plain(SECOND - before);
    }
    fprintf(stderr, "%llu\n", (unsigned long long)written);
    return 0;
}
