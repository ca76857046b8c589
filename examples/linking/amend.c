/* Reads a house game file from standard input, hands vertex 0 to the other player, and writes the file of the amended game to standard
 * output: docs/LINKING.md. */
#include "../../include/zoetelkorf.h"

long read(int file, void *to, size_t length);
long write(int file, const void *from, size_t length);
int dprintf(int file, const char *form, ...);

/* The tables as the reader wants them; room for the longest file and one byte more, so that a longer one is refused and not cut. */
enum { VERTICES = 2048, EDGES = 16384, LONGEST = ZOETELKORF_FILE_LENGTH(VERTICES, EDGES) };
static uint8_t owners[VERTICES], priorities[VERTICES], file[LONGEST + 1];
static uint16_t starts[VERTICES + 1], targets[EDGES];

/* How many bytes standard input has, up to the room for them; or -1. */
static long take(void) {
    long length = 0, got;
    while ((got = read(0, file + length, sizeof file - length)) > 0) length += got;
    return got < 0 ? -1 : length;
}

static int put(size_t length) {
    for (size_t done = 0; done < length;) {
        long some = write(1, file + done, length - done);
        if (some <= 0) return 0;
        done += some;
    }
    return 1;
}

static int fail(const char *what) {
    dprintf(2, "amend: %s\n", what);
    return 1;
}

static int refused(const char *what, uint64_t number, uint64_t place) {
    dprintf(2, "amend: the %s is refused: %d at %d\n", what, (int)number, (int)place);
    return 1;
}

int main(void) {
    uint64_t value;
    long length = take();
    if (length < 0) return fail("cannot read standard input");
    uint64_t number = zoetelkorf_read(file, length, owners, VERTICES, priorities, VERTICES, starts, VERTICES + 1, targets, EDGES, &value);
    if (number != 0) return refused("file", number, value);
    size_t n = value % 65536, edges = value / 65536;

    owners[0] = 1 - owners[0];
    number = zoetelkorf_write(owners, n, priorities, n, starts, n + 1, targets, edges, file, ZOETELKORF_FILE_LENGTH(n, edges), &value);
    if (number != 0) return refused("amended game", number, value);
    return put(value) ? 0 : fail("cannot write to standard output");
}
