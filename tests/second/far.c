// The far side of far.rs. The library's archive is for x86-64; elsewhere it is linked with this
// into a program that the kit's emulator runs. It reads calls from standard input, makes them with
// guards beside every slice, and writes to standard output what came of them.

typedef unsigned char u8;
typedef unsigned short u16;
typedef unsigned long u64;

long read(int file, void *to, u64 length);
long write(int file, const void *from, u64 length);
void *memcpy(void *to, const void *from, u64 length);
void *memset(void *to, int byte, u64 length);

#define BYTES(name) u8 *name, u64 name##_length
#define WORDS(name) u16 *name, u64 name##_length
#define GAME(name) \
    BYTES(name##_owners), BYTES(name##_priorities), WORDS(name##_starts), WORDS(name##_targets)

u64 zoetelkorf_check(GAME(game), BYTES(winners), WORDS(moves), WORDS(work), u64 *value);
u64 zoetelkorf_solve(GAME(game), BYTES(winners), WORDS(moves), WORDS(work), u64 *value);
u64 zoetelkorf_update(GAME(first), GAME(second), BYTES(old_winners), WORDS(old_moves),
                      BYTES(winners), WORDS(moves), WORDS(work), u64 *value);
u64 zoetelkorf_read(BYTES(file), BYTES(owners), BYTES(priorities), WORDS(starts), WORDS(targets),
                    u64 *value);
u64 zoetelkorf_write(GAME(game), BYTES(file), u64 *value);

enum { CHECK, SOLVE, UPDATE, READ, WRITE };
enum { SLICES = 13, ROOM = 1 << 22, GUARD = 64, CANARY = 0xA7 };

// A call: its length in bytes, then function, value, number of slices, each slice's length in
// bytes, their contents. An answer: number, value, whether a guard was changed, the contents of all
// slices.
static u64 message[ROOM / 8];
static u8 room[ROOM];
static u8 *slice[SLICES];
static u64 bytes[SLICES];

static int read_all(void *to, u64 length) {
    for (u64 done = 0; done < length;) {
        long got = read(0, (u8 *)to + done, length - done);
        if (got <= 0) return 0;
        done += got;
    }
    return 1;
}

static int write_all(const void *from, u64 length) {
    for (u64 done = 0; done < length;) {
        long put = write(1, (const u8 *)from + done, length - done);
        if (put <= 0) return 0;
        done += put;
    }
    return 1;
}

#define B(i) slice[i], bytes[i]
#define W(i) (u16 *)slice[i], bytes[i] / 2
#define G(i) B(i), B(i + 1), W(i + 2), W(i + 3)

static u64 call(u64 function, u64 *value) {
    switch (function) {
    case CHECK: return zoetelkorf_check(G(0), B(4), W(5), W(6), value);
    case SOLVE: return zoetelkorf_solve(G(0), B(4), W(5), W(6), value);
    case UPDATE: return zoetelkorf_update(G(0), G(4), B(8), W(9), B(10), W(11), W(12), value);
    case READ: return zoetelkorf_read(B(0), B(1), B(2), W(3), W(4), value);
    default: return zoetelkorf_write(G(0), B(4), value);
    }
}

// Each slice begins at an even place after its guard.
static u64 lay_out(u64 count) {
    const u8 *content = (u8 *)(message + 3 + count);
    u64 place = 0;
    for (u64 i = 0; i < count; i++) {
        bytes[i] = message[3 + i];
        if (place + bytes[i] + 2 * GUARD + 1 > ROOM) return 0;
        memset(room + place, CANARY, bytes[i] + 2 * GUARD + 1);
        slice[i] = room + place + GUARD;
        memcpy(slice[i], content, bytes[i]);
        content += bytes[i];
        place += (bytes[i] + 2 * GUARD + 1) / 2 * 2;
    }
    return 1;
}

static u64 guards_changed(u64 count) {
    for (u64 i = 0; i < count; i++)
        for (u64 k = 0; k < GUARD; k++)
            if (slice[i][-1 - (long)k] != CANARY || slice[i][bytes[i] + k] != CANARY) return 1;
    return 0;
}

int main(void) {
    u64 length;
    while (read_all(&length, sizeof length)) {
        if (length > ROOM || !read_all(message, length)) return 1;
        u64 count = message[2], value = message[1];
        if (count > SLICES || !lay_out(count)) return 1;
        u64 number = call(message[0], &value);
        message[2] = guards_changed(count);
        message[0] = number;
        message[1] = value;
        u8 *content = (u8 *)(message + 3);
        for (u64 i = 0; i < count; i++) {
            memcpy(content, slice[i], bytes[i]);
            content += bytes[i];
        }
        if (!write_all(message, content - (u8 *)message)) return 1;
    }
    return 0;
}
