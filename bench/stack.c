// How much stack a call of the library takes, on x86-64: each entry point is called on a stack of its own that was filled with one byte
// before, and what still holds that byte afterwards was not used. A game file comes on standard input; its game is read, written, solved,
// checked and updated to itself with vertex 0 given to the other player.
#include "../include/zoetelkorf.h"

// The C library's, declared here: the kit's compiler comes without its headers.
long read(int file, void *to, size_t most);
int printf(const char *form, ...);
void *memset(void *to, int byte, size_t length);
void *memcpy(void *to, const void *from, size_t length);

enum { ROOM = 1 << 20, FILLING = 0xA7 };

static unsigned char stack[ROOM] __attribute__((aligned(16)));
static uint8_t file[43520], owners[2048], priorities[2048], owners2[2048], winners[2048], winners2[2048];
static uint16_t starts[2049], targets[16384], moves[2048], moves2[2048], work[8192];
static size_t length, n, m;
static uint64_t number, value;

static void read_file(void) {
    number = zoetelkorf_read(file, length, owners, 2048, priorities, 2048, starts, 2049, targets, 16384, &value);
}

static void write_file(void) {
    number = zoetelkorf_write(owners, n, priorities, n, starts, n + 1, targets, m, file, ZOETELKORF_FILE_LENGTH(n, m), &value);
}

static void solve(void) {
    number = zoetelkorf_solve(owners, n, priorities, n, starts, n + 1, targets, m, winners, n, moves, n, work, 4 * n, &value);
}

static void check(void) {
    number = zoetelkorf_check(owners, n, priorities, n, starts, n + 1, targets, m, winners, n, moves, n, work, 4 * n, &value);
}

static void update(void) {
    number = zoetelkorf_update(owners, n, priorities, n, starts, n + 1, targets, m, owners2, n, priorities, n, starts, n + 1, targets, m,
                               winners, n, moves, n, winners2, n, moves2, n, work, 4 * n, &value);
}

// Runs a call on the stack of its own and says how much of it was used, the return address and the arguments included.
static int measure(const char *name, void (*call)(void)) {
    memset(stack, FILLING, ROOM);
    void *top = stack + ROOM;
    __asm__ volatile("movq %%rsp, %%rbx\n\tmovq %0, %%rsp\n\tcall *%1\n\tmovq %%rbx, %%rsp"
                     : "+r"(top), "+r"(call)
                     :
                     : "rbx", "rax", "rcx", "rdx", "rsi", "rdi", "r8", "r9", "r10", "r11", "memory", "cc");
    size_t unused = 0;
    while (unused < ROOM && stack[unused] == FILLING) unused++;
    printf("%s: %lu bytes, number %lu\n", name, ROOM - unused, number);
    return number == 0;
}

int main(void) {
    for (long got; length < sizeof file && (got = read(0, file + length, sizeof file - length)) > 0;) length += got;
    if (!measure("read", read_file)) return 1;
    n = value % 65536;
    m = value / 65536;
    memcpy(owners2, owners, n);
    owners2[0] = 1 - owners2[0];
    return !(measure("write", write_file) && measure("solve", solve) && measure("check", check) && measure("update", update));
}
