/* Solves the rules' game A over the C interface, lets the checker judge the answer, and updates it to game B, in which vertex 0 has
 * another owner: docs/LINKING.md. With any argument it spoils the answer before the check, to show a refusal. */
#include "../../include/zoetelkorf.h"

int printf(const char *form, ...);
int dprintf(int file, const char *form, ...);

static const uint8_t owners[4] = {0, 1, 0, 1}, priorities[4] = {0, 1, 2, 3};
static const uint16_t starts[5] = {0, 2, 3, 4, 5}, targets[5] = {1, 2, 0, 0, 3};
static const uint8_t amended[4] = {1, 1, 0, 1};

static void show(const uint8_t *winners, const uint16_t *moves) {
    for (int v = 0; v < 4; v++) printf("%d: winner %d, move %d\n", v, winners[v], moves[v]);
}

/* Whether a call was refused; if so it is said on standard error, with what was at fault, the number and the place. */
static int refused(const char *call, uint64_t number, uint64_t place) {
    if (number == 0) return 0;
    int answer = number >= ZOETELKORF_MARK && number <= ZOETELKORF_CYCLE;
    dprintf(2, "relay: %s refuses the %s: %d at %d\n", call, answer ? "answer" : "tables or lists", (int)number, (int)place);
    return 1;
}

int main(int argc, char **argv) {
    uint8_t winners[4], winners2[4];
    uint16_t moves[4], moves2[4], work[16];
    uint64_t value;
    (void)argv;

    uint64_t number = zoetelkorf_solve(owners, 4, priorities, 4, starts, 5, targets, 5, winners, 4, moves, 4, work, 16, &value);
    if (refused("solve", number, value)) return 1;
    printf("solve: done\n");
    show(winners, moves);

    if (argc > 1) moves[0] = 1; /* a successor that Even wins too, but going round by 1 is good for Odd */
    number = zoetelkorf_check(owners, 4, priorities, 4, starts, 5, targets, 5, winners, 4, moves, 4, work, 16, &value);
    if (refused("check", number, value)) return 1;
    printf("check: accepted\n");

    number = zoetelkorf_update(owners, 4, priorities, 4, starts, 5, targets, 5, amended, 4, priorities, 4, starts, 5, targets, 5,
                               winners, 4, moves, 4, winners2, 4, moves2, 4, work, 16, &value);
    if (refused("update", number, value)) return 1;
    printf("update: decided anew %d\n", (int)value);
    show(winners2, moves2);
    return 0;
}
