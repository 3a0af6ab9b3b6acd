/* host.c: a host in C. It runs the bundle that it is given, goes on from the state that the run left, and asks for a root. Then it makes a
 * state of its own for an Sv39 board, and asks for addresses one by one. */
#include "muntesulca.h"

#include <stdio.h>

static uint8_t file[65536], ram[32768], out[MUNTESULCA_TEXT(3000)], state[MUNTESULCA_STATE];

/* Load U 2000, store U 2000, flush of 2000, load S 0, as records. */
static const uint8_t more[] = {
    0, 0x20, 0, 0, 1, 0, 0, 0, 0, 0x20, 0, 0, 2, 0, 0, 0, 0, 0x20, 0, 0, 0, 0, 2, 0, 0, 0, 0, 0, 1, 1, 0, 0,
};

static const uint8_t sv32[] = {12, 2, 10, 10, 0, 0}, sv39[] = {12, 3, 9, 9, 9, 0};

/* 4 entries, 4 ways, Lru, a hit stalls for 1 and a miss for 20. */
static const uint8_t config[] = {4, 0, 4, 0, 1, 20};

/* A little-endian number of so many bytes. */
static uint64_t number_at(const uint8_t *bytes, size_t length)
{
    uint64_t n = 0;
    while (length-- > 0) n = n << 8 | bytes[length];
    return n;
}

/* A little-endian u64, written. */
static void put_at(uint8_t *bytes, uint64_t n)
{
    for (size_t i = 0; i < 8; i++) bytes[i] = (uint8_t)(n >> 8 * i);
}

/* One access by the supervisor, printed. */
static void access_to(uint64_t vaddr, uint8_t kind)
{
    uint8_t told[20];
    uint32_t refusal = muntesulca_translate(state, sizeof state, vaddr, kind, 1, ram, sizeof ram, told, sizeof told);
    if (refusal) {
        printf("%016llx refused %u\n", (unsigned long long)vaddr, (unsigned)refusal);
        return;
    }
    printf("%016llx cause %u address %016llx words %u stall %u\n", (unsigned long long)vaddr, (unsigned)number_at(told, 4),
           (unsigned long long)number_at(told + 4, 8), (unsigned)number_at(told + 12, 4), (unsigned)number_at(told + 16, 4));
}

/* An Sv39 board: the root in frame 1, whose last entry is a gigapage at 8 TiB, to be read and written by the supervisor. */
static int board(void)
{
    if (muntesulca_new(config, sizeof config, state, sizeof state)) return 1;
    if (muntesulca_set_scheme(state, sizeof state, sv39, sizeof sv39)) return 1;
    put_at(ram + 0x1ff8, UINT64_C(0x80000000) << 10 | 7);
    put_at(state + 16, muntesulca_make_satp39(0x1000, 0x1234));
    state[6] = 5;
    access_to(UINT64_C(0xffffffffc0001234), 1);
    access_to(UINT64_C(0xfffffffff0005678), 1);
    access_to(UINT64_C(0xffffffffc0001234), 2);
    access_to(UINT64_C(0x7fc0001234), 1);
    put_at(state + 16, UINT64_C(9) << 60 | 1);
    access_to(UINT64_C(0xffffffffc0001234), 1);
    printf("the entry: %016llx\n", (unsigned long long)number_at(ram + 0x1ff8, 8));
    return 0;
}

int main(int argc, char **argv)
{
    FILE *in = argc == 2 ? fopen(argv[1], "rb") : NULL;
    if (!in) {
        fprintf(stderr, "host FILE.bundle\n");
        return 2;
    }
    size_t length = fread(file, 1, sizeof file, in);
    fclose(in);

    size_t text = muntesulca_run_state(file, length, ram, sizeof ram, out, sizeof out, state, sizeof state);
    if (text == SIZE_MAX) return 1;
    printf("the run:\n%.*s", (int)text, (char *)out);

    /* the same RAM and state again: what the run cached is still there */
    text = muntesulca_records(state, sizeof state, more, sizeof more, ram, sizeof ram, out, sizeof out);
    if (text == SIZE_MAX) return 1;
    printf("more records:\n%.*s", (int)text, (char *)out);
    printf("misses in the state: %llu\n", (unsigned long long)number_at(state + 60, 8));

    printf("root of 64 KiB: %llx\n", (unsigned long long)muntesulca_root_pa(sv32, sizeof sv32, 65536));
    printf("Sv39:\n");
    return board();
}
