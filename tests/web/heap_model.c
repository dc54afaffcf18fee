/* Calls of web/heap.c by chance, against a model: each block that is in use is filled with a
 * pattern of its own, which has to be there whenever it is looked at. */
#include <stdio.h>
#include <stdlib.h>
#include <string.h>
#include <sys/mman.h>

#define BLOCKS 400
#define ROOM (1UL << 28)

typedef unsigned long word;
struct found {
    word is_there, at;
};
struct found rattle_alloc(word size, word align);
struct found rattle_realloc(void *place, word old, word size, word align);
void rattle_dealloc(void *place);
word reserve(word size);
void release(word place);
__int128 test_multiply(__int128 a, __int128 b);
unsigned __int128 test_divide(unsigned __int128 a, unsigned __int128 b);
unsigned __int128 test_left(unsigned __int128 a, int bits);
unsigned __int128 test_right(unsigned __int128 a, int bits);

word test_base, test_limit;
static word most;

int test_grow(word pages) {
    if (test_limit + pages * 4096 > most)
        return 0;
    test_limit += pages * 4096;
    return 1;
}

static struct block {
    unsigned char *at;
    word size;
    unsigned char pattern;
} blocks[BLOCKS];

static word state = 88172645463325252UL;

static word draw(void) {
    state ^= state << 13;
    state ^= state >> 7;
    state ^= state << 17;
    return state;
}

static word size_drawn(void) {
    word kind = draw() % 16;
    return kind == 0 ? 0 : kind < 12 ? draw() % 300 : kind < 15 ? draw() % 20000 : draw() % 900000;
}

static void fail(const char *what) {
    printf("heap: %s\n", what);
    exit(1);
}

static void look(struct block *block, word size) {
    for (word i = 0; i < size; i++)
        if (block->at[i] != block->pattern)
            fail("a block has other bytes than were written");
}

static void fill(struct block *block, struct found found, word size) {
    if (found.at % 16)
        fail("a block is not aligned");
    if (found.at < test_base || found.at + size > test_limit)
        fail("a block is outside of the memory");
    block->at = (unsigned char *)found.at;
    block->size = size;
    block->pattern = draw();
    memset(block->at, block->pattern, size);
}

/* Calls by chance; how many found no memory. */
static word calls(word count) {
    word refused = 0;
    for (word call = 0; call < count; call++) {
        struct block *block = &blocks[draw() % BLOCKS];
        word size = size_drawn();
        if (!block->at) {
            struct found found = rattle_alloc(size, 1UL << draw() % 5);
            if (found.is_there)
                fill(block, found, size);
            else
                refused++;
        } else if (draw() % 3) {
            look(block, block->size);
            struct found found = rattle_realloc(block->at, block->size, size, 8);
            if (!found.is_there) {
                refused++;
                look(block, block->size);
                continue;
            }
            block->at = (unsigned char *)found.at;
            look(block, size < block->size ? size : block->size);
            fill(block, found, size);
        } else {
            look(block, block->size);
            rattle_dealloc(block->at);
            block->at = 0;
        }
    }
    return refused;
}

static void arithmetic(void) {
    for (int i = 0; i < 1000000; i++) {
        word parts[4];
        for (int part = 0; part < 4; part++)
            parts[part] = draw() % 3 ? draw() : draw() % 4 - 2;
        __int128 a = (__int128)(((unsigned __int128)parts[0] << 64) | parts[1]);
        __int128 b = (__int128)(((unsigned __int128)parts[2] << 64) | parts[3]);
        if (test_multiply(a, b) != (__int128)((unsigned __int128)a * (unsigned __int128)b))
            fail("a product is wrong");
        unsigned __int128 from = (unsigned __int128)a >> draw() % 128;
        unsigned __int128 by = (unsigned __int128)b >> draw() % 128;
        if (by && test_divide(from, by) != from / by)
            fail("a quotient is wrong");
        int bits = draw() % 128;
        if (test_left(a, bits) != (unsigned __int128)a << bits)
            fail("a shift to the left is wrong");
        if (test_right(a, bits) != (unsigned __int128)a >> bits)
            fail("a shift to the right is wrong");
    }
}

int main(void) {
    void *memory = mmap(0, ROOM, PROT_READ | PROT_WRITE, MAP_PRIVATE | MAP_ANONYMOUS | MAP_NORESERVE,
                        -1, 0);
    if (memory == MAP_FAILED)
        fail("no memory for the test");
    test_base = (word)memory + 40;
    test_limit = (word)memory + 8192;
    most = test_limit + (1UL << 25);
    /* With room for the largest blocks of few at a time: some calls find no memory. */
    word refused = calls(400000);
    if (!refused)
        fail("memory never ran out");
    most = (word)memory + ROOM;
    calls(400000);
    if (rattle_alloc(1UL << 60, 1).is_there || rattle_alloc(~0UL, 1).is_there)
        fail("there is memory for too large a block");
    if (rattle_alloc(64, 32).is_there)
        fail("there is a block with a larger alignment");
    word place = reserve(100);
    release(place);
    if (reserve(100) != place)
        fail("a block that was given back is not used again");
    arithmetic();
    printf("heap: 800000 calls, %lu without memory, 1000000 products, quotients and shifts\n", refused);
    return 0;
}
