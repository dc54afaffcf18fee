/* The heap of the library in a web page, and its arithmetic of 128 bits.
 *
 * The library calls rattle_alloc, rattle_realloc and rattle_dealloc where it would call malloc,
 * realloc and free: the first two answer whether there is memory, and where. A block has a size of
 * a power of two, and begins with 16 bytes that say which one. Blocks that are free are in a list
 * for each size. tests/web/heap tests this file against a model; nothing of it is proved.
 */
typedef unsigned long word;
typedef unsigned __int128 wide;

struct found {
    word is_there, at;
};

#ifdef __wasm__
extern unsigned char __heap_base;
#define BASE ((word)&__heap_base)
#define PAGE 65536UL
static word limit(void) { return __builtin_wasm_memory_size(0) * PAGE; }
static int grow(word pages) { return __builtin_wasm_memory_grow(0, pages) != (word)-1; }
#else
/* For the test: memory that grows as that of a page does. */
extern word test_base, test_limit;
#define BASE test_base
#define PAGE 4096UL
static word limit(void) { return test_limit; }
extern int test_grow(word pages);
static int grow(word pages) { return test_grow(pages); }
#endif

#define HEAD 16UL
#define LEAST 5
/* No block of 2^47 bytes or more: no memory is so large. */
#define MOST 47

static word top, lists[MOST];

/* The power of two of a block with room for a size; MOST where there is none. */
static word power_of(word size) {
    word power = LEAST;
    while (power < MOST && ((word)1 << power) - HEAD < size)
        power++;
    return power;
}

/* A block, from its list or from above all blocks; 0 where there is no memory. */
static word take(word size) {
    word power = power_of(size), at;
    if (power == MOST)
        return 0;
    at = lists[power];
    if (at) {
        lists[power] = *(word *)(at + 8);
        return at + HEAD;
    }
    if (!top)
        top = (BASE + 15) & ~15UL;
    at = top;
    word end = at + ((word)1 << power), have = limit();
    if (end > have && !grow((end - have + PAGE - 1) / PAGE))
        return 0;
    top = end;
    *(word *)at = power;
    return at + HEAD;
}

static void copy(unsigned char *to, const unsigned char *from, word size) {
    __builtin_memcpy(to, from, size);
}

struct found rattle_alloc(word size, word align) {
    word at = take(size);
    /* Blocks are aligned to 16 bytes, and no caller asks for more. */
    struct found found = {at != 0 && align <= HEAD, at ? at : 1};
    return found;
}

void rattle_dealloc(void *place) {
    word at = (word)place - HEAD, power = *(word *)at;
    *(word *)(at + 8) = lists[power];
    lists[power] = at;
}

struct found rattle_realloc(void *place, word old, word size, word align) {
    word power = *(word *)((word)place - HEAD);
    struct found found = {1, (word)place};
    if (((word)1 << power) - HEAD >= size)
        return found;
    found = rattle_alloc(size, align);
    if (found.is_there) {
        copy((unsigned char *)found.at, place, old < size ? old : size);
        rattle_dealloc(place);
    }
    return found;
}

/* For the page: memory for a size, 0 where there is none, and giving it back. */
word reserve(word size) {
    struct found found = rattle_alloc(size, 1);
    return found.is_there ? found.at : 0;
}

void release(word place) { rattle_dealloc((void *)place); }

/* The product of two words. */
static wide times(word a, word b) {
    word a0 = (unsigned)a, a1 = a >> 32, b0 = (unsigned)b, b1 = b >> 32;
    word p0 = a0 * b0, p1 = a0 * b1, p2 = a1 * b0, p3 = a1 * b1;
    word middle = (p0 >> 32) + (unsigned)p1 + (unsigned)p2;
    word low = (middle << 32) | (unsigned)p0;
    word high = p3 + (p1 >> 32) + (p2 >> 32) + (middle >> 32);
    return ((wide)high << 64) | low;
}

#ifdef __wasm__
#define MULTIPLY __multi3
#define DIVIDE __udivti3
#define SHIFT_LEFT __ashlti3
#define SHIFT_RIGHT __lshrti3
#else
#define MULTIPLY test_multiply
#define DIVIDE test_divide
#define SHIFT_LEFT test_left
#define SHIFT_RIGHT test_right
#endif

/* The product of two numbers of 128 bits, as far as it has room in one: what the compiler calls. */
__int128 MULTIPLY(__int128 a, __int128 b) {
    word a0 = (word)a, a1 = (word)((wide)a >> 64), b0 = (word)b, b1 = (word)((wide)b >> 64);
    wide low = times(a0, b0);
    word high = (word)(low >> 64) + a0 * b1 + a1 * b0;
    return (__int128)(((wide)high << 64) | (word)low);
}

static wide of_words(word high, word low) { return ((wide)high << 64) | low; }

/* A number of 128 bits, moved by 0 to 127 bits. */
wide SHIFT_LEFT(wide a, int bits) {
    word low = (word)a, high = (word)(a >> 64);
    if (bits == 0)
        return a;
    if (bits >= 64)
        return of_words(low << (bits - 64), 0);
    return of_words((high << bits) | (low >> (64 - bits)), low << bits);
}

wide SHIFT_RIGHT(wide a, int bits) {
    word low = (word)a, high = (word)(a >> 64);
    if (bits == 0)
        return a;
    if (bits >= 64)
        return of_words(0, high >> (bits - 64));
    return of_words(high >> bits, (low >> bits) | (high << (64 - bits)));
}

/* The quotient of two numbers of 128 bits, bit by bit from the highest. The second is not 0. */
wide DIVIDE(wide a, wide b) {
    wide quotient = 0, rest = 0;
    for (int bit = 127; bit >= 0; bit--) {
        int carry = (int)(rest >> 127);
        rest = (rest << 1) | ((a >> bit) & 1);
        if (carry || rest >= b) {
            rest -= b;
            quotient |= (wide)1 << bit;
        }
    }
    return quotient;
}
