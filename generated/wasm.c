/* What the modules of WebAssembly ask of a system: memory, in blocks of powers of two, of which each that
 * is given back is used again; and products, quotients and shifts of 128 bits. Licence: MIT (LICENSE). */
typedef unsigned long long number;
typedef unsigned __int128 wide;

extern unsigned char __heap_base;

/* A block's header: the power of two that it is, header and all; where it is free the next free one. */
struct block {
    number power;
    struct block *next;
};

struct tried {
    number is_there;
    void *start;
};

enum { LEAST = 5, MOST = 48, PAGE = 65536 };
static struct block *free_blocks[MOST];
static number end, room;
static char nothing;

/* A new block behind all others, where the memory may grow so far. */
static struct block *grown(number power)
{
    number size = 1ull << power;
    struct block *block;

    if (end == 0) {
        end = ((number)&__heap_base + 15) & ~15ull;
        room = __builtin_wasm_memory_size(0) * PAGE;
    }
    if (room - end < size) {
        number pages = (size - (room - end) + PAGE - 1) / PAGE;
        /* The answer where it may not has as many bits as addresses: 64, or in the end 32. */
        if (pages > PAGE || (unsigned)__builtin_wasm_memory_grow(0, pages) == (unsigned)-1)
            return 0;
        room += pages * PAGE;
    }
    block = (struct block *)end;
    end += size;
    block->power = power;
    return block;
}

struct tried rattle_alloc(number size, number alignment);
struct tried rattle_realloc(void *start, number kept, number size, number alignment);
void rattle_dealloc(void *start);
void *hidreport_answer_room(void);
wide __multi3(wide left, wide right);
wide __udivti3(wide left, wide right);
wide __ashlti3(wide left, int bits);
wide __lshrti3(wide left, int bits);

/* Memory for `size` bytes, if there is any: where there is none, `start` owns nothing. */
struct tried rattle_alloc(number size, number alignment)
{
    number power = LEAST;
    struct block *block;

    (void)alignment; /* at most 16, as headers are and blocks are */
    while (power < MOST && (1ull << power) - sizeof(struct block) < size)
        power++;
    if (power == MOST)
        return (struct tried){0, &nothing};
    block = free_blocks[power];
    if (block)
        free_blocks[power] = block->next;
    else
        block = grown(power);
    return block ? (struct tried){1, block + 1} : (struct tried){0, &nothing};
}

/* Gives it back. */
void rattle_dealloc(void *start)
{
    struct block *block = (struct block *)start - 1;

    if (!start)
        return;
    block->next = free_blocks[block->power];
    free_blocks[block->power] = block;
}

/* The same with `size` bytes, of which the first `kept` are as they were; it may move. */
struct tried rattle_realloc(void *start, number kept, number size, number alignment)
{
    struct tried tried;

    if (!start)
        return rattle_alloc(size, alignment);
    if ((1ull << ((struct block *)start - 1)->power) - sizeof(struct block) >= size)
        return (struct tried){1, start};
    tried = rattle_alloc(size, alignment);
    if (tried.is_there) {
        __builtin_memcpy(tried.start, start, kept);
        rattle_dealloc(start);
    }
    return tried;
}

/* The product of two numbers of 128 bits, by halves of 32. */
wide __multi3(wide left, wide right)
{
    number a = (number)left, b = (number)right;
    number low = (a & 0xffffffff) * (b & 0xffffffff);
    number middle = (a >> 32) * (b & 0xffffffff) + (low >> 32);
    number other = (a & 0xffffffff) * (b >> 32) + (middle & 0xffffffff);
    number high = (a >> 32) * (b >> 32) + (middle >> 32) + (other >> 32);

    high += a * (number)(right >> 64) + (number)(left >> 64) * b;
    return (wide)high << 64 | (other << 32 | (low & 0xffffffff));
}

/* A number moved up, and down, by less than 128 bits. */
wide __ashlti3(wide left, int bits)
{
    number low = (number)left, high = (number)(left >> 64);

    if (bits == 0)
        return left;
    if (bits >= 64)
        return (wide)(low << (bits - 64)) << 64;
    return (wide)(high << bits | low >> (64 - bits)) << 64 | low << bits;
}

wide __lshrti3(wide left, int bits)
{
    number low = (number)left, high = (number)(left >> 64);

    if (bits == 0)
        return left;
    if (bits >= 64)
        return high >> (bits - 64);
    return (wide)(high >> bits) << 64 | (low >> bits | high << (64 - bits));
}

/* Their quotient, bit by bit from the highest. */
wide __udivti3(wide left, wide right)
{
    wide quotient = 0, rest = 0;

    for (int bit = 0; bit < 128; bit++) {
        rest = rest << 1 | left >> 127;
        left <<= 1;
        quotient <<= 1;
        if (rest >= right) {
            rest -= right;
            quotient |= 1;
        }
    }
    return quotient;
}

/* Room for a struct that a call answers. */
void *hidreport_answer_room(void)
{
    static number answer[4];
    return answer;
}
