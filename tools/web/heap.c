/* The heap of the WebAssembly module, and the call that a host makes.

   Blocks come in classes of sizes, four of them for each doubling, from a memory that only grows. A freed
   block goes to the list of its class, but for the last one, which is given back; neighbours are never merged.
   A host makes a new instance for each question, so that nothing is left over. */
typedef unsigned long size_t;
typedef unsigned char byte;

extern byte __heap_base;

#define EXPORT(name) __attribute__((export_name(#name)))
#define PAGE 65536ul
#define AHEAD 64ul /* pages that are taken at a time, where there are so many */
#define HEAD 16ul  /* before each block: its class, and what keeps blocks aligned to 16 bytes */
#define CLASSES 256
#define MOST (1ul << 32) /* bytes of a memory of 32 bits, of which no size and no place may lose a bit */

static size_t top, end;    /* what is taken of the memory, and what there is */
static size_t most = MOST; /* the bytes that the memory may have */
static void *freed[CLASSES];

static size_t class_of(size_t size) {
    if (size <= 128) {
        return size <= 16 ? 0 : (size + 15) / 16 - 1;
    }
    size_t doubling = 63 - __builtin_clzl(size - 1);
    return 8 + (doubling - 7) * 4 + ((size - 1) >> (doubling - 2) & 3);
}

static size_t room_of(size_t class) {
    if (class < 8) {
        return (class + 1) * 16;
    }
    return (5 + (class - 8) % 4) << ((class - 8) / 4 + 5);
}

static _Bool grown(size_t pages) {
    if (pages > (most < end ? 0 : most - end) / PAGE || __builtin_wasm_memory_grow(0, pages) == ~0ul) {
        return 0;
    }
    end += pages * PAGE;
    return 1;
}

static byte *fresh(size_t size) {
    if (top == 0) {
        top = ((size_t)&__heap_base + 15) & ~15ul;
        end = __builtin_wasm_memory_size(0) * PAGE;
    }
    if (size > end - top) {
        size_t pages = (size - (end - top) + PAGE - 1) / PAGE;
        if (!(pages < AHEAD && grown(AHEAD)) && !grown(pages)) {
            return 0;
        }
    }
    byte *block = (byte *)top;
    top += size;
    return block;
}

static void *take(size_t size) {
    if (size > MOST) {
        return 0;
    }
    size_t class = class_of(size);
    void *block = freed[class];
    if (block) {
        freed[class] = *(void **)block;
        return block;
    }
    byte *made = fresh(HEAD + room_of(class));
    if (!made) {
        return 0;
    }
    *(size_t *)made = class;
    return made + HEAD;
}

static size_t *class_at(void *block) { return (size_t *)((byte *)block - HEAD); }

static _Bool is_last(void *block) { return (size_t)block + room_of(*class_at(block)) == top; }

static void give_back(void *block) {
    if (is_last(block)) {
        top = (size_t)block - HEAD;
        return;
    }
    *(void **)block = freed[*class_at(block)];
    freed[*class_at(block)] = block;
}

static void *retake(void *block, size_t size) {
    size_t room = room_of(*class_at(block));
    if (size <= room && size >= room / 4) {
        return block;
    }
    if (size > room && size <= MOST && is_last(block) && fresh(room_of(class_of(size)) - room)) {
        *class_at(block) = class_of(size);
        return block;
    }
    void *made = take(size);
    if (made) {
        __builtin_memcpy(made, block, size < room ? size : room);
        give_back(block);
    }
    return made;
}

/* What the toolchain's own heap gives, of which it has the object for x86-64 alone. */
struct taken {
    size_t is_there;
    void *block;
};

static byte nothing[16] __attribute__((aligned(16)));

static struct taken taken(void *block) { return (struct taken){block != 0, block ? block : nothing}; }

struct taken rattle_alloc(size_t size, size_t alignment) { return taken(take(size ? size : alignment)); }

struct taken rattle_realloc(void *block, size_t kept, size_t size, size_t alignment) {
    (void)kept;
    return taken(retake(block, size ? size : alignment));
}

void rattle_dealloc(void *block) { give_back(block); }

/* For the host: a block, 0 where there is none; a limit of the memory, before anything else; its size; and
   the question, as ratest.h has it. */
long ratest_ask(const byte *request, size_t request_size, byte *reply, size_t reply_size);

EXPORT(room) void *host_room(size_t size) { return take(size); }

EXPORT(limit) void host_limit(size_t bytes) { most = bytes < MOST ? bytes : MOST; }

EXPORT(size) size_t host_size(void) { return __builtin_wasm_memory_size(0) * PAGE; }

EXPORT(ask) long host_ask(const byte *request, size_t request_size, byte *reply, size_t reply_size) {
    return ratest_ask(request, request_size, reply, reply_size);
}
