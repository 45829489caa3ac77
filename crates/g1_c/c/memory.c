/* The memory of the library for C: the three foreign functions that its proved code calls, over
 * malloc, realloc and free. No proof covers them: docs/guarantees.md, What is trusted, says what
 * each has to do.
 *
 * scripts/built compiles this file into the archive of each target, by the toolchain's clang. That
 * has no headers of C beside it, so what they would declare stands here. */

typedef __SIZE_TYPE__ size_t;

void *malloc(size_t size);
void *realloc(void *block, size_t size);
void free(void *block);

/* What a growth returns: whether there was memory, and the block. Without memory the pointer is one
 * that is not null, and owns nothing. */
struct tried {
    _Bool ok;
    void *block;
};

static unsigned char nothing;

static struct tried tried(void *block) {
    return (struct tried){block != 0, block ? block : &nothing};
}

/* malloc may answer 0 bytes with null, which is no refusal: so the alignment, at least 1, is asked
 * for in their place. */
struct tried rattle_alloc(size_t size, size_t alignment) {
    return tried(malloc(size ? size : alignment));
}

/* realloc keeps what both sizes hold, so it need not be told how many bytes are to be kept. */
struct tried rattle_realloc(void *block, size_t kept, size_t size, size_t alignment) {
    (void)kept;
    return tried(realloc(block, size ? size : alignment));
}

void rattle_dealloc(void *block) {
    free(block);
}
