"""A small library that refuses the program memory, and counts what it holds. `cc` makes it, and it is loaded before the program.

What the program asks the C library for is counted in a page of memory that a check shares with it. There the check says, at any time, which of
the calls to come is refused, or that all of one size are.
"""

import mmap
import os
import pathlib
import struct
import subprocess
import tempfile

LIBRARY = r"""
#include <errno.h>
#include <fcntl.h>
#include <malloc.h>
#include <stddef.h>
#include <stdlib.h>
#include <sys/mman.h>
#include <unistd.h>

extern void *__libc_malloc(size_t);
extern void *__libc_calloc(size_t, size_t);
extern void *__libc_realloc(void *, size_t);
extern void *__libc_memalign(size_t, size_t);
extern void __libc_free(void *);

struct page { long calls, refused, hits, size, blocks, bytes; };
static struct page own, *page = &own;

static void add(long *count, long by) {
    __atomic_add_fetch(count, by, __ATOMIC_SEQ_CST);
}

static int refuses(size_t size) {
    long number = __atomic_add_fetch(&page->calls, 1, __ATOMIC_SEQ_CST);
    if (number != page->refused && (page->size == 0 || size != (size_t)page->size)) return 0;
    add(&page->hits, 1);
    errno = ENOMEM;
    return 1;
}

static void *held(void *block) {
    if (block) { add(&page->blocks, 1); add(&page->bytes, malloc_usable_size(block)); }
    return block;
}

static void let_go(void *block) {
    if (block) { add(&page->blocks, -1); add(&page->bytes, -(long)malloc_usable_size(block)); }
}

void *malloc(size_t size) {
    return refuses(size) ? NULL : held(__libc_malloc(size));
}

void *calloc(size_t count, size_t size) {
    return refuses(count * size) ? NULL : held(__libc_calloc(count, size));
}

void *realloc(void *block, size_t size) {
    if (refuses(size)) return NULL;
    long before = block ? (long)malloc_usable_size(block) : 0;
    void *made = __libc_realloc(block, size);
    if (made) { add(&page->blocks, block ? 0 : 1); add(&page->bytes, (long)malloc_usable_size(made) - before); }
    return made;
}

void *aligned_alloc(size_t align, size_t size) {
    return refuses(size) ? NULL : held(__libc_memalign(align, size));
}

int posix_memalign(void **block, size_t align, size_t size) {
    void *made = refuses(size) ? NULL : held(__libc_memalign(align, size));
    if (!made) return ENOMEM;
    *block = made;
    return 0;
}

void free(void *block) {
    let_go(block);
    __libc_free(block);
}

__attribute__((constructor)) static void begin(void) {
    const char *path = getenv("REFUSING_PAGE");
    int file = path ? open(path, O_RDWR) : -1;
    void *place = file < 0 ? MAP_FAILED : mmap(NULL, sizeof own, PROT_READ | PROT_WRITE, MAP_SHARED, file, 0);
    if (file >= 0) close(file);
    if (place != MAP_FAILED) page = place;
}
"""
FIELDS = ("calls", "refused", "hits", "size", "blocks", "bytes")
LONG = struct.calcsize("l")


class Page:
    """The counts of one run of the program, and what it is refused."""

    def __init__(self, library, folder, refused=0):
        file, path = tempfile.mkstemp(dir=folder)
        os.write(file, bytes(len(FIELDS) * LONG))
        self.memory = mmap.mmap(file, len(FIELDS) * LONG)
        os.close(file)
        self.environment = {"LD_PRELOAD": library, "REFUSING_PAGE": path}
        self.path = path
        self.set("refused", refused)

    def get(self, field):
        return struct.unpack_from("l", self.memory, FIELDS.index(field) * LONG)[0]

    def set(self, field, number):
        struct.pack_into("l", self.memory, FIELDS.index(field) * LONG, number)

    def refuse(self, ahead):
        """Refuses one call to come: the next one by 1, and so on."""
        self.set("hits", 0)
        self.set("refused", self.get("calls") + ahead)

    def was_hit(self):
        """Whether a call has been refused since then. From now on none is."""
        self.set("refused", 0)
        return self.get("hits") > 0

    def close(self):
        self.memory.close()
        os.unlink(self.path)


class Library:
    """The library, in a folder of its own."""

    def __enter__(self):
        self.folder = tempfile.TemporaryDirectory()
        self.path = str(pathlib.Path(self.folder.name, "refusing.so"))
        subprocess.run(["cc", "-shared", "-fPIC", "-O1", "-x", "c", "-", "-o", self.path], input=LIBRARY.encode(), check=True)
        return self

    def __exit__(self, *_):
        self.folder.cleanup()

    def page(self, refused=0):
        return Page(self.path, self.folder.name, refused)
