"""A library that is put before a program's own, so that one growth of memory, or one call on a file, is refused."""
import os
import subprocess

SOURCE = r"""
#define _GNU_SOURCE
#include <dlfcn.h>
#include <errno.h>
#include <stdlib.h>
#include <unistd.h>
#define NEXT(name) __typeof__(name) *next = (__typeof__(name) *)dlsym(RTLD_NEXT, #name)
static long count;
static int refused(void) {
  char *nth = getenv("REFUSE");
  if (!nth || __atomic_add_fetch(&count, 1, __ATOMIC_RELAXED) != atol(nth)) return 0;
  NEXT(write);
  next(2, "[refused]\n", 10);
  return 1;
}
#ifdef MEMORY
void *malloc(size_t n) { NEXT(malloc); return refused() ? (errno = ENOMEM, NULL) : next(n); }
void *realloc(void *p, size_t n) { NEXT(realloc); return refused() ? (errno = ENOMEM, NULL) : next(p, n); }
void *aligned_alloc(size_t a, size_t n) { NEXT(aligned_alloc); return refused() ? (errno = ENOMEM, NULL) : next(a, n); }
int posix_memalign(void **p, size_t a, size_t n) { NEXT(posix_memalign); return refused() ? ENOMEM : next(p, a, n); }
#else
static int fails(int file) { return 2 < file && refused() ? (errno = EIO, 1) : 0; }
ssize_t write(int f, const void *b, size_t n) {
  NEXT(write);
  if (!fails(f)) return next(f, b, n);
  if (getenv("HALF") && 1 < n) next(f, b, n / 2);
  errno = EIO;
  return -1;
}
ssize_t read(int f, void *b, size_t n) { NEXT(read); return fails(f) ? -1 : next(f, b, n); }
off_t lseek(int f, off_t o, int w) { NEXT(lseek); return fails(f) ? -1 : next(f, o, w); }
off_t lseek64(int f, off_t o, int w) { return lseek(f, o, w); }
int fdatasync(int f) { NEXT(fdatasync); return fails(f) ? -1 : next(f); }
#endif
"""

# What it writes to the error stream where it refuses.
SAID = b"[refused]\n"


def build(room, name, *flags):
    """The library's path. With `-DMEMORY` growths are refused, and else calls on files."""
    source, library = os.path.join(room, "shim.c"), os.path.join(room, name + ".so")
    with open(source, "w", encoding="utf-8") as file:
        file.write(SOURCE)
    subprocess.run(["gcc", "-O1", "-shared", "-fPIC", *flags, "-o", library, source, "-ldl"], check=True)
    return library


def refusing(library, nth, **more):
    """The environment in which the nth growth, or call on a file, is refused, counted from 1."""
    return dict(os.environ, LD_PRELOAD=library, REFUSE=str(nth), **more)
