"""A library in front of the system's own that lets one call of a program go wrong: a request for memory is refused, a
read or a write is cut to half of its bytes. `cc` builds it."""

import os
import subprocess
from typing import Dict, NamedTuple

# FAULT names the call, FAULT_AT says which of its calls goes wrong, and FAULT_ALL that all behind it do as well. A file named
# by FAULT_MARK is made when it has come to that.
SOURCE = """
#define _GNU_SOURCE
#include <dlfcn.h>
#include <fcntl.h>
#include <stdlib.h>
#include <string.h>
#include <unistd.h>

static const char *call;
static long at, count;

static int goes_wrong(const char *name) {
    if (!call) {
        call = getenv("FAULT") ? getenv("FAULT") : "";
        at = getenv("FAULT_AT") ? atol(getenv("FAULT_AT")) : 0;
    }
    if (strcmp(call, name) != 0)
        return 0;
    long now = __sync_add_and_fetch(&count, 1);
    if (now < at || (now > at && !getenv("FAULT_ALL")))
        return 0;
    const char *mark = getenv("FAULT_MARK");
    if (mark && now == at)
        close(open(mark, O_CREAT | O_WRONLY, 0600));
    return 1;
}

#define NEXT(name) ((__typeof__(&name))dlsym(RTLD_NEXT, #name))
#define SOME(name, size) (size > 1 && goes_wrong(#name) ? size / 2 : size)

void *malloc(size_t size) { return goes_wrong("malloc") ? NULL : NEXT(malloc)(size); }
void *realloc(void *old, size_t size) { return goes_wrong("malloc") ? NULL : NEXT(realloc)(old, size); }
ssize_t read(int fd, void *to, size_t size) { return NEXT(read)(fd, to, SOME(read, size)); }
ssize_t write(int fd, const void *of, size_t size) { return NEXT(write)(fd, of, SOME(write, size)); }
ssize_t pread(int fd, void *to, size_t size, off_t from) { return NEXT(pread)(fd, to, SOME(pread, size), from); }
ssize_t pwrite(int fd, const void *of, size_t size, off_t from) { return NEXT(pwrite)(fd, of, SOME(pwrite, size), from); }
"""


class Shim(NamedTuple):
    """The path of the library, and the program that it stands before."""

    library: str
    program: str

    def environment(self, call: str, at: int, mark: str, is_for_all: bool = False) -> Dict[str, str]:
        """An environment in which the call of this number goes wrong, or all from there on."""
        more = {"FAULT_ALL": "1"} if is_for_all else {}
        fault = {"LD_PRELOAD": self.library, "FAULT": call, "FAULT_AT": str(at), "FAULT_MARK": mark}
        return {**os.environ, **fault, **more}


def built(folder: str) -> str:
    """The path of the library, built in this folder."""
    with open(f"{folder}/shim.c", "w", encoding="utf-8") as source:
        source.write(SOURCE)
    words = ["cc", "-O1", "-fno-builtin", "-shared", "-fPIC", "-o", f"{folder}/shim.so", f"{folder}/shim.c", "-ldl"]
    subprocess.run(words, check=True)
    return f"{folder}/shim.so"


def has_come(mark: str) -> bool:
    """Whether it has come to the call that goes wrong; the mark is taken away."""
    if not os.path.exists(mark):
        return False
    os.remove(mark)
    return True
