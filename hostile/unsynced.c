// Loaded into a program by LD_PRELOAD, so that one in so many calls of `fdatasync`, by chance, does nothing and says that all is on the disk.
// The variable UNSYNCED says in how many; 1 means each.

#define _GNU_SOURCE
#include <dlfcn.h>
#include <stdlib.h>
#include <unistd.h>

int fdatasync(int fd) {
    static int (*real)(int);
    const char *every = getenv("UNSYNCED");
    if (!real) {
        real = (int (*)(int))dlsym(RTLD_NEXT, "fdatasync");
        srandom(getpid());
    }
    return random() % (every ? atoi(every) : 1) ? real(fd) : 0;
}
