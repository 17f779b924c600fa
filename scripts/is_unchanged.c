/* Whether nothing of a list has changed since it was written: scripts/program.sh makes this where there is a C compiler, since find
   takes twice as long for the same. It is given the folder in which the names of the list stand, and the list, in which a zero ends
   each name. It ends with 100 if the file system changed each of them last before the list was written, and not after now; otherwise
   with 101, also where it can't tell. Another status is none of its own, and no answer. */
#define _POSIX_C_SOURCE 200809L
#include <fcntl.h>
#include <stdlib.h>
#include <string.h>
#include <sys/stat.h>
#include <time.h>
#include <unistd.h>

enum { UNCHANGED = 100, CHANGED = 101 };

static int is_later(struct timespec one, struct timespec other) {
    return one.tv_sec != other.tv_sec ? one.tv_sec > other.tv_sec : one.tv_nsec > other.tv_nsec;
}

/* The list, with its size and its time; or NULL. */
static char *read_list(const char *path, struct stat *told) {
    int file = open(path, O_RDONLY);
    char *list = file >= 0 && fstat(file, told) == 0 ? malloc((size_t)told->st_size + 1) : NULL;
    size_t size = list ? (size_t)told->st_size : 0, had = 0;
    ssize_t count = 1;
    while (had < size && count > 0) {
        count = read(file, list + had, size - had);
        had += count > 0 ? (size_t)count : 0;
    }
    return had > 0 && had == size && list[size - 1] == '\0' ? list : NULL;
}

int main(int count, char **words) {
    struct stat told, found;
    struct timespec now;
    char *list = count == 3 ? read_list(words[2], &told) : NULL;
    if (!list || chdir(words[1]) != 0 || clock_gettime(CLOCK_REALTIME, &now) != 0) return CHANGED;
    for (char *name = list; name < list + told.st_size; name += strlen(name) + 1) {
        if (lstat(name, &found) != 0 || is_later(found.st_ctim, told.st_mtim) || is_later(found.st_ctim, now)) return CHANGED;
    }
    return UNCHANGED;
}
