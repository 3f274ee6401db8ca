/* Changes one file at random, and compares it with a copy in memory.
 *
 *     exercise FILE COUNT SEED
 *
 * Each of COUNT steps is one of these, as SEED has it: a read, a write, a change of the size, a read or a write of mapped pages,
 * a close and an open, a look at the size. The exit status is 0 where all were as the copy is, and 1 at the first difference.
 */
#define _GNU_SOURCE
#include <fcntl.h>
#include <stdio.h>
#include <stdlib.h>
#include <string.h>
#include <sys/mman.h>
#include <sys/stat.h>
#include <unistd.h>

enum { MOST = 512 * 1024, PART = 64 * 1024, PAGE = 4096 };

static unsigned char copy[MOST], got[PART];
static long size, step;
static int file;
static const char *path;

static void fail(const char *what)
{
    fprintf(stderr, "step %ld: %s: %m\n", step, what);
    exit(1);
}

static void check(int is_right, const char *what)
{
    if (!is_right)
        fail(what);
}

static long least(long a, long b)
{
    return a < b ? a : b;
}

/* The bytes behind the end are zeros up to the new one. */
static void grow_copy(long to)
{
    if (to > size)
        memset(copy + size, 0, to - size);
}

static void write_part(long at, long count)
{
    grow_copy(at);
    for (long i = 0; i < count; i++)
        copy[at + i] = random();
    check(pwrite(file, copy + at, count, at) == count, "write");
    if (at + count > size)
        size = at + count;
}

static void read_part(long at, long count)
{
    long want = at >= size ? 0 : least(count, size - at);
    check(pread(file, got, count, at) == want, "count of a read");
    check(memcmp(got, copy + at, want) == 0, "bytes of a read");
}

static void set_size(long to)
{
    check(ftruncate(file, to) == 0, "size");
    grow_copy(to);
    size = to;
}

/* Compares mapped pages with the copy, or writes some of their bytes. */
static void map_part(int is_write)
{
    if (size == 0)
        return;
    long at = random() % size / PAGE * PAGE, count = least(PART, size - at);
    int may = is_write ? PROT_READ | PROT_WRITE : PROT_READ;
    unsigned char *mapped = mmap(0, count, may, MAP_SHARED, file, at);
    check(mapped != MAP_FAILED, "map");
    check(memcmp(mapped, copy + at, count) == 0, "bytes of mapped pages");
    if (is_write) {
        for (long i = 0; i < count; i += random() % 97 + 1)
            mapped[i] = copy[at + i] = random();
        check(msync(mapped, count, MS_SYNC) == 0, "msync");
    }
    check(munmap(mapped, count) == 0, "unmap");
}

static void open_again(void)
{
    check(close(file) == 0, "close");
    file = open(path, O_RDWR);
    check(file >= 0, "open");
}

static void look_at_size(void)
{
    struct stat told;
    check(fstat(file, &told) == 0 && told.st_size == size, "size that is told");
    if (random() % 4 == 0)
        check(fsync(file) == 0, "fsync");
}

static void make_step(void)
{
    long at = random() % MOST, count = least(random() % PART + 1, MOST - at);
    switch (random() % 9) {
    case 0:
    case 1:
        write_part(at, count);
        break;
    case 2:
    case 3:
        read_part(at, count);
        break;
    case 4:
        set_size(at);
        break;
    case 5:
    case 6:
        map_part(random() % 2);
        break;
    case 7:
        open_again();
        break;
    default:
        look_at_size();
    }
}

int main(int count, char **words)
{
    if (count != 4) {
        fprintf(stderr, "exercise FILE COUNT SEED\n");
        return 2;
    }
    path = words[1];
    srandom(atol(words[3]));
    file = open(path, O_RDWR | O_CREAT | O_TRUNC, 0644);
    check(file >= 0, "create");
    long steps = atol(words[2]);
    for (step = 1; step <= steps; step++)
        make_step();
    printf("%ld steps, %ld bytes\n", steps, size);
    return 0;
}
