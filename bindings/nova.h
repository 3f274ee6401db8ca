/* novacore for C and C++: files and snapshots of a world in memory, for one caller.
 *
 * Each function is an export of crates/nv_c, which calls the method of that name of nv_files. docs/api.md tells what
 * such a method does, how the library is built, and what is proved. A program is built by
 *
 *     cc -I bindings my.c crates/nv_c/out/libnova.a
 *
 * WHAT NOTHING CHECKS. The proofs take all of this for granted. Where a caller breaks it, anything may happen.
 *
 *  - A `nova` is NOVA_NONE at first, and these functions alone read and write its fields from then on. Where it was
 *    copied, only one of the copies is used again.
 *  - All calls on a `nova` come from the thread that gave it to nova_new, one after another.
 *  - No pointer is null, also where a length is 0, and each is aligned as its type is.
 *  - A pointer to bytes leads to as many bytes as the length behind it says, and any other leads to one value of its
 *    type.
 *  - What a call may write, also a `nova`, overlaps nothing else that the call is given. Places that are only read
 *    may overlap.
 *  - No other thread reads what a call may write, or writes what it reads, before the call returns.
 *  - No call is made in a signal handler, nor in the forked child of a process that has threads.
 *  - The thread has 64 KB of its stack left. Calls were seen to take 11 KB, also on directories 4,000 deep.
 *  - The program's malloc, realloc and free come from one allocator. A block is aligned to each power of two up to
 *    16 that divides its size.
 *
 * All else is checked: handles, inode numbers, snapshots, offsets, sizes, modes, places and geometries may be any
 * numbers, names and texts any bytes, and lengths any length that the memory has. A `nova` may have no world.
 *
 * WHAT A STATUS SAYS. With NOVA_DONE, a call has done what its line here says. With any other status it has changed
 * nothing, and has written nothing, except for the length that NOVA_SHORT tells. Beside the statuses that a line
 * names, each call but nova_new tells NOVA_NO_WORLD where the `nova` has no world.
 */
#ifndef NOVA_H
#define NOVA_H

#include <stdbool.h>
#include <stddef.h>
#include <stdint.h>

#ifdef __cplusplus
extern "C" {
#endif

/* A world in memory, with what was listed and shown last. The fields are the library's. */
typedef struct {
    void *held;
    bool made;
} nova;

/* A `nova` without a world. */
#define NOVA_NONE {NULL, false}

/* What names a file or a directory. No two that a world makes have the same handle. */
typedef struct {
    uint64_t ino;
    uint64_t generation;
} nova_handle;

/* The numbers that a world is made with, each with its limits. */
typedef struct {
    uint64_t blocks; /* blocks of the device: 2 to 1048576 */
    uint64_t cpus;   /* lists of free blocks: 1 to 64, and at most `blocks` */
    uint64_t block;  /* bytes of a block: 1 to 4096 */
    uint64_t page;   /* entries of a log page: 2 to 63 */
    uint64_t inodes; /* files and directories, with the root: 1 to 65536 */
    uint64_t snaps;  /* living snapshots: 1 to 1024 */
} nova_geometry;

/* The kinds of a node. */
enum { NOVA_FILE = 1, NOVA_DIRECTORY = 2 };

/* What a file or a directory is. */
typedef struct {
    uint32_t kind;   /* NOVA_FILE or NOVA_DIRECTORY */
    uint32_t mode;   /* 0 to 4095, which is stored and not enforced */
    uint64_t size;   /* bytes of a file, 0 of a directory */
    uint64_t commit; /* the number of the change that it had last, 0 of a new world; 0 also where a tree was shown */
} nova_node;

/* Where the blocks are. The five numbers add up to the blocks of the device. */
typedef struct {
    uint64_t free;
    uint64_t chain;   /* pages of logs */
    uint64_t data;    /* read now, or by a living snapshot */
    uint64_t pending; /* wait to be drained */
    uint64_t hand;    /* all others */
} nova_blocks;

/* What a cleaner did to a log. */
typedef struct {
    uint64_t thorough; /* 1 where it moved entries, or else 0 */
    uint64_t entries;  /* how many entries the log has lost */
    uint64_t pages;    /* how many pages the log has lost */
} nova_cleaned;

/* How a call ended. 1 to 29 are the numbers of faults that docs/script.md explains; those left out here cannot come. */
enum {
    NOVA_DONE = 0,
    NOVA_OUT_OF_MEMORY = 1,
    NOVA_BAD_GEOMETRY = 2,
    NOVA_STALE = 3,
    NOVA_NOT_FILE = 4,
    NOVA_NOT_DIRECTORY = 5,
    NOVA_BAD_NAME = 6,
    NOVA_MISSING = 7,
    NOVA_EXISTS = 8,
    NOVA_NOT_EMPTY = 9,
    NOVA_FILE_TOO_BIG = 10,
    NOVA_WRITE_TOO_BIG = 11,
    NOVA_NO_INODE = 12,
    NOVA_NO_SPACE = 13,
    NOVA_COMMIT_LIMIT = 14,
    NOVA_EPOCH_LIMIT = 15,
    NOVA_TOO_MANY_SNAPSHOTS = 16,
    NOVA_NO_SNAPSHOT = 17,
    NOVA_MOVE_DIRECTORY = 19,
    NOVA_BAD_MODE = 64, /* a mode is above 4095; this is tested before the names and the files */
    NOVA_NO_PLACE = 65, /* there are not so many names, or nodes */
    NOVA_SHORT = 66,    /* `into` has too few bytes; the length that it needs is told */
    NOVA_NO_WORLD = 67  /* before nova_new, or behind nova_end; this is tested before all else */
};

/* Makes a world with a root, which is an empty directory of mode 493 (octal 755). Takes all bytes of the device from
 * malloc, and some 110 more a block. A world that `made` had is ended once the new one is made.
 * Statuses: OUT_OF_MEMORY, BAD_GEOMETRY. */
uint32_t nova_new(const nova_geometry *geometry, nova *made);

/* Ends the world, which gives its memory back, and leaves NOVA_NONE. Does nothing where there is none. */
void nova_end(nova *files);

/* The handle of the root. */
static inline nova_handle nova_root(void)
{
    nova_handle root = {0, 1};
    return root;
}

/*
 * FILES AND DIRECTORIES. A name is 1 to 255 bytes without `/` and the byte 0, and neither `.` nor `..`. It has no
 * byte 0 behind it. Each function may tell OUT_OF_MEMORY, except for nova_stat.
 */

/* Makes an empty file in a directory, and tells its handle.
 * Statuses: BAD_MODE, STALE, NOT_DIRECTORY, BAD_NAME, EXISTS, NO_INODE, NO_SPACE, COMMIT_LIMIT. */
uint32_t nova_create(nova *files, nova_handle dir, const uint8_t *name, size_t len, uint32_t mode, nova_handle *made);

/* Makes an empty directory in a directory, and tells its handle. Statuses: as nova_create. */
uint32_t nova_mkdir(nova *files, nova_handle dir, const uint8_t *name, size_t len, uint32_t mode, nova_handle *made);

/* Tells the handle of what a directory has under a name.
 * Statuses: STALE, NOT_DIRECTORY, BAD_NAME, MISSING. */
uint32_t nova_lookup(nova *files, nova_handle dir, const uint8_t *name, size_t len, nova_handle *found);

/* Writes `len` bytes into a file from an offset in bytes on: all of them. What lies between the end and the offset
 * becomes zeros.
 * Statuses: STALE, NOT_FILE, WRITE_TOO_BIG, FILE_TOO_BIG, NO_SPACE, COMMIT_LIMIT. */
uint32_t nova_write(nova *files, nova_handle file, uint64_t offset, const uint8_t *text, size_t len);

/* Reads the bytes that a file has from an offset in bytes on, at most `len` of them, and tells how many. They stand
 * in front of `into`, and the rest of it stays. Past the end of the file there are none.
 * Statuses: STALE, NOT_FILE. */
uint32_t nova_read(nova *files, nova_handle file, uint64_t offset, uint8_t *into, size_t len, size_t *count);

/* Cuts a file at a size in bytes, or adds zeros up to it.
 * Statuses: STALE, NOT_FILE, FILE_TOO_BIG, NO_SPACE, COMMIT_LIMIT. */
uint32_t nova_size(nova *files, nova_handle file, uint64_t size);

/* Sets the mode of a file or a directory.
 * Statuses: BAD_MODE, STALE, NO_SPACE, COMMIT_LIMIT. */
uint32_t nova_mode(nova *files, nova_handle node, uint32_t mode);

/* Tells what a file or a directory is. Takes no memory.
 * Statuses: STALE. */
uint32_t nova_stat(nova *files, nova_handle node, nova_node *told);

/* Lists the names of a directory in the order in which they were made, and tells how many there are. nova_listed
 * tells each.
 * Statuses: STALE, NOT_DIRECTORY. */
uint32_t nova_list(nova *files, nova_handle dir, size_t *count);

/* Tells a name of the last list by its place from 0 on, and its length. It stands in front of `into`, and the rest
 * of that stays. A name has at most 255 bytes. Takes no memory.
 * Statuses: NO_PLACE, SHORT. */
uint32_t nova_listed(nova *files, size_t place, uint8_t *into, size_t len, size_t *name_len);

/* Takes a file's name out of a directory. The file goes.
 * Statuses: STALE, NOT_DIRECTORY, BAD_NAME, MISSING, NOT_FILE, NO_SPACE, COMMIT_LIMIT. */
uint32_t nova_unlink(nova *files, nova_handle dir, const uint8_t *name, size_t len);

/* Takes the name of an empty directory out of a directory. The empty directory goes.
 * Statuses: STALE, NOT_DIRECTORY, BAD_NAME, MISSING, NOT_EMPTY, NO_SPACE, COMMIT_LIMIT. */
uint32_t nova_rmdir(nova *files, nova_handle dir, const uint8_t *name, size_t len);

/* Gives a file or a directory another name. A file may get another parent, and takes the place of a file of that
 * name.
 * Statuses: STALE, NOT_DIRECTORY, BAD_NAME, MISSING, MOVE_DIRECTORY, EXISTS, NO_SPACE, COMMIT_LIMIT. */
uint32_t nova_rename(nova *files, nova_handle from, const uint8_t *name, size_t len, nova_handle to,
                     const uint8_t *new_name, size_t new_len);

/*
 * SNAPSHOTS AND TREES. The number of a snapshot is the epoch that it ended: numbers rise from 1 on.
 */

/* Makes a snapshot of all files and directories as they are, and tells its number. Takes no memory.
 * Statuses: EPOCH_LIMIT, TOO_MANY_SNAPSHOTS. */
uint32_t nova_snap(nova *files, uint64_t *snapshot);

/* Drops a snapshot. What it alone held waits to be drained. Takes no memory.
 * Statuses: NO_SNAPSHOT. */
uint32_t nova_drop_snap(nova *files, uint64_t snapshot);

/* Reads all nodes as they were when a snapshot was made, and tells how many there are. nova_shown_path,
 * nova_shown_node and nova_shown_bytes tell each by its place from 0 on. A directory stands before what it has, and
 * the root first.
 * Statuses: OUT_OF_MEMORY, NO_SNAPSHOT. */
uint32_t nova_show(nova *files, uint64_t snapshot, size_t *count);

/* The same for all nodes as they are now.
 * Statuses: OUT_OF_MEMORY. */
uint32_t nova_tree(nova *files, size_t *count);

/* Tells the path of a node that was shown last: each name from the root on behind a `/`, and `/` alone for the root.
 * It stands in front of `into`, and the rest of that stays.
 * Statuses: OUT_OF_MEMORY, NO_PLACE, SHORT. */
uint32_t nova_shown_path(nova *files, size_t place, uint8_t *into, size_t len, size_t *path_len);

/* Tells what a node is that was shown last, with the commit 0. Takes no memory.
 * Statuses: NO_PLACE. */
uint32_t nova_shown_node(nova *files, size_t place, nova_node *told);

/* Reads the bytes of a file that was shown last, as nova_read does. A directory has none. Takes no memory.
 * Statuses: NO_PLACE. */
uint32_t nova_shown_bytes(nova *files, size_t place, uint64_t offset, uint8_t *into, size_t len, size_t *count);

/*
 * BLOCKS. Cleaners work on the log of one inode, which is named by its number alone. They change no tree.
 */

/* Releases the first records that no snapshot holds, at most so many, and tells how many. A number outside 1 to
 * 1048576 counts as the nearest of these.
 * Statuses: OUT_OF_MEMORY. */
uint32_t nova_drain(nova *files, uint64_t most, uint64_t *count);

/* Unlinks the log pages of which nothing is needed.
 * Statuses: OUT_OF_MEMORY, STALE. */
uint32_t nova_clean_fast(nova *files, uint64_t ino, nova_cleaned *done);

/* Moves the entries that are needed to as few log pages as they fill, which it takes first.
 * Statuses: OUT_OF_MEMORY, STALE, NO_SPACE. */
uint32_t nova_clean_thorough(nova *files, uint64_t ino, nova_cleaned *done);

/* Cleans as nova_clean_thorough where less than half of the entries are needed, and otherwise as nova_clean_fast.
 * Statuses: OUT_OF_MEMORY, STALE, NO_SPACE. */
uint32_t nova_clean_auto(nova *files, uint64_t ino, nova_cleaned *done);

/* Tells where the blocks are. Takes no memory, and time for all logs. */
uint32_t nova_space(nova *files, nova_blocks *told);

/* Compares all that the world keeps with one scan of its logs. No part differs, which is proved.
 * Statuses: OUT_OF_MEMORY. */
uint32_t nova_audit(nova *files);

/* The number and the name of a status. */
static inline const char *nova_status_name(uint32_t status)
{
    switch (status) {
    case NOVA_DONE: return "done";
    case NOVA_OUT_OF_MEMORY: return "E1 OutOfMemory";
    case NOVA_BAD_GEOMETRY: return "E2 BadGeometry";
    case NOVA_STALE: return "E3 Stale";
    case NOVA_NOT_FILE: return "E4 NotFile";
    case NOVA_NOT_DIRECTORY: return "E5 NotDirectory";
    case NOVA_BAD_NAME: return "E6 BadName";
    case NOVA_MISSING: return "E7 Missing";
    case NOVA_EXISTS: return "E8 Exists";
    case NOVA_NOT_EMPTY: return "E9 NotEmpty";
    case NOVA_FILE_TOO_BIG: return "E10 FileTooBig";
    case NOVA_WRITE_TOO_BIG: return "E11 WriteTooBig";
    case NOVA_NO_INODE: return "E12 NoInode";
    case NOVA_NO_SPACE: return "E13 NoSpace";
    case NOVA_COMMIT_LIMIT: return "E14 CommitLimit";
    case NOVA_EPOCH_LIMIT: return "E15 EpochLimit";
    case NOVA_TOO_MANY_SNAPSHOTS: return "E16 TooManySnapshots";
    case NOVA_NO_SNAPSHOT: return "E17 NoSnapshot";
    case NOVA_MOVE_DIRECTORY: return "E19 MoveDirectory";
    case NOVA_BAD_MODE: return "BadMode";
    case NOVA_NO_PLACE: return "NoPlace";
    case NOVA_SHORT: return "Short";
    case NOVA_NO_WORLD: return "NoWorld";
    default: return "no status";
    }
}

#ifdef __cplusplus
}
#endif

#endif
