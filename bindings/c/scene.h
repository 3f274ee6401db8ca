/* A world to make calls on, and bytes in blocks of their own.
 *
 * Each block is just as long as a call is told, so that a checker of memory, as valgrind, sees each access beside
 * it.
 */
#ifndef SCENE_H
#define SCENE_H

#include "check.h"

#include <stdlib.h>
#include <string.h>

/* Numbers that no handle, snapshot or place here has. */
static const uint64_t WILD[] = {
    9, 64, 65536, 1048577, 1ULL << 32, 1ULL << 62, (1ULL << 62) + 1, 1ULL << 63, UINT64_MAX - 1, UINT64_MAX};
enum { WILD_COUNT = sizeof WILD / sizeof WILD[0] };

/* Bytes in a block of their own. */
typedef struct {
    uint8_t *at;
    size_t len;
} text;

static inline text filled(size_t len, int byte)
{
    text made = {malloc(len + (len == 0)), len};
    if (made.at == NULL)
        exit(2);
    memset(made.at, byte, len);
    /* Where there are no bytes, the pointer leads to the end of the block. */
    made.at += len == 0;
    return made;
}

static inline text copied(const char *letters)
{
    text made = filled(strlen(letters), 0);
    memcpy(made.at, letters, made.len);
    return made;
}

static inline void give_back(text it)
{
    free(it.at - (it.len == 0));
}

/* Whether all bytes are this one. */
static inline bool is_all(text it, int byte)
{
    for (size_t at = 0; at < it.len; at++)
        if (it.at[at] != byte)
            return false;
    return true;
}

static inline nova_handle handle(uint64_t ino, uint64_t generation)
{
    nova_handle made = {ino, generation};
    return made;
}

/* What stands where a call is to write nothing. */
static const nova_handle MARK = {77, 77};

static inline bool is_marked(nova_handle it)
{
    return it.ino == MARK.ino && it.generation == MARK.generation;
}

static inline uint32_t create(nova *files, nova_handle dir, const char *letters, nova_handle *made)
{
    text name = copied(letters);
    uint32_t status = nova_create(files, dir, name.at, name.len, 0644, made);
    give_back(name);
    return status;
}

static inline uint32_t mkdir(nova *files, nova_handle dir, const char *letters, nova_handle *made)
{
    text name = copied(letters);
    uint32_t status = nova_mkdir(files, dir, name.at, name.len, 0755, made);
    give_back(name);
    return status;
}

static inline uint32_t change_name(nova *files, nova_handle from, const char *letters, nova_handle to,
                                   const char *new_letters)
{
    text name = copied(letters), new_name = copied(new_letters);
    uint32_t status = nova_rename(files, from, name.at, name.len, to, new_name.at, new_name.len);
    give_back(name);
    give_back(new_name);
    return status;
}

/* A world of 64 blocks of 4 bytes, with a file of six bytes, a directory, and a snapshot. */
static const nova_geometry GEOMETRY = {64, 2, 4, 4, 8, 2};

typedef struct {
    nova files;
    nova_handle file, dir;
    uint64_t snapshot;
} scene;

static inline void begin(scene *it)
{
    text letters = copied("letter");
    nova none = NOVA_NONE;
    it->files = none;
    TELLS(DONE, nova_new(&GEOMETRY, &it->files));
    TELLS(DONE, create(&it->files, nova_root(), "file", &it->file));
    TELLS(DONE, mkdir(&it->files, nova_root(), "dir", &it->dir));
    TELLS(DONE, nova_write(&it->files, it->file, 0, letters.at, letters.len));
    TELLS(DONE, nova_snap(&it->files, &it->snapshot));
    give_back(letters);
}

/* The six bytes are there yet, no part differs, and no block is lost. */
static inline void end(scene *it)
{
    text into = filled(6, 'x');
    size_t count = 0;
    nova_blocks space;
    TELLS(DONE, nova_read(&it->files, it->file, 0, into.at, into.len, &count));
    HOLDS(count == 6 && memcmp(into.at, "letter", 6) == 0);
    TELLS(DONE, nova_audit(&it->files));
    TELLS(DONE, nova_space(&it->files, &space));
    HOLDS(space.free + space.chain + space.data + space.pending + space.hand == GEOMETRY.blocks);
    nova_end(&it->files);
    give_back(into);
}

#endif
