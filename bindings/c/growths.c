/* Has each growth of memory of a life of files refused in turn, and expects that nothing has changed then.
 *
 * tools/refuser.c has to be loaded before the library of C. It is asked by a request for more bytes than there can
 * be. The exit status is 0 where all was as expected.
 */
#include "check.h"

#include <stdlib.h>
#include <string.h>

/* The words of tools/refuser.c. */
static const size_t REFUSE = (size_t)1 << 62;
static const size_t WAS_REFUSED = (size_t)3 << 61;

static unsigned long refused;

/* Known at run time alone, since a compiler may leave out a block that is freed at once. */
static void *(*volatile ask)(size_t) = malloc;

/* Says a word to the refuser, and tells whether it is granted. */
static bool say(size_t word)
{
    void *granted = ask(word);
    free(granted);
    return granted != NULL;
}

/* What a life works with. */
typedef struct {
    nova files;
    nova_handle dir, file;
    uint64_t snapshot, number;
    nova_cleaned cleaned;
    uint8_t bytes[64];
    size_t count;
} life;

static const uint8_t LETTER[] = "Dear reader, this is the letter.";

static uint32_t make_world(life *it)
{
    const nova_geometry geometry = {64, 2, 16, 4, 8, 4};
    return nova_new(&geometry, &it->files);
}

static uint32_t make_dir(life *it)
{
    return nova_mkdir(&it->files, nova_root(), LETTER, 4, 0755, &it->dir);
}

static uint32_t make_file(life *it)
{
    return nova_create(&it->files, it->dir, LETTER, 6, 0644, &it->file);
}

static uint32_t write_letter(life *it)
{
    return nova_write(&it->files, it->file, 0, LETTER, 32);
}

static uint32_t write_behind(life *it)
{
    return nova_write(&it->files, it->file, 100, LETTER, 20);
}

static uint32_t read_letter(life *it)
{
    return nova_read(&it->files, it->file, 0, it->bytes, sizeof it->bytes, &it->count);
}

static uint32_t cut(life *it)
{
    return nova_size(&it->files, it->file, 40);
}

static uint32_t set_mode(life *it)
{
    return nova_mode(&it->files, it->file, 0600);
}

static uint32_t look_up(life *it)
{
    return nova_lookup(&it->files, it->dir, LETTER, 6, &it->file);
}

static uint32_t list(life *it)
{
    return nova_list(&it->files, it->dir, &it->count);
}

static uint32_t snap(life *it)
{
    return nova_snap(&it->files, &it->snapshot);
}

static uint32_t show(life *it)
{
    return nova_show(&it->files, it->snapshot, &it->count);
}

static uint32_t tree(life *it)
{
    return nova_tree(&it->files, &it->count);
}

static uint32_t rename_file(life *it)
{
    return nova_rename(&it->files, it->dir, LETTER, 6, nova_root(), LETTER, 11);
}

static uint32_t unlink_file(life *it)
{
    return nova_unlink(&it->files, nova_root(), LETTER, 11);
}

static uint32_t remove_dir(life *it)
{
    return nova_rmdir(&it->files, nova_root(), LETTER, 4);
}

static uint32_t drop(life *it)
{
    return nova_drop_snap(&it->files, it->snapshot);
}

static uint32_t drain(life *it)
{
    return nova_drain(&it->files, 100, &it->number);
}

static uint32_t clean(life *it)
{
    return nova_clean_thorough(&it->files, 0, &it->cleaned);
}

static uint32_t clean_fast(life *it)
{
    return nova_clean_fast(&it->files, it->file.ino, &it->cleaned);
}

static uint32_t audit(life *it)
{
    return nova_audit(&it->files);
}

typedef uint32_t call(life *);

static call *const CALLS[] = {make_world, make_dir,   make_file,    write_letter, read_letter, list,
                              set_mode,   snap,       write_behind, show,         tree,        cut,
                              look_up,    clean_fast, rename_file,  unlink_file,  remove_dir,  drop,
                              drain,      clean,      audit,        tree};

/* The first nodes of the tree now, as text. A life has few. */
static void copy_tree(life *it, char text[400])
{
    size_t count = 0, len = 0;
    text[0] = 0;
    if (nova_tree(&it->files, &count) != NOVA_DONE)
        return;
    for (size_t place = 0; place < count; place++) {
        uint8_t path[64];
        size_t path_len;
        nova_node node;
        TELLS(DONE, nova_shown_path(&it->files, place, path, sizeof path, &path_len));
        TELLS(DONE, nova_shown_node(&it->files, place, &node));
        len += (size_t)snprintf(text + len, 400 - len, "%.*s %" PRIu32 " %" PRIu64 "\n", (int)path_len, (char *)path,
                                node.mode, node.size);
    }
}

/* Makes a call again and again, and has its first, its second and each later growth refused, until it is done. */
static void make(life *it, call *what)
{
    uint32_t status;
    size_t number = 1;
    do {
        char before[400], after[400];
        copy_tree(it, before);
        say(REFUSE + number++);
        status = what(it);
        bool was_refused = say(WAS_REFUSED);
        refused += was_refused;
        if (status == NOVA_OUT_OF_MEMORY) {
            copy_tree(it, after);
            HOLDS(was_refused);
            HOLDS(strcmp(before, after) == 0);
            HOLDS(nova_audit(&it->files) == (what == make_world ? NOVA_NO_WORLD : NOVA_DONE));
        }
    } while (status == NOVA_OUT_OF_MEMORY);
    expect_status(NOVA_DONE, status, __LINE__, "a call whose growths are granted");
}

int main(void)
{
    life it;
    memset(&it, 0, sizeof it);
    for (size_t at = 0; at < sizeof CALLS / sizeof CALLS[0]; at++)
        make(&it, CALLS[at]);
    nova_end(&it.files);
    HOLDS(refused > 50);
    printf("growths: %lu refused\n", refused);
    return end_of_checks("growths");
}
