/* A caller in C, written to be copied. It does what crates/nv_example/src/letters.rt does: it writes a file, makes a snapshot,
 * writes the file anew, and shows all files as they are and as they were. */
#include "nova.h"

#include <inttypes.h>
#include <stdio.h>
#include <stdlib.h>
#include <string.h>

/* Ends the program where a call was refused. */
static void must(uint32_t status, const char *call)
{
    if (status == NOVA_DONE)
        return;
    fprintf(stderr, "%s was refused: %s\n", call, nova_status_name(status));
    exit(1);
}

/* Makes an empty file system in memory: 64 blocks of 16 bytes. */
static void make_files(nova *files)
{
    const nova_geometry geometry = {.blocks = 64, .cpus = 1, .block = 16, .page = 8, .inodes = 8, .snaps = 4};
    must(nova_new(&geometry, files), "nova_new");
}

/* A text as the bytes that calls take. */
static const uint8_t *bytes(const char *text)
{
    return (const uint8_t *)text;
}

static nova_handle make_dir(nova *files, nova_handle dir, const char *name)
{
    nova_handle made;
    must(nova_mkdir(files, dir, bytes(name), strlen(name), 0755, &made), "nova_mkdir");
    return made;
}

static nova_handle make_file(nova *files, nova_handle dir, const char *name)
{
    nova_handle made;
    must(nova_create(files, dir, bytes(name), strlen(name), 0755, &made), "nova_create");
    return made;
}

/* Writes a text from the first byte of a file on. */
static void write_text(nova *files, nova_handle file, const char *text)
{
    must(nova_write(files, file, 0, bytes(text), strlen(text)), "nova_write");
}

/* Prints the path, the size and the text of a node that was shown. */
static void print_node(nova *files, size_t place)
{
    uint8_t path[256], text[256];
    size_t path_len, count;
    nova_node node;
    must(nova_shown_path(files, place, path, sizeof path - 1, &path_len), "nova_shown_path");
    must(nova_shown_node(files, place, &node), "nova_shown_node");
    must(nova_shown_bytes(files, place, 0, text, sizeof text, &count), "nova_shown_bytes");
    path[path_len] = 0;
    printf("  %-16s %2" PRIu64 " bytes \"%.*s\"\n", (char *)path, node.size, (int)count, (char *)text);
}

static void print_nodes(nova *files, const char *title, size_t count)
{
    printf("%s:\n", title);
    for (size_t place = 0; place < count; place++)
        print_node(files, place);
}

/* Prints how many blocks hold data, wait to be drained, and are free. */
static void print_space(nova *files, const char *title)
{
    nova_blocks space;
    must(nova_space(files, &space), "nova_space");
    printf("%s: %" PRIu64 " data, %" PRIu64 " pending, %" PRIu64 " free\n", title, space.data, space.pending,
           space.free);
}

static void run(nova *files)
{
    const nova_handle dir = make_dir(files, nova_root(), "letters");
    const nova_handle file = make_file(files, dir, "first");
    write_text(files, file, "Dear reader, this is a draft.");

    uint64_t draft, released;
    size_t count;
    must(nova_snap(files, &draft), "nova_snap");
    write_text(files, file, "Dear reader, this is the letter.");
    must(nova_tree(files, &count), "nova_tree");
    print_nodes(files, "now", count);
    must(nova_show(files, draft, &count), "nova_show");
    print_nodes(files, "in the snapshot", count);
    print_space(files, "blocks with the snapshot");

    must(nova_drop_snap(files, draft), "nova_drop_snap");
    print_space(files, "blocks after its drop");
    must(nova_drain(files, 100, &released), "nova_drain");
    print_space(files, "blocks after a drain");
    must(nova_audit(files), "nova_audit");
}

int main(void)
{
    nova files = NOVA_NONE;
    make_files(&files);
    run(&files);
    nova_end(&files);
    return 0;
}
