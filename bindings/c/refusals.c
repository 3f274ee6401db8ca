/* Makes each call on files and directories with wrong numbers, and expects the status that nova.h names. The exit
 * status is 0 where all was as expected. */
#include "scene.h"

static void expect_bad(nova_geometry numbers)
{
    nova files = NOVA_NONE;
    TELLS(BAD_GEOMETRY, nova_new(&numbers, &files));
    TELLS(NO_WORLD, nova_audit(&files));
    nova_end(&files);
}

static void geometries(void)
{
    const nova_geometry least = {2, 1, 1, 2, 1, 1};
    const uint64_t beyond[] = {1048577, 65, 4097, 64, 65537, 1025};
    for (size_t field = 0; field < 6; field++) {
        uint64_t numbers[6];
        const uint64_t bad[] = {0, beyond[field], UINT64_MAX, 1ULL << 63};
        for (size_t which = 0; which < 4; which++) {
            nova_geometry made;
            memcpy(numbers, &least, sizeof numbers);
            numbers[field] = bad[which];
            memcpy(&made, numbers, sizeof numbers);
            expect_bad(made);
        }
    }
    const nova_geometry one_block = {1, 1, 1, 2, 1, 1}, more_lists = {2, 3, 1, 2, 1, 1}, one_entry = {2, 1, 1, 1, 1, 1};
    expect_bad(one_block);
    expect_bad(more_lists);
    expect_bad(one_entry);
    nova files = NOVA_NONE;
    TELLS(DONE, nova_new(&least, &files));
    TELLS(BAD_GEOMETRY, nova_new(&one_block, &files));
    TELLS(DONE, nova_audit(&files));
    TELLS(DONE, nova_new(&least, &files));
    nova_end(&files);
    nova_end(&files);
}

/* Each call on a `nova` without a world. */
static void calls_without_a_world(nova *files)
{
    text name = copied("name"), into = filled(4, 'x');
    nova_handle made = MARK;
    nova_node node = {0, 0, 0, 0};
    nova_cleaned cleaned = {0, 0, 0};
    nova_blocks space = {0, 0, 0, 0, 0};
    uint64_t number = 77;
    size_t count = 77;
    TELLS(NO_WORLD, nova_create(files, nova_root(), name.at, name.len, 0644, &made));
    TELLS(NO_WORLD, nova_create(files, nova_root(), name.at, name.len, 4096, &made));
    TELLS(NO_WORLD, nova_mkdir(files, nova_root(), name.at, name.len, 0755, &made));
    TELLS(NO_WORLD, nova_lookup(files, nova_root(), name.at, name.len, &made));
    TELLS(NO_WORLD, nova_write(files, nova_root(), 0, name.at, name.len));
    TELLS(NO_WORLD, nova_read(files, nova_root(), 0, into.at, into.len, &count));
    TELLS(NO_WORLD, nova_size(files, nova_root(), 0));
    TELLS(NO_WORLD, nova_mode(files, nova_root(), 0));
    TELLS(NO_WORLD, nova_stat(files, nova_root(), &node));
    TELLS(NO_WORLD, nova_list(files, nova_root(), &count));
    TELLS(NO_WORLD, nova_listed(files, 0, into.at, into.len, &count));
    TELLS(NO_WORLD, nova_unlink(files, nova_root(), name.at, name.len));
    TELLS(NO_WORLD, nova_rmdir(files, nova_root(), name.at, name.len));
    TELLS(NO_WORLD, nova_rename(files, nova_root(), name.at, name.len, nova_root(), name.at, name.len));
    TELLS(NO_WORLD, nova_snap(files, &number));
    TELLS(NO_WORLD, nova_drop_snap(files, 1));
    TELLS(NO_WORLD, nova_show(files, 1, &count));
    TELLS(NO_WORLD, nova_tree(files, &count));
    TELLS(NO_WORLD, nova_shown_path(files, 0, into.at, into.len, &count));
    TELLS(NO_WORLD, nova_shown_node(files, 0, &node));
    TELLS(NO_WORLD, nova_shown_bytes(files, 0, 0, into.at, into.len, &count));
    TELLS(NO_WORLD, nova_drain(files, 1, &number));
    TELLS(NO_WORLD, nova_clean_fast(files, 0, &cleaned));
    TELLS(NO_WORLD, nova_clean_thorough(files, 0, &cleaned));
    TELLS(NO_WORLD, nova_clean_auto(files, 0, &cleaned));
    TELLS(NO_WORLD, nova_space(files, &space));
    TELLS(NO_WORLD, nova_audit(files));
    HOLDS(is_marked(made) && number == 77 && count == 77 && is_all(into, 'x'));
    give_back(name);
    give_back(into);
}

static void worlds(void)
{
    nova files = NOVA_NONE;
    calls_without_a_world(&files);
    nova_end(&files);
    scene it;
    begin(&it);
    end(&it);
    calls_without_a_world(&it.files);
}

/* Each call with a handle that names no node. */
static void expect_stale(scene *it, nova_handle stale)
{
    text name = copied("file"), into = filled(4, 'x');
    nova_handle made = MARK;
    nova_node node = {7, 7, 7, 7};
    size_t count = 77;
    TELLS(STALE, nova_create(&it->files, stale, name.at, name.len, 0644, &made));
    TELLS(STALE, nova_mkdir(&it->files, stale, name.at, name.len, 0755, &made));
    TELLS(STALE, nova_lookup(&it->files, stale, name.at, name.len, &made));
    TELLS(STALE, nova_write(&it->files, stale, 0, name.at, name.len));
    TELLS(STALE, nova_write(&it->files, stale, UINT64_MAX, name.at, name.len));
    TELLS(STALE, nova_read(&it->files, stale, 0, into.at, into.len, &count));
    TELLS(STALE, nova_size(&it->files, stale, UINT64_MAX));
    TELLS(STALE, nova_mode(&it->files, stale, 0));
    TELLS(STALE, nova_stat(&it->files, stale, &node));
    TELLS(STALE, nova_list(&it->files, stale, &count));
    TELLS(STALE, nova_unlink(&it->files, stale, name.at, name.len));
    TELLS(STALE, nova_rmdir(&it->files, stale, name.at, name.len));
    TELLS(STALE, nova_rename(&it->files, stale, name.at, name.len, nova_root(), name.at, name.len));
    TELLS(STALE, nova_rename(&it->files, nova_root(), name.at, name.len, stale, name.at, name.len));
    HOLDS(is_marked(made) && count == 77 && node.kind == 7 && is_all(into, 'x'));
    give_back(name);
    give_back(into);
}

static void handles(void)
{
    scene it;
    begin(&it);
    expect_stale(&it, handle(0, 0));
    expect_stale(&it, handle(0, 2));
    expect_stale(&it, handle(7, 1));
    expect_stale(&it, handle(it.file.ino, it.file.generation + 1));
    for (size_t at = 0; at < WILD_COUNT; at++) {
        expect_stale(&it, handle(WILD[at], 1));
        expect_stale(&it, handle(0, WILD[at]));
        expect_stale(&it, handle(WILD[at], WILD[at]));
    }
    text name = copied("dir");
    TELLS(DONE, nova_rmdir(&it.files, nova_root(), name.at, name.len));
    expect_stale(&it, it.dir);
    give_back(name);
    end(&it);
}

/* Each call that takes a name, with bytes that are none. */
static void expect_bad_name(scene *it, text name)
{
    nova_handle made = MARK;
    text good = copied("file");
    TELLS(BAD_NAME, nova_create(&it->files, nova_root(), name.at, name.len, 0644, &made));
    TELLS(BAD_NAME, nova_mkdir(&it->files, nova_root(), name.at, name.len, 0755, &made));
    TELLS(BAD_NAME, nova_lookup(&it->files, nova_root(), name.at, name.len, &made));
    TELLS(BAD_NAME, nova_unlink(&it->files, nova_root(), name.at, name.len));
    TELLS(BAD_NAME, nova_rmdir(&it->files, nova_root(), name.at, name.len));
    TELLS(BAD_NAME, nova_rename(&it->files, nova_root(), name.at, name.len, nova_root(), good.at, good.len));
    TELLS(BAD_NAME, nova_rename(&it->files, nova_root(), good.at, good.len, nova_root(), name.at, name.len));
    HOLDS(is_marked(made));
    give_back(good);
    give_back(name);
}

static void names(void)
{
    scene it;
    begin(&it);
    text with_zero = copied("a_b");
    with_zero.at[1] = 0;
    expect_bad_name(&it, with_zero);
    expect_bad_name(&it, filled(0, 0));
    expect_bad_name(&it, filled(256, 'n'));
    expect_bad_name(&it, filled(100000, 'n'));
    expect_bad_name(&it, copied("/"));
    expect_bad_name(&it, copied("a/b"));
    expect_bad_name(&it, copied("."));
    expect_bad_name(&it, copied(".."));
    text longest = filled(255, 0xff);
    nova_handle made = MARK, found = MARK;
    TELLS(DONE, nova_create(&it.files, it.dir, longest.at, longest.len, 0, &made));
    TELLS(DONE, nova_lookup(&it.files, it.dir, longest.at, longest.len, &found));
    HOLDS(made.ino == found.ino && made.generation == found.generation);
    give_back(longest);
    end(&it);
}

static void modes(void)
{
    const uint32_t bad[] = {4096, 8191, 32768, 65535, 65536, 65536 + 0644, 1U << 31, UINT32_MAX};
    scene it;
    begin(&it);
    text name = copied("new");
    nova_handle made = MARK;
    for (size_t at = 0; at < sizeof bad / sizeof bad[0]; at++) {
        TELLS(BAD_MODE, nova_create(&it.files, nova_root(), name.at, name.len, bad[at], &made));
        TELLS(BAD_MODE, nova_mkdir(&it.files, nova_root(), name.at, name.len, bad[at], &made));
        TELLS(BAD_MODE, nova_mode(&it.files, it.file, bad[at]));
        TELLS(BAD_MODE, nova_mode(&it.files, handle(7, 7), bad[at]));
    }
    HOLDS(is_marked(made));
    nova_node node;
    TELLS(DONE, nova_mode(&it.files, it.file, 4095));
    TELLS(DONE, nova_stat(&it.files, it.file, &node));
    HOLDS(node.kind == NOVA_FILE && node.mode == 4095 && node.size == 6);
    give_back(name);
    end(&it);
}

static void offsets_and_sizes(void)
{
    scene it;
    begin(&it);
    text one = filled(1, 'a'), nothing = filled(0, 0), many = filled(4097, 'a'), into = filled(8, 'x');
    size_t count = 77;
    for (size_t at = 4; at < WILD_COUNT; at++) {
        TELLS(FILE_TOO_BIG, nova_write(&it.files, it.file, WILD[at], one.at, one.len));
        TELLS(FILE_TOO_BIG, nova_size(&it.files, it.file, WILD[at]));
        TELLS(DONE, nova_read(&it.files, it.file, WILD[at], into.at, into.len, &count));
        HOLDS(count == 0 && is_all(into, 'x'));
    }
    TELLS(FILE_TOO_BIG, nova_size(&it.files, it.file, 65536 * 4 + 1));
    TELLS(WRITE_TOO_BIG, nova_write(&it.files, it.file, 0, many.at, many.len));
    TELLS(NO_SPACE, nova_write(&it.files, it.file, 0, many.at, 300));
    TELLS(DONE, nova_write(&it.files, it.file, 0, nothing.at, nothing.len));
    TELLS(DONE, nova_read(&it.files, it.file, 0, nothing.at, nothing.len, &count));
    HOLDS(count == 0);
    TELLS(DONE, nova_read(&it.files, it.file, 2, into.at, into.len, &count));
    HOLDS(count == 4 && memcmp(into.at, "tterxxxx", 8) == 0);
    give_back(one);
    give_back(nothing);
    give_back(many);
    give_back(into);
    end(&it);
}

static void kinds_and_names_of_nodes(void)
{
    scene it;
    begin(&it);
    text into = filled(4, 'x'), file = copied("file"), dir = copied("dir"), other = copied("other");
    nova_handle made = MARK, below;
    size_t count = 77;
    TELLS(NOT_FILE, nova_write(&it.files, it.dir, 0, into.at, into.len));
    TELLS(NOT_FILE, nova_read(&it.files, it.dir, 0, into.at, into.len, &count));
    TELLS(NOT_FILE, nova_size(&it.files, nova_root(), 0));
    TELLS(NOT_FILE, nova_unlink(&it.files, nova_root(), dir.at, dir.len));
    TELLS(NOT_DIRECTORY, nova_rmdir(&it.files, nova_root(), file.at, file.len));
    TELLS(NOT_DIRECTORY, nova_list(&it.files, it.file, &count));
    TELLS(NOT_DIRECTORY, nova_lookup(&it.files, it.file, dir.at, dir.len, &made));
    TELLS(NOT_DIRECTORY, create(&it.files, it.file, "new", &made));
    TELLS(NOT_DIRECTORY, mkdir(&it.files, it.file, "new", &made));
    TELLS(EXISTS, create(&it.files, nova_root(), "file", &made));
    TELLS(EXISTS, mkdir(&it.files, nova_root(), "file", &made));
    TELLS(MISSING, nova_lookup(&it.files, nova_root(), other.at, other.len, &made));
    TELLS(MISSING, nova_unlink(&it.files, nova_root(), other.at, other.len));
    TELLS(MISSING, nova_rmdir(&it.files, nova_root(), other.at, other.len));
    TELLS(MISSING, change_name(&it.files, nova_root(), "other", nova_root(), "file"));
    HOLDS(is_marked(made) && count == 77 && is_all(into, 'x'));
    TELLS(DONE, mkdir(&it.files, it.dir, "below", &below));
    TELLS(NOT_EMPTY, nova_rmdir(&it.files, nova_root(), dir.at, dir.len));
    TELLS(MOVE_DIRECTORY, change_name(&it.files, it.dir, "below", nova_root(), "below"));
    TELLS(MOVE_DIRECTORY, change_name(&it.files, nova_root(), "dir", it.dir, "dir"));
    TELLS(EXISTS, change_name(&it.files, nova_root(), "file", nova_root(), "dir"));
    TELLS(EXISTS, change_name(&it.files, nova_root(), "dir", nova_root(), "file"));
    /* Both names may be the same place. */
    TELLS(DONE, nova_rename(&it.files, nova_root(), file.at, file.len, nova_root(), file.at, file.len));
    give_back(into);
    give_back(file);
    give_back(dir);
    give_back(other);
    end(&it);
}

static void numbers_used_up(void)
{
    scene it;
    begin(&it);
    nova_handle made;
    char name[] = "0";
    /* Three of eight are taken. */
    for (int count = 0; count < 5; count++, name[0]++)
        TELLS(DONE, create(&it.files, it.dir, name, &made));
    made = MARK;
    TELLS(NO_INODE, create(&it.files, it.dir, name, &made));
    TELLS(NO_INODE, mkdir(&it.files, it.dir, name, &made));
    HOLDS(is_marked(made));
    end(&it);
}

int main(void)
{
    geometries();
    worlds();
    handles();
    names();
    modes();
    offsets_and_sizes();
    kinds_and_names_of_nodes();
    numbers_used_up();
    return end_of_checks("refusals");
}
