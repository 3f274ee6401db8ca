/* Makes calls at random, most of them with numbers, names and lengths that are wrong, on one world. It expects a
 * status of nova.h each time, no block lost, and an audit that finds no part to differ. The exit status is 0 where
 * all was as expected.
 *
 *     wild [COUNT [SEED]]
 */
#include "scene.h"

static uint64_t state = 1;

static uint64_t random_below(uint64_t limit)
{
    state ^= state << 13;
    state ^= state >> 7;
    state ^= state << 17;
    return state % limit;
}

/* Most numbers are small, and some are among the largest. */
static uint64_t number(void)
{
    return random_below(4) == 0 ? WILD[random_below(WILD_COUNT)] : random_below(20);
}

/* Those that were made last, in front of them the root. */
static nova_handle made[4] = {{0, 1}, {0, 1}, {0, 1}, {0, 1}};

static nova_handle some_handle(void)
{
    return random_below(4) == 0 ? handle(number(), number()) : made[random_below(4)];
}

/* A name of a few, which may be none at all. */
static text some_name(void)
{
    text name = filled(random_below(10) == 0 ? 0 : 1, (int)('a' + random_below(6)));
    if (name.len > 0 && random_below(20) == 0)
        name.at[0] = '/';
    return name;
}

static uint32_t some_mode(void)
{
    return (uint32_t)(random_below(5) == 0 ? number() : random_below(4096));
}

/* A call on nodes and their names. */
static uint32_t call_on_names(nova *files, text name, text other)
{
    nova_handle *place = &made[1 + random_below(3)];
    nova_node node;
    switch (random_below(8)) {
    case 0: return nova_create(files, some_handle(), name.at, name.len, some_mode(), place);
    case 1: return nova_mkdir(files, some_handle(), name.at, name.len, some_mode(), place);
    case 2: return nova_lookup(files, some_handle(), name.at, name.len, place);
    case 3: return nova_unlink(files, some_handle(), name.at, name.len);
    case 4: return nova_rmdir(files, some_handle(), name.at, name.len);
    case 5: return nova_rename(files, some_handle(), name.at, name.len, some_handle(), other.at, other.len);
    case 6: return nova_mode(files, some_handle(), some_mode());
    default: return nova_stat(files, some_handle(), &node);
    }
}

/* A call on bytes, lists and trees. */
static uint32_t call_on_bytes(nova *files, text bytes)
{
    nova_node node;
    size_t count;
    switch (random_below(10)) {
    case 0:
    case 1: return nova_write(files, some_handle(), number(), bytes.at, bytes.len);
    case 2: return nova_read(files, some_handle(), number(), bytes.at, bytes.len, &count);
    case 3: return nova_size(files, some_handle(), number());
    case 4: return nova_list(files, some_handle(), &count);
    case 5: return nova_listed(files, (size_t)number(), bytes.at, bytes.len, &count);
    case 6: return nova_tree(files, &count);
    case 7: return nova_shown_path(files, (size_t)number(), bytes.at, bytes.len, &count);
    case 8: return nova_shown_node(files, (size_t)number(), &node);
    default: return nova_shown_bytes(files, (size_t)number(), number(), bytes.at, bytes.len, &count);
    }
}

/* A call on snapshots and logs. */
static uint32_t call_on_blocks(nova *files)
{
    nova_cleaned cleaned;
    uint64_t told;
    size_t count;
    switch (random_below(7)) {
    case 0: return nova_snap(files, &told);
    case 1: return nova_drop_snap(files, number());
    case 2: return nova_show(files, number(), &count);
    case 3: return nova_drain(files, number(), &told);
    case 4: return nova_clean_fast(files, number(), &cleaned);
    case 5: return nova_clean_thorough(files, number(), &cleaned);
    default: return nova_clean_auto(files, number(), &cleaned);
    }
}

static uint32_t some_call(nova *files, text name, text other, text bytes)
{
    const uint64_t kind = random_below(8);
    if (kind < 4)
        return call_on_names(files, name, other);
    return kind < 7 ? call_on_bytes(files, bytes) : call_on_blocks(files);
}

static uint32_t call(nova *files)
{
    text name = some_name(), other = some_name(), bytes = filled((size_t)random_below(30), 'x');
    const uint32_t status = some_call(files, name, other, bytes);
    give_back(name);
    give_back(other);
    give_back(bytes);
    return status;
}

int main(int count, char **words)
{
    const unsigned long calls = count > 1 ? strtoul(words[1], NULL, 10) : 2000;
    unsigned long done = 0;
    nova files = NOVA_NONE;
    nova_blocks space;
    state = count > 2 ? 2 * strtoull(words[2], NULL, 10) + 1 : 1;
    TELLS(DONE, nova_new(&GEOMETRY, &files));
    for (unsigned long at = 0; at < calls; at++) {
        const uint32_t status = call(&files);
        done += status == NOVA_DONE;
        HOLDS(status <= NOVA_MOVE_DIRECTORY || (NOVA_BAD_MODE <= status && status <= NOVA_SHORT));
        TELLS(DONE, nova_audit(&files));
        TELLS(DONE, nova_space(&files, &space));
        HOLDS(space.free + space.chain + space.data + space.pending + space.hand == GEOMETRY.blocks);
    }
    nova_end(&files);
    HOLDS(done > calls / 10);
    printf("wild: %lu calls, %lu done\n", calls, done);
    return end_of_checks("wild");
}
