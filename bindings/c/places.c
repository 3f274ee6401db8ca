/* Asks for snapshots, logs and places that are not there, and for answers that are longer than their places. It
 * expects the status that nova.h names. The exit status is 0 where all was as expected. */
#include "scene.h"

static void snapshots(void)
{
    scene it;
    begin(&it);
    uint64_t second = 77, number = 77;
    size_t count = 77;
    TELLS(NO_SNAPSHOT, nova_show(&it.files, 0, &count));
    TELLS(NO_SNAPSHOT, nova_drop_snap(&it.files, 0));
    for (size_t at = 0; at < WILD_COUNT; at++) {
        TELLS(NO_SNAPSHOT, nova_show(&it.files, WILD[at], &count));
        TELLS(NO_SNAPSHOT, nova_drop_snap(&it.files, WILD[at]));
    }
    HOLDS(count == 77);
    TELLS(DONE, nova_snap(&it.files, &second));
    HOLDS(second == it.snapshot + 1);
    TELLS(TOO_MANY_SNAPSHOTS, nova_snap(&it.files, &number));
    HOLDS(number == 77);
    TELLS(DONE, nova_drop_snap(&it.files, it.snapshot));
    TELLS(NO_SNAPSHOT, nova_drop_snap(&it.files, it.snapshot));
    TELLS(NO_SNAPSHOT, nova_show(&it.files, it.snapshot, &count));
    TELLS(DONE, nova_drain(&it.files, UINT64_MAX, &number));
    TELLS(DONE, nova_drain(&it.files, 0, &number));
    HOLDS(number == 0);
    end(&it);
}

/* Places of a list, and places for a name that are too short. */
static void lists(void)
{
    scene it;
    begin(&it);
    text into = filled(4, 'x'), short_by_one = filled(3, 'x'), nothing = filled(0, 0);
    size_t count = 77, len = 77;
    TELLS(NO_PLACE, nova_listed(&it.files, 0, into.at, into.len, &len));
    TELLS(DONE, nova_list(&it.files, nova_root(), &count));
    HOLDS(count == 2);
    TELLS(NO_PLACE, nova_listed(&it.files, count, into.at, into.len, &len));
    for (size_t at = 0; at < WILD_COUNT; at++)
        TELLS(NO_PLACE, nova_listed(&it.files, (size_t)WILD[at], into.at, into.len, &len));
    HOLDS(len == 77 && is_all(into, 'x'));
    TELLS(SHORT, nova_listed(&it.files, 0, short_by_one.at, short_by_one.len, &len));
    HOLDS(len == 4 && is_all(short_by_one, 'x'));
    len = 77;
    TELLS(SHORT, nova_listed(&it.files, 0, nothing.at, nothing.len, &len));
    HOLDS(len == 4);
    TELLS(DONE, nova_listed(&it.files, 0, into.at, into.len, &len));
    HOLDS(len == 4 && memcmp(into.at, "file", 4) == 0);
    TELLS(DONE, nova_listed(&it.files, 1, into.at, into.len, &len));
    HOLDS(len == 3 && memcmp(into.at, "dire", 4) == 0);
    /* A list that is refused leaves the last one. */
    TELLS(NOT_DIRECTORY, nova_list(&it.files, it.file, &count));
    TELLS(DONE, nova_listed(&it.files, 0, into.at, into.len, &len));
    TELLS(DONE, nova_list(&it.files, it.dir, &count));
    HOLDS(count == 0);
    TELLS(NO_PLACE, nova_listed(&it.files, 0, into.at, into.len, &len));
    give_back(into);
    give_back(short_by_one);
    give_back(nothing);
    end(&it);
}

/* Places of a tree, and places for a path and for bytes that are too short. */
static void trees(void)
{
    scene it;
    begin(&it);
    text into = filled(5, 'x'), short_by_one = filled(4, 'x'), nothing = filled(0, 0);
    nova_node node = {7, 7, 7, 7};
    size_t count = 77, len = 77;
    TELLS(NO_PLACE, nova_shown_node(&it.files, 0, &node));
    TELLS(NO_PLACE, nova_shown_path(&it.files, 0, into.at, into.len, &len));
    TELLS(NO_PLACE, nova_shown_bytes(&it.files, 0, 0, into.at, into.len, &len));
    TELLS(DONE, nova_tree(&it.files, &count));
    HOLDS(count == 3);
    for (size_t at = 0; at < WILD_COUNT; at++) {
        size_t place = (size_t)WILD[at];
        TELLS(NO_PLACE, nova_shown_node(&it.files, place, &node));
        TELLS(NO_PLACE, nova_shown_path(&it.files, place, into.at, into.len, &len));
        TELLS(NO_PLACE, nova_shown_bytes(&it.files, place, 0, into.at, into.len, &len));
    }
    HOLDS(node.kind == 7 && len == 77 && is_all(into, 'x'));
    TELLS(SHORT, nova_shown_path(&it.files, 0, nothing.at, nothing.len, &len));
    HOLDS(len == 1);
    TELLS(SHORT, nova_shown_path(&it.files, 1, short_by_one.at, short_by_one.len, &len));
    HOLDS(len == 5 && is_all(short_by_one, 'x'));
    TELLS(DONE, nova_shown_path(&it.files, 1, into.at, into.len, &len));
    HOLDS(len == 5 && memcmp(into.at, "/file", 5) == 0);
    TELLS(DONE, nova_shown_path(&it.files, 0, into.at, into.len, &len));
    HOLDS(len == 1 && memcmp(into.at, "/file", 5) == 0);
    TELLS(DONE, nova_shown_node(&it.files, 1, &node));
    HOLDS(node.kind == NOVA_FILE && node.mode == 0644 && node.size == 6 && node.commit == 0);
    TELLS(DONE, nova_shown_bytes(&it.files, 1, 2, into.at, into.len, &len));
    HOLDS(len == 4 && memcmp(into.at, "ttere", 5) == 0);
    TELLS(DONE, nova_shown_bytes(&it.files, 1, UINT64_MAX, into.at, into.len, &len));
    HOLDS(len == 0);
    TELLS(DONE, nova_shown_bytes(&it.files, 1, 0, nothing.at, nothing.len, &len));
    TELLS(DONE, nova_shown_bytes(&it.files, 2, 0, into.at, into.len, &len));
    HOLDS(len == 0);
    TELLS(NO_SNAPSHOT, nova_show(&it.files, UINT64_MAX, &count));
    TELLS(DONE, nova_shown_node(&it.files, 2, &node));
    HOLDS(node.kind == NOVA_DIRECTORY && node.mode == 0755 && node.size == 0);
    TELLS(DONE, nova_show(&it.files, it.snapshot, &count));
    HOLDS(count == 3);
    give_back(into);
    give_back(short_by_one);
    give_back(nothing);
    end(&it);
}

static void logs(void)
{
    scene it;
    begin(&it);
    nova_cleaned cleaned = {7, 7, 7};
    TELLS(STALE, nova_clean_fast(&it.files, 7, &cleaned));
    for (size_t at = 0; at < WILD_COUNT; at++) {
        TELLS(STALE, nova_clean_fast(&it.files, WILD[at], &cleaned));
        TELLS(STALE, nova_clean_thorough(&it.files, WILD[at], &cleaned));
        TELLS(STALE, nova_clean_auto(&it.files, WILD[at], &cleaned));
    }
    HOLDS(cleaned.thorough == 7 && cleaned.entries == 7 && cleaned.pages == 7);
    TELLS(DONE, nova_clean_fast(&it.files, 0, &cleaned));
    HOLDS(cleaned.thorough == 0);
    TELLS(DONE, nova_clean_thorough(&it.files, it.file.ino, &cleaned));
    HOLDS(cleaned.thorough == 1);
    end(&it);
}

int main(void)
{
    snapshots();
    lists();
    trees();
    logs();
    return end_of_checks("places");
}
