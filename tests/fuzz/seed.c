#include "seed.h"

#include <stdarg.h>
#include <stdio.h>
#include <stdlib.h>

#define SEED_MOST 4096

/* The last of the legal names. */
#define NO_FILES_NAME (NAME_TYPED - 1)

const char *const kind_names[STATED_KINDS] = {
    [STATED_NINE] = "nine", [STATED_PLAIN] = "plain", [STATED_MOVED] = "moved"
};

const char *seed_folder;
enum stated_kind seed_kind;
int seed_sectors;

static uint8_t seed[SEED_MOST];
static size_t seed_length;

void choose_kind(enum stated_kind kind)
{
    seed_kind = kind;
    seed_sectors = kind == STATED_NINE ? 9 : 10;
}

int free_of(int tracks)
{
    return seed_sectors * tracks - 2;
}

int last_passing(void)
{
    return seed_kind == STATED_NINE ? 9 : 8;
}

void begin_empty(void)
{
    seed_length = 0;
}

void begin(int tracks)
{
    begin_empty();
    put(START_BLANK, seed_kind, tracks, -1);
}

void put(int byte, ...)
{
    va_list bytes;

    va_start(bytes, byte);
    for (; byte >= 0 && seed_length < SEED_MOST; byte = va_arg(bytes, int))
        seed[seed_length++] = (uint8_t)byte;
    va_end(bytes);
}

static void put_save(int name)
{
    put(COMMAND_SAVE, name, 1, 0x00, 0x00, 0x00, 0x20, -1);
}

void save_lent(int name, enum sheet sheet, enum buffer buffer)
{
    put_save(name);
    put((int)sheet, name, (int)buffer, -1);
}

void delete_lent(int name, enum buffer buffer)
{
    put(COMMAND_DELETE, name, (int)buffer, -1);
}

void put_renamed(int old_name, int new_name, enum buffer buffer)
{
    put(old_name, new_name, NO_FILES_NAME, (int)buffer, -1);
}

void rename_lent(int old_name, int new_name, enum buffer buffer)
{
    put(COMMAND_RENAME, -1);
    put_renamed(old_name, new_name, buffer);
}

void protect_lent(int name, int on, enum buffer buffer)
{
    put(COMMAND_PROTECT, name, on, (int)buffer, -1);
}

void save(int name, enum sheet sheet)
{
    save_lent(name, sheet, BUFFER_EXACT);
}

void delete(int name)
{
    delete_lent(name, BUFFER_EXACT);
}

void rename_to(int old_name, int new_name)
{
    rename_lent(old_name, new_name, BUFFER_EXACT);
}

void rename_twice(int old_name, int new_name, int third_name)
{
    put(COMMAND_RENAME, old_name, new_name, third_name, BUFFER_EXACT, -1);
}

void protect(int name, int on)
{
    protect_lent(name, on, BUFFER_EXACT);
}

void replay(int which)
{
    put(COMMAND_REPLAY, WRITES_KEPT, which, WRITES_WHOLE, -1);
}

void put_built(int groups)
{
    put(COMMAND_REPLAY, WRITES_BUILT, groups, -1);
}

void put_write(int track, int sector, int fill)
{
    put(WRITE_ON_DISC, track, sector, fill, -1);
}

void replay_nothing(void)
{
    put(COMMAND_REPLAY, WRITES_BYTES, 0, 0, -1);
}

void repair(void)
{
    put(COMMAND_REPAIR, -1);
}

void save_sectors(int name, int sectors, int more)
{
    int length = 245 + 253 * (sectors - 1) + more;

    put_save(name);
    put(SHEET_LENGTH, length & 0xFF, length >> 8, name, BUFFER_EXACT, -1);
}

void save_many(int first, int count)
{
    put(COMMAND_SAVES, count, first, SHEET_1, 1, -1);
}

void put_byte(int sector, int byte, int value)
{
    put(COMMAND_BYTE, sector, 0, byte, value, -1);
}

void resize(int sectors, int more)
{
    int length = 256 * sectors + more;

    put(COMMAND_RESIZE, length & 0xFF, length >> 8 & 0xFF, length >> 16, -1);
}

void put_calls(int name)
{
    put(COMMAND_LIST, BUFFER_LARGEST, COMMAND_READ, name, BUFFER_LARGEST, -1);
    put(COMMAND_VIEW, 0, 1, -1);
    replay(0);
    replay_nothing();
    repair();
    rename_to(name, name + 1);
    protect(name, 1);
    delete(name);
    put(COMMAND_BLANK, 0, -1);
    save(name + 3, SHEET_1);
}

void end(const char *name)
{
    char path[1024];
    FILE *file;
    int length = snprintf(path, sizeof path, "%s/%s-%s", seed_folder,
                          kind_names[seed_kind], name);

    file = length < (int)sizeof path ? fopen(path, "wb") : NULL;
    if (file == NULL || fwrite(seed, 1, seed_length, file) != seed_length ||
        fclose(file) != 0) {
        perror(name);
        exit(EXIT_FAILURE);
    }
}
