#include "state.h"

#include <string.h>

#include "counters.h"
#include "finding.h"
#include "places.h"
#include "rules.h"

uint64_t hash_of(const uint8_t *bytes, size_t length)
{
    uint64_t hash = 14695981039346656037u; /* FNV-1a */
    size_t i;

    for (i = 0; i < length; i++)
        hash = (hash ^ bytes[i]) * 1099511628211u;
    return hash;
}

size_t module_sectors(size_t length)
{
    return length <= 245 ? 1 : 1 + (length - 245 + 252) / 253;
}

static size_t type_part(const uint8_t *part, size_t width, uint8_t *to)
{
    size_t length = 0;

    while (length < width && part[length] != ' ') {
        to[length] = part[length];
        length++;
    }
    return length;
}

void type_name(const uint8_t *stored, struct name *name)
{
    size_t length = type_part(stored, 6, name->bytes);

    if (stored[6] != ' ') {
        name->bytes[length] = '.';
        length += 1 + type_part(stored + 6, 3, name->bytes + length + 1);
    }
    name->text.bytes = name->bytes;
    name->text.length = length;
}

static void take_disc_record(struct state *state, const uint8_t *record)
{
    REQUIRE_EQUAL(TANDOS_RECORD_DISC, record[0], "kind of the disc's record");
    memcpy(state->disc_name, record + 1, TANDOS_NAME_SIZE);
    state->free_sectors = word_at(record + 10);
    state->used_sectors = word_at(record + 12);
}

static void take_file_record(struct file *file, const uint8_t *record)
{
    REQUIRE_EQUAL(TANDOS_RECORD_FILE, record[0], "kind of a file's record");
    memcpy(file->name, record + 1, TANDOS_NAME_SIZE);
    file->sectors = word_at(record + 10);
    file->attribute = record[12];
    REQUIRE(file->sectors >= 1, "length of a file");
    REQUIRE(file->attribute == TANDOS_ATTRIBUTE_NONE ||
            file->attribute == TANDOS_ATTRIBUTE_PROTECTED, "attribute");
}

static void take_list(struct state *state, const struct lent *lent,
                      struct stated stated)
{
    tandos_filled listed = call_list(lent, stated, TANDOS_LIST_MAX);
    size_t frame = TANDOS_LIST_SIZE(0);
    size_t i;

    REQUIRE_EQUAL(TANDOS_DONE, listed.number, "list of a sound image");
    REQUIRE(listed.length >= frame &&
            (listed.length - frame) % TANDOS_FILE_RECORD_SIZE == 0,
            "length of a list");
    take_disc_record(state, answer);
    state->file_count = (listed.length - frame) / TANDOS_FILE_RECORD_SIZE;
    for (i = 0; i < state->file_count; i++)
        take_file_record(&state->files[i], answer + TANDOS_DISC_RECORD_SIZE +
                                           i * TANDOS_FILE_RECORD_SIZE);
    REQUIRE_EQUAL(TANDOS_RECORD_END, answer[listed.length - 1], "end of list");
}

static void take_reading(struct file *file, const struct lent *lent,
                         struct stated stated)
{
    size_t room = 245 + 253 * (file->sectors - 1);
    struct name name;
    tandos_reading reading;

    type_name(file->name, &name);
    reading = call_read(lent, stated, name.text,
                        room < TANDOS_SHEET_MAX ? room : TANDOS_SHEET_MAX);
    file->reading = reading;
    file->hash = hash_of(answer, reading.length);
    if (reading.number == TANDOS_NOT_PLAIN)
        return;
    REQUIRE_EQUAL(TANDOS_DONE, reading.number, "read of a standing file");
    REQUIRE(reading.page <= 7 && reading.start <= 0xFFFF &&
            reading.transfer <= 0xFFFF && reading.length >= 1 &&
            reading.end == reading.start + reading.length - 1 &&
            reading.end <= 0xFFFF, "numbers of a reading");
    REQUIRE_EQUAL(module_sectors(reading.length), file->sectors,
                  "sectors of a plain file");
}

/* The counts that are listed are those of the chains. */
static void require_sums(struct state *state, const struct met *met)
{
    size_t directory = met->counts[PLACE_DIRECTORY];
    size_t used = 0;
    size_t i;

    for (i = 0; i < state->file_count; i++)
        used += state->files[i].sectors;
    REQUIRE_EQUAL(used, state->used_sectors, "used count");
    REQUIRE_EQUAL(met->counts[PLACE_FILE], used, "sectors of the files");
    REQUIRE_EQUAL(met->counts[PLACE_FREE], state->free_sectors, "free count");
    REQUIRE(state->file_count <= SLOTS_PER_DIRECTORY_SECTOR * directory,
            "more files than slots");
    state->directory_sectors = directory;
}

static void take_check(struct state *state, const struct image *image,
                       const struct lent *lent, struct met *met)
{
    state->is_image = is_image(image);
    state->checked = call_check(lent, image->stated);
    REQUIRE_EQUAL(state->is_image ? TANDOS_DONE : TANDOS_SIZE,
                  state->checked.number, "number of a check");
    if (state->is_image)
        REQUIRE_EQUAL(broken_rule(image, met), state->checked.rule,
                      "rule that a check reports");
    state->is_sound = state->is_image && state->checked.rule == 0;
    if (!state->is_image && kind_of(image->stated) < DISC_KINDS &&
        is_length(image->length, other_sectors(image->stated)))
        count_occasion(image->stated, OTHERS_LENGTH);
}

static void count_sound(const struct image *image, const struct state *state)
{
    count_disc(state->file_count, state->directory_sectors,
               state->free_sectors);
    if (state->directory_sectors > 1)
        count_occasion(image->stated, GROWN_DIRECTORY);
    if (state->free_sectors == 0)
        count_occasion(image->stated, FULL_DISC);
    if (tracks_of(image) == TANDOS_MAX_TRACKS)
        count_occasion(image->stated, MOST_TRACKS);
    if (is_length(image->length, other_sectors(image->stated)))
        count_occasion(image->stated, EITHER_NUMBER);
}

void look(const struct image *image, struct state *state)
{
    static struct met met;
    struct lent lent = lend(image->bytes, image->length);
    size_t i;

    take_check(state, image, &lent, &met);
    state->directory_sectors = 0;
    state->file_count = 0;
    if (state->is_sound) {
        take_list(state, &lent, image->stated);
        require_sums(state, &met);
        for (i = 0; i < state->file_count; i++)
            take_reading(&state->files[i], &lent, image->stated);
        count_sound(image, state);
    }
    give_back_kept(&lent, image->bytes, "check, list or read change the image");
}

void copy_state(struct state *to, const struct state *from)
{
    size_t files = from->file_count * sizeof from->files[0];

    memcpy(to, from, offsetof(struct state, files) + files);
}

const struct file *find(const struct state *state, const uint8_t *stored)
{
    size_t i;

    for (i = 0; i < state->file_count; i++)
        if (memcmp(state->files[i].name, stored, TANDOS_NAME_SIZE) == 0)
            return &state->files[i];
    return NULL;
}
