/* tandos repair: a new free chain and right counts, for a disc whose card was
 * pulled while it was written to. */
#include <stdio.h>

#include "chains.h"
#include "commands.h"
#include "damage.h"
#include "hint.h"
#include "image.h"
#include "kind.h"
#include "message.h"
#include "replace.h"
#include "text.h"

enum { DRY_RUN };

static struct chains chains;

/* As the disc says, and as its chains are. */
struct counts {
    unsigned free, used;
    unsigned chained, lost, files;
};

static struct counts count(const struct image *image)
{
    struct counts counts = { 0 };
    unsigned i;

    follow_chains(&chains, image);
    counts.free = chains.chain[FREE_CHAIN].said_length;
    counts.used = chains.said_used;
    counts.chained = chains.chain[FREE_CHAIN].length;
    counts.files = chains.count - FIRST_FILE_CHAIN;
    for (i = 0; i < chains.sectors; i++)
        counts.lost += is_lost(&chains.sector[i]);
    return counts;
}

static void print_sound(const struct image *image)
{
    struct counts counts = count(image);

    printf("%s: %s Nothing has to change: %u sector%s free, %u in files.\n",
           input_name(image->path), tandos_rule_text(0), counts.free,
           plural(counts.free), counts.used);
}

static void print_repaired(const struct image *image, uint32_t rule,
                           struct counts before, bool is_dry)
{
    struct counts after = count(image);

    printf("%s: %s\n", input_name(image->path), tandos_rule_text(rule));
    printf("  threaded into the free chain: %u sector%s, %u of them lost "
           "before\n", after.chained, plural(after.chained), before.lost);
    printf("  free count: %u before, %u after\n", before.free, after.free);
    printf("  used count: %u before, %u after\n", before.used, after.used);
    if (after.files == 0)
        puts("  files: none; if there should be some, another kind of disc is "
             "to be stated");
    else
        printf("  files: %u, left as they are\n", after.files);
    if (is_dry)
        puts("  A dry run: nothing is written.");
    else
        printf("  Repaired. %s\n",
               tandos_rule_text(tandos_check(TANDOS_ON(*image)).rule));
}

/* Of an image that is not sound. What was done is told once it is. */
static enum status mend(struct image *image, uint32_t rule, bool is_dry)
{
    struct counts before = count(image);
    char damage[DAMAGE_TEXT_SIZE];
    enum status status = STATUS_DONE;

    if (tandos_repair(TANDOS_ON(*image)) != TANDOS_DONE)
        return say_beyond_repair(image->path, rule,
                                 first_damage(&chains, rule, damage));
    if (!is_dry)
        status = replace_file(image->path, image->bytes, image->length, true);
    if (status == STATUS_DONE)
        print_repaired(image, rule, before, is_dry);
    return status;
}

/* A sound disc is left as it is: lists of writes that were made from it go on
 * to fit it. A repair as another kind than the disc is of would spoil it. */
static enum status repair(struct image *image, bool is_dry)
{
    tandos_checked checked = tandos_check(TANDOS_ON(*image));

    if (checked.number != TANDOS_DONE)
        return say_image_refused(image, checked.number);
    if (checked.rule == 0) {
        print_sound(image);
        return STATUS_DONE;
    }
    if (kind_meant(image) != KINDS)
        return say_image_refused(image, TANDOS_UNSOUND);
    return mend(image, checked.rule, is_dry);
}

static enum status repair_one(const struct arguments *arguments,
                              const char *path)
{
    static struct image image;
    enum status status;

    if (arguments->option[DRY_RUN] != NULL) {
        status = load_image(&image, path, arguments->kind);
        return status == STATUS_DONE ? repair(&image, true) : status;
    }
    status = load_image_for_change(&image, path, arguments->kind,
                                   arguments->command);
    if (status != STATUS_DONE)
        return status;
    status = repair(&image, false);
    unlock_image(&image);
    return status;
}

static enum status run(const struct arguments *arguments)
{
    return for_each_operand(arguments, repair_one);
}

const struct command repair_command = {
    "repair", "IMAGE.. [--dry-run] " KIND_SYNOPSIS,
    "Make discs sound whose card was pulled.",
    "Threads every sector that is in no file and not in the directory into a\n"
    "new free chain, and corrects both counts; files and directory stay as\n"
    "they are. Says what was broken and what was done; a sound disc is left\n"
    "as it is. A disc on which one of rules 1 to 5 is broken is refused, with\n"
    "the file or sector at fault. Take a copy of each image first.\n\n"
    "Each image is repaired on its own. Exit status 0 only if all are sound\n"
    "now, 1 if one was refused, 2 if one could not be read or written.\n\n"
    "  --dry-run     say what a repair would do, and write nothing\n"
    "  --moved       the images are in the moved arrangement\n"
    "  --sectors 9   the images have 9 sectors a track instead of 10\n",
    1, ANY_NUMBER, { { "--dry-run", NULL, false } }, run
};
