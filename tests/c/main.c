#include <stdio.h>

#include "calls.h"
#include "discs.h"
#include "report.h"
#include "tests.h"

struct test {
    const char *name;
    void (*run)(void);
};

/* For each kind of image. */
static const struct test tests[] = {
    { "blank", test_blank },
    { "names", test_names },
    { "save", test_save },
    { "directory", test_directory },
    { "list", test_list },
    { "read", test_read },
    { "delete", test_delete },
    { "rename", test_rename },
    { "protect", test_protect },
    { "check", test_check },
    { "view", test_view },
    { "writes", test_writes },
    { "replay", test_replay },
    { "repair", test_repair },
    { "cuts", test_cuts },
    { "cancels", test_cancels },
    { "scattered", test_scattered },
    { "sizes", test_sizes },
    { "order", test_order },
    { "arrangement", test_arrangement },
    { "wide", test_wide }
};

/* These choose the kind of an image themselves, or have none. */
static const struct test tests_once[] = {
    { "sectors", test_sectors },
    { "nine", test_nine },
    { "totals", test_totals },
    { "limit", test_limit },
    { "week", test_week },
    { "text", test_text }
};

static void run_tests(uint32_t sectors, uint32_t arrangement, const char *mark)
{
    static char name[40];
    size_t i;

    for (i = 0; i < sizeof tests / sizeof tests[0]; i++) {
        use_kind(sectors, arrangement);
        sprintf(name, "%s%s", tests[i].name, mark);
        begin_test(name);
        tests[i].run();
    }
}

static void run_tests_once(void)
{
    size_t i;

    for (i = 0; i < sizeof tests_once / sizeof tests_once[0]; i++) {
        begin_test(tests_once[i].name);
        tests_once[i].run();
    }
}

int main(void)
{
    /* What failed is seen even if a later call ends the program. */
    setvbuf(stdout, NULL, _IONBF, 0);
    make_sheet();
    run_tests(TANDOS_TEN, TANDOS_PLAIN, "");
    run_tests(TANDOS_TEN, TANDOS_MOVED, ", moved");
    run_tests(TANDOS_NINE, TANDOS_PLAIN, ", nine");
    run_tests_once();
    return report();
}
