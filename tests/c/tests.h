/* The tests, one function for each file named after it. */
#ifndef TESTS_H
#define TESTS_H

void test_blank(void);
void test_names(void);
void test_save(void);
void test_directory(void);
void test_list(void);
void test_read(void);
void test_delete(void);
void test_rename(void);
void test_protect(void);
void test_check(void);
void test_view(void);
void test_writes(void);
void test_replay(void);
void test_repair(void);
void test_cuts(void);
void test_cancels(void);
void test_scattered(void);
void test_sizes(void);
void test_order(void);
void test_arrangement(void);
void test_sectors(void);
void test_nine(void);
void test_totals(void);
void test_limit(void);
void test_week(void);
void test_text(void);
void test_wide(void);

#endif
