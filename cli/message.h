/* Messages on standard error. Each function answers the exit status that goes
 * with its message, so that a caller can return it. */
#ifndef MESSAGE_H
#define MESSAGE_H

#include <stdint.h>

#include "status.h"

/* The name under which a path is spoken of: "-" is standard input. */
const char *input_name(const char *path);

/* A call refused: the image, the number, its name, and what to do. A hint is
 * "" or a sentence more, with a space in front. */
enum status say_refused(const char *path, uint32_t number, const char *hint);

/* A call refused a file of an image: what is wrong is said instead of what the
 * library says of the number. */
enum status say_file_refused(const char *path, const char *name,
                             uint32_t number, const char *what,
                             const char *hint);

/* A repair refused an image for the rule broken: the damage, and what can still
 * be done. */
enum status say_beyond_repair(const char *path, uint32_t rule,
                              const char *damage);

/* A list of writes is none, or none for the disc: what is wrong, and what to
 * do. */
enum status say_list_refused(const char *path, const char *fault,
                             const char *advice);

/* No file of the images has a name as the pattern typed. */
enum status say_no_match(const char *command, const char *pattern);

/* Warnings, with which the exit status stays as it is. */
void warn_same_image(const char *path, const char *earlier);
void warn_same_sheet(const char *path, const char *name, const char *earlier);

/* The rule that the check found broken, and a hint as above. */
enum status say_broken(const char *path, uint32_t rule, const char *hint);

/* A system call failed: errno says why. */
enum status say_failed(const char *path, const char *what);

/* What is wrong with a file, where errno does not say it. */
enum status say_problem(const char *path, const char *problem);

/* The command line is wrong. `command` may be NULL. */
enum status say_misuse(const char *command, const char *what,
                       const char *argument);

#endif
