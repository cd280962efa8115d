#include "temporary.h"

#include <errno.h>
#include <signal.h>
#include <stdio.h>
#include <stdlib.h>
#include <string.h>
#include <sys/stat.h>
#include <unistd.h>

static const int ending_signals[] = { SIGHUP,  SIGINT,  SIGQUIT, SIGPIPE,
                                      SIGTERM, SIGXCPU, SIGXFSZ };

#define ENDING_SIGNALS (sizeof ending_signals / sizeof ending_signals[0])

struct temporary {
    struct temporary *older;
    char path[];
};

/* The files that stand. Changed only with the ending signals blocked, so that
 * the handler sees exactly those. */
static struct temporary *volatile newest;

static void remove_and_end(int signal_number)
{
    const struct temporary *file;

    for (file = newest; file != NULL; file = file->older)
        unlink(file->path);
    /* The signal is blocked here; it ends the process on return. */
    signal(signal_number, SIG_DFL);
    raise(signal_number);
}

static void block(sigset_t *old)
{
    sigset_t set;
    size_t i;

    sigemptyset(&set);
    for (i = 0; i < ENDING_SIGNALS; i++)
        sigaddset(&set, ending_signals[i]);
    sigprocmask(SIG_BLOCK, &set, old);
}

static void unblock(const sigset_t *old)
{
    int error = errno;

    sigprocmask(SIG_SETMASK, old, NULL);
    errno = error;
}

/* A signal that the caller has set to be ignored (nohup) stays so. */
static void catch_signals(void)
{
    struct sigaction action, old;
    size_t i;

    memset(&action, 0, sizeof action);
    action.sa_handler = remove_and_end;
    sigemptyset(&action.sa_mask);
    for (i = 0; i < ENDING_SIGNALS; i++)
        if (sigaction(ending_signals[i], NULL, &old) == 0 &&
            old.sa_handler != SIG_IGN)
            sigaction(ending_signals[i], &action, NULL);
}

static void forget_newest(void)
{
    struct temporary *file = newest;

    newest = file->older;
    free(file);
}

/* Answers the open file, as create_temporary does. */
static int make_in(const char *folder)
{
    static const char pattern[] = ".tandos-XXXXXX";
    size_t size = strlen(folder) + sizeof pattern;
    struct temporary *made = malloc(sizeof *made + size);
    int file;

    if (made == NULL)
        return -1;
    snprintf(made->path, size, "%s%s", folder, pattern);
    file = mkstemp(made->path);
    made->older = newest;
    newest = made;
    if (file < 0)
        forget_newest();
    return file;
}

int create_temporary(const char *folder)
{
    sigset_t old;
    int file;

    block(&old);
    file = make_in(folder);
    if (file >= 0)
        catch_signals();
    unblock(&old);
    return file;
}

/* A second name is refused where one stands, in one step with making it. On a
 * file system without second names (FAT) it is looked for first. */
static bool give_new_name(const char *target)
{
    struct stat old;

    if (link(newest->path, target) == 0)
        return unlink(newest->path) == 0;
    if (errno != EPERM && errno != EOPNOTSUPP && errno != ENOSYS)
        return false;
    if (lstat(target, &old) == 0) {
        errno = EEXIST;
        return false;
    }
    return rename(newest->path, target) == 0;
}

bool name_temporary(const char *target, bool may_exist)
{
    sigset_t old;
    bool is_named;

    block(&old);
    is_named = may_exist ? rename(newest->path, target) == 0
                         : give_new_name(target);
    if (is_named)
        forget_newest();
    unblock(&old);
    return is_named;
}

void remove_temporary(void)
{
    sigset_t old;

    block(&old);
    unlink(newest->path);
    forget_newest();
    unblock(&old);
}
