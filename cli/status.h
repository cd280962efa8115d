/* The exit statuses of the command. */
#ifndef STATUS_H
#define STATUS_H

enum status {
    STATUS_DONE = 0,
    STATUS_REFUSED = 1, /* a call's refusal, or an image that is not sound */
    STATUS_FAILED = 2   /* misuse, or an error of input or output */
};

#endif
