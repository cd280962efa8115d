#include "bytes.h"

#include <errno.h>
#include <fcntl.h>
#include <string.h>
#include <unistd.h>

#include "message.h"

bool read_bytes(int file, uint8_t *buffer, size_t size, size_t *length)
{
    *length = 0;
    while (*length < size) {
        ssize_t count = read(file, buffer + *length, size - *length);

        if (count == 0)
            return true;
        if (count > 0)
            *length += (size_t)count;
        else if (errno != EINTR)
            return false;
    }
    return true;
}

bool write_bytes(int file, const uint8_t *bytes, size_t length)
{
    while (length > 0) {
        ssize_t count = write(file, bytes, length);

        if (count >= 0) {
            bytes += count;
            length -= (size_t)count;
        } else if (errno != EINTR) {
            return false;
        }
    }
    return true;
}

enum status read_file(const char *path, uint8_t *buffer, size_t size,
                      size_t *length)
{
    bool is_standard = strcmp(path, "-") == 0;
    int file = is_standard ? STDIN_FILENO : open(path, O_RDONLY);
    enum status status = STATUS_DONE;

    if (file < 0)
        return say_failed(path, "cannot open");
    if (!read_bytes(file, buffer, size, length))
        status = say_failed(input_name(path), "cannot read");
    if (!is_standard)
        close(file);
    return status;
}
