#include "number.h"

#include <string.h>

/* The value of a digit, or 16 where the character is none. */
static uint32_t digit_value(char character)
{
    if (character >= '0' && character <= '9')
        return (uint32_t)(character - '0');
    if (character >= 'a' && character <= 'f')
        return (uint32_t)(character - 'a') + 10;
    if (character >= 'A' && character <= 'F')
        return (uint32_t)(character - 'A') + 10;
    return 16;
}

static bool parse_digits(const char *digits, size_t length, uint32_t base,
                         uint32_t *number)
{
    uint64_t value = 0;
    size_t i;

    for (i = 0; i < length; i++) {
        uint32_t digit = digit_value(digits[i]);

        if (digit >= base)
            return false;
        value = value * base + digit;
        if (value > UINT32_MAX)
            value = UINT32_MAX;
    }
    *number = (uint32_t)value;
    return length > 0;
}

bool parse_decimal(const char *digits, size_t length, uint32_t *number)
{
    return parse_digits(digits, length, 10, number);
}

static bool parse_part(const char *text, size_t length, uint32_t *number)
{
    if (length > 0 && text[0] == '$')
        return parse_digits(text + 1, length - 1, 16, number);
    if (length > 1 && text[0] == '0' && (text[1] == 'x' || text[1] == 'X'))
        return parse_digits(text + 2, length - 2, 16, number);
    return parse_decimal(text, length, number);
}

bool parse_number(const char *text, uint32_t *number)
{
    return parse_part(text, strlen(text), number);
}

bool parse_place(const char *text, uint32_t *track, uint32_t *sector)
{
    const char *slash = strchr(text, '/');

    return slash != NULL && parse_part(text, (size_t)(slash - text), track) &&
           parse_number(slash + 1, sector);
}
