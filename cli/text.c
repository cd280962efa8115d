#include "text.h"

size_t unpadded_length(const uint8_t *bytes, size_t length)
{
    while (length > 0 && bytes[length - 1] == ' ')
        length--;
    return length;
}

const char *plural(unsigned count)
{
    return count == 1 ? "" : "s";
}

unsigned word_at(const uint8_t *bytes)
{
    return bytes[0] + 256u * bytes[1];
}

/* Answers where the next character goes. */
static char *put_escaped(char *to, const uint8_t *bytes, size_t length)
{
    size_t i;

    for (i = 0; i < length; i++) {
        if (bytes[i] == '\\')
            to += sprintf(to, "\\\\");
        else if (bytes[i] >= ' ' && bytes[i] <= '~')
            to += sprintf(to, "%c", bytes[i]);
        else
            to += sprintf(to, "\\x%02X", (unsigned)bytes[i]);
    }
    return to;
}

const char *file_name_text(const uint8_t *stored, char text[NAME_TEXT_SIZE])
{
    const uint8_t *extension = stored + NAME_PART;
    size_t extension_length = unpadded_length(extension, EXTENSION_PART);
    char *to = put_escaped(text, stored, unpadded_length(stored, NAME_PART));

    if (extension_length > 0)
        *to++ = '.';
    *put_escaped(to, extension, extension_length) = '\0';
    return text;
}

const char *disc_name_text(const uint8_t *stored, char text[NAME_TEXT_SIZE])
{
    *put_escaped(text, stored, unpadded_length(stored, TANDOS_NAME_SIZE)) =
        '\0';
    return text;
}

void print_json_string(FILE *to, const uint8_t *bytes, size_t length)
{
    size_t i;

    putc('"', to);
    for (i = 0; i < length; i++) {
        if (bytes[i] == '"' || bytes[i] == '\\')
            fprintf(to, "\\%c", bytes[i]);
        else if (bytes[i] >= ' ' && bytes[i] <= '~')
            putc(bytes[i], to);
        else
            fprintf(to, "\\u%04X", (unsigned)bytes[i]);
    }
    putc('"', to);
}

void print_xml_text(FILE *to, const char *text)
{
    for (; *text != '\0'; text++) {
        switch (*text) {
        case '&': fputs("&amp;", to); break;
        case '<': fputs("&lt;", to); break;
        case '>': fputs("&gt;", to); break;
        case '"': fputs("&quot;", to); break;
        default: putc(*text, to);
        }
    }
}
