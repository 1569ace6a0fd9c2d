#include "telling.h"

#include <inttypes.h>

#include "montrakit.h"

static const char *kind_name(uint32_t kind)
{
    switch (kind) {
    case MONTRAKIT_REFUSED:
        return "refused";
    case MONTRAKIT_SILENT:
        return "silent";
    case MONTRAKIT_EXCEPTION:
        return "exception";
    case MONTRAKIT_REPLY:
        return "reply";
    case MONTRAKIT_BAD_ARGUMENT:
        return "bad argument";
    case MONTRAKIT_BUILT:
        return "built";
    case MONTRAKIT_VALUES:
        return "values";
    case MONTRAKIT_WRITTEN:
        return "written";
    default:
        return "no such kind";
    }
}

void tell_result(FILE *to, uint32_t result)
{
    fputs(kind_name(MONTRAKIT_KIND(result)), to);
    if (MONTRAKIT_KIND(result) != MONTRAKIT_WRITTEN)
        fprintf(to, " %" PRIu32, MONTRAKIT_NUMBER(result));
}

void tell_bytes(FILE *to, const uint8_t *bytes, size_t count)
{
    for (size_t i = 0; i < count; i++)
        fprintf(to, i == 0 ? "%02X" : " %02X", bytes[i]);
}
