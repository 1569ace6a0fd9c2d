// The header in a C++ program: the constants serve in a switch, and the functions are found by their C names.
#include "montrakit.h"

static bool is_refused_for(uint32_t result, uint32_t number)
{
    switch (MONTRAKIT_KIND(result)) {
    case MONTRAKIT_REFUSED:
        return MONTRAKIT_NUMBER(result) == number && montrakit_to_send(result) == 0;
    default:
        return false;
    }
}

int main()
{
    bool is_as_expected =
        montrakit_check_word(nullptr, 0) == 0xFFFF &&
        is_refused_for(montrakit_respond(1, MONTRAKIT_MOD_BUS, MONTRAKIT_READY, nullptr, 0, nullptr, 0, nullptr, 0, nullptr, 0),
                       MONTRAKIT_REFUSED_IMAGE) &&
        is_refused_for(montrakit_build(1, MONTRAKIT_READ_BITS_01, 0, 1, nullptr, 0, nullptr, 0), MONTRAKIT_REFUSED_REQUEST) &&
        is_refused_for(montrakit_read(1, MONTRAKIT_READ_BITS_01, 0, 1, nullptr, 0, nullptr, 0), MONTRAKIT_REFUSED_REQUEST);
    return is_as_expected ? 0 : 1;
}
