// The header compiles as C++, and its functions are found under their C names.
#include "fanrack.h"
#include "fanrack.h"

int main()
{
    const uint8_t list[] = {'t', ' ', '0', '0', '0', '0'};
    const bool good = fanrack_check_list(list, sizeof list) == FANRACK_GOOD_LIST;
    const bool half = fanrack_loop_level(1, 40, 20, 3, 85) == 170;
    return good && half ? 0 : 1;
}
