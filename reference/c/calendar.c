/* The table of calendar.h, computed by the compiler, y years after 1980: every fourth year from 1980 to 2079 is a leap year. */
#include "calendar.h"

#define JANUARY(y) (365 * (y) + ((y) + 3) / 4)
#define MARCH(y) (JANUARY(y) + 59 + ((y) % 4 == 0))
#define YEAR(y)                                                                                                     \
    JANUARY(y), JANUARY(y) + 31, MARCH(y), MARCH(y) + 31, MARCH(y) + 61, MARCH(y) + 92, MARCH(y) + 122, MARCH(y) + 153, \
        MARCH(y) + 184, MARCH(y) + 214, MARCH(y) + 245, MARCH(y) + 275
#define FIVE(y) YEAR(y), YEAR((y) + 1), YEAR((y) + 2), YEAR((y) + 3), YEAR((y) + 4)
#define TWENTY(y) FIVE(y), FIVE((y) + 5), FIVE((y) + 10), FIVE((y) + 15)

const uint16_t calendar_firsts[1200 + 1] = {TWENTY(0), TWENTY(20), TWENTY(40), TWENTY(60), TWENTY(80), JANUARY(100)};
