/* For the tests of the header: says where a number is not the one wanted. */
#include <stdint.h>
#include <stdio.h>

static int wrong;

static void hold(const char *file, int line, const char *what, int64_t got, int64_t wanted)
{
    if (got != wanted)
        wrong = 1, printf("%s:%d: %s is %lld, not %lld\n", file, line, what, (long long)got, (long long)wanted);
}
#define IS(got, wanted) hold(__FILE__, __LINE__, #got, (int64_t)(got), (int64_t)(wanted))
