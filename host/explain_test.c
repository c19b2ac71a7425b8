/* Each refusal has words of its own, and every other number is said to be none. */
#include <string.h>

#include "explain.h"
#include "fabric.h"
#include "hold.h"

/* The compiler refuses a switch that leaves out a constant. */
static int is_refusal(enum fabric_refusal number)
{
    switch (number) {
    case FABRIC_ACCEPTED:
    case FABRIC_FILE_SHORT:
    case FABRIC_WRONG_EDITION:
    case FABRIC_COUNT_RANGE:
    case FABRIC_WRONG_LENGTH:
    case FABRIC_BYTE_SUM:
    case FABRIC_BAD_FIELD:
    case FABRIC_CHANNEL_ENDS:
    case FABRIC_CIRCLE:
    case FABRIC_CHOICE_COUNT:
    case FABRIC_BAD_CHOICE:
    case FABRIC_PROPOSAL_LENGTH:
    case FABRIC_NO_EQUATION:
    case FABRIC_FLOW_LEFT:
    case FABRIC_NO_WEIGHT:
    case FABRIC_STATE_SHORT:
    case FABRIC_BAD_STATE:
    case FABRIC_RESULT_SPACE:
    case FABRIC_NOT_A_QUEUE:
    case FABRIC_WEIGHT_NOT_POSITIVE:
    case FABRIC_BAD_BLOCKS:
        return 1;
    }
    return 0;
}

int main(void)
{
    const char *none = fabric_explain(UINT32_MAX);
    IS(strcmp(none, "no refusal has that number"), 0);
    for (uint32_t a = 0; a < 256; a++) {
        IS(strcmp(fabric_explain(a), none) != 0, is_refusal((enum fabric_refusal)a));
        for (uint32_t b = 0; b < a; b++)
            if (is_refusal((enum fabric_refusal)b))
                IS(strcmp(fabric_explain(a), fabric_explain(b)) != 0, 1);
    }
    return wrong;
}
