#include "explain.h"
#include <fabric.h>

const char *fabric_explain(uint32_t number)
{
    switch (number) {
    case FABRIC_ACCEPTED:
        return "accepted";
    case FABRIC_FILE_SHORT:
        return "the fabric file has under 4 bytes";
    case FABRIC_WRONG_EDITION:
        return "the fabric file is of another edition, or the 0 bit of its header is 1";
    case FABRIC_COUNT_RANGE:
        return "the fabric has not 1 to 128 components, 1 to 255 channels and 1 to 8 colours";
    case FABRIC_WRONG_LENGTH:
        return "the fabric file is not as long as its count of components says, or the table has no whole rows";
    case FABRIC_BYTE_SUM:
        return "the bytes of the fabric file do not add up to 0: a byte is damaged, or the check byte was never set";
    case FABRIC_BAD_FIELD:
        return "a component has a wrong field; the place is the component";
    case FABRIC_CHANNEL_ENDS:
        return "a channel is not the output of just one component and the input of just one; the place is the channel";
    case FABRIC_CIRCLE:
        return "a signal depends on itself through others: a queue somewhere on that circle opens it";
    case FABRIC_CHOICE_COUNT:
        return "the choices are not one for each component, in a run for each component in each step";
    case FABRIC_BAD_CHOICE:
        return "a component may not have that choice; the place is the choice's offset";
    case FABRIC_PROPOSAL_LENGTH:
        return "the proposal has no whole terms of 4 bytes, or more than 4,096";
    case FABRIC_NO_EQUATION:
        return "a term names an equation that does not exist; the place is the term, counted from 0";
    case FABRIC_FLOW_LEFT:
        return "a flow of a colour that can reach its channel does not cancel; the place is 8 times the channel plus the colour";
    case FABRIC_NO_WEIGHT:
        return "every weight is 0, so the sum says nothing of any queue";
    case FABRIC_STATE_SHORT:
        return "the state has under 64 bytes for each component";
    case FABRIC_BAD_STATE:
        return "a component cannot be in that state; the place is the component";
    case FABRIC_RESULT_SPACE:
        return "the space for the result is short";
    case FABRIC_NOT_A_QUEUE:
        return "that component is no queue, or the fabric has no such colour";
    case FABRIC_WEIGHT_NOT_POSITIVE:
        return "the sum gives that queue and colour no weight above 0, so no ceiling follows from it";
    case FABRIC_BAD_BLOCKS:
        return "the file of proposals is no row of at most 64 whole blocks of at most 4,096 terms";
    default:
        return "no refusal has that number";
    }
}
