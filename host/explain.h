/* A refusal's number in plain words; explain.c has them. For a host to copy along with it. */
#ifndef FABRIC_EXPLAIN_H
#define FABRIC_EXPLAIN_H

#include <stdint.h>

#ifdef __cplusplus
extern "C" {
#endif

/* What a number that a call returned says, and what its place is, if it has one. Any number is allowed. */
const char *fabric_explain(uint32_t number);

#ifdef __cplusplus
}
#endif

#endif
