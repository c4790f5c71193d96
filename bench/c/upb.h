/* What speed.cc calls of upb, which php-upb.h does not declare for C++ as it is. */
#ifndef UPB_PEER_H
#define UPB_PEER_H

#include <stdbool.h>
#include <stddef.h>
#include <stdint.h>

#ifdef __cplusplus
extern "C" {
#endif

/* Makes the types of a descriptor set, and finds one. */
bool upb_link_set(const char *set, size_t set_len, const char *type_name);

/* Reads a message and drops it. */
bool upb_read(const char *input, size_t len);

/* Reads a message and writes it again, with map entries in order. Tells how many bytes it wrote, into memory of its own. */
bool upb_rewrite(const char *input, size_t len, size_t *size);

/* Reads a message, and the field of an integer of 64 bits in it, and writes the message again. Tells how many bytes it wrote. */
bool upb_route(const char *input, size_t len, uint32_t field, uint64_t *value, size_t *size);

#ifdef __cplusplus
}
#endif

#endif
