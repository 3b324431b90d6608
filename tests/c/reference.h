/* The same answers as gxf_header, gxf_position and gxf_seek, written apart from the library, from the text of the rules. */
#ifndef REFERENCE_H
#define REFERENCE_H

#include "lumperki.h"

struct gxf_packet reference_header(const uint8_t *s, size_t n, size_t at);
struct gxf_offset reference_position(const uint8_t *s, size_t n, size_t at, uint64_t distance);
struct gxf_offset reference_seek(const uint8_t *s, size_t n, uint64_t track, uint64_t field);

#endif
