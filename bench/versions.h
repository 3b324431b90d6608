/* The jobs, by the library and in C. Each answers with number 0, place 0, lacking 0 and a value, or with a number of the plate, its place and, of 5, the bytes
 * lacking. */
#ifndef VERSIONS_H
#define VERSIONS_H

typedef __UINT8_TYPE__ u8;
typedef __UINT32_TYPE__ u32;
typedef __UINT64_TYPE__ u64;

enum { MAP = 0xBC, MEDIA = 0xBF, EOS = 0xFB, FLT = 0xFC, UMF = 0xFD };

struct reading {
    u64 number, place, lacking, value;
};

/* What a map says: the count of listed tracks; where its name's bytes stand and how many are stored, 0 and 0 where there is none; first and last field, mark
 * in and out, size, NONE where one is absent. Of a refused map all these are 0. */
#define NONE 0xFFFFFFFFFFFFFFFFu
struct map_reading {
    u64 number, place, lacking, count, name, name_length, numbers[5];
};

struct reading c_check(const u8 *s, u64 n);
struct reading c_seek(const u8 *s, u64 n, u64 track, u64 field);
struct reading c_build(u8 *out, u64 room, const u8 *s, u64 n);
struct reading c_lookup(const u8 *b, u64 n, u64 track, u64 field);
struct map_reading c_map(const u8 *s, u64 n);

/* The library's, by the crates count_stream, count_book and count_map; seek is gxf_seek of include/lumperki.h. */
struct reading gxf_check(const u8 *s, u64 n);
struct reading gxf_seek(const u8 *s, u64 n, u64 track, u64 field);
struct reading gxf_build(u8 *out, u64 room, const u8 *s, u64 n);
struct reading gxf_lookup(const u8 *b, u64 n, u64 track, u64 field);
struct map_reading gxf_map(const u8 *s, u64 n);

#endif
