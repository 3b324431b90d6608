/* Lumperki for C: the header of a packet, the position by a field locator table, and seek.
 *
 * Every function takes the lent bytes as a pointer and a length, reads them and writes nothing. It keeps nothing between calls, so calls from
 * several threads do not meet. Every answer is a struct by value: number 0, place 0, lacking 0 and the values; or a number of the plate
 * (README.md), its place, the bytes lacking where the number is 5, else 0, and zeros for the values.
 *
 * 5 is a packet longer than the bytes left. With so many bytes more as are lacking, whatever they are, the packet at that place is whole; with one
 * fewer the answer is 5 there with one byte lacking. With 1 no length is known, so lacking is 0.
 *
 *   struct gxf_offset o = gxf_seek(s, n, 1, 300);
 *   if (o.number == 5) wait_for(n + o.lacking);
 *
 * The structs have grown by the word `lacking`, behind `place`: objects that were compiled with an earlier header file must be compiled anew.
 *
 * What a caller keeps to:
 *   - s points to n bytes that can be read, and nothing writes to them until the call returns. With n 0 any pointer will do, also NULL.
 *   - n is true. A length that is more than the bytes there are is not noticed.
 *   - the library is linked into an x86-64 program with the System V calling convention (Linux), as the archive is built for it.
 *   - these declarations are used as they stand: nothing holds them against the library but the tests.
 * Any position, distance, track and field may be asked; there is no value that must not be passed.
 *
 * Build and link (./gxf lib writes the archive):
 *   gcc -Iinclude program.c target/lib/liblumperki.a
 */
#ifndef LUMPERKI_H
#define LUMPERKI_H

#include <stddef.h>
#include <stdint.h>

#ifdef __cplusplus
extern "C" {
#endif

/* The types of packets; all others are reserved. */
enum {
    GXF_MAP = 0xBC,
    GXF_MEDIA = 0xBF,
    GXF_EOS = 0xFB,
    GXF_FLT = 0xFC,
    GXF_UMF = 0xFD
};

/* A whole packet: its type, and its length with the header. */
struct gxf_packet {
    uint64_t number;
    uint64_t place;
    uint64_t lacking;
    uint64_t packet_type;
    uint64_t len;
};

/* A byte's offset in a stream: of gxf_seek, where a packet begins; of gxf_position, as the table states it, which need be no packet's first
 * byte and may lie past the n bytes: hold it against n before reading there. */
struct gxf_offset {
    uint64_t number;
    uint64_t place;
    uint64_t lacking;
    uint64_t offset;
};

/* The packet whose header stands at position `at`.
 * Refusals, tried in this order, with the place `at`:
 *   1 fewer than 16 bytes from there on    2 leader wrong    3 trailer wrong
 *   4 length under 16 or no multiple of 4  5 packet longer than the bytes left, with the bytes lacking
 *
 *   for (size_t at = 0; at < n;) {
 *       struct gxf_packet p = gxf_header(s, n, at);
 *       if (p.number != 0) break;
 *       printf("%zu %02x %llu\n", at, (unsigned)p.packet_type, (unsigned long long)p.len);
 *       at += p.len;
 *   }
 */
struct gxf_packet gxf_header(const uint8_t *s, size_t n, size_t at);

/* The position in the stream for a distance, by the FLT packet that stands at position `at`: 1,024 times an entry, whose number is the distance
 * divided by the table's fields per entry, rounded down. The distance counts in fields from the field of the first stored entry: for field N it
 * is N less the material's first field less the fields per entry. A field before that has no distance; the stream's start serves it.
 * Refusals, tried in this order:
 *   1 to 5 as above, bytes lacking too, and 6 no FLT packet, place `at`
 *   8 under 8 bytes of payload   14 count over 1,000   15 fields per entry 0   8 entries pass the payload,
 *     place 16, counted from the packet's first byte
 *   16 the entry is at or past the count, place 0
 *
 *   struct gxf_offset o = gxf_position(s, n, 44, 39);
 *   if (o.number == 0 && o.offset < n) restore_from(o.offset);
 */
struct gxf_offset gxf_position(const uint8_t *s, size_t n, size_t at, uint64_t distance);

/* The offset of the first media packet that carries a field of a track, in a whole stream. A packet of a media type of Table 5 whose ID is the
 * track carries the field that its media field number is; and where the latest map before it gives the track fields per frame 1, one with an even
 * number also carries the field above. So on a progressive track 301 is answered by a packet of 300, unless one of 301 stands before it.
 * Refusals: first those of the check of the stream (1 to 5, 7 to 12, 14, 15, 17 to 22, 29), with their places in the stream and, of 5, the
 * bytes that its torn packet lacks; then
 *   16 no packet carries it, place 0; so also of a track over 63 or a field over 32 bits
 *
 *   struct gxf_offset o = gxf_seek(s, n, 1, 300);
 *   if (o.number == 5) printf("%llu bytes lacking\n", (unsigned long long)o.lacking);
 *   else if (o.number != 0) printf("refused %llu %llu\n", (unsigned long long)o.number, (unsigned long long)o.place);
 */
struct gxf_offset gxf_seek(const uint8_t *s, size_t n, uint64_t track, uint64_t field);

#ifdef __cplusplus
}
#endif

#endif
