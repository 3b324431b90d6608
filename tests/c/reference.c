/* Header, locator position and seek, with the whole-stream check that seek begins with. Written from the text of the rules, sentence by sentence,
 * and not from the library: a walk a rule, and no thought of speed. */
#include "reference.h"

#include <string.h>

/* A refusal, or number 0; of 5 the bytes that the packet lacks, of every other number 0. */
struct fault {
    uint64_t number;
    uint64_t place;
    uint64_t lacking;
};

static const struct fault fine = {0, 0, 0};

static struct fault fault(uint64_t number, uint64_t place)
{
    struct fault f;
    f.number = number;
    f.place = place;
    f.lacking = 0;
    return f;
}

/* Packet longer than the bytes left: the packet length less the bytes left. */
static struct fault torn(uint64_t place, uint64_t len, uint64_t left)
{
    struct fault f = fault(5, place);
    f.lacking = len - left;
    return f;
}

/* Most significant byte first, and least. */
static uint64_t big(const uint8_t *p, int width)
{
    uint64_t v = 0;
    int i;
    for (i = 0; i < width; i++)
        v = v << 8 | p[i];
    return v;
}

static uint64_t little(const uint8_t *p, int width)
{
    uint64_t v = 0;
    int i;
    for (i = width - 1; i >= 0; i--)
        v = v << 8 | p[i];
    return v;
}

/* ---- Header ---- */

static struct fault header_fault(const uint8_t *s, size_t n, size_t at)
{
    static const uint8_t leader[5] = {0, 0, 0, 0, 1};
    uint64_t len;
    if (at > n || n - at < 16)
        return fault(1, at);
    if (memcmp(s + at, leader, 5) != 0)
        return fault(2, at);
    if (s[at + 14] != 0xE1 || s[at + 15] != 0xE2)
        return fault(3, at);
    len = big(s + at + 6, 4);
    if (len < 16 || len % 4 != 0)
        return fault(4, at);
    if (len > n - at)
        return torn(at, len, n - at);
    return fine;
}

struct gxf_packet reference_header(const uint8_t *s, size_t n, size_t at)
{
    struct gxf_packet answer = {0, 0, 0, 0, 0};
    struct fault f = header_fault(s, n, at);
    if (f.number != 0) {
        answer.number = f.number;
        answer.place = f.place;
        answer.lacking = f.lacking;
        return answer;
    }
    answer.packet_type = s[at + 5];
    answer.len = big(s + at + 6, 4);
    return answer;
}

/* ---- FLT ---- */

/* p is one packet of length len, here and below; places count from its first byte. */
static struct fault locator_fault(const uint8_t *p, uint64_t len)
{
    uint64_t payload = len - 16;
    if (payload < 8)
        return fault(8, 16);
    if (little(p + 20, 4) > 1000)
        return fault(14, 16);
    if (little(p + 16, 4) == 0)
        return fault(15, 16);
    if (payload < 8 + 4 * little(p + 20, 4))
        return fault(8, 16);
    return fine;
}

struct gxf_offset reference_position(const uint8_t *s, size_t n, size_t at, uint64_t distance)
{
    struct gxf_offset answer = {0, 0, 0, 0};
    struct fault f = header_fault(s, n, at);
    uint64_t entry;
    if (f.number == 0 && s[at + 5] != 0xFC)
        f = fault(6, at);
    if (f.number == 0)
        f = locator_fault(s + at, big(s + at + 6, 4));
    if (f.number == 0) {
        entry = distance / little(s + at + 16, 4);
        if (entry >= little(s + at + 20, 4))
            f = fault(16, 0);
        else
            answer.offset = 1024 * little(s + at + 24 + 4 * entry, 4);
    }
    answer.number = f.number;
    answer.place = f.place;
    answer.lacking = f.lacking;
    return answer;
}

/* ---- Map ---- */

static int known_media_type(unsigned type)
{
    return type == 3 || type == 4 || (type >= 7 && type <= 18) || (type >= 20 && type <= 26);
}

/* One byte at least, 00 last and nowhere else, none over 7F. */
static int good_text(const uint8_t *v, unsigned len)
{
    unsigned i;
    if (len == 0 || v[len - 1] != 0)
        return 0;
    for (i = 0; i + 1 < len; i++)
        if (v[i] == 0 || v[i] > 0x7F)
            return 0;
    return 1;
}

/* What a known tag asks of its value: a size, or -1 for a text; 0 for a tag that is unknown in its section. */
static int asks(int in_track, unsigned tag)
{
    if (!in_track) {
        if (tag == 0x40)
            return -1;
        return tag >= 0x41 && tag <= 0x45 ? 4 : 0;
    }
    switch (tag) {
    case 0x4C:
    case 0x4F:
        return -1;
    case 0x4D:
        return 8;
    case 0x4E:
    case 0x50:
    case 0x51:
    case 0x52:
        return 4;
    default:
        return 0;
    }
}

/* The items from place `from` up to place `to`. */
static struct fault items_fault(const uint8_t *p, uint64_t from, uint64_t to, int in_track)
{
    int seen[256] = {0};
    uint64_t at = from;
    while (at < to) {
        unsigned tag, len;
        int want;
        if (to - at < 2)
            return fault(8, at);
        tag = p[at];
        len = p[at + 1];
        if (to - at - 2 < len)
            return fault(8, at);
        want = asks(in_track, tag);
        if (want > 0 && len != (unsigned)want)
            return fault(9, at);
        if (want < 0 && !good_text(p + at + 2, len))
            return fault(11, at);
        if (want != 0) {
            if (seen[tag])
                return fault(10, at);
            if ((tag == 0x4D && seen[0x4F]) || (tag == 0x4F && seen[0x4D]))
                return fault(10, at);
            seen[tag] = 1;
        }
        at += 2 + (uint64_t)len;
    }
    return fine;
}

/* Of items without a fault, from place `from` up to place `to`: the place of the one with this tag, or 0. */
static uint64_t item_at(const uint8_t *p, uint64_t from, uint64_t to, unsigned tag)
{
    uint64_t at;
    for (at = from; at < to; at += 2 + (uint64_t)p[at + 1])
        if (p[at] == tag)
            return at;
    return 0;
}

/* The end of a track: where it is listed, 4D is wrong on MPEG video and 4F on every other type. A null name, a lone 00, lifts that; no name does not. */
static struct fault form_fault(const uint8_t *p, uint64_t from, uint64_t to, unsigned type)
{
    int mpeg = type == 11 || type == 12 || type == 20 || type == 22 || type == 23;
    uint64_t name = item_at(p, from, to, 0x4C);
    uint64_t wrong = item_at(p, from, to, mpeg ? 0x4D : 0x4F);
    if (!known_media_type(type) || wrong == 0)
        return fine;
    if (name != 0 && p[name + 1] == 1)
        return fine;
    return fault(29, wrong);
}

/* The tracks from place `from` up to place `to`. */
static struct fault tracks_fault(const uint8_t *p, uint64_t from, uint64_t to)
{
    int ids[64] = {0};
    uint64_t at = from;
    while (at < to) {
        uint64_t len;
        struct fault f;
        if (to - at < 4)
            return fault(8, at);
        if (p[at] < 0x80 || p[at + 1] < 0xC0)
            return fault(12, at);
        len = big(p + at + 2, 2);
        if (to - at - 4 < len)
            return fault(8, at);
        if (ids[p[at + 1] - 0xC0])
            return fault(10, at);
        ids[p[at + 1] - 0xC0] = 1;
        f = items_fault(p, at + 4, at + 4 + len, 1);
        if (f.number == 0)
            f = form_fault(p, at + 4, at + 4 + len, p[at] - 0x80U);
        if (f.number != 0)
            return f;
        at += 4 + len;
    }
    return fine;
}

/* Of a map without a fault: by ID the type of its listed track, 0 for none. */
static void listed_types(const uint8_t *p, unsigned types[64])
{
    uint64_t at = 20 + big(p + 18, 2);
    uint64_t to = at + 2 + big(p + at, 2);
    memset(types, 0, 64 * sizeof types[0]);
    for (at += 2; at < to; at += 4 + big(p + at + 2, 2))
        if (known_media_type(p[at] - 0x80))
            types[p[at + 1] - 0xC0] = p[at] - 0x80;
}

/* Of a map without a fault: whether its listed track of this ID has fields per frame 1, an item 52 of value 1. A null name does not hide that item. */
static int one_field_a_frame(const uint8_t *p, unsigned id)
{
    uint64_t at = 20 + big(p + 18, 2);
    uint64_t to = at + 2 + big(p + at, 2);
    uint64_t next, item;
    for (at += 2; at < to; at = next) {
        next = at + 4 + big(p + at + 2, 2);
        if (known_media_type(p[at] - 0x80U) && p[at + 1] - 0xC0U == id) {
            item = item_at(p, at + 4, next, 0x52);
            return item != 0 && big(p + item + 2, 4) == 1;
        }
    }
    return 0;
}

static struct fault map_fault(const uint8_t *p, uint64_t len)
{
    uint64_t word;
    struct fault f;
    if (len - 16 < 2)
        return fault(8, 16);
    if (p[16] != 0xE0)
        return fault(7, 16);
    if (len - 18 < 2 || len - 20 < big(p + 18, 2))
        return fault(8, 18);
    word = 20 + big(p + 18, 2);
    f = items_fault(p, 20, word, 0);
    if (f.number != 0)
        return f;
    if (len - word < 2 || len - word - 2 < big(p + word, 2))
        return fault(8, word);
    return tracks_fault(p, word + 2, word + 2 + big(p + word, 2));
}

/* ---- Stream ---- */

/* The first fault of a whole stream. */
static struct fault stream_fault(const uint8_t *s, size_t n)
{
    size_t at = 0;
    uint64_t count = 0, since_map = 0;
    int locators = 0, umf = 0, eos_due = 0, i;
    unsigned types[64];
    for (i = 0; i < 64; i++)
        types[i] = 0;
    while (at < n) {
        struct fault f = header_fault(s, n, at);
        const uint8_t *p = s + at;
        uint64_t len;
        unsigned kind;
        if (f.number != 0)
            return f;
        kind = p[5];
        len = big(p + 6, 4);
        if (count == 0 && kind != 0xBC)
            return fault(17, at);
        /* content */
        if (kind == 0xBC) {
            f = map_fault(p, len);
            if (f.number != 0)
                return fault(f.number, at + f.place);
            listed_types(p, types);
        }
        if (kind == 0xFC) {
            f = locator_fault(p, len);
            if (f.number != 0)
                return fault(f.number, at + f.place);
        }
        if (kind == 0xBF) {
            if (len < 32)
                return fault(8, at + 16);
            if (p[17] > 63)
                return fault(12, at);
        }
        /* order */
        if (kind == 0xFC && locators > 0)
            return fault(19, at);
        if (eos_due && kind != 0xFB)
            return fault(19, at);
        since_map = kind == 0xBC ? 0 : since_map + 1;
        if (since_map >= 100)
            return fault(20, at);
        if (kind == 0xBF && known_media_type(p[16]) && types[p[17]] != p[16])
            return fault(22, at);
        if (kind == 0xFB) {
            if (at + len < n)
                return fault(18, at);
            return umf ? fine : fault(21, at);
        }
        umf |= kind == 0xFD;
        if (kind == 0xFC) {
            locators++;
            eos_due = count != 1;
        }
        count++;
        at += len;
    }
    return count == 0 ? fault(17, 0) : fault(18, n);
}

/* Whether a media packet carries a field of a track, by the latest map before it: the field that its number is; and the one above, where the number is even
 * and that map gives its track fields per frame 1. */
static int carries(const uint8_t *p, const uint8_t *map, uint64_t track, uint64_t field)
{
    uint64_t number = big(p + 18, 4);
    if (!known_media_type(p[16]) || p[17] != track)
        return 0;
    if (number == field)
        return 1;
    return number % 2 == 0 && number + 1 == field && one_field_a_frame(map, p[17]);
}

/* The first packet in stream order that carries the field, by its own number or by the number below. */
struct gxf_offset reference_seek(const uint8_t *s, size_t n, uint64_t track, uint64_t field)
{
    struct gxf_offset answer = {0, 0, 0, 0};
    struct fault f = stream_fault(s, n);
    const uint8_t *map = s;
    size_t at;
    if (f.number == 0) {
        for (at = 0; at < n; at += big(s + at + 6, 4)) {
            const uint8_t *p = s + at;
            if (p[5] == 0xBC)
                map = p;
            if (p[5] == 0xBF && carries(p, map, track, field)) {
                answer.offset = at;
                return answer;
            }
        }
        f = fault(16, 0);
    }
    answer.number = f.number;
    answer.place = f.place;
    answer.lacking = f.lacking;
    return answer;
}
