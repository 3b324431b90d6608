/* The jobs that are counted, written by hand in C from the rules: check, seek, building a seek book, looking up in one, and reading a map. They answer and
 * refuse as the library does, with number, place and bytes lacking. No header is included: the toolchain's clang has none. */
#include "versions.h"

#define ALWAYS inline __attribute__((always_inline))

static inline u32 big16(const u8 *p) { return (u32)p[0] << 8 | p[1]; }
static inline u32 big32(const u8 *p) { return (u32)p[0] << 24 | (u32)p[1] << 16 | (u32)p[2] << 8 | p[3]; }
static inline u32 little32(const u8 *p) { return (u32)p[3] << 24 | (u32)p[2] << 16 | (u32)p[1] << 8 | p[0]; }
static inline u64 little64(const u8 *p) { return (u64)little32(p + 4) << 32 | little32(p); }

static inline struct reading no(u64 number, u64 place)
{
    struct reading r = {number, place, 0, 0};
    return r;
}

static inline struct reading torn(u64 place, u64 lacking)
{
    struct reading r = {5, place, lacking, 0};
    return r;
}

static inline struct reading yes(u64 value)
{
    struct reading r = {0, 0, 0, value};
    return r;
}

/* Media types 3, 4, 7 to 18, 20 to 26. */
static inline int known(u32 type) { return type < 27 && (0x7F7FF98u >> type & 1); }

/* Added to a media type: in the types by ID of a track with fields per frame 1, in a book of a packet that carries two fields. */
enum { MARK = 64 };

/* By the type byte of its track, whether a packet of a number carries two fields: it and the one above. */
static inline int two_fields(u32 listed, u32 number) { return listed >= MARK && number % 2 == 0; }

/* The bits of 4D and 4F among the tags seen; and that of the form which a track of this type may not have: 4D on types 11, 12, 20, 22 and 23, 4F on every
 * other that is listed. */
enum { FORM_4D = 1 << 0x0D, FORM_4F = 1 << 0x0F };
static inline u32 wrong_form(u32 type) { return !known(type) ? 0 : 0xD01800u >> type & 1 ? FORM_4D : FORM_4F; }

/* One byte at least, 00 last and nowhere else, none over 7F. */
static int good_text(const u8 *v, u32 n)
{
    u32 i;
    if (n == 0 || v[n - 1] != 0)
        return 0;
    for (i = 0; i + 1 < n; i++)
        if (v[i] == 0 || v[i] > 0x7F)
            return 0;
    return 1;
}

/* The wrong form stands among the items of a track that have passed: 29 at its tag, unless the name is null. Few tracks come here. */
static __attribute__((noinline)) u32 form_fault(const u8 *p, u32 at, u32 end, u32 wrong, u32 *place)
{
    u32 tag = wrong == FORM_4D ? 0x4D : 0x4F, null = 0;
    for (; at < end; at += 2 + p[at + 1]) {
        if (p[at] == 0x4C)
            null = p[at + 1] == 1;
        else if (p[at] == tag)
            *place = at;
    }
    return null ? 0 : 29;
}

/* The first fault of the items from at to end, or 0; its place. What material items say goes to `says`, if it is there. In a track `wrong` is the form that it
 * may not have, tested at its end, and the place of its item 52 goes to `fields`. */
static ALWAYS u32 walk_items(const u8 *p, u32 at, u32 end, int in_track, u32 wrong, u32 *place, u32 *fields, struct map_reading *says)
{
    u32 seen = 0, from = at;
    while (at < end) {
        u32 tag, size, fixed = 0, text = 0;
        *place = at;
        if (end - at < 2)
            return 8;
        tag = p[at];
        size = p[at + 1];
        if (end - at - 2 < size)
            return 8;
        if (in_track) {
            switch (tag) {
            case 0x4C: case 0x4F: text = 1; break;
            case 0x4D: fixed = 8; break;
            case 0x52: *fields = at; /* fall through */
            case 0x4E: case 0x50: case 0x51: fixed = 4; break;
            }
        } else if (tag == 0x40) {
            text = 1;
        } else if (tag >= 0x41 && tag <= 0x45) {
            fixed = 4;
        }
        if (fixed != 0 && size != fixed)
            return 9;
        if (text && !good_text(p + at + 2, size))
            return 11;
        if (fixed != 0 || text) {
            u32 bit = 1u << (tag - 0x40), bars = bit;
            if (tag == 0x4D || tag == 0x4F)
                bars = FORM_4D | FORM_4F;
            if (seen & bars)
                return 10;
            seen |= bit;
            if (says != 0 && text) {
                says->name = at + 2;
                says->name_length = size;
            } else if (says != 0) {
                says->numbers[tag - 0x41] = big32(p + at + 2);
            }
        }
        at += 2 + size;
    }
    return seen & wrong ? form_fault(p, from, end, wrong, place) : 0;
}

/* Both stay functions, and the first tests nothing for what it does not keep. */
static u32 items_fault(const u8 *p, u32 at, u32 end, int in_track, u32 wrong, u32 *place, u32 *fields)
{
    return walk_items(p, at, end, in_track, wrong, place, fields, 0);
}

static u32 material_fault(const u8 *p, u32 at, u32 end, u32 *place, struct map_reading *says) { return walk_items(p, at, end, 0, 0, place, 0, says); }

/* The type byte of a listed track whose item 52 stands at a place, 0 for none: the mark with fields per frame 1. */
static inline u8 listed_byte(const u8 *p, u32 type, u32 fields) { return fields != 0 && big32(p + fields + 2) == 1 ? type + MARK : type; }

/* The first fault of a map packet, its place counted from the packet's start; by ID the type bytes of the tracks that it lists, or what it says. */
static ALWAYS struct reading walk_map(const u8 *p, u32 len, u8 *types, struct map_reading *says)
{
    u32 a, b, end, f, place, fields = 0;
    u64 ids = 0;
    if (types != 0)
        __builtin_memset(types, 0, 64);
    if (len < 18)
        return no(8, 16);
    if (p[16] != 0xE0)
        return no(7, 16);
    if (len < 20 || len - 20 < big16(p + 18))
        return no(8, 18);
    a = 20 + big16(p + 18);
    if ((f = says != 0 ? material_fault(p, 20, a, &place, says) : items_fault(p, 20, a, 0, 0, &place, &fields)) != 0)
        return no(f, place);
    if (len - a < 2 || len - a - 2 < big16(p + a))
        return no(8, a);
    end = a + 2 + big16(p + a);
    for (b = a + 2; b < end;) {
        u32 size;
        if (end - b < 4)
            return no(8, b);
        if (p[b] < 0x80 || p[b + 1] < 0xC0)
            return no(12, b);
        size = big16(p + b + 2);
        if (end - b - 4 < size)
            return no(8, b);
        if (ids >> (p[b + 1] - 0xC0) & 1)
            return no(10, b);
        fields = 0;
        if ((f = items_fault(p, b + 4, b + 4 + size, 1, wrong_form(p[b] - 0x80), &place, &fields)) != 0)
            return no(f, place);
        ids |= (u64)1 << (p[b + 1] - 0xC0);
        if (types != 0 && known(p[b] - 0x80))
            types[p[b + 1] - 0xC0] = listed_byte(p, p[b] - 0x80, fields);
        if (says != 0)
            says->count += known(p[b] - 0x80);
        b += 4 + size;
    }
    return no(0, 0);
}

static struct reading map_fault(const u8 *p, u32 len, u8 *types) { return walk_map(p, len, types, 0); }

/* Of items that have passed, from at to end, the place of item 52, or 0. */
static inline u32 fields_item(const u8 *p, u32 at, u32 end)
{
    for (; at < end; at += 2 + p[at + 1])
        if (p[at] == 0x52)
            return at;
    return 0;
}

/* By ID the type bytes of the tracks that a map lists, of one that has passed: it tests nothing again. */
static void read_types(const u8 *p, u8 *types)
{
    u32 at = 20 + big16(p + 18), end = at + 2 + big16(p + at), next;
    __builtin_memset(types, 0, 64);
    for (at += 2; at < end; at = next) {
        next = at + 4 + big16(p + at + 2);
        if (known(p[at] - 0x80))
            types[p[at + 1] - 0xC0] = listed_byte(p, p[at] - 0x80, fields_item(p, at + 4, next));
    }
}

/* One pass over a stream: its packets, the first that carries a field of a track, its records. */
struct pass {
    u64 count, first, records;
    int found;
};

static ALWAYS struct reading run(const u8 *s, u64 n, int seeking, u64 track, u64 field, struct pass *out)
{
    u8 types[64];
    u64 at = 0, count = 0, since = 0, first = 0, records = 0;
    int flt = 0, due = 0, umf = 0, found = 0;
    while (at < n) {
        const u8 *p = s + at;
        u64 left = n - at;
        u32 kind, len;
        if (left < 16)
            return no(1, at);
        if (__builtin_memcmp(p, "\0\0\0\0\1", 5) != 0)
            return no(2, at);
        if (p[14] != 0xE1 || p[15] != 0xE2)
            return no(3, at);
        kind = p[5];
        len = big32(p + 6);
        if (len < 16 || len % 4 != 0)
            return no(4, at);
        if (left < len)
            return torn(at, len - left);
        if (count == 0 && kind != MAP)
            return no(17, at);
        if (kind == MEDIA) {
            if (len < 32)
                return no(8, at + 16);
            if (p[17] > 63)
                return no(12, at);
        } else if (kind == MAP) {
            struct reading f = map_fault(p, len, types);
            if (f.number != 0)
                return no(f.number, at + f.place);
        } else if (kind == FLT) {
            if (len < 24)
                return no(8, at + 16);
            if (little32(p + 20) > 1000)
                return no(14, at + 16);
            if (little32(p + 16) == 0)
                return no(15, at + 16);
            if (len - 24 < 4 * little32(p + 20))
                return no(8, at + 16);
        }
        if (due ? kind != EOS : flt && kind == FLT)
            return no(19, at);
        if (kind != MAP && since >= 99)
            return no(20, at);
        if (kind == MEDIA && known(p[16])) {
            u32 listed = types[p[17]], number = big32(p + 18);
            if (listed % MARK != p[16])
                return no(22, at);
            records++;
            /* both fields of a packet have one half, and most packets have another */
            if (seeking && number / 2 == field / 2 && p[17] == track && !found && (number == field || two_fields(listed, number))) {
                found = 1;
                first = at;
            }
        }
        if (kind == EOS) {
            if (len < left)
                return no(18, at);
            if (!umf)
                return no(21, at);
            out->count = count + 1;
            out->first = first;
            out->found = found;
            out->records = records;
            return no(0, 0);
        }
        due = kind == FLT && count != 1;
        flt |= kind == FLT;
        umf |= kind == UMF;
        since = kind == MAP ? 0 : since + 1;
        count++;
        at += len;
    }
    return count == 0 ? no(17, 0) : no(18, n);
}

struct reading c_check(const u8 *s, u64 n)
{
    struct pass p;
    struct reading r = run(s, n, 0, 0, 0, &p);
    return r.number != 0 ? r : yes(p.count);
}

struct reading c_seek(const u8 *s, u64 n, u64 track, u64 field)
{
    struct pass p;
    struct reading r = run(s, n, 1, track, field, &p);
    if (r.number != 0)
        return r;
    return p.found ? yes(p.first) : no(16, 0);
}

struct reading c_build(u8 *out, u64 room, const u8 *s, u64 n)
{
    struct pass p;
    struct reading r = run(s, n, 0, 0, 0, &p);
    u64 at;
    u8 types[64], *to = out;
    if (r.number != 0)
        return r;
    if (room / 16 < p.records)
        return no(13, 0);
    for (at = 0; at < n; at += big32(s + at + 6)) {
        const u8 *x = s + at;
        if (x[5] == MAP) {
            read_types(x, types);
        } else if (x[5] == MEDIA && known(x[16])) {
            u32 field = big32(x + 18);
            int i;
            to[0] = 0x47;
            to[1] = 0x58;
            to[2] = x[17];
            to[3] = two_fields(types[x[17]], field) ? x[16] + MARK : x[16];
            for (i = 0; i < 4; i++)
                to[4 + i] = field >> 8 * i;
            for (i = 0; i < 8; i++)
                to[8 + i] = at >> 8 * i;
            to += 16;
        }
    }
    return yes(p.records);
}

/* A known type, or one with the mark beside an even number. */
static inline int good_type(u32 type, u32 number) { return known(type & ~(u32)MARK) && !(type & MARK && number % 2 != 0); }

struct reading c_lookup(const u8 *b, u64 n, u64 track, u64 field)
{
    u64 i, last = 0, first = 0;
    int found = 0;
    for (i = 0; i < n / 16; i++, b += 16) {
        u64 at = little64(b + 8);
        u32 number = little32(b + 4);
        if (b[0] != 0x47 || b[1] != 0x58 || b[2] > 63 || !good_type(b[3], number) || (i != 0 && at <= last))
            return no(23, i);
        if (number / 2 == field / 2 && b[2] == track && !found && (number == field || b[3] >= MARK)) {
            found = 1;
            first = at;
        }
        last = at;
    }
    if (n % 16 != 0)
        return no(23, i);
    return found ? yes(first) : no(16, 0);
}

/* Refusals 1 to 6 of the packet at the start, then those of the map. The header's tests stand here once more: shared with `run` they cost it up to two
 * instructions a packet. */
static ALWAYS struct reading map_at_start(const u8 *s, u64 n, struct map_reading *says)
{
    u32 len;
    if (n < 16)
        return no(1, 0);
    if (__builtin_memcmp(s, "\0\0\0\0\1", 5) != 0)
        return no(2, 0);
    if (s[14] != 0xE1 || s[15] != 0xE2)
        return no(3, 0);
    len = big32(s + 6);
    if (len < 16 || len % 4 != 0)
        return no(4, 0);
    if (n < len)
        return torn(0, len - n);
    if (s[5] != MAP)
        return no(6, 0);
    return walk_map(s, len, 0, says);
}

struct map_reading c_map(const u8 *s, u64 n)
{
    struct map_reading says = {0, 0, 0, 0, 0, 0, {NONE, NONE, NONE, NONE, NONE}};
    struct reading r = map_at_start(s, n, &says);
    struct map_reading refused = {r.number, r.place, r.lacking, 0, 0, 0, {0, 0, 0, 0, 0}};
    return r.number != 0 ? refused : says;
}
