/* Holds the library against the reference on streams that are whole, damaged or no streams at all.
 *   compare [INPUTS [SEED]]
 * Prints how many inputs of each kind there were, how the calls went, how many bytes were lacking on 5, how often a seek was answered by the number below its
 * field, and the differences; exit status 1 where there is one.
 * Every input ends at a page that cannot be read, so a read behind the lent bytes would end the program; it is held against a copy afterwards. */
#define _DEFAULT_SOURCE
#include "reference.h"

#include <inttypes.h>
#include <stdio.h>
#include <stdlib.h>
#include <string.h>
#include <sys/mman.h>
#include <unistd.h>

enum { ROOM = 1 << 16, PACKETS = 400 };

/* ---- Numbers by chance, the same for the same seed ---- */

static uint64_t state;

static uint64_t draw(void)
{
    state ^= state << 13;
    state ^= state >> 7;
    state ^= state << 17;
    return state * 0x2545F4914F6CDD1DULL >> 11;
}

static uint64_t under(uint64_t n) { return draw() % n; }

static int chance(unsigned percent) { return under(100) < percent; }

/* ---- A stream that is put together ---- */

static uint8_t made[ROOM];
static size_t size;
static size_t offsets[PACKETS];
static size_t packets;

/* The tracks of the latest map, and what it says of their fields per frame. */
static unsigned ids[8], types[8], tracks;
static uint64_t fields[8];

/* What the media packets state, in stream order. */
static uint64_t stated_tracks[PACKETS], stated_fields[PACKETS];
static size_t stated;

static void put(unsigned byte) { made[size++] = (uint8_t)byte; }

static void put_big(uint64_t v, int width)
{
    while (width-- > 0)
        put((unsigned)(v >> 8 * width) & 0xFF);
}

static void put_little(uint64_t v, int width)
{
    int i;
    for (i = 0; i < width; i++)
        put((unsigned)(v >> 8 * i) & 0xFF);
}

static size_t begin(unsigned kind)
{
    size_t at = size;
    offsets[packets++] = at;
    put_big(1, 5);
    put(kind);
    put_big(0, 4);
    put_big(chance(90) ? 0 : draw(), 4);
    put_big(0xE1E2, 2);
    return at;
}

/* Pads to a multiple of 4 and writes the true length. */
static void finish(size_t at)
{
    size_t end;
    while ((size - at) % 4 != 0)
        put(0);
    end = size;
    size = at + 6;
    put_big(end - at, 4);
    size = end;
}

/* Writes a length word in front of what was written since. */
static void close_word(size_t word)
{
    size_t end = size;
    size = word;
    put_big(end - word - 2, 2);
    size = end;
}

static void text_item(unsigned tag, uint64_t len)
{
    put(tag);
    put((unsigned)len + 1);
    while (len-- > 0)
        put(1 + (unsigned)under(0x7F));
    put(0);
}

static void number_item(unsigned tag, uint64_t v)
{
    put(tag);
    put(4);
    put_big(v, 4);
}

static void unknown_item(unsigned tag)
{
    unsigned len = (unsigned)under(5);
    put(tag);
    put(len);
    while (len-- > 0)
        put((unsigned)under(256));
}

/* The known media types, those of MPEG video first. */
static const unsigned known[] = {11, 12, 20, 22, 23, 3, 4, 7, 8, 9, 10, 13, 14, 15, 16, 17, 18, 21, 24, 25, 26};

enum { MPEG = 5, KNOWN = sizeof known / sizeof known[0] };

static unsigned media_type(void) { return chance(85) ? known[under(KNOWN)] : (unsigned)under(128); }

/* Auxiliary information: a text for MPEG video, eight bytes for every other known type, and now and then the wrong one; either of them where it is free. */
static void auxiliary_item(unsigned type, int is_free)
{
    unsigned i;
    int text;
    for (i = 0; i < KNOWN && known[i] != type; i++)
        ;
    text = i < MPEG;
    if (chance(is_free || i == KNOWN ? 50 : 4))
        text = !text;
    if (text) {
        text_item(0x4F, under(6));
    } else {
        put(0x4D);
        put(8);
        put_big(draw(), 8);
    }
}

/* What an item 52 says: mostly 1 or 2, now and then a code that is neither, or a reserved value; NO_ITEM for no item. */
enum { NO_ITEM = 9 };

static uint64_t fields_code(void)
{
    static const uint64_t others[] = {0, 3, 0xFFFFFFFE, 0xFFFFFFFF, 0x01000000, 0x101, NO_ITEM, NO_ITEM};
    return chance(70) ? 1 + under(2) : others[under(sizeof others / sizeof others[0])];
}

/* The name stands before the auxiliary information or behind it, and item 52 before all or at the end. Beside a null name the form is free. */
static void track_items(unsigned type, uint64_t code)
{
    int named = chance(60), behind = chance(30), code_first = chance(30);
    uint64_t len = under(6);
    if (code != NO_ITEM && code_first)
        number_item(0x52, code);
    if (named && !behind)
        text_item(0x4C, len);
    if (chance(40))
        auxiliary_item(type, named && len == 0);
    if (named && behind)
        text_item(0x4C, len);
    if (chance(40))
        number_item(0x4E, draw());
    if (chance(60))
        number_item(0x50, chance(70) ? 1 + under(9) : 0xFFFFFFFE + under(2));
    if (chance(20))
        unknown_item(0x53 + (unsigned)under(40));
    if (chance(50))
        number_item(0x51, under(8));
    if (code != NO_ITEM && !code_first)
        number_item(0x52, code);
    if (chance(2))
        number_item(0x50 + (unsigned)under(3), 1);
}

/* The tracks of a new map; those of the map before, some with fields per frame 1 where that was not, and 2 where it was. */
static void new_tracks(void)
{
    unsigned i, first = (unsigned)under(60);
    tracks = (unsigned)under(6);
    for (i = 0; i < tracks; i++) {
        ids[i] = (first + 7 * i) % 64;
        types[i] = media_type();
        fields[i] = fields_code();
    }
}

static void same_tracks(void)
{
    unsigned i;
    for (i = 0; i < tracks; i++)
        if (chance(60))
            fields[i] = fields[i] == 1 ? 2 : 1;
}

static void map_packet(void)
{
    size_t at = begin(0xBC), word;
    unsigned i;
    put(0xE0);
    put(0xFF);
    word = size;
    put_big(0, 2);
    if (chance(60))
        text_item(0x40, under(6));
    for (i = 0x41; i <= 0x45; i++)
        if (chance(50))
            number_item(i, draw());
    if (chance(20))
        unknown_item(0x4C + (unsigned)under(8));
    close_word(word);
    word = size;
    put_big(0, 2);
    for (i = 0; i < tracks; i++) {
        size_t length;
        put(0x80 + types[i]);
        put(0xC0 + ids[i]);
        length = size;
        put_big(0, 2);
        track_items(types[i], fields[i]);
        close_word(length);
    }
    close_word(word);
    finish(at);
}

/* A map amid the stream: mostly of the tracks before, so that what is said of them changes and changes back. */
static void next_map(void)
{
    if (chance(20))
        new_tracks();
    else
        same_tracks();
    map_packet();
}

static void locator_packet(void)
{
    size_t at = begin(0xFC);
    unsigned i, n = (unsigned)under(12);
    if (chance(3)) {
        finish(at);
        return;
    }
    put_little(chance(96) ? 1 + under(60) : 0, 4);
    put_little(chance(92) ? n : n + 985 + under(20), 4);
    for (i = 0; i < n; i++)
        put_little(chance(50) ? draw() : 4194304 + under(3), 4);
    finish(at);
}

/* A field number: a low one, one beside that of an earlier packet, one of the two highest, or any. */
static uint64_t field_number(void)
{
    if (chance(60))
        return under(6);
    if (stated != 0 && chance(50))
        return (stated_fields[under(stated)] + under(3) - 1) & 0xFFFFFFFF;
    return chance(50) ? 0xFFFFFFFE + under(2) : draw() & 0xFFFFFFFF;
}

static void media_packet(void)
{
    size_t at = begin(0xBF);
    unsigned k = tracks == 0 ? 0 : (unsigned)under(tracks), id = (unsigned)under(64);
    uint64_t number = field_number();
    if (tracks != 0 && chance(96)) {
        id = ids[k];
        put(types[k]);
    } else {
        put(chance(50) ? 19 : (unsigned)under(256));
    }
    put(id);
    put_big(number, 4);
    stated_tracks[stated] = id;
    stated_fields[stated++] = number;
    put_big(draw(), 4);
    put_big(under(6), 4);
    put((unsigned)under(4));
    put(0);
    put_big(draw(), 4 * (int)under(3));
    finish(at);
}

static void bare_packet(unsigned kind)
{
    size_t at = begin(kind);
    put_big(draw(), 4 * (int)under(2));
    finish(at);
}

/* A stream in order. Now and then a media packet asks for what the map does not list, a track has a tag twice or the wrong auxiliary form, a locator table has a bad count or step, or a UMF or a map is wanting. */
static void make_stream(void)
{
    unsigned n = (unsigned)(chance(97) ? under(14) : 88 + under(20)), i;
    int locator_second = chance(30);
    size = 0;
    packets = 0;
    stated = 0;
    new_tracks();
    map_packet();
    if (locator_second)
        locator_packet();
    if (chance(96))
        bare_packet(0xFD);
    for (i = 0; i < n; i++) {
        if (tracks != 0 && chance(80))
            media_packet();
        else if (n < 20 && chance(60))
            next_map();
        else
            bare_packet(chance(50) ? 0xFD : 0xFE);
    }
    if (!locator_second && chance(30))
        locator_packet();
    bare_packet(0xFB);
}

/* ---- Damage ---- */

enum { WHOLE, BYTE, LENGTH, CUT, ORDER, RANDOM, KINDS };

static const char *const kind_names[KINDS] = {
    "whole", "some bytes changed", "a length or a tag changed", "cut short, torn or with a tail", "packets out of order", "bytes by chance"};

static unsigned any_byte(void)
{
    static const unsigned choice[] = {0, 1, 4, 8, 12, 16, 0x3F, 0x40, 0x41, 0x4C, 0x4D, 0x4E, 0x4F, 0x50, 0x51, 0x52, 0x7F, 0x80, 0x8A, 0xBC, 0xBF, 0xC0, 0xC1, 0xE0, 0xFB, 0xFC, 0xFD, 0xFF};
    return chance(50) ? choice[under(sizeof choice / sizeof choice[0])] : (unsigned)under(256);
}

static size_t end_of(size_t k) { return k + 1 < packets ? offsets[k + 1] : size; }

/* Cuts the stream somewhere behind the header of a packet, and has that packet state more than is left: a few bytes, thousands, up to all that a header can state. */
static void tear(void)
{
    static const uint64_t more[] = {4, 8, 4096, 65536, 0x1000000, 0x80000000, 0xFFFFFFFC};
    size_t at = offsets[under(packets)], end = at + 16 + under(size - at - 15);
    uint64_t len = (end - at) / 4 * 4 + (chance(50) ? 4 : more[under(sizeof more / sizeof more[0])]);
    size = at + 6;
    put_big(len > 0xFFFFFFFC ? 0xFFFFFFFC : len, 4);
    size = end;
}

static void damage(int kind)
{
    static uint8_t old[ROOM];
    size_t i, k, at, len;
    switch (kind) {
    case BYTE:
        for (i = 1 + under(3); i > 0; i--) {
            at = chance(60) ? under(end_of(0)) : under(size);
            made[at] = (uint8_t)any_byte();
        }
        break;
    case LENGTH:
        k = chance(50) ? 0 : under(packets);
        at = offsets[k] + (chance(30) ? 6 + under(4) : 16 + under(end_of(k) - offsets[k]));
        if (at < size)
            made[at] = (uint8_t)(chance(50) ? made[at] + 1U : chance(50) ? made[at] + 255U : any_byte());
        break;
    case CUT:
        if (chance(40))
            size = under(size + 1);
        else if (chance(50))
            tear();
        else
            for (i = 1 + under(40); i > 0; i--)
                put((unsigned)under(3));
        break;
    case ORDER:
        memcpy(old, made, size);
        k = under(packets);
        at = offsets[k];
        len = end_of(k) - at;
        if (chance(50)) {
            /* left out */
            memmove(made + at, made + at + len, size - at - len);
            size -= len;
        } else {
            /* set in again before another */
            size_t to = offsets[under(packets)];
            memmove(made + to + len, made + to, size - to);
            memcpy(made + to, old + at, len);
            size += len;
        }
        break;
    case RANDOM:
        size = under(200);
        for (i = 0; i < size; i++)
            made[i] = (uint8_t)any_byte();
        if (size >= 16 && chance(70)) {
            size_t whole = size;
            size = 0;
            put_big(1, 5);
            put(chance(50) ? 0xBC : any_byte());
            put_big(chance(80) ? whole / 4 * 4 : draw(), 4);
            put_big(0, 4);
            put_big(0xE1E2, 2);
            if (whole > 20 && chance(80)) {
                put(0xE0);
                put(0xFF);
                put(0);
                put((unsigned)under(12));
            }
            size = whole;
        }
        break;
    default:
        break;
    }
}

/* ---- Comparison ---- */

enum { HEADER, POSITION, SEEK, CALLS };

static const char *const call_names[CALLS] = {"header", "position", "seek"};
static uint64_t calls[CALLS], answered[CALLS], by_number[CALLS][32], differences;

/* How many bytes are lacking where the number is 5. */
enum { ONE, FEW, SOME, MANY, SIZES };

static const char *const size_names[SIZES] = {"1", "2 to 15", "16 to 65535", "more"};
static uint64_t by_lacking[CALLS][SIZES];

/* How often a seek was answered by a packet of the number below; with the highest field of all; with a packet of the field's own number behind it. And how often
 * a packet of the even number below did not carry the field: it stands before the packet that does, or none does. */
static uint64_t below, below_highest, below_first, passed_over;

static void tally(int call, uint64_t number, uint64_t lacking)
{
    calls[call]++;
    if (number == 0)
        answered[call]++;
    else if (number < 32)
        by_number[call][number]++;
    if (number == 5)
        by_lacking[call][lacking == 1 ? ONE : lacking < 16 ? FEW : lacking < 65536 ? SOME : MANY]++;
}

static void differ(uint64_t input, int call, const uint64_t *asked, const uint64_t *library, const uint64_t *reference, int fields)
{
    int i;
    differences++;
    if (differences > 10)
        return;
    printf("input %" PRIu64 ", %s(%" PRIu64 ", %" PRIu64 "): library", input, call_names[call], asked[0], asked[1]);
    for (i = 0; i < fields; i++)
        printf(" %" PRIu64, library[i]);
    printf(", reference");
    for (i = 0; i < fields; i++)
        printf(" %" PRIu64, reference[i]);
    printf("\n");
}

static void ask_header(uint64_t input, const uint8_t *s, size_t n, size_t at)
{
    struct gxf_packet a = gxf_header(s, n, at), b = reference_header(s, n, at);
    uint64_t asked[2], x[5], y[5];
    tally(HEADER, b.number, b.lacking);
    if (a.number == b.number && a.place == b.place && a.lacking == b.lacking && a.packet_type == b.packet_type && a.len == b.len)
        return;
    asked[0] = at, asked[1] = 0;
    x[0] = a.number, x[1] = a.place, x[2] = a.lacking, x[3] = a.packet_type, x[4] = a.len;
    y[0] = b.number, y[1] = b.place, y[2] = b.lacking, y[3] = b.packet_type, y[4] = b.len;
    differ(input, HEADER, asked, x, y, 5);
}

static void hold(uint64_t input, int call, uint64_t first, uint64_t second, struct gxf_offset a, struct gxf_offset b)
{
    uint64_t asked[2], x[4], y[4];
    tally(call, b.number, b.lacking);
    if (a.number == b.number && a.place == b.place && a.lacking == b.lacking && a.offset == b.offset)
        return;
    asked[0] = first, asked[1] = second;
    x[0] = a.number, x[1] = a.place, x[2] = a.lacking, x[3] = a.offset;
    y[0] = b.number, y[1] = b.place, y[2] = b.lacking, y[3] = b.offset;
    differ(input, call, asked, x, y, 4);
}

static void ask_position(uint64_t input, const uint8_t *s, size_t n, size_t at, uint64_t distance)
{
    hold(input, POSITION, at, distance, gxf_position(s, n, at, distance), reference_position(s, n, at, distance));
}

static uint64_t number_of(const uint8_t *p) { return (uint64_t)p[18] << 24 | (uint64_t)p[19] << 16 | (uint64_t)p[20] << 8 | p[21]; }

/* Whether a packet from place `from` up to place `to` of an accepted stream has a field's number. */
static int states(const uint8_t *s, size_t from, size_t to, uint64_t track, uint64_t field)
{
    size_t at;
    for (at = from; at < to; at += reference_header(s, to, at).len)
        if (s[at + 5] == GXF_MEDIA && s[at + 17] == track && number_of(s + at) == field)
            return 1;
    return 0;
}

/* By which number a seek in an accepted stream was answered. */
static void tally_below(const uint8_t *s, size_t n, uint64_t track, uint64_t field, struct gxf_offset b)
{
    if (b.number == 0 && number_of(s + b.offset) != field) {
        below++;
        below_highest += field == 0xFFFFFFFF;
        below_first += states(s, b.offset, n, track, field);
    } else if ((b.number == 0 || b.number == 16) && field % 2 == 1) {
        passed_over += states(s, 0, b.number == 0 ? b.offset : n, track, field - 1);
    }
}

static void ask_seek(uint64_t input, const uint8_t *s, size_t n, uint64_t track, uint64_t field)
{
    struct gxf_offset b = reference_seek(s, n, track, field);
    tally_below(s, n, track, field, b);
    hold(input, SEEK, track, field, gxf_seek(s, n, track, field), b);
}

/* A field of a track: most often the one above what a packet states, that one itself or the one below; else any, or one past all. */
static void ask_any_seek(uint64_t input, const uint8_t *s, size_t n)
{
    size_t k;
    if (stated != 0 && chance(70)) {
        k = under(stated);
        ask_seek(input, s, n, stated_tracks[k], stated_fields[k] + (chance(60) ? 1 : under(2) - 1));
    } else {
        ask_seek(input, s, n, tracks != 0 && chance(80) ? ids[under(tracks)] : under(300), chance(70) ? under(7) : chance(60) ? 0xFFFFFFFE + under(4) : draw());
    }
}

static void ask_all(uint64_t input, const uint8_t *s, size_t n)
{
    size_t k;
    int i;
    ask_header(input, s, n, 0);
    ask_header(input, s, n, under(n + 20));
    ask_header(input, s, n, (size_t)(draw() << 11));
    ask_position(input, s, n, under(n + 20), under(600));
    for (k = 0; k < packets; k++) {
        size_t at = offsets[k];
        ask_header(input, s, n, at);
        if (at + 5 < n && (s[at + 5] == 0xFC || chance(10)))
            for (i = 0; i < 4; i++)
                ask_position(input, s, n, at, chance(90) ? under(600) : draw() << 11);
    }
    for (i = 0; i < 8; i++)
        ask_any_seek(input, s, n);
}

int main(int argc, char **argv)
{
    uint64_t inputs = argc > 1 ? strtoull(argv[1], NULL, 10) : 4000;
    uint64_t seed = argc > 2 ? strtoull(argv[2], NULL, 10) : 1;
    uint64_t of_kind[KINDS] = {0}, input;
    size_t page = (size_t)sysconf(_SC_PAGESIZE);
    size_t room = (ROOM + page - 1) / page * page;
    uint8_t *area = mmap(NULL, room + page, PROT_READ | PROT_WRITE, MAP_PRIVATE | MAP_ANONYMOUS, -1, 0);
    int i, k;

    if (area == MAP_FAILED || mprotect(area + room, page, PROT_NONE) != 0) {
        fprintf(stderr, "compare: no memory\n");
        return 2;
    }
    state = 0x9E3779B97F4A7C15ULL ^ seed * 0xBF58476D1CE4E5B9ULL;
    if (state == 0)
        state = 1;

    /* no bytes, at no address */
    ask_header(0, NULL, 0, 0);
    ask_position(0, NULL, 0, 0, 0);
    ask_seek(0, NULL, 0, 0, 0);

    for (input = 1; input <= inputs; input++) {
        int kind = (int)(input % KINDS);
        uint8_t *s;
        make_stream();
        damage(kind);
        of_kind[kind]++;
        s = area + room - size;
        memcpy(s, made, size);
        ask_all(input, s, size);
        if (memcmp(s, made, size) != 0) {
            printf("input %" PRIu64 ": the lent bytes were changed\n", input);
            differences++;
        }
    }

    printf("seed %" PRIu64 ", %" PRIu64 " inputs\n", seed, inputs);
    for (k = 0; k < KINDS; k++)
        printf("  %s: %" PRIu64 "\n", kind_names[k], of_kind[k]);
    for (k = 0; k < CALLS; k++) {
        printf("%s: %" PRIu64 " calls, %" PRIu64 " answered; refused", call_names[k], calls[k], answered[k]);
        for (i = 1; i < 32; i++)
            if (by_number[k][i] != 0)
                printf(" %d: %" PRIu64, i, by_number[k][i]);
        printf("\n  bytes lacking on 5:");
        for (i = 0; i < SIZES; i++)
            printf("%s %s: %" PRIu64, i == 0 ? "" : ",", size_names[i], by_lacking[k][i]);
        printf("\n");
    }
    printf("  by the number below: %" PRIu64 ", of them 4294967295: %" PRIu64 ", its own number behind: %" PRIu64 "; a number below passed over: %" PRIu64 "\n", below,
           below_highest, below_first, passed_over);
    printf("differences: %" PRIu64 "\n", differences);
    return differences != 0;
}
