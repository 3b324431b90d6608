/* A control program: lists a stream's packets, asks the first FLT packet for a position, and seeks.
 *   control FILE DISTANCE TRACK FIELD
 * Exit status: 0; 1 where one of the three was refused; 2 where the file or the arguments could not be read. */
#include "lumperki.h"

#include <inttypes.h>
#include <stdio.h>
#include <stdlib.h>

/* A file whole in memory; NULL where it cannot be read. */
static uint8_t *whole(const char *name, size_t *n)
{
    FILE *f = fopen(name, "rb");
    uint8_t *s = NULL;
    size_t room = 0, got;
    *n = 0;
    if (f == NULL)
        return NULL;
    do {
        if (*n == room) {
            uint8_t *more;
            room = room == 0 ? 65536 : 2 * room;
            more = realloc(s, room);
            if (more == NULL) {
                free(s);
                fclose(f);
                return NULL;
            }
            s = more;
        }
        got = fread(s + *n, 1, room - *n, f);
        *n += got;
    } while (got != 0);
    if (ferror(f)) {
        free(s);
        s = NULL;
    }
    fclose(f);
    return s;
}

static const char *name_of(uint64_t packet_type)
{
    switch (packet_type) {
    case GXF_MAP:
        return "map";
    case GXF_MEDIA:
        return "media";
    case GXF_EOS:
        return "eos";
    case GXF_FLT:
        return "flt";
    case GXF_UMF:
        return "umf";
    default:
        return "other";
    }
}

/* A refusal: its number and its place, and of a torn packet, which is 5, the bytes lacking. */
static int refusal(uint64_t number, uint64_t place, uint64_t lacking)
{
    printf("refused %" PRIu64 " %" PRIu64, number, place);
    if (number == 5)
        printf(" %" PRIu64, lacking);
    printf("\n");
    return 1;
}

static int say(const char *what, struct gxf_offset o)
{
    if (o.number != 0) {
        printf("%s: ", what);
        return refusal(o.number, o.place, o.lacking);
    }
    printf("%s: %" PRIu64 "\n", what, o.offset);
    return 0;
}

/* A number that is its whole argument: digits alone, one at least, and no more than 64 bits hold. Says so of one that is not. */
static int number_of(const char *text, uint64_t *n)
{
    const char *c = text;
    *n = 0;
    do {
        uint64_t digit = (uint64_t)*c - '0';
        if (*c < '0' || *c > '9' || *n > (UINT64_MAX - digit) / 10) {
            fprintf(stderr, "control: no number of 64 bits: \"%s\"\n", text);
            return 0;
        }
        *n = 10 * *n + digit;
    } while (*++c != '\0');
    return 1;
}

int main(int argc, char **argv)
{
    uint64_t distance, track, field;
    size_t n, at = 0, locator = 0;
    int has_locator = 0, refused = 0;
    uint8_t *s;

    if (argc != 5 || !number_of(argv[2], &distance) || !number_of(argv[3], &track) || !number_of(argv[4], &field)) {
        fprintf(stderr, "usage: control FILE DISTANCE TRACK FIELD\n");
        return 2;
    }
    s = whole(argv[1], &n);
    if (s == NULL) {
        fprintf(stderr, "control: cannot read %s\n", argv[1]);
        return 2;
    }

    while (at < n) {
        struct gxf_packet p = gxf_header(s, n, at);
        if (p.number != 0) {
            refused = refusal(p.number, p.place, p.lacking);
            break;
        }
        printf("%zu %s %" PRIu64 "\n", at, name_of(p.packet_type), p.len);
        if (p.packet_type == GXF_FLT && !has_locator) {
            has_locator = 1;
            locator = at;
        }
        at += p.len;
    }
    if (has_locator)
        refused |= say("position", gxf_position(s, n, locator, distance));
    else
        printf("position: no flt\n");
    refused |= say("seek", gxf_seek(s, n, track, field));
    free(s);
    return refused;
}
