/* Packs a map of any size: without its pads, and with each length in its shortest form.

     cc -std=c99 -O2 -I include examples/pack.c target/libion_map.a -o pack
     ./pack MAP PACKED

   Writes the packed map to the file PACKED, and says on standard error how many bytes that saved. A map that isn't
   accepted is refused in words, and no file is written. The status is 0, 1 where the map is refused, and 2 where a file
   can't be read or written or there is no memory: PACKED may then be there in part. */

#include "files.h"
#include "ion_map.h"

#include <inttypes.h>
#include <stdio.h>
#include <stdlib.h>

static int write_all(const char *name, const uint8_t *bytes, size_t length)
{
    FILE *file = fopen(name, "wb");
    int written;

    if (file == NULL) {
        return 0;
    }
    written = fwrite(bytes, 1, length, file) == length;
    return fclose(file) == 0 && written;
}

/* Packs the map into `packed`, a buffer of the map's length, which always suffices, and writes that to the file. */
static int pack(const char *name, const uint8_t *map, size_t length, uint8_t *packed)
{
    uint8_t record[ION_MAP_RECORD_SIZE];
    uint64_t refused = ion_map_pack(map, length, ION_MAP_DEFAULT_ANNOTATIONS, ION_MAP_DEFAULT_DEPTH, packed, length,
                                    record, sizeof record);
    uint64_t size;

    if (refused != 0) {
        return say_refusal("pack", "the map", refused, ion_map_word(record, ION_MAP_AT_REFUSED_POSITION));
    }
    size = ion_map_word(record, ION_MAP_AT_PACKED_SIZE);
    if (!write_all(name, packed, (size_t)size)) {
        perror(name);
        return FAILED;
    }
    fprintf(stderr, "pack: %" PRIu64 " bytes of %" PRIu64 ": %" PRIu64 " saved\n", size, (uint64_t)length,
            (uint64_t)length - size);
    return GOOD;
}

int main(int argc, char **argv)
{
    uint8_t *map, *packed;
    size_t length;
    int status = FAILED;

    if (argc != 3) {
        fprintf(stderr, "usage: %s MAP PACKED\n", argv[0]);
        return FAILED;
    }
    map = read_input(argv[1], &length);
    if (map == NULL) {
        return FAILED;
    }
    packed = (uint8_t *)malloc(length + 1); /* one more, so that an empty map has memory too */
    if (packed == NULL) {
        perror("pack: the packed map");
    } else {
        status = pack(argv[2], map, length, packed);
    }
    free(packed);
    free(map);
    return status;
}
