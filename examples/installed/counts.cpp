// Checks a map and prints what it holds, by ion_map_check: a line for each type that there is.
//
//   c++ -O2 counts.cpp $(pkg-config --cflags --libs ion_map) -o counts && ./counts MAP
//
// The status is 0 where the map is good, 1 where it is refused, and 2 where it couldn't be read or nothing printed.

#include <ion_map.h>

#include <cstdio>
#include <iostream>
#include <vector>

static const char *const names[ION_MAP_CHECK_WORDS] = {
    "", "markers", "pads", "nulls", "bools", "ints", "floats", "decimals", "timestamps", "symbols", "strings", "clobs",
    "blobs", "lists", "sexps", "structs"
};

static bool read(const char *name, std::vector<uint8_t> &map)
{
    uint8_t part[4096];
    std::FILE *file = std::fopen(name, "rb");

    if (file == NULL) {
        return false;
    }
    for (size_t length = 1; length > 0;) {
        length = std::fread(part, 1, sizeof part, file);
        map.insert(map.end(), part, part + length);
    }
    bool good = !std::ferror(file);
    std::fclose(file);
    return good;
}

int main(int argc, char **argv)
{
    if (argc != 2) {
        std::cerr << "usage: " << argv[0] << " MAP\n";
        return 2;
    }
    std::vector<uint8_t> map;
    if (!read(argv[1], map)) {
        std::perror(argv[1]);
        return 2;
    }

    // An empty vector's data may be null, which is as good as any other pointer to no bytes.
    std::vector<uint8_t> record(ION_MAP_CHECK_SIZE);
    uint64_t refused = ion_map_check(map.data(), map.size(), ION_MAP_DEFAULT_ANNOTATIONS, ION_MAP_DEFAULT_DEPTH,
                                     record.data(), record.size());
    if (refused != 0) {
        std::cerr << argv[1] << ": refused at " << ion_map_word(record.data(), ION_MAP_AT_REFUSED_POSITION) << ": "
                  << ion_map_refusal_text(refused) << "\n";
        return 1;
    }
    for (size_t i = ION_MAP_AT_CHECK_MARKERS; i < ION_MAP_CHECK_WORDS; i++) {
        uint64_t count = ion_map_word(record.data(), i);
        if (count != 0) {
            std::cout << count << " " << names[i] << "\n";
        }
    }
    std::cout.flush();
    if (!std::cout) {
        std::perror("standard output");
        return 2;
    }
    return 0;
}
