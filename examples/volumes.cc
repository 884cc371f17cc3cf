/* SPDX-License-Identifier: BSD-2-Clause-Patent */
// An example for C++ programs: lists the volumes of a flash image with their files and bytes of data, and reports
// whether all of the volumes are canonical.
//   c++ -std=c++17 volumes.cc $(pkg-config --cflags --libs libfv)        ./a.out IMAGE
#include <fv.h>

#include <fstream>
#include <iostream>
#include <iterator>
#include <new>
#include <string>
#include <vector>

// Returns the bytes of a file.
static std::vector<uint8_t> read_file(const char *path)
{
    std::ifstream file(path, std::ios::binary);
    file.exceptions(std::ios::failbit | std::ios::badbit);
    return {std::istreambuf_iterator<char>(file), std::istreambuf_iterator<char>()};
}

// Calls a function of libfv that writes rows: first without room, so that it says how many rows there are.
template <typename Row>
static fv_result read_rows(fv_result (*call)(const void *, size_t, Row *, size_t, size_t *, fv_fault *),
                           const uint8_t *bytes, size_t size, std::vector<Row> &rows)
{
    size_t count = 0;
    fv_result result = call(bytes, size, nullptr, 0, &count, nullptr);
    if (result == FV_BUFFER_TOO_SMALL) {
        rows.resize(count);
        result = call(bytes, size, rows.data(), rows.size(), &count, nullptr);
    }
    return result;
}

// Returns the line for a volume of the image.
static std::string line_of(const uint8_t *volume, uint64_t length)
{
    std::vector<fv_node> nodes;
    fv_result result = read_rows(fv_volume_tree, volume, length, nodes);
    if (result != FV_OK) {
        return fv_result_text(result);
    }
    uint64_t files = 0, bytes = 0;
    for (const fv_node &node : nodes) {
        if (node.depth == 1) {  // a file of this volume, not of a volume in it
            files++;
            bytes += node.length;
        }
    }
    return std::to_string(files) + " files, " + std::to_string(bytes) + " bytes of data";
}

static int print_volumes(const char *path)
{
    std::vector<uint8_t> image = read_file(path);
    std::vector<fv_header> headers;
    fv_result result = read_rows(fv_image_scan, image.data(), image.size(), headers);
    if (result != FV_OK) {
        std::cerr << "volumes: " << fv_result_text(result) << "\n";
        return 2;
    }
    for (const fv_header &header : headers) {
        std::cout << "volume at " << header.offset << ": ";
        std::cout << line_of(image.data() + header.offset, header.length) << "\n";
    }

    std::vector<uint8_t> canonical(image.size());
    result = fv_image_normalise(image.data(), image.size(), canonical.data(), canonical.size(), nullptr);
    if (result != FV_OK) {
        std::cout << fv_result_text(result) << "\n";
    } else {
        std::cout << (image == canonical ? "canonical" : "not canonical") << "\n";
    }
    return std::cout.flush() ? 0 : 2;
}

int main(int argc, char **argv)
{
    if (argc != 2) {
        std::cerr << "usage: volumes IMAGE\n";
        return 2;
    }
    try {
        return print_volumes(argv[1]);
    } catch (const std::ios::failure &) {
        std::cerr << "volumes: cannot read " << argv[1] << "\n";
    } catch (const std::bad_alloc &) {
        std::cerr << "volumes: out of memory\n";
    }
    return 2;
}
