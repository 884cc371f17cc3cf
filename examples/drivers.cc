/* SPDX-License-Identifier: BSD-2-Clause-Patent */
// An example for C++ programs: lists the drivers and other files of a flash image, also those in compressed sections.
// Each line has the type of a file (07 is a driver, 06 a PEIM) and its name, or its GUID if it has no name. Files that
// are marked as fixed, as in images for ARM, are read without their marks.
//   c++ -std=c++17 drivers.cc $(pkg-config --cflags --libs libfv)        ./a.out IMAGE
#include <fv.h>

#include <fstream>
#include <iomanip>
#include <iostream>
#include <iterator>
#include <new>
#include <optional>
#include <string>
#include <vector>

using Bytes = std::vector<uint8_t>;
using Tree = decltype(fv_sections_tree);  // fv_volume_tree_with has the same parameters

constexpr int MOST_OPEN = 4;
constexpr size_t MOST_CONTENTS = 1 << 26;

// Prints the files in the order in which they are found.
class Lines {
public:
    // Lists the files among the rows of a volume, or of a stream of sections.
    void list(Tree *tree, const uint8_t *bytes, size_t size, int most_open)
    {
        for (const fv_node &row : read_rows(tree, bytes, size)) {
            const uint8_t *body = bytes + row.offset;
            if (row.kind == FV_NODE_FILE) {
                begin(row);
            } else if (row.kind == FV_NODE_SECTION && row.efi_type == FV_SECTION_USER_INTERFACE) {
                print(name_in(body, row.length));
            } else if (row.kind == FV_NODE_SECTION && most_open > 0 &&
                       (row.efi_type == FV_SECTION_COMPRESSION || row.efi_type == FV_SECTION_GUID_DEFINED)) {
                Bytes contents = open(body - row.header_length, row.header_length + row.length);
                list(fv_sections_tree, contents.data(), contents.size(), most_open - 1);
            }
        }
    }

    // Prints the line of the last file, if it has no name.
    void end()
    {
        char text[FV_GUID_TEXT_SIZE];
        if (last && fv_guid_text(&last->guid, text, sizeof text) == FV_OK) print(text);
    }

private:
    std::optional<fv_node> last;  // the last file, if its line was not printed yet

    void begin(const fv_node &file)
    {
        end();
        last = file;
    }

    void print(const std::string &name)
    {
        if (!last) return;
        std::cout << std::hex << std::setw(2) << std::setfill('0') << last->efi_type << " " << name << "\n";
        last.reset();
    }

    // Returns the rows of a volume or of a stream, or none if it is rejected.
    static std::vector<fv_node> read_rows(Tree *tree, const uint8_t *bytes, size_t size)
    {
        size_t count = 0;
        std::vector<fv_node> rows;
        fv_result result = tree(bytes, size, FV_WITHOUT_MARKS, nullptr, 0, &count, nullptr);
        if (result == FV_BUFFER_TOO_SMALL) {
            rows.resize(count);
            result = tree(bytes, size, FV_WITHOUT_MARKS, rows.data(), count, &count, nullptr);
        }
        return result == FV_OK ? rows : std::vector<fv_node>();
    }

    // Returns the contents of a packed section, or no bytes if it is not opened.
    static Bytes open(const uint8_t *section, size_t size)
    {
        fv_way way;
        fv_contents found;
        if (fv_section_way(section, size, &way, nullptr) != FV_OK) return {};
        Bytes contents(way.promised <= MOST_CONTENTS ? way.promised : 0);
        fv_result result = fv_section_open(section, size, MOST_CONTENTS, contents.data(), contents.size(), &found, nullptr);
        if (result == FV_BUFFER_TOO_SMALL) {  // the promise was wrong, or there was none
            contents.resize(found.length);
            result = fv_section_open(section, size, MOST_CONTENTS, contents.data(), contents.size(), &found, nullptr);
        }
        contents.resize(result == FV_OK ? found.length : 0);
        return contents;
    }

    // Returns the name in a section, whose characters have two bytes each.
    static std::string name_in(const uint8_t *text, size_t size)
    {
        std::string name;
        for (size_t i = 0; i + 1 < size && (text[i] || text[i + 1]); i += 2)
            name += text[i + 1] || text[i] < ' ' || text[i] > '~' ? '?' : static_cast<char>(text[i]);
        return name;
    }
};

static int print_files(const char *path)
{
    std::ifstream file(path, std::ios::binary);
    file.exceptions(std::ios::failbit | std::ios::badbit);
    const Bytes image{std::istreambuf_iterator<char>(file), std::istreambuf_iterator<char>()};
    size_t count = 0;
    if (fv_image_scan(image.data(), image.size(), nullptr, 0, &count, nullptr) == FV_OUT_OF_MEMORY) return 2;
    std::vector<fv_header> headers(count);
    if (fv_image_scan(image.data(), image.size(), headers.data(), count, &count, nullptr) != FV_OK) return 2;
    Lines lines;
    for (const fv_header &header : headers)
        lines.list(fv_volume_tree_with, image.data() + header.offset, header.length, MOST_OPEN);
    lines.end();
    return std::cout.flush() ? 0 : 2;
}

int main(int argc, char **argv)
{
    if (argc != 2) {
        std::cerr << "usage: drivers IMAGE\n";
        return 2;
    }
    try {
        return print_files(argv[1]);
    } catch (const std::ios::failure &) {
        std::cerr << "drivers: cannot read " << argv[1] << "\n";
    } catch (const std::bad_alloc &) {
        std::cerr << "drivers: out of memory\n";
    }
    return 2;
}
