// Prints the functions of a section with their types: functions INFO ABBREV STR LINE_STR STR_OFFSETS
#include <rothelduf.h>
#include <rothelduf_constants.h>

#include <array>
#include <cstdio>
#include <fstream>
#include <iterator>
#include <optional>
#include <string>
#include <string_view>
#include <vector>

namespace {

enum { INFO, ABBREV, STR, LINE_STR, STR_OFFSETS, SECTIONS };

using Bytes = std::vector<std::uint8_t>;

// The bytes of a file, with one more at the end, so that there is a pointer to them though there are none.
std::optional<Bytes> load(const char *path)
{
    std::ifstream file(path, std::ios::binary);
    if (!file)
        return std::nullopt;
    Bytes bytes{std::istreambuf_iterator<char>(file), {}};
    bytes.push_back(0);
    return bytes;
}

class Section {
public:
    explicit Section(const std::array<Bytes, SECTIONS> &files) : files(files) {}
    Section(const Section &) = delete;
    Section &operator=(const Section &) = delete;
    ~Section() { rothelduf_close(&raw); }

    std::uint32_t open(rothelduf_fault &fault)
    {
        return rothelduf_open(&raw, data(INFO), size(INFO), data(ABBREV), size(ABBREV), false, true, &fault);
    }

    void print_functions()
    {
        for (std::size_t item = 0; item < rothelduf_items(&raw); item++)
            print_unit(item);
    }

private:
    const std::uint8_t *data(int section) const { return files[section].data(); }
    std::size_t size(int section) const { return files[section].size() - 1; }

    void print_unit(std::size_t item)
    {
        rothelduf_unit_info unit{};
        if (rothelduf_unit(&raw, item, &unit) != ROTHELDUF_OK)
            return;
        std::vector<rothelduf_entry> entries(4096);
        std::vector<rothelduf_attribute> attributes(8192);
        for (rothelduf_filled filled{}; filled.next != ROTHELDUF_END;) {
            filled = rothelduf_walk(&raw, item, filled.next, entries.data(), entries.size(), attributes.data(), attributes.size());
            std::size_t a = 0;
            for (std::size_t e = 0; e < filled.entries; e++)
                for (; a < entries[e].attributes; a++)
                    if (entries[e].tag == DW_TAG_subprogram && attributes[a].name == DW_AT_name)
                        print({item, entries[e].offset}, unit.start, attributes[a]);
        }
    }

    void print(rothelduf_id id, std::uint64_t start, const rothelduf_attribute &attribute)
    {
        auto name = text(id.item, start, attribute);
        std::vector<std::uint8_t> out(65536);
        std::size_t length = 0;
        std::uint32_t why = 0;
        if (name && rothelduf_type(&raw, &id, reinterpret_cast<const std::uint8_t *>(name->data()), name->size(), data(STR), size(STR), data(LINE_STR), size(LINE_STR),
                                   data(STR_OFFSETS), size(STR_OFFSETS), out.data(), out.size(), &length, &why) == ROTHELDUF_OK)
            std::printf("%#llx %.*s\n", static_cast<unsigned long long>(start + id.offset), static_cast<int>(length), reinterpret_cast<const char *>(out.data()));
    }

    std::optional<std::string_view> text(std::size_t item, std::uint64_t start, const rothelduf_attribute &a)
    {
        auto view = [](const std::uint8_t *at, std::size_t length) { return std::string_view(reinterpret_cast<const char *>(at), length); };
        if (a.kind == ROTHELDUF_TEXT)
            return view(data(INFO) + start + a.offset + a.front, a.length);
        rothelduf_text_place place{};
        std::uint32_t why = 0;
        if (rothelduf_text(&raw, item, a.form, a.number, data(STR), size(STR), data(LINE_STR), size(LINE_STR), data(STR_OFFSETS), size(STR_OFFSETS), &place, &why) != ROTHELDUF_OK)
            return std::nullopt;
        return view(data(place.section == 1 ? STR : LINE_STR) + place.offset, place.length);
    }

    const std::array<Bytes, SECTIONS> &files;
    rothelduf_section raw{};
};

} // namespace

int main(int count, char **words)
{
    std::array<Bytes, SECTIONS> files;
    for (int n = 0; n < SECTIONS; n++) {
        auto bytes = count == 1 + SECTIONS ? load(words[1 + n]) : std::nullopt;
        if (!bytes)
            return 2;
        files[n] = std::move(*bytes);
    }
    Section section(files);
    rothelduf_fault fault{};
    auto status = section.open(fault);
    if (status == ROTHELDUF_FAULT)
        std::printf("fault %s %#llx %u\n", fault.section ? "abbrev" : "info", static_cast<unsigned long long>(fault.offset), fault.reason);
    section.print_functions();
    return status == ROTHELDUF_OK ? 0 : 1;
}
