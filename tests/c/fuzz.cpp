/* Calls functions of ploverchaise.h with random texts, lines, numbers and ids. Each result has a known code, a call that makes a coverage
   returns no id if it fails, and each coverage that is made is equal to the one that is read from its text in each format. The last line
   printed is `N passed, M failed`. library.py builds and runs the program, also with the sanitizers.

   usage: fuzz [CALLS [SEED]] */
#include "checks.h"
#include "ploverchaise.h"

#include <array>
#include <cstdlib>
#include <cstring>
#include <random>
#include <string>
#include <vector>

namespace {

const std::array<std::string, 40> WORDS{
    "add ", "remove ", "keep ", "claim ", "invert", "degrade ", "count ", "read ", "near ", ";", "/", "-", ",", " ", "\n", "@", "0", "1",
    "29", "30", "s", "3458764513820540927", "18446744073709551616", "{", "}", "[", "]", ":", "\"", "5", "7", "99", "\t", "e", ".", "-1",
    "\xff",
    std::string(1, '\0'), "1/4", "{\"0\":[1]}"};

moc_store store;
moc_client client;
std::mt19937_64 generator;

std::uint64_t below(std::uint64_t bound)
{
    return generator() % bound;
}

/* A number of any length. */
std::uint64_t number()
{
    return generator() >> below(64);
}

std::string random_text()
{
    std::string text;
    for (std::uint64_t words = below(14); words > 0; --words) {
        text += WORDS[below(WORDS.size())];
        if (below(3) == 0)
            text += std::to_string(number());
    }
    return text;
}

const std::uint8_t *bytes(const std::string &text)
{
    return reinterpret_cast<const std::uint8_t *>(text.data());
}

bool is_known(moc_result result)
{
    return std::strcmp(moc_message(result.code), "unknown code") != 0;
}

/* Makes a coverage of random arguments. */
moc_result make(std::uint64_t id, std::uint64_t other)
{
    std::string text = random_text();
    std::vector<moc_range> ranges(below(5));
    std::vector<std::uint64_t> numbers(below(5));
    for (moc_range &range : ranges) {
        range.from = number();
        range.to = below(8) ? range.from + number() : generator();
    }
    for (std::uint64_t &element : numbers)
        element = number();
    switch (below(12)) {
    case 0:
    case 1:
        return moc_read_ascii(&store, bytes(text), text.size());
    case 2:
        return moc_read_json(&store, bytes(text), text.size());
    case 3:
        return moc_read_uniq(&store, bytes(text), text.size());
    case 4:
        return moc_from_ranges(&store, ranges.data(), ranges.size());
    case 5:
        return moc_from_cells(&store, static_cast<std::uint32_t>(below(33)), numbers.data(), numbers.size());
    case 6:
        return moc_from_uniqs(&store, numbers.data(), numbers.size());
    case 7:
        return moc_union(&store, id, other);
    case 8:
        return moc_symmetric(&store, id, other);
    case 9:
        return moc_complement(&store, id);
    case 10:
        return moc_degrade(&store, id, static_cast<std::uint32_t>(below(33)));
    default:
        return moc_map_coverage(&client, &store);
    }
}

/* Returns whether a text of the coverage, in a random format, is read back. */
bool is_read_back(std::uint64_t id)
{
    moc_text text;
    moc_result written, read;
    std::uint64_t format = below(3);
    written = format == 0   ? moc_write_ascii(&store, id, MOC_NO_ORDER, &text)
              : format == 1 ? moc_write_json(&store, id, MOC_NO_ORDER, &text)
                            : moc_write_uniq(&store, id, &text);
    if (written.code != MOC_OK)
        return false;
    std::string copy(text.bytes, text.length);
    moc_text_free(&text);
    read = format == 0   ? moc_read_ascii(&store, bytes(copy), copy.size())
           : format == 1 ? moc_read_json(&store, bytes(copy), copy.size())
                         : moc_read_uniq(&store, bytes(copy), copy.size());
    bool is_same = read.code == MOC_OK && moc_same(&store, id, read.first).first == 1;
    return is_same && moc_free(&store, read.first).code == MOC_OK;
}

/* Executes a random line, or a command on cells or on a coverage. */
bool change_map(std::uint64_t id)
{
    std::string line = random_text();
    std::uint64_t cells[2] = {number(), number()};
    moc_text replies;
    moc_result result;
    switch (below(4)) {
    case 0:
        result = moc_map_execute(&client, bytes(line), line.size(), &replies);
        if (result.code == MOC_OK ? replies.length != result.first || replies.bytes[replies.length - 1] != '\n' : replies.bytes != nullptr)
            return false;
        moc_text_free(&replies);
        return is_known(result);
    case 1:
        return is_known(moc_map_add(&client, static_cast<std::uint32_t>(below(33)), cells, below(3)));
    case 2:
        return is_known(moc_map_remove(&client, static_cast<std::uint32_t>(below(33)), cells, below(3)));
    default:
        return is_known(moc_map_claim_coverage(&client, &store, id));
    }
}

} // namespace

int main(int argc, char **argv)
{
    std::uint64_t calls = argc > 1 ? std::strtoull(argv[1], nullptr, 10) : 100'000;
    generator.seed(argc > 2 ? std::strtoull(argv[2], nullptr, 10) : 2005);
    bool is_open = moc_store_open(&store) && moc_client_open(&client);
    /* The last coverages that were made, and numbers that are not ids. */
    std::array<std::uint64_t, 8> ids{moc_full(&store).first, moc_empty(&store).first, 0, 1, UINT64_MAX, 0, 0, 0};
    CHECK(is_open && is(moc_map_begin(&client, &store, ids[1], 1), MOC_OK, 0, 0));
    std::uint64_t made = 0;
    for (std::uint64_t call = 0; call < calls; ++call) {
        if (below(2)) {
            check(__LINE__, "a call of the map", change_map(ids[below(ids.size())]));
            continue;
        }
        moc_result result = make(ids[below(ids.size())], ids[below(ids.size())]);
        check(__LINE__, "a call that makes a coverage", is_known(result) && (result.code == MOC_OK) == (result.first != UINT64_MAX));
        if (result.code != MOC_OK)
            continue;
        check(__LINE__, "a text that is read back", is_read_back(result.first));
        std::uint64_t &place = ids[5 + made++ % 3];
        (void)moc_free(&store, place);
        place = result.first;
    }
    CHECK(made > calls / 10);
    moc_client_close(&client);
    moc_store_close(&store);
    return report();
}
