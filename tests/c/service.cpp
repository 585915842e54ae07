/* A small service over ploverchaise.hpp: writers claim, add and remove fields of one map, and readers count them at the same time. Each
   reply is compared with a sorted vector of cells behind a mutex. At the end the map must have the cells of the vector. The last
   line printed is `N passed, M failed`. library.py builds and runs the program, also with the sanitizers.

   A field is a cell of an even base pixel together with the cell at the same place of the next base pixel. A call that changes only one of
   the two is seen by a reader. Each writer has fields of its own, so that the reply to each of its calls is known. */
#include "checks.h"
#include "ploverchaise.hpp"

#include <algorithm>
#include <atomic>
#include <mutex>
#include <random>
#include <thread>

using namespace ploverchaise;

namespace {

constexpr unsigned ORDER = 6, WRITERS = 4, READERS = 2, CALLS = 3000;
constexpr std::uint64_t PARTS = 12, CELLS_PER_PART = 4096, PIXELS_PER_FIELD = 2 * (MOC_PIXEL_COUNT / (PARTS * CELLS_PER_PART));
/* Few fields, so that half of the calls find theirs in the map. */
constexpr std::uint64_t FIELDS_PER_PART = 16 * WRITERS;

/* The cells of a map, as a sorted vector behind a mutex. */
class Model {
public:
    /* Adds or removes cells, of which it has all or none, and returns whether it had them. */
    bool set(const std::vector<std::uint64_t> &cells, bool are_members)
    {
        std::lock_guard<std::mutex> lock(mutex_);
        bool had = std::binary_search(cells_.begin(), cells_.end(), cells[0]);
        for (std::uint64_t cell : cells) {
            auto place = std::lower_bound(cells_.begin(), cells_.end(), cell);
            if (are_members && !had)
                cells_.insert(place, cell);
            else if (!are_members && had)
                cells_.erase(place);
        }
        return had;
    }

    bool contains(std::uint64_t cell)
    {
        std::lock_guard<std::mutex> lock(mutex_);
        return std::binary_search(cells_.begin(), cells_.end(), cell);
    }

    std::vector<std::uint64_t> cells()
    {
        std::lock_guard<std::mutex> lock(mutex_);
        return cells_;
    }

private:
    std::mutex mutex_;
    std::vector<std::uint64_t> cells_;
};

Model model;
std::atomic<bool> is_ended{false};
std::atomic<std::uint64_t> wrong{0}, torn{0}, claims{0}, reads{0}, copies{0};

/* Returns the cells of a field. */
std::vector<std::uint64_t> field(std::uint64_t part_pair, std::uint64_t index)
{
    std::uint64_t cell = 2 * part_pair * CELLS_PER_PART + index * (CELLS_PER_PART / FIELDS_PER_PART);
    return {cell, cell + CELLS_PER_PART};
}

std::string line_of(const char *command, const std::vector<std::uint64_t> &cells)
{
    return std::string(command) + " " + std::to_string(ORDER) + "/" + std::to_string(cells[0]) + " " + std::to_string(cells[1]);
}

/* Makes one call on a field that no other writer changes, and returns whether its reply is that of the model. */
bool is_right(Client &client, std::uint64_t call, const std::vector<std::uint64_t> &cells)
{
    bool had = false;
    switch (call) {
    case 0:
        had = model.set(cells, true);
        claims += !had;
        return client.claim(ORDER, cells) == !had;
    case 1:
        had = model.set(cells, true);
        return client.add(ORDER, cells) == (had ? 0 : PIXELS_PER_FIELD);
    case 2:
        had = model.set(cells, false);
        return client.remove(ORDER, cells) == (had ? PIXELS_PER_FIELD : 0);
    case 3:
        had = model.set(cells, false);
        return client.execute(line_of("remove", cells)) == "changed " + std::to_string(had ? PIXELS_PER_FIELD : 0);
    case 4:
        return client.count(ORDER, cells) == (model.contains(cells[0]) ? PIXELS_PER_FIELD : 0);
    default:
        return client.contains(ORDER, cells) == model.contains(cells[1]);
    }
}

void write(Client client, unsigned writer)
{
    std::mt19937_64 generator(writer);
    client.set_timeout(std::nullopt);
    for (unsigned call = 0; call < CALLS; ++call) {
        std::uint64_t index = generator() % (FIELDS_PER_PART / WRITERS) * WRITERS + writer, part_pair = generator() % (PARTS / 2);
        wrong += !is_right(client, generator() % 6, field(part_pair, index));
    }
}

/* Counts fields that writers change meanwhile, and copies the map. No field is ever half in the map. */
void read(Client client, unsigned reader)
{
    std::mt19937_64 generator(1000 + reader);
    Store store;
    client.set_timeout(std::nullopt);
    do {
        std::uint64_t pixels = client.count(ORDER, field(generator() % (PARTS / 2), generator() % FIELDS_PER_PART));
        torn += pixels != 0 && pixels != PIXELS_PER_FIELD;
        if (reads++ % 64 == 0) {
            torn += client.coverage(store).count() % PIXELS_PER_FIELD != 0;
            ++copies;
        }
    } while (!is_ended);
}

} // namespace

int main()
{
    Store store;
    Client first = Client::begin(store.empty(), 1 + WRITERS + READERS);
    std::vector<std::thread> writers, readers;
    for (unsigned reader = 0; reader < READERS; ++reader)
        readers.emplace_back(read, first.join(), reader);
    for (unsigned writer = 0; writer < WRITERS; ++writer)
        writers.emplace_back(write, first.join(), writer);
    for (std::thread &thread : writers)
        thread.join();
    is_ended = true;
    for (std::thread &thread : readers)
        thread.join();
    CHECK(wrong == 0);
    CHECK(torn == 0);
    CHECK(claims > CALLS / 10 && reads >= READERS && copies > 0);
    std::vector<std::uint64_t> cells = model.cells();
    CHECK(!cells.empty() && first.coverage(store) == store.cells(ORDER, cells));
    CHECK(first.count(0, {0, 1, 2, 3, 4, 5, 6, 7, 8, 9, 10, 11}) == cells.size() * (PIXELS_PER_FIELD / 2));
    return report();
}
