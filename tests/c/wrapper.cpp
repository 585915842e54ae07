/* Tests ploverchaise.hpp: lifetimes in any order, each kind of error, objects that were moved, and threads. The last line printed is
   `N passed, M failed`. library.py builds and runs the program, also with the sanitizers. */
#include "checks.h"
#include "ploverchaise.hpp"

#include <thread>

using namespace ploverchaise;
using namespace std::chrono_literals;

namespace {

constexpr std::uint64_t BASE = MOC_PIXEL_COUNT / 12;

/* Returns the error that a call throws, or one with the code 0. */
template <class Call> Error error_of(Call call)
{
    try {
        call();
    } catch (const Error &error) {
        return error;
    }
    return Error(MOC_OK, 0, 0);
}

void coverages()
{
    Store store, other;
    std::optional<Coverage> kept;
    Coverage a = store.ascii("0/0 1/4-5"), b = store.json("{\"1\":[3,4,6,7],\"2\":[20,32]}");
    CHECK((a & b).ascii() == "1/3-4 2/20\n" && (a & b).json() == "{\"1\":[3,4],\"2\":[20]}\n" && store.empty().ascii(8) == "8/\n");
    CHECK((a | b) - b == a - b && (a ^ b) == ((a | b) - (a & b)) && a != b);
    CHECK(a.contains(0) && !a.contains(MOC_PIXEL_COUNT) && a.contains_all({0, MOC_PIXEL_COUNT - 1}) == std::vector<std::uint8_t>({1, 0}));
    CHECK(a.complement().complement() == a && a.complement().count() == MOC_PIXEL_COUNT - a.count() && a.count() == BASE / 2 * 3);
    std::vector<Range> ranges = a.ranges();
    CHECK(ranges.size() == 1 && a.range_count() == 1 && ranges[0].from == 0 && ranges[0].to == BASE / 2 * 3 && store.ranges(ranges) == a);
    CHECK(a.uniqs() == std::vector<std::uint64_t>({4, 20, 21}) && store.uniqs(a.uniqs()) == a && a.uniq() == "4\n20\n21\n");
    CHECK(store.uniq(a.uniq()) == a && a.deepest_order() == 1 && a.degrade(0).ascii() == "0/0-1\n");
    CHECK(store.empty().is_empty() && store.full().covers(a) && !a.covers(b) && a.meets(b) && a.sky_fraction() == 0.125);
    CHECK(a.statistics(1).rfind("deepest 1\npixels ", 0) == 0 && a.svg().rfind("<svg ", 0) == 0);
    CHECK(a.count_common(b) == (a & b).count());
    std::uint64_t cells[] = {4, 5};
    CHECK(store.cells(1, cells) == store.cells(1, {5, 4}) && store.cells(1, std::array<std::uint64_t, 2>{4, 5}).count() == BASE / 2);
    /* Coverages of two stores, and one that outlives its store. */
    CHECK((a | other.full()) == store.full() && other.share(a) == a && other.share(a).ascii() == a.ascii());
    {
        Store short_lived;
        kept = short_lived.ascii("7/1");
    }
    CHECK(kept->ascii() == "7/1\n");
    Coverage moved = std::move(a);
    Store moved_store = std::move(store);
    CHECK(moved == a && moved_store.full().covers(store.ascii("0/0")));
}

void errors()
{
    Store store;
    Coverage a = store.full();
    Error error = error_of([&] { store.ascii("5/7x"); });
    CHECK(error.code == MOC_ASCII_BAD_BYTE && error.first == 3 && std::string(error.what()) == "a byte is not allowed there (3)");
    error = error_of([&] { store.json("{\"1\":[0,48]}"); });
    CHECK(error.code == MOC_JSON_CELL_TOO_LARGE && error.first == 0 && error.second == 1);
    error = error_of([&] { store.cells(3, {767, 768}); });
    CHECK(error.code == MOC_NO_SUCH_CELL && error.first == 1);
    CHECK(error_of([&] { (void)a.degrade(30); }).code == MOC_NO_SUCH_ORDER && error_of([&] { (void)a.ascii(300); }).first == 254);
}

void clients()
{
    Store store;
    std::optional<Client> late;
    {
        Client one = Client::begin(store.ascii("0/0 1/4-5"), 2);
        late = one.join();
        CHECK(one.number() + late->number() == 1 && error_of([&] { (void)one.join(); }).code == MOC_NO_CLIENT);
        CHECK(!one.claim(1, {4}) && one.claim(1, {20}) && late->count(1, {20, 21}) == BASE / 4 && late->contains(1, {20}));
        CHECK(one.execute("count 0/0 ; near 1 5") == "total 288230376151711744 ; near yes" && late->execute("read 0/0") == "cover 0/0");
        Error error = error_of([&] { one.execute("ADD 0/0"); });
        CHECK(error.code == MOC_LINE_UNKNOWN_WORD && one.answer() == "total 288230376151711744 ; near yes");
        one.apply("add 0/9 ; count 0/9");
        CHECK(one.answer() == "changed 288230376151711744 ; total 288230376151711744" && late->answer() == "cover 0/0");
        CHECK(error_of([&] { one.apply("remove 0/9 ; ADD 0/0"); }).code == MOC_LINE_UNKNOWN_WORD && one.remove(0, {9}) == BASE);
        Client moved = std::move(one);
        CHECK(moved.remove(1, {20}) == BASE / 4 && moved.coverage(store) == store.ascii("0/0 1/4-5"));
        CHECK(error_of([&] { one.execute("count 0/0"); }).code == MOC_NULL);
        one = std::move(moved);
        moved = std::move(one);
        CHECK(error_of([&] { (void)moved.join(); }).code == MOC_NO_CLIENT);
        Coverage more = store.ascii("0/7");
        CHECK(moved.add(more) == BASE && moved.count(more) == BASE && moved.contains(more) && !moved.claim(more));
        CHECK(moved.remove(more) == BASE && moved.claim(more) && moved.remove(more) == BASE);
        CHECK(moved.add(0, {7}) == BASE && moved.remove(0, {7}) == BASE);
    }
    CHECK(late->count(0, {0}) == BASE);
    late->set_timeout(5ms);
    late->set_timeout(std::nullopt);
    late->set_timeout(-1ms);
    late->set_timeout(std::chrono::hours(100'000));
    CHECK(late->execute("count 0/0") == "total 288230376151711744");
    Busy busy(MOC_BUSY, 3, 5);
    CHECK(busy.part() == 3 && busy.holder() == 5);
}

/* Threads with a store and a client each. Every cell is claimed once. */
void threads()
{
    constexpr unsigned THREADS = 4, CELLS = 2000;
    Store store;
    Client first = Client::begin(store.empty());
    std::array<unsigned, THREADS> claimed{}, wrong{};
    std::vector<std::thread> threads;
    for (unsigned thread = 0; thread < THREADS; ++thread)
        threads.emplace_back([&, thread, client = first.join()]() mutable {
            Store own;
            client.set_timeout(std::nullopt);
            for (std::uint64_t cell = 0; cell < CELLS; ++cell) {
                claimed[thread] += client.claim(9, {cell});
                Coverage part = own.cells(9, {cell, cell + 1});
                wrong[thread] += (part & own.cells(9, {cell})).count() != BASE >> 18;
            }
        });
    for (std::thread &thread : threads)
        thread.join();
    unsigned sum = 0;
    for (unsigned thread = 0; thread < THREADS; ++thread) {
        sum += claimed[thread];
        CHECK(wrong[thread] == 0);
    }
    CHECK(sum == CELLS && first.coverage(store).count() == CELLS * (BASE >> 18));
}

} // namespace

int main()
{
    coverages();
    errors();
    clients();
    threads();
    return report();
}
