/* Times a coverage that threads query and change at the same time, as a service does. Compares the shared map of the library with what a
   C++ programmer would write by hand: sorted vectors of ranges with locks.

   usage: service [SECONDS [THREADS]]

   Each thread makes calls on one random cell of order 9: three counts, then an add or a remove. The threads, by default 8, are on base
   pixels of their own, or on all base pixels. One thread, which is on all, is timed too. The coverage starts with 12,000 or 240,000 ranges.

   An implementation runs for SECONDS, by default 1, in five turns with the others. A line has the median of its calls per second, and per
   second of processor time, which depends less on the load of the machine. Then it has percentiles of the time of a count and of a change
   in microseconds. The library gets the cell of a call in an array ("cells"), or a line of text ("lines"), and waits for the parts that
   other threads hold. A line `ratio` has the calls per processor second of both, divided by those of twelve mutexes.

   Then one thread counts all pixels, which needs all base pixels at the same time, while the others make calls on base pixels of their own.
   A line has the number of these counts, and percentiles and the maximum of their times in microseconds, for the library and for twelve
   mutexes that are all locked.

   All implementations get the same calls. If the replies that one thread gets have another sum for another implementation, the exit status
   is 1. */
#include "ploverchaise.h"

#include <sys/resource.h>

#include <algorithm>
#include <array>
#include <atomic>
#include <charconv>
#include <chrono>
#include <cmath>
#include <cstdint>
#include <cstdio>
#include <cstdlib>
#include <iterator>
#include <mutex>
#include <random>
#include <shared_mutex>
#include <string>
#include <thread>
#include <utility>
#include <vector>

namespace {

using Clock = std::chrono::steady_clock;

constexpr unsigned PARTS = 12;
constexpr unsigned ORDER = 9;
/* A part is a base pixel. It has 4^ORDER cells and 4^29 pixels of order 29. */
constexpr std::uint64_t CELLS_PER_PART = std::uint64_t{1} << 2 * ORDER;
constexpr unsigned CELL_SHIFT = 2 * (29 - ORDER);
constexpr unsigned PART_SHIFT = 2 * 29;
/* A thread's every fourth call is a change. */
constexpr std::uint64_t CALLS_PER_CHANGE = 4;
/* Every 17th call is timed, because reading the clock takes about as long as a count in a vector. 17 and 4 have no common factor, so the
   timed calls include counts and changes. */
constexpr std::uint64_t CALLS_PER_SAMPLE = 17;
/* The number of calls by one thread whose replies are compared. */
constexpr std::uint64_t COMPARED_CALLS = 20'000;
constexpr unsigned TURNS = 5;

moc_range range_of(std::uint64_t cell)
{
    return {cell << CELL_SHIFT, (cell + 1) << CELL_SHIFT};
}

/* Prints an error, and ends the program. */
[[noreturn]] void fail(const char *text, std::uint64_t number)
{
    std::fprintf(stderr, "service: %s: %llu\n", text, static_cast<unsigned long long>(number));
    std::_Exit(1);
}

/* The coverage before the first call: in each part, ranges of the same length at the same distance, which cover half of the part. */
class StartCoverage {
public:
    explicit StartCoverage(std::uint64_t range_count) : ranges_per_part_(range_count / PARTS), distance_(CELLS_PER_PART / ranges_per_part_)
    {
    }

    std::vector<moc_range> ranges() const
    {
        std::vector<moc_range> ranges;
        for (std::uint64_t part = 0; part < PARTS; ++part)
            for (std::uint64_t index = 0; index < ranges_per_part_; ++index) {
                std::uint64_t first = part * CELLS_PER_PART + index * distance_;
                ranges.push_back({first << CELL_SHIFT, (first + distance_ / 2) << CELL_SHIFT});
            }
        return ranges;
    }

    bool contains(std::uint64_t cell) const
    {
        std::uint64_t position = cell % CELLS_PER_PART;
        return position / distance_ < ranges_per_part_ && position % distance_ < distance_ / 2;
    }

private:
    std::uint64_t ranges_per_part_, distance_;
};

enum class Action { count, add, remove };

/* A call on one cell. Its reply is the number of pixels of the cell that the coverage has or had, or that the call changed. */
struct Operation {
    Action action;
    std::uint64_t cell;
};

/* The base pixels that a thread's calls are on. */
enum class Pattern { own_parts, all_parts };

/* Generates the calls of a thread. Every second change undoes the previous change, so the size of the coverage stays the same. */
class OperationGenerator {
public:
    OperationGenerator(const StartCoverage &start, unsigned thread, unsigned threads, Pattern pattern) : start_(start), random_(thread)
    {
        bool is_shared = pattern == Pattern::all_parts;
        for (unsigned part = 0; part < PARTS; ++part)
            if (is_shared || part % threads == thread)
                parts_[part_count_++] = part;
    }

    Operation next()
    {
        if (++calls_ % CALLS_PER_CHANGE != 0)
            return {Action::count, random_cell()};
        is_changed_ = !is_changed_;
        if (is_changed_)
            changed_cell_ = random_cell();
        bool is_added = start_.contains(changed_cell_) != is_changed_;
        return {is_added ? Action::add : Action::remove, changed_cell_};
    }

private:
    std::uint64_t random_cell()
    {
        std::uint64_t number = random_();
        return parts_[(number >> 32) % part_count_] * CELLS_PER_PART + number % CELLS_PER_PART;
    }

    StartCoverage start_;
    std::mt19937_64 random_;
    std::array<std::uint64_t, PARTS> parts_{};
    std::uint64_t part_count_ = 0, calls_ = 0, changed_cell_ = 0;
    bool is_changed_ = false;
};

std::uint64_t common_pixels(moc_range a, moc_range b)
{
    return std::min(a.to, b.to) - std::max(a.from, b.from);
}

/* A set of pixels as a sorted vector of ranges with gaps between them. */
class RangeVector {
public:
    explicit RangeVector(std::vector<moc_range> sorted_ranges) : ranges_(std::move(sorted_ranges)) {}

    std::uint64_t count(moc_range range) const
    {
        std::uint64_t pixels = 0;
        for (auto it = first_after(range.from); it != ranges_.end() && it->from < range.to; ++it)
            pixels += common_pixels(*it, range);
        return pixels;
    }

    /* Adds a range, and returns the number of new pixels. */
    std::uint64_t add(moc_range range)
    {
        std::uint64_t new_pixels = range.to - range.from - count(range);
        auto first = first_after(range.from);
        if (first != ranges_.begin() && std::prev(first)->to == range.from)
            --first;
        auto last = first;
        for (; last != ranges_.end() && last->from <= range.to; ++last)
            range = {std::min(range.from, last->from), std::max(range.to, last->to)};
        replace(first, last, &range, &range + 1);
        return new_pixels;
    }

    /* Removes a range, and returns the number of pixels that it removed. */
    std::uint64_t remove(moc_range range)
    {
        auto first = first_after(range.from), last = first;
        std::uint64_t pixels = 0;
        for (; last != ranges_.end() && last->from < range.to; ++last)
            pixels += common_pixels(*last, range);
        if (first == last)
            return 0;
        std::array<moc_range, 2> rest{{{first->from, range.from}, {range.to, std::prev(last)->to}}};
        auto end = std::remove_if(rest.begin(), rest.end(), [](moc_range it) { return it.from >= it.to; });
        replace(first, last, rest.data(), rest.data() + (end - rest.begin()));
        return pixels;
    }

    std::uint64_t apply(Operation operation)
    {
        moc_range range = range_of(operation.cell);
        switch (operation.action) {
        case Action::count:
            return count(range);
        case Action::add:
            return add(range);
        case Action::remove:
            return remove(range);
        }
        return 0;
    }

private:
    using Position = std::vector<moc_range>::const_iterator;

    /* The first range that ends after a pixel. */
    Position first_after(std::uint64_t pixel) const
    {
        auto is_before_end = [](std::uint64_t number, const moc_range &range) { return number < range.to; };
        return std::upper_bound(ranges_.begin(), ranges_.end(), pixel, is_before_end);
    }

    /* Replaces the ranges from `first` to `last`. Moves the ranges after them only if their number changes. */
    void replace(Position first, Position last, const moc_range *from, const moc_range *to)
    {
        auto target = ranges_.begin() + (first - ranges_.begin());
        for (; from != to && first != last; ++from, ++first)
            *target++ = *from;
        if (from != to)
            ranges_.insert(target, from, to);
        else
            ranges_.erase(first, last);
    }

    std::vector<moc_range> ranges_;
};

/* One vector with one lock. A count takes a `CountLock`. */
template <class Mutex, class CountLock> class LockedVector {
public:
    LockedVector(const std::vector<moc_range> &start, unsigned) : ranges_(start) {}

    std::uint64_t apply(unsigned, Operation operation)
    {
        if (operation.action == Action::count) {
            CountLock lock(mutex_);
            return ranges_.apply(operation);
        }
        std::lock_guard<Mutex> lock(mutex_);
        return ranges_.apply(operation);
    }

private:
    Mutex mutex_;
    RangeVector ranges_;
};

using OneMutex = LockedVector<std::mutex, std::lock_guard<std::mutex>>;
using OneSharedMutex = LockedVector<std::shared_mutex, std::shared_lock<std::shared_mutex>>;

/* A vector with a mutex for each part. */
class TwelveMutexes {
public:
    TwelveMutexes(const std::vector<moc_range> &start, unsigned)
    {
        for (std::uint64_t part = 0; part < PARTS; ++part) {
            std::vector<moc_range> ranges;
            auto is_in_part = [part](moc_range range) { return range.from >> PART_SHIFT == part; };
            std::copy_if(start.begin(), start.end(), std::back_inserter(ranges), is_in_part);
            parts_[part].ranges = RangeVector(std::move(ranges));
        }
    }

    std::uint64_t apply(unsigned, Operation operation)
    {
        Part &part = parts_[operation.cell / CELLS_PER_PART];
        std::lock_guard<std::mutex> lock(part.mutex);
        return part.ranges.apply(operation);
    }

    /* Returns the number of all pixels, at a time at which no part changes. */
    std::uint64_t count_all(unsigned)
    {
        std::uint64_t pixels = 0;
        for (Part &part : parts_)
            part.mutex.lock();
        for (const Part &part : parts_)
            pixels += part.ranges.count({0, MOC_PIXEL_COUNT});
        for (Part &part : parts_)
            part.mutex.unlock();
        return pixels;
    }

private:
    struct alignas(64) Part {
        std::mutex mutex;
        RangeVector ranges{{}};
    };
    std::array<Part, PARTS> parts_;
};

void require_success(moc_result result, const char *call)
{
    if (result.code != MOC_OK)
        fail(call, result.code);
}

/* The shared map of the library with a client for each thread, through the functions of ploverchaise.h. */
class SharedMap {
public:
    SharedMap(const std::vector<moc_range> &start, unsigned threads) : clients_(threads)
    {
        moc_store store;
        if (!moc_store_open(&store))
            fail("moc_store_open", MOC_MEMORY);
        moc_result set = moc_from_ranges(&store, start.data(), start.size());
        require_success(set, "moc_from_ranges");
        for (Client &client : clients_) {
            if (!moc_client_open(&client.handle))
                fail("moc_client_open", MOC_MEMORY);
            require_success(moc_map_busy_timeout(&client.handle, MOC_NO_TIMEOUT), "moc_map_busy_timeout");
        }
        moc_client *first = &clients_[0].handle;
        require_success(moc_map_begin(first, &store, set.first, threads), "moc_map_begin");
        for (unsigned thread = 1; thread < threads; ++thread)
            require_success(moc_map_join(first, &clients_[thread].handle), "moc_map_join");
        moc_store_close(&store);
    }

    ~SharedMap()
    {
        for (Client &client : clients_)
            moc_client_close(&client.handle);
    }

    SharedMap(const SharedMap &) = delete;
    SharedMap &operator=(const SharedMap &) = delete;

protected:
    moc_client *client(unsigned thread) { return &clients_[thread].handle; }

private:
    struct alignas(64) Client {
        moc_client handle{};
    };

    std::vector<Client> clients_;
};

/* The shared map, with the cell of each call in an array. */
class CellCalls : public SharedMap {
public:
    using SharedMap::SharedMap;

    std::uint64_t apply(unsigned thread, Operation operation)
    {
        auto *call = CALLS[static_cast<std::size_t>(operation.action)];
        moc_result result = call(client(thread), ORDER, &operation.cell, 1);
        require_success(result, "a command of the map");
        return result.first;
    }

    /* Returns the number of all pixels, at a time at which no part changes. */
    std::uint64_t count_all(unsigned thread)
    {
        static constexpr std::array<std::uint64_t, PARTS> ALL{0, 1, 2, 3, 4, 5, 6, 7, 8, 9, 10, 11};
        moc_result result = moc_map_count(client(thread), 0, ALL.data(), ALL.size());
        require_success(result, "moc_map_count");
        return result.first;
    }

private:
    /* The call of each action. */
    static constexpr std::array<moc_result (*)(moc_client *, std::uint32_t, const std::uint64_t *, std::size_t), 3> CALLS{
        moc_map_count, moc_map_add, moc_map_remove};
};

/* The shared map, with a line of text for each call. */
class LineCalls : public SharedMap {
public:
    using SharedMap::SharedMap;

    std::uint64_t apply(unsigned thread, Operation operation)
    {
        std::array<char, 64> line;
        std::size_t length = write_line(line, operation);
        const auto *bytes = reinterpret_cast<const std::uint8_t *>(line.data());
        moc_text reply;
        require_success(moc_map_execute(client(thread), bytes, length, &reply), "moc_map_execute");
        std::uint64_t number = parse_reply(reply.bytes, reply.bytes + reply.length);
        moc_text_free(&reply);
        return number;
    }

private:
    /* Writes a line such as `count 9/2002`, and returns its length. */
    std::size_t write_line(std::array<char, 64> &line, Operation operation) const
    {
        const std::string &prefix = prefixes_[static_cast<std::size_t>(operation.action)];
        char *end = std::copy(prefix.begin(), prefix.end(), line.data());
        end = std::to_chars(end, line.data() + line.size(), operation.cell).ptr;
        return static_cast<std::size_t>(end - line.data());
    }

    /* Returns the number of a reply, which is `total N` or `changed N`. */
    static std::uint64_t parse_reply(const char *first, const char *last)
    {
        const char *blank = std::find(first, last, ' ');
        std::uint64_t number = 0;
        if (blank == last || std::from_chars(blank + 1, last, number).ec != std::errc())
            fail("the length of a reply without a number", static_cast<std::uint64_t>(last - first));
        return number;
    }

    /* The start of the line of each action. */
    std::array<std::string, 3> prefixes_{"count " + std::to_string(ORDER) + "/", "add " + std::to_string(ORDER) + "/",
                                         "remove " + std::to_string(ORDER) + "/"};
};

/* What the implementations are timed with, and for how long in a turn. */
struct Setting {
    std::uint64_t range_count;
    unsigned threads;
    Pattern pattern;
    std::chrono::duration<double> duration;

    const char *pattern_name() const { return pattern == Pattern::own_parts ? "own" : "all"; }
};

/* The calls of a thread, or of all threads. */
struct Tally {
    std::uint64_t calls = 0;
    /* The sum of the replies to the calls that are compared. */
    std::uint64_t reply_sum = 0;
    /* The times of some calls. */
    std::vector<Clock::duration> count_times, change_times;

    void add(const Tally &other)
    {
        calls += other.calls;
        reply_sum += other.reply_sum;
        count_times.insert(count_times.end(), other.count_times.begin(), other.count_times.end());
        change_times.insert(change_times.end(), other.change_times.begin(), other.change_times.end());
    }
};

/* The measurements of an implementation in all turns. */
struct Result {
    Tally tally;
    std::vector<double> calls_per_second, calls_per_processor_second;
};

/* Makes the calls of a thread. One thread alone makes at least the calls whose replies are compared. */
template <class Implementation>
Tally run_thread(Implementation &set, unsigned thread, const Setting &setting, const std::atomic<bool> &is_ended)
{
    OperationGenerator generator(StartCoverage(setting.range_count), thread, setting.threads, setting.pattern);
    std::uint64_t compared_calls = setting.threads == 1 ? COMPARED_CALLS : 0;
    Tally tally;
    for (; tally.calls < compared_calls || !is_ended.load(std::memory_order_relaxed); ++tally.calls) {
        Operation operation = generator.next();
        bool is_timed = tally.calls % CALLS_PER_SAMPLE == 0;
        Clock::time_point start = is_timed ? Clock::now() : Clock::time_point();
        std::uint64_t reply = set.apply(thread, operation);
        if (is_timed)
            (operation.action == Action::count ? tally.count_times : tally.change_times).push_back(Clock::now() - start);
        if (tally.calls < compared_calls)
            tally.reply_sum += reply;
    }
    return tally;
}

/* Returns the seconds of processor time of this process. */
double processor_seconds()
{
    rusage usage{};
    getrusage(RUSAGE_SELF, &usage);
    auto seconds_of = [](timeval time) { return static_cast<double>(time.tv_sec) + 1e-6 * static_cast<double>(time.tv_usec); };
    return seconds_of(usage.ru_utime) + seconds_of(usage.ru_stime);
}

/* Times a turn of an implementation, and adds the measurements to its result. */
template <class Implementation> void measure(const Setting &setting, Result &result)
{
    Implementation set(StartCoverage(setting.range_count).ranges(), setting.threads);
    std::vector<Tally> tallies(setting.threads);
    std::vector<std::thread> threads;
    std::atomic<bool> is_ended{false};
    double processor_start = processor_seconds();
    Clock::time_point start = Clock::now();
    for (unsigned thread = 0; thread < setting.threads; ++thread)
        threads.emplace_back([&, thread] { tallies[thread] = run_thread(set, thread, setting, is_ended); });
    std::this_thread::sleep_for(setting.duration);
    is_ended = true;
    for (std::thread &thread : threads)
        thread.join();
    std::chrono::duration<double> duration = Clock::now() - start;
    double processor_time = processor_seconds() - processor_start;
    std::uint64_t calls = 0;
    for (const Tally &tally : tallies) {
        calls += tally.calls;
        result.tally.add(tally);
    }
    result.calls_per_second.push_back(static_cast<double>(calls) / duration.count());
    result.calls_per_processor_second.push_back(static_cast<double>(calls) / processor_time);
}

double median(std::vector<double> numbers)
{
    std::sort(numbers.begin(), numbers.end());
    return numbers[numbers.size() / 2];
}

/* Prints three percentiles in microseconds. */
void print_percentiles(std::vector<Clock::duration> &times)
{
    std::sort(times.begin(), times.end());
    for (double share : {0.5, 0.99, 0.999}) {
        auto index = static_cast<std::size_t>(share * static_cast<double>(times.size()));
        double microseconds = times.empty() ? 0 : std::chrono::duration<double, std::micro>(times[index]).count();
        std::printf(" %9.2f", microseconds);
    }
}

void print_setting(const char *name, const Setting &setting)
{
    std::printf("%-12s %6llu %7u %5s", name, static_cast<unsigned long long>(setting.range_count), setting.threads, setting.pattern_name());
}

/* Prints the line of an implementation. */
void print_result(const char *name, const Setting &setting, Result &result)
{
    print_setting(name, setting);
    std::printf(" %9.0f %9.0f", median(result.calls_per_second), median(result.calls_per_processor_second));
    print_percentiles(result.tally.count_times);
    print_percentiles(result.tally.change_times);
    std::putchar('\n');
}

/* Times all implementations, and prints their lines. Returns whether the sums of their compared replies are equal. */
bool compare(const Setting &setting)
{
    Result cells, lines, mutex, shared_mutex, twelve;
    for (unsigned turn = 0; turn < TURNS; ++turn) {
        measure<CellCalls>(setting, cells);
        measure<LineCalls>(setting, lines);
        measure<OneMutex>(setting, mutex);
        measure<OneSharedMutex>(setting, shared_mutex);
        measure<TwelveMutexes>(setting, twelve);
    }
    print_result("cells", setting, cells);
    print_result("lines", setting, lines);
    print_result("mutex", setting, mutex);
    print_result("shared_mutex", setting, shared_mutex);
    print_result("12 mutexes", setting, twelve);
    print_setting("ratio", setting);
    double twelve_median = median(twelve.calls_per_processor_second);
    std::printf(" %9.3f %9.3f\n", median(cells.calls_per_processor_second) / twelve_median,
                median(lines.calls_per_processor_second) / twelve_median);
    std::fflush(stdout);
    std::uint64_t sum = cells.tally.reply_sum;
    return sum == lines.tally.reply_sum && sum == mutex.tally.reply_sum && sum == shared_mutex.tally.reply_sum && sum == twelve.tally.reply_sum;
}

/* Times counts of all pixels by one thread, while the others make calls on base pixels of their own, and prints a line. */
template <class Implementation> void measure_whole_counts(const char *name, const Setting &setting)
{
    Implementation set(StartCoverage(setting.range_count).ranges(), setting.threads + 1);
    std::vector<std::thread> threads;
    std::atomic<bool> is_ended{false};
    for (unsigned thread = 0; thread < setting.threads; ++thread)
        threads.emplace_back([&, thread] { run_thread(set, thread, setting, is_ended); });
    std::vector<Clock::duration> times;
    Clock::time_point end = Clock::now() + std::chrono::duration_cast<Clock::duration>(TURNS * setting.duration);
    while (Clock::now() < end) {
        Clock::time_point start = Clock::now();
        if (set.count_all(setting.threads) == 0)
            fail("a count of all pixels", 0);
        times.push_back(Clock::now() - start);
        std::this_thread::sleep_for(std::chrono::microseconds(100));
    }
    is_ended = true;
    for (std::thread &thread : threads)
        thread.join();
    print_setting(name, setting);
    std::printf(" %9zu", times.size());
    print_percentiles(times);
    std::printf(" %9.0f\n", std::chrono::duration<double, std::micro>(times.back()).count());
    std::fflush(stdout);
}

} // namespace

int main(int argc, char **argv)
{
    std::chrono::duration<double> duration((argc > 1 ? std::atof(argv[1]) : 1) / TURNS);
    int threads = argc > 2 ? std::atoi(argv[2]) : 8;
    if (threads < 1 || threads > static_cast<int>(PARTS) || !(duration.count() > 0 && std::isfinite(duration.count()))) {
        std::fprintf(stderr, "usage: service [SECONDS [THREADS]], with 1 to %u threads\n", PARTS);
        return 2;
    }
    std::printf("%-12s %6s %7s %5s %9s %9s %29s %29s\n", "", "ranges", "threads", "parts", "calls/s", "per cpu s",
                "count p50 p99 p99.9", "change p50 p99 p99.9");
    bool is_equal = true;
    for (std::uint64_t range_count : {UINT64_C(12000), UINT64_C(240000)}) {
        is_equal &= compare({range_count, 1, Pattern::all_parts, duration});
        for (Pattern pattern : {Pattern::own_parts, Pattern::all_parts})
            is_equal &= compare({range_count, static_cast<unsigned>(threads), pattern, duration});
    }
    std::printf("\n%-12s %6s %7s %5s %9s %29s %9s\n", "", "ranges", "threads", "parts", "counts", "p50 p99 p99.9", "max");
    Setting others{12000, static_cast<unsigned>(threads) - (threads > 1), Pattern::own_parts, duration};
    measure_whole_counts<CellCalls>("cells", others);
    measure_whole_counts<TwelveMutexes>("12 mutexes", others);
    if (!is_equal)
        std::fprintf(stderr, "service: the implementations have different replies\n");
    return is_equal ? 0 : 1;
}
