/* ploverchaise.hpp: owners in C++17 over ploverchaise.h. One header; nothing to link but the library. docs/C.md has examples.

   Store       coverages in memory of their own. Copies refer to the same store. Calls with one store wait for each other.
   Coverage    an immutable coverage of a store. It is cheap to copy, and keeps its store open.
   Client      one client of a map that threads change and query at the same time. It can be moved, and not copied.

   Any thread may use any object, but not assign to it or destroy it while another thread uses it. A client that was moved from has no map,
   and its calls fail with MOC_NULL. An error is an exception:
   std::bad_alloc if an allocation fails, Busy if another client holds a part of a map, and Error otherwise. */
#ifndef PLOVERCHAISE_HPP
#define PLOVERCHAISE_HPP

#include "ploverchaise.h"

#include <algorithm>
#include <array>
#include <chrono>
#include <cstddef>
#include <cstdint>
#include <initializer_list>
#include <memory>
#include <new>
#include <optional>
#include <stdexcept>
#include <string>
#include <string_view>
#include <utility>
#include <vector>

namespace ploverchaise {

/* The pixels of order 29 from `from` up to, not including, `to`. */
using Range = moc_range;

/* A pointer and a number of elements, from a vector, an array, a list in braces, or a pair of them. It does not own the elements. */
template <class T> class Span {
public:
    Span(const T *data, std::size_t size) noexcept : data_(data), size_(size) {}
    Span(const std::vector<T> &elements) noexcept : Span(elements.data(), elements.size()) {}
    template <std::size_t N> Span(const T (&elements)[N]) noexcept : Span(elements, N) {}
    template <std::size_t N> Span(const std::array<T, N> &elements) noexcept : Span(elements.data(), N) {}
    /* Valid until the end of the full expression, as the list is. */
    Span(std::initializer_list<T> elements) noexcept : Span(elements.begin(), elements.size()) {}

    const T *data() const noexcept { return data_; }
    std::size_t size() const noexcept { return size_; }

private:
    const T *data_;
    std::size_t size_;
};

/* An error that the library reports. `code` is a MOC_ code, and `first` and `second` are the numbers that ploverchaise.h states for it. */
class Error : public std::runtime_error {
public:
    Error(std::uint32_t error_code, std::uint64_t first_number, std::uint64_t second_number)
        : std::runtime_error(message(error_code, first_number, second_number)), code(error_code), first(first_number), second(second_number)
    {
    }

    std::uint32_t code;
    std::uint64_t first, second;

private:
    static std::string message(std::uint32_t code, std::uint64_t first, std::uint64_t second)
    {
        std::string numbers = second ? std::to_string(first) + ", " + std::to_string(second) : std::to_string(first);
        return moc_message(code) + (first || second ? " (" + numbers + ")" : std::string());
    }
};

/* Another client holds a part of the map. */
class Busy : public Error {
public:
    using Error::Error;
    /* The part, which is a base pixel, and the number of the client that holds it. */
    std::uint64_t part() const noexcept { return first; }
    std::uint64_t holder() const noexcept { return second; }
};

namespace detail {

[[noreturn]] inline void fail(std::uint32_t code, std::uint64_t first, std::uint64_t second)
{
    if (code == MOC_MEMORY)
        throw std::bad_alloc();
    if (code == MOC_BUSY)
        throw Busy(code, first, second);
    throw Error(code, first, second);
}

/* Returns a result, or throws its error. */
inline moc_result checked(moc_result result)
{
    if (result.code != MOC_OK)
        fail(result.code, result.first, result.second);
    return result;
}

/* Returns the result of a call that makes a coverage, or throws its error, whose position is in `second`. */
inline moc_result checked_id(moc_result result)
{
    if (result.code == MOC_JSON_NOT_WHOLE || result.code == MOC_JSON_CELL_TOO_LARGE || result.code == MOC_BUSY)
        fail(result.code, static_cast<std::uint32_t>(result.second), result.second >> 32);
    if (result.code != MOC_OK)
        fail(result.code, result.second, 0);
    return result;
}

inline const std::uint8_t *bytes(std::string_view text) noexcept
{
    return reinterpret_cast<const std::uint8_t *>(text.data());
}

/* A text of the library, which is freed. */
struct Text {
    moc_text text{nullptr, 0};

    Text() = default;
    Text(const Text &) = delete;
    Text &operator=(const Text &) = delete;
    ~Text() { moc_text_free(&text); }

    std::string string() const { return std::string(text.bytes, text.length); }
};

/* An open store. */
struct OpenStore {
    moc_store store;

    OpenStore()
    {
        if (!moc_store_open(&store))
            throw std::bad_alloc();
    }
    OpenStore(const OpenStore &) = delete;
    OpenStore &operator=(const OpenStore &) = delete;
    ~OpenStore() { moc_store_close(&store); }
};

/* A coverage in a store, which is freed. */
class Owner {
public:
    /* Owns no coverage before `own`, which allocates nothing. */
    explicit Owner(std::shared_ptr<OpenStore> store) noexcept : store_(std::move(store)) {}
    void own(std::uint64_t id) noexcept { id_ = id; }
    Owner(const Owner &) = delete;
    Owner &operator=(const Owner &) = delete;
    ~Owner() { (void)moc_free(store(), id_); }

    moc_store *store() const noexcept { return &store_->store; }
    const std::shared_ptr<OpenStore> &shared_store() const noexcept { return store_; }
    std::uint64_t id() const noexcept { return id_; }

private:
    std::shared_ptr<OpenStore> store_;
    /* 0 is not an id. */
    std::uint64_t id_ = 0;
};

} // namespace detail

class Client;

class Coverage {
public:
    /* A copy refers to the same coverage. A coverage that is moved is copied, so that it can still be used. */
    Coverage(const Coverage &) = default;
    Coverage &operator=(const Coverage &) = default;

    /* The number of pixels of order 29, and of those that two coverages have in common. */
    std::uint64_t count() const { return query(moc_count); }
    std::uint64_t count_common(const Coverage &other) const { return query(moc_count_common, other); }
    std::uint64_t range_count() const { return query(moc_range_count); }
    double sky_fraction() const { return static_cast<double>(count()) / static_cast<double>(MOC_PIXEL_COUNT); }
    /* The least order at which the coverage is a union of cells. */
    unsigned deepest_order() const { return static_cast<unsigned>(query(moc_deepest_order)); }
    bool is_empty() const { return query(moc_is_empty) != 0; }
    bool contains(std::uint64_t pixel) const { return detail::checked(moc_contains(store(), id(), pixel)).first != 0; }
    bool meets(const Coverage &other) const { return query(moc_meets, other) != 0; }
    bool covers(const Coverage &other) const { return query(moc_covers, other) != 0; }

    /* For each pixel, 1 if the coverage contains it, and 0 if not. */
    std::vector<std::uint8_t> contains_all(Span<std::uint64_t> pixels) const
    {
        std::vector<std::uint8_t> flags(pixels.size());
        detail::checked(moc_contains_all(store(), id(), pixels.data(), pixels.size(), flags.data(), flags.size()));
        return flags;
    }

    /* The ranges, ascending, none empty and none touching the next. */
    std::vector<Range> ranges() const
    {
        std::vector<Range> ranges(range_count());
        detail::checked(moc_ranges(store(), id(), ranges.data(), ranges.size()));
        return ranges;
    }

    /* The NUNIQ numbers, ascending, of the largest cells of the coverage. */
    std::vector<std::uint64_t> uniqs() const
    {
        std::vector<std::uint64_t> uniqs(2 * range_count() + 64);
        moc_result result = moc_cells(store(), id(), uniqs.data(), uniqs.size());
        if (result.code == MOC_BUFFER_TOO_SHORT) {
            uniqs.resize(result.first);
            result = moc_cells(store(), id(), uniqs.data(), uniqs.size());
        }
        uniqs.resize(detail::checked(result).first);
        return uniqs;
    }

    /* Texts, with the MOC order `stated` if there is one. */
    std::string ascii(std::optional<unsigned> stated = {}) const { return text(moc_write_ascii, stated.value_or(MOC_NO_ORDER)); }
    std::string json(std::optional<unsigned> stated = {}) const { return text(moc_write_json, stated.value_or(MOC_NO_ORDER)); }
    std::string uniq() const { return text(moc_write_uniq); }
    std::string statistics(std::optional<unsigned> deepest = {}) const { return text(moc_describe, deepest.value_or(MOC_NO_ORDER)); }
    std::string svg() const { return text(moc_draw); }

    /* Set operations. The result is in the store of the first operand. */
    Coverage complement() const { return make(moc_complement); }
    Coverage degrade(unsigned order) const { return make(moc_degrade, order); }
    friend Coverage operator|(const Coverage &a, const Coverage &b) { return a.combine(moc_union, b); }
    friend Coverage operator&(const Coverage &a, const Coverage &b) { return a.combine(moc_intersection, b); }
    friend Coverage operator-(const Coverage &a, const Coverage &b) { return a.combine(moc_difference, b); }
    friend Coverage operator^(const Coverage &a, const Coverage &b) { return a.combine(moc_symmetric, b); }
    friend bool operator==(const Coverage &a, const Coverage &b) { return a.query(moc_same, b) != 0; }
    friend bool operator!=(const Coverage &a, const Coverage &b) { return !(a == b); }

private:
    friend class Store;
    friend class Client;

    /* The coverage that a call makes in a store. */
    template <class Call, class... Arguments>
    Coverage(const std::shared_ptr<detail::OpenStore> &store, Call call, Arguments... arguments)
        : owner_(std::make_shared<detail::Owner>(store))
    {
        owner_->own(detail::checked_id(call(arguments...)).first);
    }

    moc_store *store() const noexcept { return owner_->store(); }
    std::uint64_t id() const noexcept { return owner_->id(); }

    /* The coverage in a store, which shares its ranges. */
    Coverage in(const std::shared_ptr<detail::OpenStore> &store) const
    {
        return owner_->shared_store() == store ? *this : Coverage(store, moc_share, this->store(), id(), &store->store);
    }
    Coverage beside(const Coverage &other) const { return in(other.owner_->shared_store()); }

    template <class Call> std::uint64_t query(Call call) const { return detail::checked(call(store(), id())).first; }
    template <class Call> std::uint64_t query(Call call, const Coverage &other) const
    {
        Coverage second = other.beside(*this);
        return detail::checked(call(store(), id(), second.id())).first;
    }
    template <class Call, class... Arguments> Coverage make(Call call, Arguments... arguments) const
    {
        return Coverage(owner_->shared_store(), call, store(), id(), arguments...);
    }
    template <class Call> Coverage combine(Call call, const Coverage &other) const
    {
        Coverage second = other.beside(*this);
        return Coverage(owner_->shared_store(), call, store(), id(), second.id());
    }
    template <class Call, class... Arguments> std::string text(Call call, Arguments... arguments) const
    {
        detail::Text text;
        detail::checked(call(store(), id(), arguments..., &text.text));
        return text.string();
    }

    std::shared_ptr<detail::Owner> owner_;
};

class Store {
public:
    Store() : store_(std::make_shared<detail::OpenStore>()) {}
    /* A copy refers to the same store. A store that is moved is copied, so that it can still be used. */
    Store(const Store &) = default;
    Store &operator=(const Store &) = default;

    Coverage empty() { return make(moc_empty); }
    Coverage full() { return make(moc_full); }
    /* The coverage of a text. */
    Coverage ascii(std::string_view text) { return make(moc_read_ascii, detail::bytes(text), text.size()); }
    Coverage json(std::string_view text) { return make(moc_read_json, detail::bytes(text), text.size()); }
    Coverage uniq(std::string_view text) { return make(moc_read_uniq, detail::bytes(text), text.size()); }
    /* The union of ranges, of cells of an order by their nested indices, or of cells by their NUNIQ numbers, in any order. */
    Coverage ranges(Span<Range> ranges) { return make(moc_from_ranges, ranges.data(), ranges.size()); }
    Coverage cells(unsigned order, Span<std::uint64_t> cells) { return make(moc_from_cells, order, cells.data(), cells.size()); }
    Coverage uniqs(Span<std::uint64_t> uniqs) { return make(moc_from_uniqs, uniqs.data(), uniqs.size()); }
    /* A coverage of another store, in this store. The stores share its ranges. */
    Coverage share(const Coverage &coverage) { return coverage.in(store_); }

private:
    friend class Client;

    template <class Call, class... Arguments> Coverage make(Call call, Arguments... arguments)
    {
        return Coverage(store_, call, &store_->store, arguments...);
    }

    std::shared_ptr<detail::OpenStore> store_;
};

class Client {
public:
    /* Begins a map with a coverage, for up to `clients` clients at the same time, and returns one of them. Its calls do not wait: until
       `set_timeout`, they throw `Busy` if a part is held. */
    static Client begin(const Coverage &start, unsigned clients = MOC_MAX_CLIENTS)
    {
        Client client;
        client.number_ = detail::checked(moc_map_begin(&client.client_, start.store(), start.id(), clients)).first;
        return client;
    }

    /* Returns another client of the map. Its calls do not wait until `set_timeout`. */
    Client join()
    {
        Client client;
        client.number_ = detail::checked(moc_map_join(&client_, &client.client_)).first;
        return client;
    }

    Client(Client &&other) noexcept : client_(std::exchange(other.client_, moc_client{nullptr})), number_(other.number_) {}
    Client &operator=(Client &&other) noexcept
    {
        if (this != &other) {
            moc_client_close(&client_);
            client_ = std::exchange(other.client_, moc_client{nullptr});
            number_ = other.number_;
        }
        return *this;
    }
    ~Client() { moc_client_close(&client_); }

    std::uint64_t number() const noexcept { return number_; }

    /* Sets how long later calls wait for parts that other clients hold. Without a time, and for MOC_NO_TIMEOUT milliseconds or more, they
       wait without a limit. A negative time is 0. */
    void set_timeout(std::optional<std::chrono::milliseconds> time)
    {
        constexpr std::int64_t LONGEST = MOC_NO_TIMEOUT;
        std::int64_t milliseconds = time ? std::clamp<std::int64_t>(time->count(), 0, LONGEST) : LONGEST;
        detail::checked(moc_map_busy_timeout(&client_, static_cast<std::uint32_t>(milliseconds)));
    }

    /* Executes the commands of a line, and returns the replies without a line feed. If it throws `std::bad_alloc`, the line may have been
       executed; `apply` and `answer` do the same in two steps. */
    std::string execute(std::string_view line) { return replies(moc_map_execute, detail::bytes(line), line.size()); }
    /* Executes the commands of a line without making the replies. If it throws, the map is unchanged. */
    void apply(std::string_view line) { detail::checked(moc_map_apply(&client_, detail::bytes(line), line.size())); }
    /* The replies to the last line that the client executed, without a line feed; empty before the first line. */
    std::string answer() { return replies(moc_map_answer); }

    /* Commands on cells of an order. They return the number of pixels of order 29 that were added or removed, or that the map has. */
    std::uint64_t add(unsigned order, Span<std::uint64_t> cells) { return command(moc_map_add, order, cells); }
    std::uint64_t remove(unsigned order, Span<std::uint64_t> cells) { return command(moc_map_remove, order, cells); }
    std::uint64_t count(unsigned order, Span<std::uint64_t> cells) { return command(moc_map_count, order, cells); }
    /* Adds the cells and returns true, or returns false if the map has any of their pixels. */
    bool claim(unsigned order, Span<std::uint64_t> cells) { return command(moc_map_claim, order, cells) == 0; }
    /* Returns whether the map has all pixels of the cells. */
    bool contains(unsigned order, Span<std::uint64_t> cells) { return command(moc_map_contains, order, cells) != 0; }

    /* The same commands on a coverage. */
    std::uint64_t add(const Coverage &coverage) { return command(moc_map_add_coverage, coverage); }
    std::uint64_t remove(const Coverage &coverage) { return command(moc_map_remove_coverage, coverage); }
    std::uint64_t count(const Coverage &coverage) { return command(moc_map_count_coverage, coverage); }
    bool claim(const Coverage &coverage) { return command(moc_map_claim_coverage, coverage) == 0; }
    bool contains(const Coverage &coverage) { return command(moc_map_contains_coverage, coverage) != 0; }

    /* The coverage of the map, in a store. */
    Coverage coverage(Store &store) { return Coverage(store.store_, moc_map_coverage, &client_, &store.store_->store); }

private:
    Client()
    {
        if (!moc_client_open(&client_))
            throw std::bad_alloc();
    }

    template <class Call, class... Arguments> std::string replies(Call call, Arguments... arguments)
    {
        detail::Text text;
        detail::checked(call(&client_, arguments..., &text.text));
        return std::string(text.text.bytes, text.text.length ? text.text.length - 1 : 0);
    }
    template <class Call> std::uint64_t command(Call call, unsigned order, Span<std::uint64_t> cells)
    {
        return detail::checked(call(&client_, order, cells.data(), cells.size())).first;
    }
    template <class Call> std::uint64_t command(Call call, const Coverage &coverage)
    {
        return detail::checked(call(&client_, coverage.store(), coverage.id())).first;
    }

    moc_client client_{nullptr};
    std::uint64_t number_ = 0;
};

} // namespace ploverchaise

#endif
