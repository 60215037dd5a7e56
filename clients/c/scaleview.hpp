/* The calls of scaleview.h for C++17: handles that close themselves, errors that are thrown, nodes in vectors.
 *
 * scaleview.h has what the calls do, and its rules of threads and of the stack hold here too: const members of a registry only
 * read it, and any number of threads may call them at the same time. A session is used by one call at a time. One session of a
 * registry at a time is started or ends, and nothing else runs on them while the registry ends. */
#ifndef SCALEVIEW_HPP
#define SCALEVIEW_HPP
#include "scaleview.h"
#include <cstddef>
#include <cstdint>
#include <deque>
#include <limits>
#include <memory>
#include <new>
#include <optional>
#include <stdexcept>
#include <string>
#include <string_view>
#include <utility>
#include <vector>

namespace scaleview {

using node = scaleview_node;
using step = scaleview_step;
using type_shape = scaleview_type_shape;

/* Bytes that are read: of a vector, an array or a string of bytes, or a pointer and a length. */
class bytes_view {
  public:
    bytes_view(const std::uint8_t *data, std::size_t size) : data_(data), size_(size) {}

    template <typename Bytes, typename = decltype(std::declval<const Bytes &>().data())>
    bytes_view(const Bytes &bytes)
        : data_(reinterpret_cast<const std::uint8_t *>(bytes.data())), size_(bytes.size()) {
        static_assert(sizeof(*bytes.data()) == 1, "the elements are bytes");
    }

    const std::uint8_t *data() const { return data_; }
    std::size_t size() const { return size_; }

    bytes_view sub(std::size_t from, std::size_t length) const {
        from = from < size_ ? from : size_;
        return {size_ ? data_ + from : data_, length < size_ - from ? length : size_ - from};
    }

  private:
    const std::uint8_t *data_;
    std::size_t size_;
};

/* The name of a code, such as "Truncated". */
inline std::string reason_of(std::uint32_t code) {
    std::uint8_t name[18];
    scaleview_answer answer;
    if (scaleview_reason(code, name, sizeof name, &answer) != SCALEVIEW_OK) return {};
    return {reinterpret_cast<const char *>(name), static_cast<std::size_t>(answer.length)};
}

/* Why there is no answer, in the words of the command. `bytes` says which bytes a code of SCALEVIEW_VALUE_* is about. */
class error : public std::runtime_error {
  public:
    error(const scaleview_answer &answer, std::uint32_t type, const char *bytes = "value")
        : runtime_error(line(answer, type, bytes)), answer_(answer),
          place_(answer.code == SCALEVIEW_UNKNOWN_TYPE ? type : answer.at) {}

    /* The code, of enum scaleview_code. */
    std::uint32_t code() const { return answer_.code; }
    /* Where: in bytes from the start of the input, or the position of a node or of an unknown type. */
    std::uint64_t place() const { return place_; }
    /* The type that refers to an unknown one; or the unknown one, if metadata refers to it. */
    std::uint32_t from() const { return answer_.from; }

  private:
    static std::string line(const scaleview_answer &answer, std::uint32_t type, const char *bytes) {
        const auto code = answer.code;
        const auto at = reason_of(code) + " at " + std::to_string(answer.at);
        if (code == SCALEVIEW_MEMORY) return "memory";
        if (code == SCALEVIEW_UNKNOWN_TYPE) return "type: UnknownType " + std::to_string(type);
        if (code == SCALEVIEW_REGISTRY_UNKNOWN_REFERENCE)
            return "check: UnknownType " + std::to_string(answer.at) + " in type " + std::to_string(answer.from);
        if (code == SCALEVIEW_METADATA_UNKNOWN_REFERENCE)
            return "registry: UnknownReference to type " + std::to_string(answer.from) + " at " + std::to_string(answer.at);
        if (code == SCALEVIEW_REGISTRY_TOO_LARGE) return "registry: TooLarge";
        if (code >= 401 && code < 500) return "node: " + at;
        if (code >= 301 && code < 400) return bytes + (": " + at);
        if (code >= 101 && code < 200) return "registry: " + at;
        return "code " + std::to_string(code) + " " + reason_of(code);
    }

    scaleview_answer answer_;
    std::uint64_t place_;
};

/* How deep a value may be, how many bytes it may have, and how much memory the library may use for
 * it. Without a number the budget of memory is 64 MiB and 64 times the length of the input; 0 is no
 * budget. The input of a session is as long as `bytes`, and that of an encoding is its nodes and
 * their bytes. */
struct limits {
    std::uint16_t depth = 64;
    std::uint64_t bytes = std::uint64_t{1} << 24;
    std::optional<std::uint64_t> memory = std::nullopt;

    /* The number that the library takes for the budget of an input of this length. */
    std::uint64_t budget(std::uint64_t length) const {
        constexpr auto base = std::uint64_t{64} << 20;
        constexpr auto most = std::numeric_limits<std::uint64_t>::max();
        if (memory) return *memory;
        return length > (most - base) / 64 ? most : base + 64 * length;
    }
};

/* Whether values of bit sequences are read, where the store and the order are known (SCALEVIEW_BITS), or all rejected. */
enum class bit_sequences { rejected, read };

/* A field of a composite or of an arm, or a member of a tuple. */
struct field {
    std::string_view name;
    bool has_name;
    std::uint32_t type;
};

/* A type by the name that metadata gives to it, such as "storage:System.Account". */
struct named_type {
    std::string name;
    std::uint32_t type;
    /* Whether the metadata has bytes for it, which registry::bytes_of_name returns. */
    bool has_bytes;
};

/* An arm of a variant. */
struct arm {
    std::string_view name;
    std::uint8_t index;
    std::vector<field> fields;
};

/* What a registry says of a type. It keeps the names; the views of them stay valid when it is moved. */
class description {
  public:
    type_shape shape = {};
    std::string_view path;
    /* The fields of a composite or the members of a tuple. */
    std::vector<field> fields;
    /* The arms of a variant. */
    std::vector<arm> arms;

    description() = default;
    description(description &&) = default;
    description &operator=(description &&) = default;

  private:
    friend class registry;

    std::string_view keep(std::string name) { return names_.emplace_back(std::move(name)); }

    // Its strings stay where they are when it grows or is moved.
    std::deque<std::string> names_;
};

/* Where in a value its bytes are rejected or end. */
struct error_path {
    /* From the value itself to the node there. */
    std::vector<step> steps;
    /* The type of that node; none if the bytes begin with a complete value. */
    std::optional<std::uint32_t> type;
};

/* The nodes of a value, each before its children, and their bytes. */
struct value {
    std::vector<node> nodes;
    std::vector<std::uint8_t> pool;

    /* The bytes of a text, a byte run or a 256-bit integer; none for other nodes. See registry::bits for a bit sequence. */
    bytes_view bytes(const node &one) const {
        const bool has_bytes = one.kind >= SCALEVIEW_NODE_TEXT && one.kind <= SCALEVIEW_NODE_WIDE;
        const auto none = bytes_view(pool).sub(pool.size(), 0);
        if (!has_bytes || one.low > pool.size() || one.high > pool.size() - one.low) return none;
        return bytes_view(pool).sub(static_cast<std::size_t>(one.low), static_cast<std::size_t>(one.high));
    }

    /* The text of a node. The view is valid as long as the pool is. */
    std::string_view text(const node &one) const {
        const auto found = bytes(one);
        return {reinterpret_cast<const char *>(found.data()), found.size()};
    }

    /* The position after a node and all that belongs to it. */
    std::size_t after(std::size_t position) const {
        const auto &one = nodes.at(position);
        const bool is_branch = one.kind >= SCALEVIEW_NODE_FIELDS && one.kind <= SCALEVIEW_NODE_LIST;
        return position + (is_branch ? static_cast<std::size_t>(one.low) : 1);
    }

    /* The positions of the children of a node. */
    std::vector<std::size_t> children(std::size_t position) const {
        std::vector<std::size_t> found;
        std::size_t next = position + 1;
        for (std::uint32_t i = 0; i < nodes.at(position).children; i++, next = after(next)) found.push_back(next);
        return found;
    }
};

namespace detail {

/* Throws what is no success. */
inline void expect_ok(const scaleview_answer &answer, std::uint32_t type) {
    if (answer.code != SCALEVIEW_OK) throw error(answer, type);
}

/* A number of bytes or nodes, which memory may not have. */
inline std::size_t size_of(std::uint64_t number) {
    if (number > std::numeric_limits<std::size_t>::max()) throw std::bad_alloc();
    return static_cast<std::size_t>(number);
}

/* The bytes that a call writes, which is called again if it wants more room. */
template <typename Bytes, typename Call> Bytes written(std::size_t guess, std::uint32_t type, Call call) {
    Bytes out(guess, 0);
    scaleview_answer answer;
    while (call(reinterpret_cast<std::uint8_t *>(out.data()), out.size(), &answer) == SCALEVIEW_NO_ROOM)
        out.resize(size_of(answer.length));
    expect_ok(answer, type);
    out.resize(size_of(answer.length));
    return out;
}

/* The nodes that a call writes, which is called again if it wants more room. */
template <typename Call> value written_nodes(std::size_t nodes, std::size_t bytes, std::uint32_t type, Call call) {
    value out{std::vector<node>(nodes), std::vector<std::uint8_t>(bytes)};
    scaleview_answer answer;
    while (call(out.nodes.data(), out.nodes.size(), out.pool.data(), out.pool.size(), &answer) == SCALEVIEW_NO_ROOM) {
        out.nodes.resize(size_of(answer.length));
        out.pool.resize(size_of(answer.at));
    }
    expect_ok(answer, type);
    out.nodes.resize(size_of(answer.length));
    out.pool.resize(size_of(answer.at));
    return out;
}

/* An open registry, which the last of its owners closes: the registry and its sessions. */
struct open_registry {
    scaleview_registry handle = {nullptr};
    scaleview_answer answer = {};

    open_registry(bytes_view bytes, std::uint32_t flags) {
        if (scaleview_open(bytes.data(), bytes.size(), flags, &handle, &answer) != SCALEVIEW_OK)
            throw error(answer, 0, "registry");
    }
    open_registry(const open_registry &) = delete;
    open_registry &operator=(const open_registry &) = delete;
    ~open_registry() { scaleview_close(&handle); }
};

} // namespace detail

/* The bytes of an opaque value, as an extrinsic in a block is, without the length in front of it. A call that decodes them
 * counts places from there. */
inline bytes_view opaque(bytes_view bytes) {
    scaleview_answer answer;
    scaleview_opaque(bytes.data(), bytes.size(), &answer);
    detail::expect_ok(answer, 0);
    return bytes.sub(static_cast<std::size_t>(answer.at), static_cast<std::size_t>(answer.length));
}

/* A value whose bytes come in pieces. It may be moved, and is not copied. */
class session {
  public:
    session(session &&other) noexcept : registry_(std::move(other.registry_)), handle_(other.handle_) {
        other.handle_.inside = nullptr;
    }
    session &operator=(session &&other) noexcept {
        std::swap(registry_, other.registry_);
        std::swap(handle_.inside, other.handle_.inside);
        return *this;
    }
    ~session() { scaleview_free(&handle_); }

    /* Feeds the next piece. Returns how many of its bytes belong to the value if that is complete. */
    std::optional<std::size_t> feed(bytes_view piece) {
        scaleview_answer answer;
        if (scaleview_feed(&handle_, piece.data(), piece.size(), &answer) == SCALEVIEW_MORE) return std::nullopt;
        detail::expect_ok(answer, 0);
        return static_cast<std::size_t>(answer.length);
    }

    std::uint64_t taken() { return counted(scaleview_taken); }
    std::uint64_t nodes() { return counted(scaleview_nodes); }
    std::uint64_t text_bytes() { return counted(scaleview_text_bytes); }

    /* Ends the value, which is kept, and returns its JSON. */
    std::string finish_json() {
        return detail::written<std::string>(256, 0, [&](std::uint8_t *out, std::size_t room, scaleview_answer *answer) {
            return scaleview_finish(&handle_, out, room, answer);
        });
    }

    /* Ends the value, which is kept, and returns its nodes. */
    value finish() {
        return detail::written_nodes(
            0, 0, 0, [&](node *nodes, std::size_t room, std::uint8_t *pool, std::size_t pool_room, scaleview_answer *answer) {
                return scaleview_finish_nodes(&handle_, nodes, room, pool, pool_room, answer);
            });
    }

  private:
    friend class registry;

    session(std::shared_ptr<detail::open_registry> registry, scaleview_registry open, std::uint32_t type, const limits &within)
        : registry_(std::move(registry)) {
        scaleview_answer answer;
        const auto budget = within.budget(within.bytes);
        scaleview_start(open, type, within.depth, within.bytes, budget, &handle_, &answer);
        detail::expect_ok(answer, type);
    }

    std::uint64_t counted(std::uint32_t (*call)(scaleview_session *, scaleview_answer *)) {
        scaleview_answer answer;
        call(&handle_, &answer);
        detail::expect_ok(answer, 0);
        return answer.length;
    }

    /* It is closed after the session is freed. */
    std::shared_ptr<detail::open_registry> registry_;
    scaleview_session handle_ = {nullptr};
};

/* A parameter of a generic type, and the type that stands for it, if there is one. */
struct param {
    std::string name;
    std::optional<std::uint32_t> type;
};

/* An open registry. It may be moved, and is not copied. Its sessions keep it open. */
class registry {
  public:
    /* Opens a chain's metadata if the bytes begin with its four letters, and otherwise a registry alone. */
    static registry open(bytes_view bytes, bit_sequences bits = bit_sequences::rejected) {
        const auto front = bytes.sub(0, 4);
        const auto letters = std::string_view(reinterpret_cast<const char *>(front.data()), front.size());
        return letters == "meta" ? open_metadata(bytes, bits) : open_raw(bytes, bits);
    }
    static registry open_raw(bytes_view bytes, bit_sequences bits = bit_sequences::rejected) {
        return registry(bytes, 0, bits);
    }
    static registry open_metadata(bytes_view bytes, bit_sequences bits = bit_sequences::rejected) {
        return registry(bytes, SCALEVIEW_METADATA, bits);
    }
    /* Opens a chain's metadata with the names that it gives to types, which is then all read (SCALEVIEW_NAMES). */
    static registry open_with_names(bytes_view bytes, bit_sequences bits = bit_sequences::rejected) {
        return registry(bytes, SCALEVIEW_METADATA | SCALEVIEW_NAMES, bits);
    }

    registry(registry &&) noexcept = default;
    registry &operator=(registry &&) noexcept = default;

    /* The number of types, where the registry ends, and the version of the metadata, or 0 for a registry alone. */
    std::uint32_t types() const { return static_cast<std::uint32_t>(answer().length); }
    std::uint64_t end() const { return answer().at; }
    std::uint32_t version() const { return answer().from; }

    type_shape type(std::uint32_t id) const {
        type_shape shape;
        scaleview_answer answer;
        scaleview_type(handle(), id, &shape, &answer);
        detail::expect_ok(answer, id);
        return shape;
    }

    std::string path(std::uint32_t id) const {
        return text_of(id, [&](std::uint8_t *out, std::size_t room, scaleview_answer *answer) {
            return scaleview_path(handle(), id, out, room, answer);
        });
    }

    std::string type_line(std::uint32_t id) const {
        return text_of(id, [&](std::uint8_t *out, std::size_t room, scaleview_answer *answer) {
            return scaleview_type_line(handle(), id, out, room, answer);
        });
    }

    /* All that the registry says of a type. */
    description describe(std::uint32_t id) const {
        description found;
        found.shape = type(id);
        found.path = found.keep(path(id));
        if (found.shape.kind == SCALEVIEW_VARIANT) {
            for (std::uint32_t i = 0; i < found.shape.parts; i++) found.arms.push_back(arm_of(found, id, i));
        } else {
            found.fields = fields_of(found, id, found.shape.parts, [&](std::uint32_t i, auto out, auto room, auto answer) {
                return scaleview_part(handle(), id, i, out, room, answer);
            });
        }
        return found;
    }

    /* The parameters of a generic type. */
    std::vector<param> params(std::uint32_t id) const {
        std::vector<param> found;
        scaleview_answer answer;
        for (std::uint32_t i = 0; scaleview_param(handle(), id, i, nullptr, 0, &answer) != SCALEVIEW_UNKNOWN_PART; i++) {
            auto [name, last] = named(id, [&](auto out, auto room, auto to) {
                return scaleview_param(handle(), id, i, out, room, to);
            });
            found.push_back({std::move(name), last.at == 1 ? std::optional(last.from) : std::nullopt});
        }
        return found;
    }

    /* The name of a field's type as the source has it, if the registry has it. Without an arm, the field is a composite's. */
    std::optional<std::string> type_name(std::uint32_t id, std::uint32_t field, std::uint32_t arm = SCALEVIEW_NONE) const {
        auto [name, answer] = named(id, [&](auto out, auto room, auto to) {
            return scaleview_type_name(handle(), id, arm, field, out, room, to);
        });
        return answer.at == 1 ? std::optional(std::move(name)) : std::nullopt;
    }

    /* The lines of the documentation of a type, or of a field or an arm of it. */
    std::vector<std::string> docs(std::uint32_t id, std::uint32_t field = SCALEVIEW_NONE,
                                  std::uint32_t arm = SCALEVIEW_NONE) const {
        std::vector<std::string> found;
        scaleview_answer answer;
        for (std::uint32_t i = 0;
             scaleview_docs(handle(), id, arm, field, i, nullptr, 0, &answer) != SCALEVIEW_UNKNOWN_PART; i++) {
            found.push_back(text_of(id, [&](auto out, auto room, auto to) {
                return scaleview_docs(handle(), id, arm, field, i, out, room, to);
            }));
        }
        return found;
    }

    /* The first type with this path, from a position on, if there is one. */
    std::optional<std::uint32_t> find(std::string_view path, std::uint32_t from = 0) const {
        scaleview_answer answer;
        const bytes_view bytes(path);
        const auto code = scaleview_find(handle(), from, bytes.data(), bytes.size(), &answer);
        if (code == SCALEVIEW_UNKNOWN_TYPE) return std::nullopt;
        detail::expect_ok(answer, from);
        return static_cast<std::uint32_t>(answer.at);
    }

    /* The type of this name, such as "storage:System.Account", if the metadata has the name. */
    std::optional<named_type> name(std::string_view text) const {
        scaleview_answer answer;
        const bytes_view bytes(text);
        if (scaleview_name(handle(), bytes.data(), bytes.size(), &answer) == SCALEVIEW_UNKNOWN_NAME) return std::nullopt;
        detail::expect_ok(answer, 0);
        return named_type{std::string(text), answer.from, answer.at == 1};
    }

    /* All names, in the order of the command's `names`. */
    std::vector<named_type> names() const {
        std::vector<named_type> found;
        scaleview_answer answer;
        for (std::uint32_t i = 0; scaleview_name_at(handle(), i, nullptr, 0, &answer) == SCALEVIEW_NO_ROOM; i++) {
            std::string text(detail::size_of(answer.length), 0);
            scaleview_name_at(handle(), i, reinterpret_cast<std::uint8_t *>(text.data()), text.size(), &answer);
            detail::expect_ok(answer, 0);
            found.push_back({std::move(text), answer.from, answer.at == 1});
        }
        if (answer.code != SCALEVIEW_UNKNOWN_NAME) detail::expect_ok(answer, 0);
        return found;
    }

    /* The bytes that the metadata has for a name, if it has some: the value of a constant or a custom value, or the default of
     * a storage entry. */
    std::optional<std::vector<std::uint8_t>> bytes_of_name(std::string_view text) const {
        const auto found = name(text);
        if (!found || !found->has_bytes) return std::nullopt;
        const bytes_view bytes(text);
        return detail::written<std::vector<std::uint8_t>>(64, 0, [&](auto out, auto room, auto answer) {
            return scaleview_name_bytes(handle(), bytes.data(), bytes.size(), out, room, answer);
        });
    }

    std::string decode_json(std::uint32_t id, bytes_view bytes, const limits &within = {}) const {
        const auto guess = 4 * few(bytes.size()) + 64;
        const auto budget = within.budget(bytes.size());
        return detail::written<std::string>(guess, id, [&](std::uint8_t *out, std::size_t room, scaleview_answer *answer) {
            return scaleview_decode(handle(), id, within.depth, within.bytes, budget, bytes.data(),
                                    bytes.size(), out, room, answer);
        });
    }

    value decode(std::uint32_t id, bytes_view bytes, const limits &within = {}) const {
        const auto guess = few(bytes.size());
        const auto budget = within.budget(bytes.size());
        return detail::written_nodes(
            guess / 3 + 8, guess, id,
            [&](node *nodes, std::size_t room, std::uint8_t *pool, std::size_t pool_room, scaleview_answer *answer) {
                return scaleview_decode_nodes(handle(), id, within.depth, within.bytes, budget,
                                              bytes.data(), bytes.size(), nodes, room, pool,
                                              pool_room, answer);
            });
    }

    /* Where in a value its bytes are rejected or end, of bytes and limits with which it is not decoded. */
    error_path path_of(std::uint32_t id, bytes_view bytes, const limits &within = {}) const {
        error_path found{std::vector<step>(std::size_t{within.depth} + 1), std::nullopt};
        scaleview_answer answer;
        scaleview_path_of(handle(), id, within.depth, within.bytes, within.budget(bytes.size()), bytes.data(), bytes.size(),
                          found.steps.data(), found.steps.size(), &answer);
        detail::expect_ok(answer, id);
        found.steps.resize(detail::size_of(answer.length));
        if (answer.at == 1) found.type = answer.from;
        return found;
    }

    /* The steps as text, such as "Balances[0].transfer_allow_death.value": arms and fields by their names, and fields without
     * one, members and elements by their positions. */
    std::string path_text(const std::vector<step> &steps) const {
        std::string text;
        const auto join = [&](const std::string &name) { text += (text.empty() ? "" : ".") + name; };
        for (const auto &one : steps) {
            const auto kind = type(one.type).kind;
            const bool is_variant = kind == SCALEVIEW_VARIANT;
            if (is_variant)
                join(text_of(one.type, [&](auto out, auto room, auto answer) {
                    return scaleview_arm(handle(), one.type, one.arm, out, room, answer);
                }));
            if (is_variant || kind == SCALEVIEW_COMPOSITE) {
                const auto [name, answer] = named(one.type, [&](auto out, auto room, auto last) {
                    if (is_variant) return scaleview_arm_field(handle(), one.type, one.arm, one.part, out, room, last);
                    return scaleview_part(handle(), one.type, one.part, out, room, last);
                });
                if (answer.at == 1) {
                    join(name);
                    continue;
                }
            }
            text += "[" + std::to_string(one.part) + "]";
        }
        return text;
    }

    /* The name of a variant's arm; none for other nodes. */
    std::optional<std::string> arm_name(const node &one) const {
        if (one.kind != SCALEVIEW_NODE_ARM) return std::nullopt;
        return text_of(one.type, [&](auto out, auto room, auto answer) {
            return scaleview_arm(handle(), one.type, one.arm, out, room, answer);
        });
    }

    /* The position of the child whose field has this name, of a composite or a variant, if there is
     * one. */
    std::optional<std::size_t> child(const value &from, std::size_t position,
                                     std::string_view name) const {
        const auto &one = from.nodes.at(position);
        const bool has_fields = one.kind == SCALEVIEW_NODE_FIELDS || one.kind == SCALEVIEW_NODE_ARM;
        if (!has_fields) return std::nullopt;
        auto next = position + 1;
        for (std::uint32_t i = 0; i < one.children; i++, next = from.after(next)) {
            const auto [text, answer] = named(one.type, [&](auto out, auto room, auto last) {
                if (one.kind == SCALEVIEW_NODE_FIELDS)
                    return scaleview_part(handle(), one.type, i, out, room, last);
                return scaleview_arm_field(handle(), one.type, one.arm, i, out, room, last);
            });
            if (answer.at == 1 && text == name) return next;
        }
        return std::nullopt;
    }

    /* The bits of a bit sequence that this registry decoded; none for other nodes. */
    std::vector<bool> bits(const value &from, const node &one) const {
        std::vector<bool> found;
        if (one.kind != SCALEVIEW_NODE_BITS) return found;
        const auto shape = type(one.type);
        const auto word = type(shape.element).primitive;
        if (word < SCALEVIEW_U8 || word > SCALEVIEW_U64) return found;
        const auto width = std::uint64_t{8} << (word - SCALEVIEW_U8), words = one.high / width + (one.high % width > 0);
        const auto order = path(shape.order);
        const bool is_msb = order.size() >= 4 && order.compare(order.size() - 4, 4, "Msb0") == 0;
        if (one.low > from.pool.size() || words * (width / 8) > from.pool.size() - one.low) return found;
        found.reserve(static_cast<std::size_t>(one.high));
        for (std::uint64_t i = 0; i < one.high; i++) {
            const auto in_word = is_msb ? width - 1 - i % width : i % width;
            const auto place = one.low + i / width * (width / 8) + in_word / 8;
            found.push_back(from.pool[static_cast<std::size_t>(place)] >> in_word % 8 & 1);
        }
        return found;
    }

    /* Encodes nodes, which a program may have made: only the types of bit sequences are read. */
    std::vector<std::uint8_t> encode(std::uint32_t id, const value &from, const limits &within = {}) const {
        const auto guess = 8 * few(from.nodes.size()) + few(from.pool.size());
        const auto budget = within.budget(sizeof(node) * from.nodes.size() + from.pool.size());
        return detail::written<std::vector<std::uint8_t>>(
            guess, id, [&](std::uint8_t *out, std::size_t room, scaleview_answer *answer) {
                return scaleview_encode_nodes(handle(), id, within.depth, budget, from.nodes.data(),
                                              from.nodes.size(), from.pool.data(), from.pool.size(), out, room, answer);
            });
    }

    /* Starts a value whose bytes come in pieces. */
    session start(std::uint32_t id, const limits &within = {}) { return session(open_, handle(), id, within); }

  private:
    registry(bytes_view bytes, std::uint32_t flags, bit_sequences bits)
        : open_(std::make_shared<detail::open_registry>(
              bytes, flags | (bits == bit_sequences::read ? std::uint32_t{SCALEVIEW_BITS} : 0))) {}

    /* The handle; a registry that was moved away has none, which the library's calls answer. */
    scaleview_registry handle() const { return open_ ? open_->handle : scaleview_registry{nullptr}; }
    scaleview_answer answer() const { return open_ ? open_->answer : scaleview_answer{}; }

    /* A number that a guess of memory is made of. */
    static std::size_t few(std::size_t number) { return number < (std::size_t{1} << 20) ? number : std::size_t{1} << 20; }

    template <typename Call> static std::string text_of(std::uint32_t id, Call call) {
        return detail::written<std::string>(64, id, call);
    }

    /* The name that a call writes, and its answer. */
    template <typename Call> static std::pair<std::string, scaleview_answer> named(std::uint32_t id, Call call) {
        scaleview_answer last = {};
        auto name = text_of(id, [&](std::uint8_t *out, std::size_t room, scaleview_answer *answer) {
            const auto code = call(out, room, answer);
            last = *answer;
            return code;
        });
        return {std::move(name), last};
    }

    template <typename Call>
    static std::vector<field> fields_of(description &to, std::uint32_t id, std::uint64_t count, Call call) {
        std::vector<field> fields;
        for (std::uint32_t i = 0; i < count; i++) {
            auto [name, answer] = named(id, [&](auto out, auto room, auto last) { return call(i, out, room, last); });
            fields.push_back({to.keep(std::move(name)), answer.at == 1, answer.from});
        }
        return fields;
    }

    arm arm_of(description &to, std::uint32_t id, std::uint32_t position) const {
        auto [name, answer] = named(id, [&](auto out, auto room, auto last) {
            return scaleview_arm(handle(), id, position, out, room, last);
        });
        auto fields = fields_of(to, id, answer.at, [&](std::uint32_t i, auto out, auto room, auto last) {
            return scaleview_arm_field(handle(), id, position, i, out, room, last);
        });
        return {to.keep(std::move(name)), static_cast<std::uint8_t>(answer.from), std::move(fields)};
    }

    std::shared_ptr<detail::open_registry> open_;
};

} // namespace scaleview
#endif
