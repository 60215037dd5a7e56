/* Uses the library from C++ as a program does that finds it by pkg-config: opens metadata, decodes a value whole and in pieces,
 * encodes it again, looks at its types, and asks for names. It prints nothing if all is as it should be.
 *
 *   use METADATA PATH VALUE JSON
 */
#include "chain_bytes.h"
#include <scaleview.hpp>
#include <cstdio>
#include <fstream>
#include <iterator>
#include <type_traits>

static int failures = 0;

static void check(const char *what, bool is_so) {
    if (is_so) return;
    std::printf("use: not so: %s\n", what);
    failures++;
}

static std::vector<std::uint8_t> read(const char *path) {
    std::ifstream file(path, std::ios::binary);
    return {std::istreambuf_iterator<char>(file), std::istreambuf_iterator<char>()};
}

static_assert(std::is_nothrow_move_constructible_v<scaleview::registry> && !std::is_copy_constructible_v<scaleview::registry>);
static_assert(std::is_nothrow_move_assignable_v<scaleview::session> && !std::is_copy_assignable_v<scaleview::session>);

/* The line of what a call throws, and its place. */
template <typename Call> static std::string thrown(Call call, std::uint64_t place) {
    try {
        call();
    } catch (const scaleview::error &error) {
        return error.place() == place ? error.what() : "another place";
    }
    return "nothing";
}

static void check_value(scaleview::registry &registry, std::uint32_t type, const std::vector<std::uint8_t> &bytes,
                        const std::string &json) {
    check("the text", registry.decode_json(type, bytes) == json);
    const auto value = registry.decode(type, bytes);
    check("the nodes", value.after(0) == value.nodes.size() && value.nodes.at(0).type == type);
    check("encoded again", registry.encode(type, value) == bytes);
    auto session = registry.start(type);
    const scaleview::bytes_view all(bytes);
    std::size_t at = 0;
    for (; at < bytes.size() && !session.feed(all.sub(at, 7)); at += 7) check("taken", session.taken() == at + 7);
    auto moved = std::move(session);
    check("held", moved.nodes() == value.nodes.size() && moved.text_bytes() == value.pool.size());
    check("the text in pieces", moved.finish_json() == json);
    const auto again = moved.finish();
    check("the nodes in pieces", again.pool == value.pool && again.nodes.size() == value.nodes.size());
}

/* Each field of a composite is the child of its node. */
static void check_fields(const scaleview::registry &registry, std::uint32_t type, const scaleview::value &value) {
    const auto found = registry.describe(type);
    const auto children = value.children(0);
    check("a composite", found.shape.kind == SCALEVIEW_COMPOSITE && found.arms.empty());
    check("its fields", found.fields.size() == children.size() && found.fields.at(0).name == "nonce");
    for (std::size_t i = 0; i < children.size(); i++) {
        const auto &field = found.fields.at(i);
        check("a field", field.has_name && value.nodes.at(children.at(i)).type == field.type);
        check("by its name", registry.child(value, 0, field.name) == children.at(i));
    }
}

static void check_arms(const scaleview::registry &registry) {
    const auto event = registry.find("pallet_balances::pallet::Event").value();
    auto found = registry.describe(event);
    // The names stay where they are.
    const auto moved = std::move(found);
    const auto &transfer = moved.arms.at(1);
    check("an arm", transfer.name == "Transfer" && transfer.index == 1 && transfer.fields.size() == 3);
    check("its field", transfer.fields.at(2).name == "amount" && moved.fields.empty());
    check("its path", moved.path == "pallet_balances::pallet::Event" && registry.path(event) == moved.path);
    const auto line = std::to_string(event) + " Sized variant \"" + std::string(moved.path) + "\"\n";
    check("its line", registry.type_line(event) == line);
    check("no such path", !registry.find("no::such"));
}

/* What a registry says of a type for its readers: W<T = 0, U> { x: 0 as T }, with a line for the type and one for the field. */
static void check_annotations() {
    static const std::uint8_t types[] = {4, 0, 4, 4, 'W', 8, 4, 'T', 1, 0, 4, 'U', 0, 0, 4, 1, 4, 'x', 0, 1, 4, 'T', 4, 4, 'f',
                                         4, 4, 't'};
    const auto registry = scaleview::registry::open(scaleview::bytes_view(types, sizeof types));
    const auto params = registry.params(0);
    check("its parameters", params.size() == 2 && params.at(0).name == "T" && params.at(0).type == 0u);
    check("one without a type", params.at(1).name == "U" && !params.at(1).type);
    check("the name of a type", registry.type_name(0, 0) == "T");
    check("docs", registry.docs(0) == std::vector<std::string>{"t"} && registry.docs(0, 0) == std::vector<std::string>{"f"});
    check("no field", thrown([&] { registry.type_name(0, 1); }, 0) == "code 203 UnknownPart");
    check("no type", thrown([&] { registry.params(1); }, 1) == "type: UnknownType 1");
}

/* A text, and a registry that outlives its handle by a session. */
static void check_small() {
    static const std::uint8_t text[] = {4, 0, 0, 0, 5, 2, 0};
    auto registry = scaleview::registry::open(scaleview::bytes_view(text, sizeof text));
    check("alone", registry.types() == 1 && registry.version() == 0 && registry.end() == sizeof text);
    const auto value = registry.decode(0, std::string_view("\x0cyes"));
    check("a text", value.text(value.nodes.at(0)) == "yes" && value.text({}).empty());
    // An empty vector has no address.
    const std::vector<std::uint8_t> empty;
    check("no bytes", thrown([&] { registry.decode(0, empty); }, 0) == "value: Truncated at 0");
    check("no registry", thrown([&] { scaleview::registry::open(empty); }, 0) == "registry: Truncated at 0");
    check("no type", thrown([&] { registry.decode(7, empty); }, 7) == "type: UnknownType 7");
    check("a node", thrown([&] { registry.encode(0, {{{}}, {}}); }, 0) == "node: WrongKind at 0");
    check("a budget", thrown([&] { registry.decode(0, std::string_view("\x0cyes"), {64, 9, 1}); }, 0) == "memory");
    auto session = [&] {
        auto other = std::move(registry);
        return other.start(0);
    }();
    // What was moved away has no handle, which is answered.
    check("moved away", registry.types() == 0 && thrown([&] { registry.start(0); }, 0) == "code 5 NoHandle");
    check("nothing to look in", thrown([&] { registry.find("u8"); }, 0) == "code 5 NoHandle");
    check("incomplete", !session.feed(empty) && !session.feed(std::string_view("\x0cye")));
    check("complete", session.feed(std::string_view("sss")) == std::size_t{1});
    check("its text", session.finish_json() == "\"yes\"");
}

/* The number of a budget, and a few bytes of millions of nodes, which the default budget stops. */
static void check_budgets() {
    constexpr std::uint64_t base = 64 << 20;
    const scaleview::limits any, few{64, 9, 5}, none{64, 9, 0};
    check("no number", any.budget(0) == base && any.budget(10) == base + 640);
    check("a number", few.budget(10) == 5 && none.budget(10) == 0);
    check("the greatest", any.budget(UINT64_MAX) == UINT64_MAX);
    // A unit, a u8, a composite of 16,383 units and a u8, and a sequence of it.
    std::vector<std::uint8_t> types{16, 0, 0, 0, 4, 0, 0, 4, 0, 0, 5, 3, 0, 8, 0, 0, 0, 2, 0, 1, 0};
    for (int i = 0; i < 16383; i++) types.insert(types.end(), {0, 0, 0, 0});
    types.insert(types.end(), {0, 4, 0, 0, 0, 12, 0, 0, 2, 8, 0});
    const auto registry = scaleview::registry::open(types);
    std::vector<std::uint8_t> many(257, 7);
    many[0] = 1;
    many[1] = 4;
    many.push_back(7);
    check("many nodes", thrown([&] { registry.decode(3, many); }, 0) == "memory");
    check("many nodes as text", thrown([&] { registry.decode_json(3, many); }, 0) == "memory");
    const std::vector<std::uint8_t> one{4, 7};
    check("one", registry.decode(3, one).nodes.size() == 16386);
}

/* A bit sequence in words of u16, where bits are read, and its bits in order. */
static void check_bits() {
    static const std::uint8_t types[] = {12, 0, 0, 0, 7, 4, 8, 0, 4, 0, 0, 5, 4, 0, 8, 4, 16, 'M', 's', 'b', '0', 0, 0, 0, 0};
    const scaleview::bytes_view bytes(types, sizeof types);
    const std::vector<std::uint8_t> nine{0x24, 0, 0x92}, unused{0x24, 1, 0x92};
    const auto without = scaleview::registry::open(bytes);
    check("bits are rejected", thrown([&] { without.decode(0, nine); }, 0) == "value: BitSequence at 0");
    const auto registry = scaleview::registry::open(bytes, scaleview::bit_sequences::read);
    check("the text of bits", registry.decode_json(0, nine) == "\"0b100100100\"");
    auto value = registry.decode(0, nine);
    check("bits", registry.bits(value, value.nodes.at(0)) == std::vector<bool>{1, 0, 0, 1, 0, 0, 1, 0, 0});
    check("bits encoded again", value.after(0) == 1 && registry.encode(0, value) == nine);
    check("an unused bit", thrown([&] { registry.decode(0, unused); }, 1) == "value: UnusedBits at 1");
    value.pool.pop_back();
    check("bits without their words", registry.bits(value, value.nodes.at(0)).empty() && registry.bits(value, {}).empty());
}

static void check_names(const scaleview::registry &registry) {
    const auto now = registry.name("storage:Sys.Now"), last = registry.name("storage:Sys.Last");
    check("a name", now && now->name == "storage:Sys.Now" && now->type == 1 && now->has_bytes);
    check("its bytes", registry.bytes_of_name("storage:Sys.Now") == std::vector<std::uint8_t>{42, 0, 0, 0});
    check("a name without bytes", last && !last->has_bytes && !registry.bytes_of_name("storage:Sys.Last"));
    check("no such name", !registry.name("storage:Sys") && !registry.bytes_of_name("storage:Sys"));
    const auto names = registry.names();
    check("all names", names.size() == 29 && names.at(0).name == "extrinsic" && names.at(28).name == "custom:Sys.Now");
    check("the last one", names.at(28).type == 0 && names.at(28).has_bytes && !names.at(0).has_bytes);
}

/* An extrinsic, and what is wrong with the length in front of others. */
static void check_opaque(const scaleview::registry &registry) {
    const std::vector<std::uint8_t> bytes{0x18, 0x04, 0x01, 0xd2, 0x04, 0, 0}, shorter(bytes.begin(), bytes.end() - 1);
    auto longer = bytes;
    longer.push_back(0);
    const auto extrinsic = registry.name("extrinsic").value().type;
    const auto json = registry.decode_json(extrinsic, scaleview::opaque(bytes));
    check("an extrinsic", json == R"({"bare":{"call":{"set":{"now":1234}}}})");
    const auto value = registry.decode(extrinsic, scaleview::opaque(bytes));
    const auto call = registry.child(value, 0, "call").value();
    check("its arm", registry.arm_name(value.nodes.at(0)) == "bare");
    check("its call", registry.arm_name(value.nodes.at(call)) == "set");
    const auto now = registry.child(value, call, "now").value();
    check("its number", value.nodes.at(now).low == 1234 && !registry.arm_name(value.nodes.at(now)));
    check("no such field", !registry.child(value, call, "then"));
    check("no fields", !registry.child(value, now, "now"));
    const auto path = registry.path_of(extrinsic, scaleview::opaque(bytes).sub(0, 4));
    check("a path", path.steps.size() == 2 && registry.path_text(path.steps) == "bare.call.set.now");
    check("its end", path.type && registry.type(*path.type).primitive == SCALEVIEW_U32);
    const auto whole = registry.path_of(extrinsic, scaleview::opaque(bytes));
    check("no path", whole.steps.empty() && !whole.type && registry.path_text(whole.steps).empty());
    check("a path in no type", thrown([&] { registry.path_of(99, bytes); }, 99) == "type: UnknownType 99");
    check("cut", thrown([&] { scaleview::opaque(shorter); }, 6) == "value: Truncated at 6");
    check("a byte more", thrown([&] { scaleview::opaque(longer); }, 7) == "value: TrailingBytes at 7");
}

/* A chain with its names; the same metadata without them, and with a fault after its registry. */
static void check_chain() {
    const scaleview::bytes_view all(chain_bytes, sizeof chain_bytes);
    auto registry = scaleview::registry::open_with_names(all);
    check("a chain", registry.version() == 15 && registry.end() == CHAIN_REGISTRY_END && registry.types() == 24);
    check_names(registry);
    check_opaque(registry);
    const auto without = scaleview::registry::open_metadata(all);
    check("no names", without.types() == 13 && !without.name("call") && without.names().empty());
    const auto cut = [&] { scaleview::registry::open_with_names(all.sub(0, 455)); };
    check("the end is cut", thrown(cut, 455) == "registry: Truncated at 455");
    std::vector<std::uint8_t> changed(chain_bytes, chain_bytes + sizeof chain_bytes);
    changed.at(234) = 13 << 2;
    const auto refer = [&] { scaleview::registry::open_with_names(changed); };
    check("an unknown reference", thrown(refer, 234) == "registry: UnknownReference to type 13 at 234");
    const auto moved = std::move(registry);
    check("nothing to list", thrown([&] { registry.names(); }, 0) == "code 5 NoHandle");
    check("nothing to find", thrown([&] { registry.name("call"); }, 0) == "code 5 NoHandle");
}

int main(int count, char **words) {
    if (count != 5) return 2;
    check("the version", scaleview_version() == SCALEVIEW_VERSION);
    auto registry = scaleview::registry::open(read(words[1]));
    check("metadata", registry.version() == 14 && registry.end() < read(words[1]).size());
    const auto type = registry.find(words[2]);
    if (!type) return 3;
    const auto bytes = read(words[3]), stored = read(words[4]);
    std::string json(stored.begin(), stored.end());
    while (!json.empty() && json.back() == '\n') json.pop_back();
    check_value(registry, *type, bytes, json);
    check_fields(registry, *type, registry.decode(*type, bytes));
    check_arms(registry);
    check_annotations();
    check_small();
    check_budgets();
    check_bits();
    check_chain();
    return failures > 0;
}
