/* An explorer's afternoon in C++, by names alone: opens a chain's metadata, shows a block's
 * extrinsics and events, and an account by its key.
 *
 *   explorer EXAMPLES
 *
 * EXAMPLES is the folder `examples` of this repository.
 */
#include <scaleview.hpp>
#include <cctype>
#include <cstdio>
#include <fstream>
#include <iostream>
#include <iterator>

using bytes = std::vector<std::uint8_t>;
using scaleview::registry;
using scaleview::value;

/* A file's bytes. If its name ends with .hex, it is a text of their digits. */
static bytes read(const std::string &path) {
    std::ifstream file(path, std::ios::binary);
    bytes all{std::istreambuf_iterator<char>(file), std::istreambuf_iterator<char>()}, spelled;
    if (!file) throw std::runtime_error(path);
    if (path.size() < 4 || path.compare(path.size() - 4, 4, ".hex") != 0) return all;
    for (std::size_t at = 2; at + 2 <= all.size() && std::isxdigit(all[at]); at += 2) {
        const std::string digits(all.begin() + at, all.begin() + at + 2);
        spelled.push_back(static_cast<std::uint8_t>(std::stoul(digits, nullptr, 16)));
    }
    return spelled;
}

static std::string hex(scaleview::bytes_view some) {
    std::string text = "0x";
    char digits[3];
    for (std::size_t i = 0; i < some.size(); i++) {
        std::snprintf(digits, sizeof digits, "%02x", some.data()[i]);
        text += digits;
    }
    return text;
}

/* A value with the registry that decoded it, and the position of a part. */
struct part {
    const registry &from;
    const value &all;
    std::size_t at = 0;

    const scaleview::node &node() const { return all.nodes.at(at); }
    part child(std::size_t position) const { return {from, all, all.children(at).at(position)}; }

    /* The name of a variant. */
    std::string name() const { return from.arm_name(node()).value_or(""); }

    /* The part at names with a dot between: of variants, which have to be these, and of fields.
     * The only part of a variant stands for it, and that of a composite for its name left out. */
    std::optional<part> find(std::string_view path) const {
        if (path.empty()) return *this;
        const auto dot = path.find('.');
        const auto step = path.substr(0, dot), rest = dot == path.npos ? "" : path.substr(dot + 1);
        const bool is_single = node().children == 1;
        if (name() == step) return is_single ? child(0).find(rest) : find(rest);
        if (const auto found = from.child(all, at, step)) return part{from, all, *found}.find(rest);
        const bool is_wrapper = node().kind == SCALEVIEW_NODE_FIELDS && is_single;
        return is_wrapper ? child(0).find(path) : std::nullopt;
    }

    /* The bytes of a run, which composites of one part may hold. */
    std::string run() const {
        return node().kind == SCALEVIEW_NODE_FIELDS ? child(0).run() : hex(all.bytes(node()));
    }

    /* The decimal digits of an unsigned integer of two halves. */
    std::string number() const {
        std::string digits;
        for (auto low = node().low, high = node().high; low || high || digits.empty();) {
            // The high half stands for so many times 2^64, which is 10 * 1844674407370955161 + 6.
            const auto carried = high % 10, sum = carried * 6 + low % 10;
            high /= 10;
            low = low / 10 + carried * 1844674407370955161 + sum / 10;
            digits.insert(digits.begin(), static_cast<char>('0' + sum % 10));
        }
        return digits;
    }
};

/* The field of this name. */
static part field(const part &of, std::string_view name) {
    return {of.from, of.all, of.from.child(of.all, of.at, name).value()};
}

static void show_extrinsic(const registry &chain, const bytes &read) {
    const auto type = chain.name("extrinsic").value().type;
    const auto inside = scaleview::opaque(read);
    const auto all = chain.decode(type, inside);
    const part extrinsic{chain, all}, pallet = field(extrinsic, "call"), call = pallet.child(0);
    std::cout << "  " << pallet.name() << "." << call.name() << ", " << read.size() << " bytes\n";
    if (const auto signer = extrinsic.find("address.Id"))
        std::cout << "    signed by " << signer->run() << "\n";
    if (const auto amount = call.find("value"))
        std::cout << "    moves " << amount->number() << "\n";
    std::cout << "    " << chain.decode_json(type, inside) << "\n";
}

static void show_events(const registry &chain, const bytes &read) {
    const auto all = chain.decode(chain.name("storage:System.Events").value().type, read);
    const auto records = all.children(0);
    std::cout << records.size() << " events:\n";
    for (const auto at : records) {
        const part record{chain, all, at}, pallet = field(record, "event"), event = pallet.child(0);
        const auto extrinsic = record.find("phase.ApplyExtrinsic");
        std::cout << "  extrinsic " << (extrinsic ? extrinsic->number() : "none") << ": ";
        std::cout << pallet.name() << "." << event.name();
        if (const auto amount = event.find("amount")) std::cout << " " << amount->number();
        if (const auto who = event.find("who")) std::cout << " of " << who->run();
        std::cout << "\n";
    }
}

static void show_account(const registry &chain, const bytes &key, const bytes &stored) {
    const auto keys = chain.decode(chain.name("key:System.Account").value().type, key);
    std::cout << "the account " << field({chain, keys}, "key0").run() << ":\n";
    const auto account = chain.decode(chain.name("storage:System.Account").value().type, stored);
    const part all{chain, account};
    for (const auto *path : {"nonce", "data.free", "data.reserved", "data.frozen"})
        std::cout << "  " << path << " " << all.find(path).value().number() << "\n";
}

static void show_constant(const registry &chain, const std::string &name) {
    const auto stored = chain.bytes_of_name(name).value();
    std::cout << name << ": " << chain.decode_json(chain.name(name).value().type, stored) << "\n";
}

static void explore(const std::string &folder) {
    const auto metadata = read(folder + "/chain/chain.metadata");
    const auto chain = registry::open_with_names(metadata, scaleview::bit_sequences::read);
    std::cout << "metadata " << chain.version() << ": " << chain.types() << " types, "
              << chain.names().size() << " names\n";
    show_constant(chain, "constant:Balances.ExistentialDeposit");
    std::cout << "2 extrinsics:\n";
    show_extrinsic(chain, read(folder + "/chain/extrinsic.hex"));
    show_extrinsic(chain, read(folder + "/chain/transfer.scale"));
    show_events(chain, read(folder + "/chain/events.hex"));
    const auto account = read(folder + "/runtime/account_info.scale");
    show_account(chain, read(folder + "/chain/key.scale"), account);
}

int main(int count, char **words) {
    if (count != 2) return 2;
    try {
        explore(words[1]);
    } catch (const std::exception &error) {
        std::cerr << error.what() << "\n";
        return 1;
    }
}
