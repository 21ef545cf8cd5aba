// Building and reading records; decimals.
#include "record.hpp"

#include <stdexcept>

namespace desk {

namespace {

const int TEXT = -1;

// The bytes of each field by its bit.
const int WIDTH[32] = {2, 2, TEXT, TEXT, TEXT, TEXT, TEXT, 1, 1, 8, 8, 1, 1, 1, 8, 8,
                       8, 8, TEXT, 4, TEXT, 0, 0, 1, 8, 8, 16, 1, 1, 1, TEXT, 1};

std::string little_endian(uint64_t value, int bytes) {
    std::string out;
    for (int at = 0; at < bytes; at++) out.push_back(at < 8 ? char(value >> (8 * at)) : '\0');
    return out;
}

uint64_t from_little_endian(const std::string &bytes) {
    uint64_t value = 0;
    for (size_t at = 0; at < bytes.size() && at < 8; at++) value |= uint64_t(uint8_t(bytes[at])) << (8 * at);
    return value;
}

// The next `count` bytes.
std::string next(const Bytes &bytes, size_t &at, size_t count) {
    if (bytes.size() - at < count) throw std::invalid_argument("a record that ends within a field");
    std::string part = bytes.substr(at, count);
    at += count;
    return part;
}

} // namespace

Record Record::read(const Bytes &bytes) {
    size_t at = 0;
    Record record(uint8_t(next(bytes, at, 1)[0]));
    const uint64_t map = from_little_endian(next(bytes, at, 4));
    for (int field = 0; field < 32; field++) {
        if (!(map >> field & 1)) continue;
        const size_t width = WIDTH[field] == TEXT ? uint8_t(next(bytes, at, 1)[0]) : size_t(WIDTH[field]);
        record.fields_[field] = next(bytes, at, width);
    }
    if (at != bytes.size()) throw std::invalid_argument("a record with bytes left over");
    return record;
}

Record &Record::number(int field, uint64_t value) {
    fields_[field] = little_endian(value, WIDTH[field]);
    return *this;
}

Record &Record::text(int field, const std::string &value) {
    fields_[field] = value.substr(0, 255);
    return *this;
}

uint64_t Record::number(int field) const {
    const auto found = fields_.find(field);
    return found == fields_.end() ? 0 : from_little_endian(found->second);
}

std::string Record::text(int field) const {
    const auto found = fields_.find(field);
    return found == fields_.end() ? "" : found->second;
}

Bytes Record::bytes() const {
    uint64_t map = 0;
    Bytes fields;
    for (const auto &field : fields_) {
        map |= uint64_t(1) << field.first;
        if (WIDTH[field.first] == TEXT) fields.push_back(char(field.second.size()));
        fields += field.second;
    }
    return Bytes(1, char(kind_)) + little_endian(map, 4) + fields;
}

bool read_decimal(const std::string &text, int places, uint64_t &count) {
    const uint64_t most = 100000000000000000;
    bool point = false, digit = false;
    count = 0;
    for (char c : text) {
        if (c == '.' && !point) {
            point = true;
            continue;
        }
        if (c < '0' || c > '9') return false;
        digit = true;
        if (point && places == 0) {
            if (c != '0') return false;
            continue;
        }
        places -= point;
        count = count * 10 + uint64_t(c - '0');
        if (count > most) return false;
    }
    for (; places > 0; places--) {
        count *= 10;
        if (count > most) return false;
    }
    return digit;
}

std::string decimal(uint64_t count, int places) {
    std::string digits = std::to_string(count);
    if (digits.size() <= size_t(places)) digits.insert(0, size_t(places) + 1 - digits.size(), '0');
    return digits.insert(digits.size() - size_t(places), ".");
}

} // namespace desk
