// Bodies in JSON: reading one as the desk does, and writing compact members.
#pragma once

#include "days.h"

#include <array>
#include <cstdint>
#include <rapidjson/document.h>
#include <string>
#include <string_view>

using JsonValue = rapidjson::Value;

// Reads a body in its place: texts of the document are slices of the body. Gives false if it is not JSON, is not an
// object, or nests more than 127 levels deep.
bool read_object(std::string& body, rapidjson::Document& document);

// The last member of an object under each key, or null.
template <size_t N>
std::array<const JsonValue*, N> members_of(const JsonValue& object, const std::array<std::string_view, N>& keys)
{
    std::array<const JsonValue*, N> found{};
    for (const auto& member : object.GetObject()) {
        std::string_view name(member.name.GetString(), member.name.GetStringLength());
        for (size_t at = 0; at < N; at++) {
            if (name == keys[at]) {
                found[at] = &member.value;
                break;
            }
        }
    }
    return found;
}

// Writes one JSON text. A key comes with the comma before it; a list or an object may follow a key.
class JsonText {
public:
    explicit JsonText(size_t room = 256) { text_.reserve(room); }

    JsonText& open(char bracket);
    JsonText& close(char bracket);
    JsonText& key(std::string_view key);
    JsonText& item(); // before each object or text of a list

    JsonText& number(uint64_t value);
    JsonText& signed_number(int64_t value);
    JsonText& flag(bool value);
    JsonText& day(Day day);
    JsonText& text(std::string_view value);
    JsonText& decimal(__int128 value); // in quotes
    JsonText& null();
    JsonText& whole(std::string_view json); // a value that is written already

    std::string take() { return std::move(text_); }

private:
    void comma();

    std::string text_;
    bool later_ = false;
};

void put_decimal(std::string& out, __int128 value);
__int128 read_decimal(std::string_view text);
