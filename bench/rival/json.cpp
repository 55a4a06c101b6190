#include "json.h"

#include <algorithm>
#include <charconv>
#include <rapidjson/reader.h>

namespace {

constexpr int kMostLevels = 127;

// A document that refuses what serde_json refuses and RapidJSON would take.
class StrictDocument {
public:
    StrictDocument(rapidjson::Document& document, bool has_escapes) : document_(document), has_escapes_(has_escapes) {}

    bool Null() { return document_.Null(); }
    bool Bool(bool value) { return document_.Bool(value); }
    // RapidJSON tells an Int only after a minus: -0 is then no whole number of a body.
    bool Int(int value) { return value == 0 ? document_.Double(-0.0) : document_.Int(value); }
    bool Uint(unsigned value) { return document_.Uint(value); }
    bool Int64(int64_t value) { return document_.Int64(value); }
    bool Uint64(uint64_t value) { return document_.Uint64(value); }
    bool Double(double value) { return document_.Double(value); }
    bool RawNumber(const char* text, unsigned size, bool copy) { return document_.RawNumber(text, size, copy); }
    bool String(const char* text, unsigned size, bool copy) { return is_utf8(text, size) && document_.String(text, size, copy); }
    bool Key(const char* text, unsigned size, bool copy) { return is_utf8(text, size) && document_.Key(text, size, copy); }
    bool StartObject() { return ++level_ <= kMostLevels && document_.StartObject(); }
    bool StartArray() { return ++level_ <= kMostLevels && document_.StartArray(); }
    bool EndObject(unsigned count) { return level_-- > 0 && document_.EndObject(count); }
    bool EndArray(unsigned count) { return level_-- > 0 && document_.EndArray(count); }

private:
    // The reader has checked all bytes but those of an escaped low surrogate without a high one before it.
    bool is_utf8(const char* text, unsigned size) const
    {
        if (!has_escapes_) {
            return true;
        }
        for (unsigned at = 0; at + 1 < size; at++) {
            if (static_cast<unsigned char>(text[at]) == 0xED && static_cast<unsigned char>(text[at + 1]) >= 0xA0) {
                return false;
            }
        }
        return true;
    }

    rapidjson::Document& document_;
    bool has_escapes_;
    int level_ = 0;
};

struct Parsing {
    std::string& body;
    bool has_escapes;

    bool operator()(rapidjson::Document& document)
    {
        rapidjson::Reader reader;
        rapidjson::InsituStringStream stream(body.data());
        StrictDocument strict(document, has_escapes);
        constexpr unsigned kFlags = rapidjson::kParseInsituFlag | rapidjson::kParseValidateEncodingFlag;
        return !reader.Parse<kFlags>(stream, strict).IsError();
    }
};

} // namespace

bool read_object(std::string& body, rapidjson::Document& document)
{
    if (body.find('\0') != body.npos) { // the reader takes it for the end
        return false;
    }
    Parsing parsing = {body, body.find('\\') != body.npos};
    document.Populate(parsing);
    return document.IsObject();
}

void JsonText::comma()
{
    if (later_) {
        text_ += ',';
    }
    later_ = true;
}

JsonText& JsonText::open(char bracket)
{
    text_ += bracket;
    later_ = false;
    return *this;
}

JsonText& JsonText::close(char bracket)
{
    text_ += bracket;
    later_ = true;
    return *this;
}

JsonText& JsonText::key(std::string_view key)
{
    comma();
    text_ += '"';
    text_ += key;
    text_ += "\":";
    return *this;
}

JsonText& JsonText::item()
{
    comma();
    return *this;
}

JsonText& JsonText::number(uint64_t value)
{
    char digits[20];
    text_.append(digits, std::to_chars(digits, digits + sizeof digits, value).ptr);
    return *this;
}

JsonText& JsonText::signed_number(int64_t value)
{
    char digits[20];
    text_.append(digits, std::to_chars(digits, digits + sizeof digits, value).ptr);
    return *this;
}

JsonText& JsonText::flag(bool value)
{
    text_ += value ? "true" : "false";
    return *this;
}

JsonText& JsonText::day(Day day)
{
    text_ += '"';
    put_day(text_, day);
    text_ += '"';
    return *this;
}

// All texts of answers are of 0x20 to 0x7E, so that only two characters are escaped.
JsonText& JsonText::text(std::string_view value)
{
    text_ += '"';
    if (value.find_first_of("\"\\") == value.npos) {
        text_ += value;
    } else {
        for (char c : value) {
            if (c == '"' || c == '\\') {
                text_ += '\\';
            }
            text_ += c;
        }
    }
    text_ += '"';
    return *this;
}

JsonText& JsonText::decimal(__int128 value)
{
    text_ += '"';
    put_decimal(text_, value);
    text_ += '"';
    return *this;
}

JsonText& JsonText::null()
{
    text_ += "null";
    return *this;
}

JsonText& JsonText::whole(std::string_view json)
{
    text_ += json;
    return *this;
}

void put_decimal(std::string& out, __int128 value)
{
    char digits[40];
    char* first = digits + sizeof digits;
    bool is_negative = value < 0;
    do {
        int digit = value % 10;
        *--first = '0' + (digit < 0 ? -digit : digit);
        value /= 10;
    } while (value != 0);
    if (is_negative) {
        *--first = '-';
    }
    out.append(first, digits + sizeof digits);
}

__int128 read_decimal(std::string_view text)
{
    bool is_negative = !text.empty() && text[0] == '-';
    __int128 value = 0;
    for (char c : text.substr(is_negative)) {
        value = value * 10 + (c - '0');
    }
    return is_negative ? -value : value;
}
