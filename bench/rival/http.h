// Messages of HTTP/1.1 on a pair of file descriptors.
#pragma once

#include <optional>
#include <string>
#include <string_view>
#include <vector>

struct Field {
    std::string_view name, value;
};

// A request. What its head says may be answered without its body.
struct Request {
    std::string_view method, path;
    std::vector<Field> fields;
    std::string body;
    enum { kWhole, kBadHead, kLengthRequired, kTooLarge } framing = kWhole;
    bool closes = false;

    std::optional<std::string_view> value(std::string_view name) const;
    void clear()
    {
        fields.clear();
        framing = kWhole;
        closes = false;
    }
};

enum class Arrival { kRequest, kEnd, kCut };

// Reads requests. The slices of one are good until the next.
class Unread {
public:
    explicit Unread(int descriptor) : descriptor_(descriptor) {}
    Arrival next(Request& request);

private:
    enum class Head { kWhole, kUnfinished, kBad };

    std::string_view bytes() const { return {room_.data() + start_, end_ - start_}; }
    bool fill();
    Head parse(Request& request, size_t& size);
    bool read_body(std::string& body, size_t size);

    int descriptor_;
    std::string room_ = std::string(65'536, '\0'); // what is unread lies from start to end
    size_t start_ = 0, end_ = 0;
};

std::string response(int status, bool is_text, bool closes, std::string_view body);
void write_all(int descriptor, std::string_view bytes);

// Reading or writing failed.
struct BrokenStream {};
