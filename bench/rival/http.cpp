#include "http.h"

#include <algorithm>
#include <cctype>
#include <charconv>
#include <cstring>
#include <strings.h>
#include <unistd.h>

namespace {

constexpr size_t kMostOfHead = 16'384;
constexpr size_t kMostFields = 32;
constexpr size_t kMostOfBody = 4'194'304;

// Which bytes names, targets and values may have.
struct Allowed {
    bool name[256] = {}, target[256] = {}, value[256] = {};

    Allowed()
    {
        for (int byte = 0; byte < 256; byte++) {
            name[byte] = byte < 0x7F && (std::isalnum(byte) || (byte > 0 && std::strchr("!#$%&'*+-.^_`|~", byte)));
            target[byte] = byte > 0x20 && byte != 0x7F;
            value[byte] = byte == '\t' || (byte >= 0x20 && byte != 0x7F);
        }
    }
};

const Allowed kAllowed;

bool is_all(std::string_view text, const bool (&allowed)[256])
{
    for (unsigned char byte : text) {
        if (!allowed[byte]) {
            return false;
        }
    }
    return true;
}

bool equals_in_any_case(std::string_view one, std::string_view other)
{
    return one.size() == other.size() && strncasecmp(one.data(), other.data(), one.size()) == 0;
}

std::string_view trimmed(std::string_view text)
{
    size_t first = text.find_first_not_of(" \t");
    return first == text.npos ? std::string_view() : text.substr(first, text.find_last_not_of(" \t") - first + 1);
}

// Takes the next line off the bytes, without its end. Gives false if it has none.
bool take_line(std::string_view& bytes, std::string_view& line)
{
    size_t end = bytes.find('\n');
    if (end == bytes.npos) {
        return false;
    }
    line = bytes.substr(0, end);
    bytes.remove_prefix(end + 1);
    if (!line.empty() && line.back() == '\r') {
        line.remove_suffix(1);
    }
    return true;
}

bool parse_start(std::string_view line, Request& request)
{
    size_t first = line.find(' ');
    size_t second = first == line.npos ? first : line.find(' ', first + 1);
    if (second == line.npos) {
        return false;
    }
    std::string_view target = line.substr(first + 1, second - first - 1);
    std::string_view version = line.substr(second + 1);
    request.method = line.substr(0, first);
    request.path = target.substr(0, target.find('?'));
    request.closes = version == "HTTP/1.0";
    return !request.method.empty() && is_all(request.method, kAllowed.name) && !target.empty() && is_all(target, kAllowed.target) &&
           (version == "HTTP/1.1" || version == "HTTP/1.0");
}

bool parse_field(std::string_view line, Request& request)
{
    size_t colon = line.find(':');
    if (colon == line.npos || colon == 0 || request.fields.size() == kMostFields) {
        return false;
    }
    Field field = {line.substr(0, colon), trimmed(line.substr(colon + 1))};
    request.fields.push_back(field);
    return is_all(field.name, kAllowed.name) && is_all(field.value, kAllowed.value);
}

// The number that digits write, or the first that is too large; none where they are not all digits.
std::optional<size_t> length_of(std::string_view digits)
{
    size_t value = 0;
    for (char c : digits) {
        if (c < '0' || c > '9') {
            return std::nullopt;
        }
        value = std::min(value * 10 + (c - '0'), kMostOfBody + 1);
    }
    return digits.empty() ? std::nullopt : std::optional(value);
}

// What a head says of its body.
void judge(Request& request, size_t& size)
{
    std::optional<std::string_view> digits = request.value("Content-Length");
    std::optional<size_t> length = digits ? length_of(*digits) : std::nullopt;
    size_t lengths = std::count_if(request.fields.begin(), request.fields.end(),
                                   [](const Field& it) { return equals_in_any_case(it.name, "Content-Length"); });
    if (digits && (!length || lengths > 1)) {
        request.framing = Request::kBadHead;
    } else if (request.value("Transfer-Encoding") || (!length && request.method == "POST")) {
        request.framing = Request::kLengthRequired;
    } else if (length && *length > kMostOfBody) {
        request.framing = Request::kTooLarge;
    }
    size = request.framing == Request::kWhole ? length.value_or(0) : 0;
    std::optional<std::string_view> connection = request.value("Connection");
    request.closes = request.closes || (connection && equals_in_any_case(*connection, "close")) || request.framing != Request::kWhole;
}

const char* phrase_of(int status)
{
    switch (status) {
    case 200:
        return "200 OK";
    case 201:
        return "201 Created";
    case 400:
        return "400 Bad Request";
    case 403:
        return "403 Forbidden";
    case 404:
        return "404 Not Found";
    case 405:
        return "405 Method Not Allowed";
    case 409:
        return "409 Conflict";
    case 411:
        return "411 Length Required";
    case 413:
        return "413 Payload Too Large";
    case 422:
        return "422 Unprocessable Entity";
    default:
        return "503 Service Unavailable";
    }
}

} // namespace

std::optional<std::string_view> Request::value(std::string_view name) const
{
    for (const Field& field : fields) {
        if (equals_in_any_case(field.name, name)) {
            return field.value;
        }
    }
    return std::nullopt;
}

// Only a head is filled up here, which is shorter than the room.
bool Unread::fill()
{
    std::memmove(room_.data(), room_.data() + start_, end_ - start_);
    end_ -= start_;
    start_ = 0;
    ssize_t count = read(descriptor_, room_.data() + end_, room_.size() - end_);
    if (count < 0) {
        throw BrokenStream();
    }
    end_ += count;
    return count > 0;
}

// A head at the start of what is unread, and how many bytes it has. A fault of a line that is whole decides at once.
Unread::Head Unread::parse(Request& request, size_t& size)
{
    std::string_view all = bytes();
    std::string_view rest = all, line;
    Head unfinished = all.size() < kMostOfHead ? Head::kUnfinished : Head::kBad;
    do {
        if (!take_line(rest, line)) {
            return unfinished;
        }
    } while (line.empty());
    if (!parse_start(line, request)) {
        return Head::kBad;
    }
    while (take_line(rest, line)) {
        if (line.empty()) {
            size = all.size() - rest.size();
            return size <= kMostOfHead ? Head::kWhole : Head::kBad;
        }
        if (!parse_field(line, request)) {
            return Head::kBad;
        }
    }
    return unfinished;
}

bool Unread::read_body(std::string& body, size_t size)
{
    size_t come = std::min(size, end_ - start_);
    body.assign(bytes(), 0, come);
    body.resize(size);
    start_ += come;
    while (come < size) {
        ssize_t count = read(descriptor_, body.data() + come, size - come);
        if (count < 0) {
            throw BrokenStream();
        }
        if (count == 0) {
            return false;
        }
        come += count;
    }
    return true;
}

Arrival Unread::next(Request& request)
{
    request.clear();
    size_t size = 0;
    Head head;
    while ((head = parse(request, size)) == Head::kUnfinished) {
        request.clear();
        if (!fill()) {
            return start_ == end_ ? Arrival::kEnd : Arrival::kCut;
        }
    }
    if (head == Head::kBad) {
        request.framing = Request::kBadHead;
        request.closes = true;
        return Arrival::kRequest;
    }
    start_ += size;
    size_t body = 0;
    judge(request, body);
    return read_body(request.body, body) ? Arrival::kRequest : Arrival::kCut;
}

std::string response(int status, bool is_text, bool closes, std::string_view body)
{
    char digits[20];
    std::string out;
    out.reserve(body.size() + 160);
    out.append("HTTP/1.1 ").append(phrase_of(status));
    out.append("\r\nContent-Type: ").append(is_text ? "text/plain" : "application/json");
    out.append("\r\nContent-Length: ").append(digits, std::to_chars(digits, digits + sizeof digits, body.size()).ptr);
    out.append("\r\nConnection: ").append(closes ? "close" : "keep-alive").append("\r\n\r\n").append(body);
    return out;
}

void write_all(int descriptor, std::string_view bytes)
{
    while (!bytes.empty()) {
        ssize_t count = write(descriptor, bytes.data(), bytes.size());
        if (count < 0) {
            throw BrokenStream();
        }
        bytes.remove_prefix(count);
    }
}
