#include "bodies.h"

#include <algorithm>

namespace {

using namespace std::string_view_literals;

constexpr uint64_t kMostOfEntry = 9'999'999'999;
constexpr uint64_t kMostExposure = 999'999'999'999'999;
constexpr Day kLastDeskDay = 46386; // 2096-12-31

// A text of a value, and none if the value is missing or of another kind.
std::optional<std::string_view> text_of(const JsonValue* value)
{
    if (value == nullptr || !value->IsString()) {
        return std::nullopt;
    }
    return std::string_view(value->GetString(), value->GetStringLength());
}

std::optional<uint64_t> number_of(const JsonValue* value)
{
    return value != nullptr && value->IsUint64() ? std::optional(value->GetUint64()) : std::nullopt;
}

bool is_all(std::string_view text, bool (*is_good)(char))
{
    return std::all_of(text.begin(), text.end(), is_good);
}

bool is_printable(char c) { return c >= 0x20 && c <= 0x7E; }
bool is_digit(char c) { return c >= '0' && c <= '9'; }
bool is_upper_or_digit(char c) { return (c >= 'A' && c <= 'Z') || is_digit(c); }
bool is_of_ref(char c) { return is_upper_or_digit(c) || (c >= 'a' && c <= 'z') || c == '-' || c == '_' || c == '.'; }

// Text n of the rules: 1 to n printable characters, without a blank at either end.
bool is_text(std::string_view text, size_t most)
{
    return !text.empty() && text.size() <= most && text.front() != ' ' && text.back() != ' ' && is_all(text, is_printable);
}

bool is_id(std::string_view text) { return !text.empty() && text.size() <= 10 && is_all(text, is_upper_or_digit); }

bool is_key(std::string_view text)
{
    return text.size() >= 8 && text.size() <= 64 && is_all(text, [](char c) { return c > 0x20 && c <= 0x7E; });
}

bool is_routing(std::string_view text)
{
    static constexpr int kWeights[] = {3, 7, 1, 3, 7, 1, 3, 7, 1};
    if (text.size() != 9 || !is_all(text, is_digit)) {
        return false;
    }
    int sum = 0;
    for (int at = 0; at < 9; at++) {
        sum += kWeights[at] * (text[at] - '0');
    }
    return sum % 10 == 0;
}

Refusal bad(std::string_view field, uint64_t index = 0) { return {kBadField, std::string(field), index}; }

bool take_text(const JsonValue* value, size_t most, std::string_view& out)
{
    std::optional<std::string_view> text = text_of(value);
    return text && is_text(out = *text, most);
}

bool take_ref(const JsonValue* value, std::string_view& out)
{
    std::optional<std::string_view> text = text_of(value);
    return text && is_ref(out = *text);
}

bool take_day(const JsonValue* value, Day& out)
{
    std::optional<std::string_view> text = text_of(value);
    std::optional<Day> day = text ? read_day(*text) : std::nullopt;
    out = day.value_or(0);
    return day.has_value();
}

// One of two words; `out` tells whether it is the second.
bool take_choice(const JsonValue* value, std::string_view first, std::string_view second, bool& out)
{
    std::optional<std::string_view> text = text_of(value);
    out = text == second;
    return out || text == first;
}

bool take_number(const JsonValue* value, uint64_t most, uint64_t& out)
{
    std::optional<uint64_t> number = number_of(value);
    out = number.value_or(0);
    return number && *number <= most;
}

bool take_prenote(const JsonValue* value, bool& out)
{
    out = value != nullptr && value->IsTrue();
    return value == nullptr || value->IsBool();
}

bool take_ident(const JsonValue* value, std::string_view& out)
{
    std::optional<std::string_view> text = text_of(value);
    return text && ((out = *text).empty() || is_text(out, 15));
}

bool take_info(const JsonValue* value, std::optional<std::string_view>& out)
{
    if (value == nullptr) {
        return true;
    }
    std::string_view text;
    bool is_good = take_text(value, 80, text);
    out = text;
    return is_good;
}

Refusal read_entry(const JsonValue& value, uint64_t index, Entry& out)
{
    static constexpr std::array kKeys = {"routing"sv, "account"sv, "kind"sv, "prenote"sv, "cents"sv, "id"sv, "name"sv, "info"sv};
    if (!value.IsObject()) {
        return bad("entries", index);
    }
    auto [routing, account, kind, prenote, cents, id, name, info] = members_of(value, kKeys);
    std::optional<std::string_view> routing_text = text_of(routing);
    if (!routing_text || !is_routing(out.routing = *routing_text)) {
        return bad("routing", index);
    }
    if (!take_text(account, 17, out.account)) {
        return bad("account", index);
    }
    if (!take_choice(kind, "checking", "savings", out.is_savings)) {
        return bad("kind", index);
    }
    if (!take_prenote(prenote, out.is_prenote)) {
        return bad("prenote", index);
    }
    if (!take_number(cents, kMostOfEntry, out.cents) || (out.cents == 0) != out.is_prenote) {
        return bad("cents", index);
    }
    if (!take_ident(id, out.ident)) {
        return bad("id", index);
    }
    if (!take_text(name, 22, out.name)) {
        return bad("name", index);
    }
    return take_info(info, out.info) ? Refusal() : bad("info", index);
}

Refusal read_entries(const JsonValue* values, std::vector<Entry>& out)
{
    if (values == nullptr || !values->IsArray() || values->Empty()) {
        return bad("entries");
    }
    out.resize(values->Size());
    for (unsigned at = 0; at < values->Size(); at++) {
        if (Refusal why = read_entry((*values)[at], at + 1, out[at])) {
            return why;
        }
    }
    return {};
}

Refusal read_three_limits(const JsonValue* entry, const JsonValue* credit, const JsonValue* debit, Limits& out)
{
    if (!take_number(entry, kMostOfEntry, out.entry)) {
        return bad("entry_limit");
    }
    if (!take_number(credit, kMostExposure, out.credit)) {
        return bad("credit_limit");
    }
    return take_number(debit, kMostExposure, out.debit) ? Refusal() : bad("debit_limit");
}

std::string_view name_of(Number number)
{
    static constexpr std::string_view kNames[] = {
        "", "NoDay", "BadField", "RefReused", "TooManyEntries", "TotalTooLarge", "DateRange", "EntryLimit", "CreditLimit", "DebitLimit",
        "NoEntry", "NotReturned", "NotRetryable", "RetriesSpent", "RetryTooLate", "", "", "", "", "", "DayNotLater", "NotBankingDay",
        "CompanyExists", "NoCompany", "TracesSpent", "ModifiersSpent", "FileKeyReused", "BadFile", "BadCalendar"};
    return kNames[number];
}

} // namespace

bool Entry::operator==(const Entry& other) const
{
    return routing == other.routing && account == other.account && ident == other.ident && name == other.name && info == other.info &&
           cents == other.cents && is_savings == other.is_savings && is_prenote == other.is_prenote;
}

uint64_t Submission::total() const
{
    uint64_t sum = 0;
    for (const Entry& entry : entries) {
        sum += entry.cents;
    }
    return sum;
}

bool is_ref(std::string_view text) { return !text.empty() && text.size() <= 20 && is_all(text, is_of_ref); }

Refusal read_submission(const JsonValue& object, Submission& out)
{
    static constexpr std::array kKeys = {"ref"sv, "sec"sv, "direction"sv, "description"sv, "day"sv, "entries"sv};
    auto [ref, sec, direction, description, day, entries] = members_of(object, kKeys);
    if (!take_ref(ref, out.ref)) {
        return bad("ref");
    }
    bool is_ccd = false;
    if (!take_choice(sec, "PPD", "CCD", is_ccd)) {
        return bad("sec");
    }
    out.sec = is_ccd ? "CCD" : "PPD";
    if (!take_choice(direction, "credit", "debit", out.is_debit)) {
        return bad("direction");
    }
    if (!take_text(description, 10, out.description) || out.description == "RETRY PYMT" || out.description == "REVERSAL") {
        return bad("description");
    }
    if (!take_day(day, out.asked)) {
        return bad("day");
    }
    return read_entries(entries, out.entries);
}

Refusal read_retry(const JsonValue& object, Retry& out)
{
    static constexpr std::array kKeys = {"ref"sv, "of"sv, "index"sv, "day"sv, "authorized"sv};
    auto [ref, of, index, day, authorized] = members_of(object, kKeys);
    if (!take_ref(ref, out.ref)) {
        return bad("ref");
    }
    if (!take_ref(of, out.of)) {
        return bad("of");
    }
    if (!take_number(index, 1000, out.index) || out.index == 0) {
        return bad("index");
    }
    if (!take_day(day, out.asked)) {
        return bad("day");
    }
    Day authorization = 0;
    if (authorized != nullptr && !take_day(authorized, authorization)) {
        return bad("authorized");
    }
    out.authorized = authorized != nullptr ? std::optional(authorization) : std::nullopt;
    return {};
}

Refusal read_desk_day(const JsonValue& object, Day& out)
{
    auto [day] = members_of(object, std::array{"day"sv});
    return take_day(day, out) && out <= kLastDeskDay ? Refusal() : bad("day");
}

Refusal read_company(const JsonValue& object, NewCompany& out)
{
    static constexpr std::array kKeys = {"id"sv, "name"sv, "key"sv, "entry_limit"sv, "credit_limit"sv, "debit_limit"sv};
    auto [id, name, key, entry, credit, debit] = members_of(object, kKeys);
    if (!is_id(out.id = text_of(id).value_or(""))) {
        return bad("id");
    }
    if (!take_text(name, 16, out.name)) {
        return bad("name");
    }
    if (!is_key(out.key = text_of(key).value_or(""))) {
        return bad("key");
    }
    return read_three_limits(entry, credit, debit, out.limits);
}

Refusal read_limits(const JsonValue& object, std::string_view& id, Limits& out)
{
    static constexpr std::array kKeys = {"id"sv, "entry_limit"sv, "credit_limit"sv, "debit_limit"sv};
    auto [given, entry, credit, debit] = members_of(object, kKeys);
    if (!is_id(id = text_of(given).value_or(""))) {
        return bad("id");
    }
    return read_three_limits(entry, credit, debit, out);
}

int status_of(const Refusal& refusal)
{
    switch (refusal.number) {
    case kBadField:
    case kTooManyEntries:
    case kTotalTooLarge:
    case kDateRange:
    case kBadFile:
    case kBadCalendar:
        return 422;
    default:
        return 409;
    }
}

// The members of each refusal, in byte order.
std::string refusal_body(const Refusal& refusal)
{
    JsonText body;
    body.open('{');
    if (refusal.number == kNotRetryable) {
        body.key("code").text(refusal.detail);
    }
    body.key("error").text(name_of(refusal.number));
    if (refusal.number == kBadField) {
        body.key("field").text(refusal.detail).key("index").number(refusal.at);
    }
    if (refusal.number == kBadFile || refusal.number == kBadCalendar) {
        body.key("fault").text(refusal.detail);
    }
    body.key("number").number(refusal.number);
    if (refusal.number == kBadFile) {
        body.key("record").number(refusal.at);
    }
    if (refusal.number == kBadCalendar) {
        body.key("row").number(refusal.at);
    }
    return body.close('}').take();
}
