// What companies and the operator ask for, read from bodies, and the refusals that fields lead to.
#pragma once

#include "days.h"
#include "json.h"

#include <cstdint>
#include <optional>
#include <string>
#include <string_view>
#include <variant>
#include <vector>

// The numbers of refusals.
enum Number {
    kAccepted = 0,
    kNoDay = 1,
    kBadField = 2,
    kRefReused = 3,
    kTooManyEntries = 4,
    kTotalTooLarge = 5,
    kDateRange = 6,
    kEntryLimit = 7,
    kCreditLimit = 8,
    kDebitLimit = 9,
    kNoEntry = 10,
    kNotReturned = 11,
    kNotRetryable = 12,
    kRetriesSpent = 13,
    kRetryTooLate = 14,
    kDayNotLater = 20,
    kNotBankingDay = 21,
    kCompanyExists = 22,
    kNoCompany = 23,
    kTracesSpent = 24,
    kModifiersSpent = 25,
    kFileKeyReused = 26,
    kBadFile = 27,
    kBadCalendar = 28,
};

struct Refusal {
    Number number = kAccepted;
    std::string detail{}; // the field, the return code, or the fault of a file or holiday list
    uint64_t at = 0;      // the entry of the field, or the record or row with the fault

    explicit operator bool() const { return number != kAccepted; }
};

struct Limits {
    uint64_t entry = 0, credit = 0, debit = 0;
};

// An entry. Its texts are slices of a body or of a row.
struct Entry {
    std::string_view routing, account, ident, name;
    std::optional<std::string_view> info;
    uint64_t cents = 0;
    bool is_savings = false, is_prenote = false;

    bool operator==(const Entry& other) const;
};

struct Submission {
    std::string_view ref, sec, description;
    bool is_debit = false;
    Day asked = 0;
    std::vector<Entry> entries;

    uint64_t total() const;
};

struct Retry {
    std::string_view ref, of;
    uint64_t index = 0;
    Day asked = 0;
    std::optional<Day> authorized;
};

struct NewCompany {
    std::string_view id, name, key;
    Limits limits;
};

// Each reads an object into `out`, or tells the first invalid field.
Refusal read_submission(const JsonValue& object, Submission& out);
Refusal read_retry(const JsonValue& object, Retry& out);
Refusal read_desk_day(const JsonValue& object, Day& out);
Refusal read_company(const JsonValue& object, NewCompany& out);
Refusal read_limits(const JsonValue& object, std::string_view& id, Limits& out);

bool is_ref(std::string_view text);
std::string refusal_body(const Refusal& refusal);
int status_of(const Refusal& refusal);
