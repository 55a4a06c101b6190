// What is remembered of a company, so that its exposures need no reading.
#pragma once

#include "bodies.h"
#include "sha256.h"

#include <map>
#include <optional>
#include <string>

// The cents of a company's open entries: held, or sent and settled since a day, by the day of settlement. Lapsed
// entries and returned debits are not counted.
class OpenSums {
public:
    explicit OpenSums(Day since) : since_(since) {}

    void add_held(bool debit, uint64_t cents) { held(debit) += cents; }
    void remove_held(bool debit, uint64_t cents) { held(debit) -= cents; }
    void add_sent(bool debit, Day settled, uint64_t cents);
    void remove_returned(Day settled, uint64_t cents); // of a debit

    uint64_t credit_exposure(Day day) const;
    uint64_t debit_exposure(Day since) const;

    // Forgets what settled before a day. Gives false if earlier days, which it does not have, are asked for.
    bool keep_since(Day since);

private:
    using ByDay = std::map<Day, uint64_t>;

    uint64_t& held(bool debit) { return debit ? held_debits_ : held_credits_; }

    Day since_;
    uint64_t held_credits_ = 0, held_debits_ = 0;
    ByDay credits_, debits_;
};

// The first day of settlement of which a sent debit still counts on the desk day.
Day first_open_settlement(Day day, const Calendar& calendar);

struct Company {
    std::string id, name;
    Digest key{};
    Limits limits;
    std::optional<int64_t> orders; // how many submissions and retries it has
    std::optional<OpenSums> sums;
};

using Companies = std::map<std::string, Company, std::less<>>;
