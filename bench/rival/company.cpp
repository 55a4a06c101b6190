#include "company.h"

namespace {

uint64_t sum_since(const std::map<Day, uint64_t>& sums, Day since)
{
    uint64_t sum = 0;
    for (auto it = sums.lower_bound(since); it != sums.end(); ++it) {
        sum += it->second;
    }
    return sum;
}

} // namespace

void OpenSums::add_sent(bool debit, Day settled, uint64_t cents) { (debit ? debits_ : credits_)[settled] += cents; }

void OpenSums::remove_returned(Day settled, uint64_t cents)
{
    if (settled >= since_) {
        debits_[settled] -= cents;
    }
}

uint64_t OpenSums::credit_exposure(Day day) const { return held_credits_ + sum_since(credits_, day); }
uint64_t OpenSums::debit_exposure(Day since) const { return held_debits_ + sum_since(debits_, since); }

bool OpenSums::keep_since(Day since)
{
    if (since < since_) {
        return false;
    }
    since_ = since;
    credits_.erase(credits_.begin(), credits_.lower_bound(since));
    debits_.erase(debits_.begin(), debits_.lower_bound(since));
    return true;
}

// The second banking day after a settlement is monotonic in it, so all days back to the first that fails count.
Day first_open_settlement(Day day, const Calendar& calendar)
{
    Day first = day;
    while (calendar.nth_after(first - 1, 2) >= day) {
        first--;
    }
    return first;
}
