// Days as numbers (0 is 1970-01-01), and the banking days of a holiday list.
#pragma once

#include <optional>
#include <string>
#include <string_view>
#include <vector>

using Day = int;

struct Date {
    int year, month, day;
};

Day day_of(const Date& date);
Date date_of(Day day);

// Reads YYYY-MM-DD, a real day from 2000 to 2099.
std::optional<Day> read_day(std::string_view text);
void put_day(std::string& out, Day day);

class Calendar {
public:
    explicit Calendar(std::vector<Day> holidays = {}) : holidays_(std::move(holidays)) {}

    bool is_banking(Day day) const;
    Day next(Day day) const;
    Day nth_after(Day day, int count) const;
    Day roll(Day day) const { return is_banking(day) ? day : next(day); }
    const std::vector<Day>& holidays() const { return holidays_; }

private:
    std::vector<Day> holidays_; // ascending
};

// A holiday list in CSV, or its first fault: `fault` is then BadRow, NotAscending or TooMany.
struct HolidayList {
    std::vector<Day> days;
    const char* fault = nullptr;
    size_t row = 0;
};

HolidayList read_holidays(std::string_view text);
