#include "days.h"

#include <algorithm>

namespace {

constexpr size_t kMostHolidays = 400;

bool is_leap(int year) { return year % 4 == 0 && (year % 100 != 0 || year % 400 == 0); }

int days_in_month(int year, int month)
{
    static constexpr int kDays[] = {31, 28, 31, 30, 31, 30, 31, 31, 30, 31, 30, 31};
    return month == 2 && is_leap(year) ? 29 : kDays[month - 1];
}

// The number that digits write, or -1 if one is not a digit.
int digits(std::string_view text)
{
    int value = 0;
    for (char c : text) {
        if (c < '0' || c > '9') {
            return -1;
        }
        value = value * 10 + (c - '0');
    }
    return value;
}

// The field of a row that has one: plain, or in quotes with quotes doubled.
std::optional<std::string> only_field(std::string_view row)
{
    if (row.empty() || row[0] != '"') {
        return row.find(',') == row.npos ? std::optional(std::string(row)) : std::nullopt;
    }
    std::string field;
    for (size_t at = 1; at < row.size(); at++) {
        if (row[at] != '"') {
            field += row[at];
        } else if (at + 1 < row.size() && row[at + 1] == '"') {
            field += row[++at];
        } else {
            return at + 1 == row.size() ? std::optional(field) : std::nullopt;
        }
    }
    return field;
}

// The rows of a CSV text that are not empty. No date has a line end in its quotes, so rows end at any.
std::vector<std::string_view> rows_of(std::string_view text)
{
    std::vector<std::string_view> rows;
    while (!text.empty()) {
        size_t end = std::min(text.find_first_of("\r\n"), text.size());
        if (end > 0) {
            rows.push_back(text.substr(0, end));
        }
        text.remove_prefix(std::min(end + 1, text.size()));
    }
    return rows;
}

} // namespace

// Howard Hinnant's conversions, for years in which all terms are positive.
Day day_of(const Date& date)
{
    int year = date.month <= 2 ? date.year - 1 : date.year;
    int era = year / 400;
    int year_of_era = year - era * 400;
    int day_of_year = (153 * (date.month + (date.month > 2 ? -3 : 9)) + 2) / 5 + date.day - 1;
    return era * 146097 + year_of_era * 365 + year_of_era / 4 - year_of_era / 100 + day_of_year - 719468;
}

Date date_of(Day day)
{
    int shifted = day + 719468;
    int era = shifted / 146097;
    int day_of_era = shifted - era * 146097;
    int year_of_era = (day_of_era - day_of_era / 1460 + day_of_era / 36524 - day_of_era / 146096) / 365;
    int day_of_year = day_of_era - (365 * year_of_era + year_of_era / 4 - year_of_era / 100);
    int shifted_month = (5 * day_of_year + 2) / 153;
    int month = shifted_month + (shifted_month < 10 ? 3 : -9);
    int year = year_of_era + era * 400 + (month <= 2 ? 1 : 0);
    return {year, month, day_of_year - (153 * shifted_month + 2) / 5 + 1};
}

std::optional<Day> read_day(std::string_view text)
{
    if (text.size() != 10 || text[4] != '-' || text[7] != '-') {
        return std::nullopt;
    }
    Date date = {digits(text.substr(0, 4)), digits(text.substr(5, 2)), digits(text.substr(8, 2))};
    bool is_real = date.year >= 2000 && date.year <= 2099 && date.month >= 1 && date.month <= 12 && date.day >= 1 &&
                   date.day <= days_in_month(date.year, date.month);
    return is_real ? std::optional(day_of(date)) : std::nullopt;
}

void put_day(std::string& out, Day day)
{
    Date date = date_of(day);
    char text[10] = {char('0' + date.year / 1000),    char('0' + date.year / 100 % 10), char('0' + date.year / 10 % 10),
                     char('0' + date.year % 10),      '-',                              char('0' + date.month / 10),
                     char('0' + date.month % 10),     '-',                              char('0' + date.day / 10),
                     char('0' + date.day % 10)};
    out.append(text, sizeof text);
}

bool Calendar::is_banking(Day day) const
{
    int weekday = (day + 4) % 7; // 0 is Sunday
    return weekday != 0 && weekday != 6 && !std::binary_search(holidays_.begin(), holidays_.end(), day);
}

Day Calendar::next(Day day) const
{
    do {
        day++;
    } while (!is_banking(day));
    return day;
}

Day Calendar::nth_after(Day day, int count) const
{
    while (count-- > 0) {
        day = next(day);
    }
    return day;
}

HolidayList read_holidays(std::string_view text)
{
    HolidayList list;
    for (std::string_view row : rows_of(text)) {
        size_t number = list.days.size() + 1;
        std::optional<std::string> field = only_field(row);
        std::optional<Day> day = field ? read_day(*field) : std::nullopt;
        if (!day) {
            return {{}, "BadRow", number};
        }
        if (!list.days.empty() && *day <= list.days.back()) {
            return {{}, "NotAscending", number};
        }
        if (number > kMostHolidays) {
            return {{}, "TooMany", 0};
        }
        list.days.push_back(*day);
    }
    return list;
}
