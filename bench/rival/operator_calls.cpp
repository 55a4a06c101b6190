// The calls of the operator, but for the cut and the status.

#include "desk.h"

#include <unordered_map>

namespace {

constexpr size_t kDfi = 8;
constexpr std::string_view kDigits = "0123456789";

int two_digits(std::string_view text)
{
    return text.find_first_not_of(kDigits) == text.npos ? (text[0] - '0') * 10 + (text[1] - '0') : 0;
}

// Is it this letter and a number from 01 to the greatest?
bool is_code(std::string_view code, char letter, int greatest)
{
    int number = code[0] == letter ? two_digits(code.substr(1)) : 0;
    return number >= 1 && number <= greatest;
}

// The last day on which a return is in time; none without a limit.
std::optional<Day> deadline(std::string_view code, Day settled, const Calendar& calendar)
{
    switch (two_digits(code.substr(1))) {
    case 6:
    case 13:
    case 18:
    case 19:
    case 23:
    case 25:
    case 26:
    case 27:
    case 28:
        return std::nullopt;
    case 5:
    case 7:
    case 10:
    case 11:
        return calendar.next(settled + 60);
    default:
        return calendar.nth_after(settled, 2);
    }
}

std::string_view bytes_of(const Digest& digest) { return {reinterpret_cast<const char*>(digest.data()), digest.size()}; }

Answer taken_answer(Day day, int64_t returns, int64_t changes, int64_t late, int64_t suspense)
{
    JsonText body;
    body.open('{').key("changes").number(changes).key("day").day(day).key("late").number(late);
    return {200, body.key("returns").number(returns).key("suspense").number(suspense).close('}').take()};
}

Answer id_answer(int status, std::string_view id) { return {status, JsonText().open('{').key("id").text(id).close('}').take()}; }

} // namespace

Answer Desk::set_day(const JsonValue& object)
{
    Day day = 0;
    if (Refusal why = read_desk_day(object, day)) {
        return refused(why);
    }
    if (day_ && day <= *day_) {
        return refused({kDayNotLater});
    }
    if (!calendar_.is_banking(day)) {
        return refused({kNotBankingDay});
    }
    Transaction transaction = begin();
    sql_.set_day.run(day);
    transaction.commit();
    day_ = day;
    keep_sums();
    return {200, JsonText().open('{').key("day").day(day).close('}').take()};
}

Answer Desk::set_holidays(std::string_view text)
{
    HolidayList list = read_holidays(text);
    if (list.fault != nullptr) {
        return refused({kBadCalendar, list.fault, list.row});
    }
    Transaction transaction = begin();
    sql_.clear_holidays.run();
    for (Day day : list.days) {
        sql_.add_holiday.run(day);
    }
    transaction.commit();
    calendar_ = Calendar(std::move(list.days));
    keep_sums();
    return {200, JsonText().open('{').key("holidays").number(calendar_.holidays().size()).close('}').take()};
}

Answer Desk::put_company(const JsonValue& object)
{
    NewCompany asked;
    if (Refusal why = read_company(object, asked)) {
        return refused(why);
    }
    if (companies_.count(asked.id) > 0) {
        return refused({kCompanyExists});
    }
    Company company{std::string(asked.id), std::string(asked.name), sha256(asked.key), asked.limits, 0, OpenSums(open_since_)};
    Transaction transaction = begin();
    sql_.add_company.run(asked.id, asked.name, Blob{bytes_of(company.key)}, int64_t(asked.limits.entry), int64_t(asked.limits.credit),
                         int64_t(asked.limits.debit));
    transaction.commit();
    companies_.emplace(company.id, std::move(company));
    return id_answer(201, asked.id);
}

Answer Desk::put_limits(const JsonValue& object)
{
    std::string_view id;
    Limits limits;
    if (Refusal why = read_limits(object, id, limits)) {
        return refused(why);
    }
    auto company = companies_.find(id);
    if (company == companies_.end()) {
        return refused({kNoCompany});
    }
    Transaction transaction = begin();
    sql_.set_limits.run(id, int64_t(limits.entry), int64_t(limits.credit), int64_t(limits.debit));
    transaction.commit();
    company->second.limits = limits;
    return id_answer(200, id);
}

namespace {

// What a return or change needs of a submission.
struct SentSubmission {
    std::string ref, sec;
    bool is_debit;
    Day settled;
};

struct SubmissionKey {
    const Company* company;
    int64_t order;

    bool operator==(const SubmissionKey& other) const { return company == other.company && order == other.order; }
};

struct SubmissionHash {
    size_t operator()(const SubmissionKey& key) const { return std::hash<const void*>()(key.company) * 31 + key.order; }
};

struct ReturnedDebit {
    Company* company;
    Day settled;
    uint64_t cents;
};

// The transaction code of a return or change of an entry.
int returned_code(bool savings, bool debit) { return (savings ? 31 : 21) + (debit ? 5 : 0); }

} // namespace

// The sent entry that an item names, with its submission.
struct Desk::Named {
    Company* company = nullptr;
    int64_t order = 0, index = 0;
    std::string dfi;
    bool is_savings = false;
    uint64_t cents = 0;
    const SentSubmission* of = nullptr;
};

struct Desk::Intake {
    Intake(Statements& sql, std::string_view key) : file_key(key), lines(sql) {}

    std::string_view file_key;
    Lines lines;
    std::unordered_map<SubmissionKey, SentSubmission, SubmissionHash> submissions; // each is read once
    std::vector<ReturnedDebit> returned;
    int64_t returns = 0, changes = 0, late = 0, suspense = 0;
};

bool Desk::find_named(const Item& item, Intake& intake, Named& named)
{
    std::string_view sequence = item.trace.substr(kDfi);
    if (item.trace.substr(0, kDfi) != std::string_view(identity_.odfi).substr(0, kDfi) || sequence.find_first_not_of(kDigits) != sequence.npos) {
        return false;
    }
    int64_t number = 0;
    for (char c : sequence) {
        number = number * 10 + (c - '0');
    }
    Rows entry = sql_.traced.query(number);
    if (!entry.next()) {
        return false;
    }
    Company& company = companies_.find(entry.text(0))->second;
    named = {&company, entry.number(1), entry.number(2), std::string(entry.text(3).substr(0, kDfi)), entry.number(4) != 0, uint64_t(entry.number(5))};
    auto [submission, is_new] = intake.submissions.try_emplace({&company, named.order});
    if (is_new) {
        Rows row = sql_.sent_of.query(std::string_view(company.id), named.order);
        row.next();
        submission->second = {std::string(row.text(0)), std::string(row.text(1)), row.text(2) == "debit", Day(row.number(3))};
    }
    named.of = &submission->second;
    return true;
}

// That an entry was returned before, by this file or an earlier one, is found by the key of the table.
const char* Desk::post_return(const Item& item, const Named& named, Intake& intake)
{
    const SentSubmission& of = *named.of;
    std::optional<Day> last = deadline(item.code, of.settled, calendar_);
    bool is_late = last && *day_ > *last;
    sql_.add_return.run(std::string_view(named.company->id), named.order, named.index, item.code, *day_, is_late, item.text);
    if (db_.changes() == 0) {
        return "AlreadyReturned";
    }
    int64_t cents = named.cents;
    intake.lines.post("C:" + named.company->id, *day_, of.is_debit ? -cents : cents, "return", of.ref, named.index);
    intake.returns++;
    intake.late += is_late;
    if (of.is_debit) {
        intake.returned.push_back({named.company, of.settled, named.cents});
    }
    return nullptr;
}

// Posts an item, or gives the reason against it.
const char* Desk::post(const Item& item, Intake& intake)
{
    Named named;
    if (!find_named(item, intake, named)) {
        return "NoTrace";
    }
    const SentSubmission& of = *named.of;
    if (item.sec != (item.is_return ? std::string_view(of.sec) : "COR") || item.transaction != returned_code(named.is_savings, of.is_debit) ||
        item.dfi != named.dfi || (item.is_return && item.cents != named.cents)) {
        return "Differs";
    }
    if (!is_code(item.code, item.is_return ? 'R' : 'C', item.is_return ? 29 : 14)) {
        return "CodeOutside";
    }
    if (item.is_return) {
        return post_return(item, named, intake);
    }
    sql_.add_change.run(std::string_view(named.company->id), named.order, named.index, item.code, *day_, item.text);
    intake.changes++;
    return nullptr;
}

void Desk::put_in_suspense(const Item& item, int64_t number, const char* why, Intake& intake)
{
    int64_t cents = item.is_return ? item.cents : 0;
    bool is_debit = item.transaction % 10 >= 5;
    intake.suspense++;
    sql_.add_suspense.run(intake.file_key, number, why, item.code, item.trace, cents, *day_);
    intake.lines.post("S", *day_, is_debit ? -cents : cents, "return", "", 0);
}

void Desk::write(const Incoming& incoming, Intake& intake)
{
    int64_t number = 0;
    for (const Item& item : incoming.items) {
        number++;
        if (const char* why = post(item, intake)) {
            put_in_suspense(item, number, why, intake);
        }
    }
    intake.lines.finish();
    sql_.add_taken.run(incoming.key, Blob{bytes_of(incoming.digest)}, *day_, intake.returns, intake.changes, intake.late, intake.suspense);
}

Answer Desk::take_new(const Incoming& incoming)
{
    Intake intake(sql_, incoming.key);
    Transaction transaction = begin();
    write(incoming, intake);
    transaction.commit();
    for (const ReturnedDebit& one : intake.returned) {
        if (one.company->sums) {
            one.company->sums->remove_returned(one.settled, one.cents);
        }
    }
    return taken_answer(*day_, intake.returns, intake.changes, intake.late, intake.suspense);
}

Answer Desk::take_file(std::string_view bytes)
{
    if (!day_) {
        return refused({kNoDay});
    }
    Incoming incoming = read_file(bytes);
    if (incoming.fault != nullptr) {
        return refused({kBadFile, incoming.fault, incoming.record});
    }
    Rows first = sql_.taken.query(incoming.key);
    if (!first.next()) {
        return take_new(incoming);
    }
    if (first.bytes(0) != bytes_of(incoming.digest)) {
        return refused({kFileKeyReused});
    }
    return taken_answer(first.number(1), first.number(2), first.number(3), first.number(4), first.number(5));
}

Answer Desk::file(std::string_view day, std::string_view modifier)
{
    std::optional<Day> made = read_day(day);
    if (made) {
        Rows row = sql_.file.query(*made, modifier);
        if (row.next()) {
            return {200, std::string(row.bytes(0)), true};
        }
    }
    return fault(404, "NoFile");
}

Answer Desk::settlement()
{
    if (!day_) {
        return refused({kNoDay});
    }
    JsonText body(4096);
    body.open('{').key("balance").decimal(balance_on_day("O")).key("day").day(*day_).key("days").open('[');
    for (Rows rows = sql_.balances.query("O"); rows.next();) {
        body.item().open('{').key("cents").text(rows.text(1)).key("day").day(rows.number(0)).close('}');
    }
    return {200, body.close(']').close('}').take()};
}

Answer Desk::suspense()
{
    JsonText body(4096);
    body.open('{').key("items").open('[');
    for (Rows rows = sql_.suspense.query(); rows.next();) {
        body.item().open('{').key("cents").number(rows.number(0)).key("code").text(rows.text(1)).key("day").day(rows.number(2));
        body.key("file").text(rows.text(3)).key("item").number(rows.number(4)).key("trace").text(rows.text(5));
        body.key("why").text(rows.text(6)).close('}');
    }
    return {200, body.close(']').close('}').take()};
}
