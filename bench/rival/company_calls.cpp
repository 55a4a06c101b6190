// The calls of companies.

#include "desk.h"

#include <algorithm>
#include <unordered_map>

namespace {

constexpr size_t kMostEntries = 1000;
constexpr uint64_t kMostTotal = 999'999'999'999;
constexpr int kLongestAsked = 60;
constexpr int kRetryDays = 180;
constexpr size_t kMostAttempts = 3;
constexpr int kWindow = 60;

Answer accepted(std::string_view ref, int64_t order, uint64_t cents, uint64_t entries)
{
    JsonText body;
    body.open('{').key("cents").number(cents).key("entries").number(entries);
    return {201, body.key("order").number(order).key("ref").text(ref).close('}').take()};
}

// An entry of the tables, with texts of its own.
struct StoredEntry {
    std::string routing, account, ident, name;
    std::optional<std::string> info;
    uint64_t cents;
    bool is_savings, is_prenote;

    explicit StoredEntry(const Rows& row)
        : routing(row.text(1)), account(row.text(2)), ident(row.text(6)), name(row.text(7)), cents(row.number(5)),
          is_savings(row.number(3)), is_prenote(row.number(4))
    {
        if (!row.is_null(8)) {
            info = row.text(8);
        }
    }

    Entry entry() const { return {routing, account, ident, name, info, cents, is_savings, is_prenote}; }
};

Entry entry_of(const Rows& row)
{
    std::optional<std::string_view> info;
    if (!row.is_null(8)) {
        info = row.text(8);
    }
    return {row.text(1), row.text(2), row.text(6), row.text(7), info, uint64_t(row.number(5)), row.number(3) != 0, row.number(4) != 0};
}

struct Rate {
    uint64_t d = 0, n = 0;
    uint64_t factor, level; // over if n * factor is more than d * level

    bool is_over() const { return n * factor > d * level; }
    void put(JsonText& body, std::string_view name) const
    {
        body.key(name).open('{').key("d").number(d).key("n").number(n).key("over").flag(is_over()).close('}');
    }
};

bool is_one_of(std::string_view code, std::initializer_list<std::string_view> codes)
{
    return std::find(codes.begin(), codes.end(), code) != codes.end();
}

} // namespace

struct Desk::Head {
    int64_t order = 0;
    std::string sec, description;
    bool is_debit = false, is_lapsed = false;
    Day asked = 0;
    std::optional<std::string> of;
    int64_t of_index = 0;
    std::optional<Day> settled;
};

struct Desk::Attempt {
    std::string code; // empty unless it was returned
    Day returned = 0;
};

bool Desk::find(Company& company, std::string_view ref, Head& head)
{
    Rows row = sql_.submission.query(std::string_view(company.id), ref);
    if (!row.next()) {
        return false;
    }
    head.order = row.number(0);
    head.sec = row.text(1);
    head.is_debit = row.text(2) == "debit";
    head.description = row.text(3);
    head.asked = row.number(4);
    if (!row.is_null(5)) {
        head.of = row.text(5);
        head.of_index = row.number(6);
    }
    head.is_lapsed = row.number(7) != 0;
    head.settled = row.day(8);
    return true;
}

bool Desk::is_same(Company& company, const Head& head, const Submission& asked)
{
    if (head.of || head.sec != asked.sec || head.is_debit != asked.is_debit || head.description != asked.description ||
        head.asked != asked.asked) {
        return false;
    }
    size_t at = 0;
    for (Rows rows = sql_.entries.query(std::string_view(company.id), head.order); rows.next(); at++) {
        if (at == asked.entries.size() || !(asked.entries[at] == entry_of(rows))) {
            return false;
        }
    }
    return at == asked.entries.size();
}

bool Desk::is_same(Company& company, const Head& head, const Retry& asked)
{
    if (head.of != asked.of || head.of_index != int64_t(asked.index) || head.asked != asked.asked) {
        return false;
    }
    Rows row = sql_.authorization.query(std::string_view(company.id), head.order);
    return (row.next() ? row.day(0) : std::nullopt) == asked.authorized;
}

// Refusals 6 to 9.
Refusal Desk::within_limits(Company& company, const Submission& asked)
{
    if (asked.asked <= *day_ || asked.asked > *day_ + kLongestAsked) {
        return {kDateRange};
    }
    for (const Entry& entry : asked.entries) {
        if (entry.cents > company.limits.entry) {
            return {kEntryLimit};
        }
    }
    const OpenSums& sums = sums_of(company);
    if (asked.is_debit) {
        return sums.debit_exposure(open_since_) + asked.total() > company.limits.debit ? Refusal{kDebitLimit} : Refusal();
    }
    return sums.credit_exposure(*day_) + asked.total() > company.limits.credit ? Refusal{kCreditLimit} : Refusal();
}

void Desk::add_entries(std::string_view company, int64_t order, const std::vector<Entry>& entries)
{
    size_t index = 0;
    while (index < entries.size()) {
        size_t count = entries.size() - index < kEntriesAtOnce ? 1 : kEntriesAtOnce;
        Statement& statement = count == 1 ? sql_.add_entry : sql_.add_entries;
        int place = 1;
        for (size_t end = index + count; index < end; index++) {
            const Entry& entry = entries[index];
            place = statement.bind_from(place, company, order, int64_t(index + 1), entry.routing, entry.account, entry.is_savings,
                                        entry.is_prenote, int64_t(entry.cents), entry.ident, entry.name, entry.info);
        }
        statement.run_bound();
    }
}

Answer Desk::add(Company& company, const Submission& asked, const Retry* retry)
{
    std::string_view id = company.id;
    int64_t order = orders_of(company) + 1;
    std::optional<std::string_view> of = retry ? std::optional(retry->of) : std::nullopt;
    std::optional<int64_t> of_index = retry ? std::optional<int64_t>(retry->index) : std::nullopt;
    Transaction transaction = begin();
    sql_.add_submission.run(id, order, asked.ref, asked.sec, asked.is_debit ? "debit" : "credit", asked.description, asked.asked, of, of_index);
    add_entries(id, order, asked.entries);
    if (retry && retry->authorized) {
        sql_.add_authorization.run(id, order, *retry->authorized);
    }
    transaction.commit();
    company.orders = order;
    company.sums->add_held(asked.is_debit, asked.total());
    return accepted(asked.ref, order, asked.total(), asked.entries.size());
}

Answer Desk::submit(Company& company, const JsonValue& object)
{
    if (!day_) {
        return refused({kNoDay});
    }
    Submission asked;
    if (Refusal why = read_submission(object, asked)) {
        return refused(why);
    }
    Head head;
    if (find(company, asked.ref, head)) {
        bool same = is_same(company, head, asked);
        return same ? accepted(asked.ref, head.order, asked.total(), asked.entries.size()) : refused({kRefReused});
    }
    if (asked.entries.size() > kMostEntries) {
        return refused({kTooManyEntries});
    }
    if (asked.total() > kMostTotal) {
        return refused({kTotalTooLarge});
    }
    Refusal why = within_limits(company, asked);
    return why ? refused(why) : add(company, asked, nullptr);
}

// An entry and its retries that have not lapsed, in order.
std::vector<Desk::Attempt> Desk::attempts(Company& company, const Head& original, const Retry& asked)
{
    std::vector<Attempt> tried;
    for (Rows rows = sql_.state.query(std::string_view(company.id), original.order, int64_t(asked.index)); rows.next();) {
        tried.push_back({std::string(rows.text(0)), Day(rows.number(1))});
    }
    for (Rows rows = sql_.retries.query(std::string_view(company.id), asked.of, int64_t(asked.index)); rows.next();) {
        tried.push_back({std::string(rows.text(0)), Day(rows.number(1))});
    }
    return tried;
}

// Refusals 11 to 14.
Refusal Desk::may_retry(Company& company, const Head& original, const Retry& asked)
{
    std::vector<Attempt> tried = attempts(company, original, asked);
    const Attempt& newest = tried.back();
    if (newest.code.empty()) {
        return {kNotReturned};
    }
    bool authorized = asked.authorized && *asked.authorized >= newest.returned && *asked.authorized <= *day_;
    if (!is_one_of(newest.code, {"R01", "R09"}) && !(newest.code == "R08" && authorized)) {
        return {kNotRetryable, newest.code};
    }
    if (tried.size() >= kMostAttempts) {
        return {kRetriesSpent};
    }
    return calendar_.roll(asked.asked) > *original.settled + kRetryDays ? Refusal{kRetryTooLate} : Refusal();
}

Answer Desk::retry(Company& company, const JsonValue& object)
{
    if (!day_) {
        return refused({kNoDay});
    }
    Retry asked;
    if (Refusal why = read_retry(object, asked)) {
        return refused(why);
    }
    Head head;
    if (find(company, asked.ref, head)) {
        if (!is_same(company, head, asked)) {
            return refused({kRefReused});
        }
        Rows row = sql_.entries.query(std::string_view(company.id), head.order);
        row.next();
        return accepted(asked.ref, head.order, row.number(5), 1);
    }
    Head original;
    if (!find(company, asked.of, original) || original.of || !original.is_debit) {
        return refused({kNoEntry});
    }
    std::optional<StoredEntry> entry;
    for (Rows rows = sql_.entries.query(std::string_view(company.id), original.order); !entry && rows.next();) {
        if (uint64_t(rows.number(0)) == asked.index) {
            entry.emplace(rows);
        }
    }
    if (!entry || entry->is_prenote) {
        return refused({kNoEntry});
    }
    if (Refusal why = may_retry(company, original, asked)) {
        return refused(why);
    }
    Submission again = {asked.ref, original.sec, "RETRY PYMT", true, asked.asked, {entry->entry()}};
    Refusal why = within_limits(company, again);
    return why ? refused(why) : add(company, again, &asked);
}

Answer Desk::look_up(Company& company, std::string_view ref)
{
    Head head;
    if (!is_ref(ref) || !find(company, ref, head)) {
        return fault(404, "NoReference");
    }
    JsonText entries(4096);
    uint64_t total = 0;
    entries.open('[');
    for (Rows rows = sql_.states.query(std::string_view(company.id), head.order); rows.next();) {
        bool is_returned = !rows.is_null(2);
        total += rows.number(1);
        entries.item().open('{').key("cents").number(rows.number(1));
        if (is_returned) {
            entries.key("code").text(rows.text(2));
        }
        entries.key("index").number(rows.number(0));
        if (is_returned) {
            entries.key("late").flag(rows.number(3)).key("returned").day(rows.number(4));
        }
        if (head.settled) {
            entries.key("settled").day(*head.settled);
        }
        entries.key("state").text(is_returned ? "returned" : head.is_lapsed ? "lapsed" : head.settled ? "sent" : "held").close('}');
    }
    entries.close(']');
    JsonText body(4096);
    body.open('{').key("cents").number(total).key("day").day(head.asked).key("direction").text(head.is_debit ? "debit" : "credit");
    body.key("entries").whole(entries.take());
    if (head.of) {
        body.key("of").text(*head.of).key("of_index").number(head.of_index);
    }
    return {200, body.key("order").number(head.order).key("ref").text(ref).key("sec").text(head.sec).close('}').take()};
}

// Rows of returns or changes. The reference of a submission is asked for once.
void Desk::put_rows(JsonText& body, Company& company, Statement& query, bool is_returns)
{
    std::unordered_map<int64_t, std::string> refs;
    for (Rows rows = query.query(std::string_view(company.id)); rows.next();) {
        auto [ref, is_new] = refs.try_emplace(rows.number(0));
        if (is_new) {
            Rows found = sql_.ref_of.query(std::string_view(company.id), rows.number(0));
            found.next();
            ref->second = found.text(0);
        }
        body.item().open('{').key("code").text(rows.text(1)).key("day").day(rows.number(2)).key("index").number(rows.number(3));
        if (is_returns) {
            std::string_view info = rows.text(4);
            body.key("info").text(info.substr(0, info.find_last_not_of(' ') + 1)).key("late").flag(rows.number(5));
            body.key("ref").text(ref->second);
        } else {
            body.key("ref").text(ref->second).key("text").text(rows.text(4));
        }
        body.close('}');
    }
}

Answer Desk::returns(Company& company)
{
    JsonText body(4096);
    body.open('{').key("returns").open('[');
    put_rows(body, company, sql_.returns, true);
    return {200, body.close(']').close('}').take()};
}

Answer Desk::changes(Company& company)
{
    JsonText body(4096);
    body.open('{').key("changes").open('[');
    put_rows(body, company, sql_.changes, false);
    return {200, body.close(']').close('}').take()};
}

Answer Desk::statement(Company& company)
{
    if (!day_) {
        return refused({kNoDay});
    }
    std::string account = "C:" + company.id;
    JsonText body(4096);
    body.open('{').key("balance").decimal(balance_on_day(account)).key("day").day(*day_).key("lines").open('[');
    for (Rows rows = sql_.postings.query(std::string_view(account)); rows.next();) {
        body.item().open('{').key("cause").text(rows.text(0)).key("cents").signed_number(rows.number(1));
        body.key("day").day(rows.number(2)).key("index").number(rows.number(3)).key("ref").text(rows.text(4)).close('}');
    }
    return {200, body.close(']').close('}').take()};
}

// The three rates, with the desk day between them if it is asked for.
void Desk::put_rates(JsonText& body, Company& company, bool has_day)
{
    Rate administrative{0, 0, 100, 3}, overall{0, 0, 100, 15}, unauthorized{0, 0, 1000, 5};
    Day first = *day_ - kWindow + 1;
    Rows count = sql_.settled_debits.query(std::string_view(company.id), first, *day_);
    count.next();
    administrative.d = overall.d = unauthorized.d = count.number(0);
    for (Rows rows = sql_.returned_debits.query(std::string_view(company.id), first, *day_); rows.next();) {
        std::string_view code = rows.text(0);
        overall.n++;
        administrative.n += is_one_of(code, {"R02", "R03", "R04"});
        unauthorized.n += is_one_of(code, {"R05", "R07", "R10", "R11", "R29"});
    }
    body.open('{');
    administrative.put(body, "administrative");
    if (has_day) {
        body.key("day").day(*day_);
    }
    overall.put(body, "overall");
    unauthorized.put(body, "unauthorized");
    body.close('}');
}

Answer Desk::rates(Company& company)
{
    if (!day_) {
        return refused({kNoDay});
    }
    JsonText body;
    put_rates(body, company, true);
    return {200, body.take()};
}

Answer Desk::exposure(Company& company)
{
    if (!day_) {
        return refused({kNoDay});
    }
    const OpenSums& sums = sums_of(company);
    JsonText body;
    body.open('{').key("credit").decimal(sums.credit_exposure(*day_)).key("credit_limit").number(company.limits.credit);
    body.key("day").day(*day_).key("debit").decimal(sums.debit_exposure(open_since_)).key("debit_limit").number(company.limits.debit);
    return {200, body.key("entry_limit").number(company.limits.entry).close('}').take()};
}

Answer Desk::companies()
{
    if (!day_) {
        return refused({kNoDay});
    }
    JsonText body(4096);
    body.open('{').key("companies").open('[');
    for (auto& [id, company] : companies_) {
        const OpenSums& sums = sums_of(company);
        body.item().open('{').key("credit").decimal(sums.credit_exposure(*day_)).key("credit_limit").number(company.limits.credit);
        body.key("debit").decimal(sums.debit_exposure(open_since_)).key("debit_limit").number(company.limits.debit);
        body.key("entry_limit").number(company.limits.entry).key("id").text(id).key("name").text(company.name).key("rates");
        put_rates(body, company, false);
        body.close('}');
    }
    return {200, body.close(']').key("day").day(*day_).close('}').take()};
}
