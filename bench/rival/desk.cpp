#include "desk.h"

#include <algorithm>
#include <cstring>

namespace {

// What `achdesk init` makes is opened: a log that is synced at each commit, and a lock that is held.
constexpr const char* kSettings = "PRAGMA locking_mode = EXCLUSIVE; PRAGMA journal_mode = WAL; PRAGMA synchronous = FULL; "
                                  "PRAGMA cache_size = 2000; PRAGMA wal_autocheckpoint = 1000";

Digest digest_of(std::string_view bytes)
{
    Digest digest{};
    std::memcpy(digest.data(), bytes.data(), std::min(bytes.size(), digest.size()));
    return digest;
}

// The text of an insertion of some entries, which are not sent yet.
std::string insertion_of_entries(size_t count)
{
    std::string text = "INSERT INTO entries VALUES ";
    for (size_t at = 0; at < count; at++) {
        text += at == 0 ? "" : ", ";
        text += "(?, ?, ?, ?, ?, ?, ?, ?, ?, ?, ?, NULL)";
    }
    return text;
}

} // namespace

Answer refused(const Refusal& refusal) { return {status_of(refusal), refusal_body(refusal)}; }

Answer fault(int status, std::string_view name) { return {status, JsonText().open('{').key("error").text(name).close('}').take()}; }

Statements::Statements(const Database& db)
    : begin(db, "BEGIN IMMEDIATE"), commit(db, "COMMIT"), rollback(db, "ROLLBACK"), //
      set_day(db, "UPDATE desk SET day = ?1 WHERE id = 1"), clear_holidays(db, "DELETE FROM holidays"),
      add_holiday(db, "INSERT INTO holidays VALUES (?1)"), add_company(db, "INSERT INTO companies VALUES (?1, ?2, ?3, ?4, ?5, ?6)"),
      set_limits(db, "UPDATE companies SET entry_limit = ?2, credit_limit = ?3, debit_limit = ?4 WHERE id = ?1"),
      add_submission(db, "INSERT INTO submissions VALUES (?1, ?2, ?3, ?4, ?5, ?6, ?7, ?8, ?9, 0, NULL, NULL, NULL, NULL)"),
      add_entry(db, insertion_of_entries(1)),
      add_entries(db, insertion_of_entries(kEntriesAtOnce)), add_authorization(db, "INSERT INTO authorizations VALUES (?1, ?2, ?3)"),
      last_order(db, "SELECT ord FROM submissions WHERE company = ?1 ORDER BY ord DESC LIMIT 1"),
      submission(db, "SELECT ord, sec, direction, description, asked, of_ref, of_index, lapsed, settled FROM submissions "
                     "WHERE company = ?1 AND ref = ?2"),
      authorization(db, "SELECT day FROM authorizations WHERE company = ?1 AND ord = ?2"),
      entries(db, "SELECT idx, routing, account, savings, prenote, cents, ident, name, info FROM entries "
                  "WHERE company = ?1 AND ord = ?2 ORDER BY idx"),
      states(db, "SELECT e.idx, e.cents, r.code, r.late, r.day FROM entries e LEFT JOIN returns r "
                 "ON r.company = e.company AND r.ord = e.ord AND r.idx = e.idx WHERE e.company = ?1 AND e.ord = ?2 ORDER BY e.idx"),
      state(db, "SELECT r.code, r.day FROM entries e LEFT JOIN returns r ON r.company = e.company AND r.ord = e.ord AND r.idx = e.idx "
                "WHERE e.company = ?1 AND e.ord = ?2 AND e.idx = ?3"),
      retries(db, "SELECT r.code, r.day FROM submissions s LEFT JOIN returns r ON r.company = s.company AND r.ord = s.ord AND r.idx = 1 "
                  "WHERE s.company = ?1 AND s.of_ref = ?2 AND s.of_index = ?3 AND s.lapsed = 0 ORDER BY s.ord"),
      settled_of(db, "SELECT settled FROM submissions WHERE company = ?1 AND ref = ?2"),
      held(db, "SELECT ord, direction, asked, of_ref, ref, sec, description FROM submissions "
               "WHERE company = ?1 AND settled IS NULL AND lapsed = 0 ORDER BY ord"),
      held_sums(db, "SELECT s.ord, s.direction, s.asked, s.of_ref, "
                    "(SELECT sum(e.cents) FROM entries e WHERE e.company = s.company AND e.ord = s.ord) FROM submissions s "
                    "WHERE s.company = ?1 AND s.settled IS NULL AND s.lapsed = 0 ORDER BY s.ord"),
      held_loads(db, "SELECT s.ord, s.direction, s.asked, s.of_ref, sum(e.cents), count(*) + count(e.info) FROM submissions s "
                     "JOIN entries e ON e.company = s.company AND e.ord = s.ord "
                     "WHERE s.company = ?1 AND s.settled IS NULL AND s.lapsed = 0 GROUP BY s.ord ORDER BY s.ord"),
      open_sums(db, "SELECT s.direction, s.settled, "
                    "(SELECT sum(e.cents) FROM entries e WHERE e.company = s.company AND e.ord = s.ord) FROM submissions s "
                    "WHERE s.company = ?1 AND s.settled >= ?2"),
      returned_sums(db, "SELECT s.settled, e.cents FROM submissions s CROSS JOIN returns r ON r.company = s.company AND r.ord = s.ord "
                        "JOIN entries e ON e.company = r.company AND e.ord = r.ord AND e.idx = r.idx "
                        "WHERE s.company = ?1 AND s.settled >= ?2 AND s.direction = 'debit'"),
      send(db, "UPDATE submissions SET settled = ?3, file_day = ?4, modifier = ?5, batch = ?6 WHERE company = ?1 AND ord = ?2"),
      lapse(db, "UPDATE submissions SET lapsed = 1 WHERE company = ?1 AND ord = ?2"),
      mark(db, "UPDATE entries SET seq = ?3 + idx WHERE company = ?1 AND ord = ?2"),
      add_number(db, "INSERT INTO numbers VALUES (?1, ?2) ON CONFLICT (sequence) DO UPDATE SET nth = ?2"),
      latest_settled(db, "SELECT max(s.settled) FROM numbers n JOIN entries e ON e.seq = n.nth "
                         "JOIN submissions s ON s.company = e.company AND s.ord = e.ord WHERE n.sequence BETWEEN ?1 AND ?2"),
      add_file(db, "INSERT INTO files VALUES (?1, ?2, ?3)"),
      add_posting(db, "INSERT INTO postings (account, value_day, cents, cause, ref, idx) VALUES (?1, ?2, ?3, ?4, ?5, ?6)"),
      balance(db, "SELECT cents FROM balances WHERE account = ?1 AND value_day = ?2"),
      balances(db, "SELECT value_day, cents FROM balances WHERE account = ?1 ORDER BY value_day"),
      put_balance(db, "INSERT INTO balances VALUES (?1, ?2, ?3) ON CONFLICT (account, value_day) DO UPDATE SET cents = ?3"),
      postings(db, "SELECT cause, cents, value_day, idx, ref FROM postings WHERE account = ?1 ORDER BY no"),
      traced(db, "SELECT e.company, e.ord, e.idx, e.routing, e.savings, e.cents FROM numbers n CROSS JOIN entries e ON e.seq = n.nth "
                 "WHERE n.sequence = ?1"),
      sent_of(db, "SELECT ref, sec, direction, settled FROM submissions WHERE company = ?1 AND ord = ?2"),
      add_return(db, "INSERT INTO returns (company, ord, idx, code, day, late, info) VALUES (?1, ?2, ?3, ?4, ?5, ?6, ?7) "
                     "ON CONFLICT (company, ord, idx) DO NOTHING"),
      add_change(db, "INSERT INTO changes (company, ord, idx, code, day, text) VALUES (?1, ?2, ?3, ?4, ?5, ?6)"),
      add_suspense(db, "INSERT INTO suspense (file_key, item, why, code, trace, cents, day) VALUES (?1, ?2, ?3, ?4, ?5, ?6, ?7)"),
      add_taken(db, "INSERT INTO taken VALUES (?1, ?2, ?3, ?4, ?5, ?6, ?7)"),
      taken(db, "SELECT digest, day, returns, changes, late, suspense FROM taken WHERE file_key = ?1"),
      // Returns have the order of their days, so that the index by day gives them in the order of their numbers.
      returns(db, "SELECT ord, code, day, idx, info, late FROM returns WHERE company = ?1 ORDER BY day, no"),
      changes(db, "SELECT ord, code, day, idx, text FROM changes WHERE company = ?1 ORDER BY no"),
      ref_of(db, "SELECT ref FROM submissions WHERE company = ?1 AND ord = ?2"),
      suspense(db, "SELECT cents, code, day, file_key, item, trace, why FROM suspense ORDER BY no"),
      suspense_count(db, "SELECT coalesce(max(no), 0) FROM suspense"), files_on(db, "SELECT count(*) FROM files WHERE day = ?1"),
      file(db, "SELECT text FROM files WHERE day = ?1 AND modifier = ?2"),
      settled_debits(db, "SELECT count(*) FROM submissions s CROSS JOIN entries e ON e.company = s.company AND e.ord = s.ord "
                         "WHERE s.company = ?1 AND s.settled BETWEEN ?2 AND ?3 AND s.direction = 'debit' AND e.prenote = 0"),
      returned_debits(db, "SELECT r.code FROM returns r CROSS JOIN entries e ON e.company = r.company AND e.ord = r.ord AND e.idx = r.idx "
                          "CROSS JOIN submissions s ON s.company = e.company AND s.ord = e.ord "
                          "WHERE r.company = ?1 AND r.day BETWEEN ?2 AND ?3 AND e.prenote = 0 AND s.direction = 'debit'")
{
}

void Lines::post(std::string_view account, Day day, int64_t cents, std::string_view cause, std::string_view ref, int64_t index)
{
    if (cents == 0) {
        return;
    }
    sql_.add_posting.run(account, day, cents, cause, ref, index);
    sql_.add_posting.run("O", day, -cents, cause, ref, index);
    sums_[{std::string(account), day}] += cents;
    sums_[{"O", day}] -= cents;
}

void Lines::finish()
{
    for (const auto& [line, added] : sums_) {
        __int128 sum = added;
        {
            Rows rows = sql_.balance.query(std::string_view(line.first), line.second);
            sum += rows.next() ? read_decimal(rows.text(0)) : 0;
        }
        std::string text;
        put_decimal(text, sum);
        sql_.put_balance.run(std::string_view(line.first), line.second, std::string_view(text));
    }
}

// Opens a file that `achdesk init` made. No row is checked before a call needs it, which no answer over a good file shows.
Desk::Desk(const std::string& path) : db_(path, kSettings), sql_(db_) { read_memory(); }

void Desk::read_memory()
{
    Statement desk(db_, "SELECT odfi, odfi_name, destination, destination_name, operator_key, day FROM desk WHERE id = 1 AND version = 2");
    Rows row = desk.query();
    if (!row.next()) {
        throw Unavailable();
    }
    identity_ = {std::string(row.text(0)), std::string(row.text(1)), std::string(row.text(2)), std::string(row.text(3))};
    operator_key_ = digest_of(row.bytes(4));
    day_ = row.day(5);

    std::vector<Day> holidays;
    Statement list(db_, "SELECT day FROM holidays ORDER BY day");
    for (Rows rows = list.query(); rows.next();) {
        holidays.push_back(rows.number(0));
    }
    calendar_ = Calendar(std::move(holidays));

    Statement companies(db_, "SELECT id, name, key_digest, entry_limit, credit_limit, debit_limit FROM companies");
    for (Rows rows = companies.query(); rows.next();) {
        Limits limits = {uint64_t(rows.number(3)), uint64_t(rows.number(4)), uint64_t(rows.number(5))};
        std::string id(rows.text(0));
        companies_.emplace(id, Company{id, std::string(rows.text(1)), digest_of(rows.bytes(2)), limits, {}, {}});
    }

    Statement last(db_, "SELECT nth, sequence, (SELECT max(sequence) FROM numbers) FROM numbers ORDER BY nth DESC LIMIT 1");
    Rows numbers = last.query();
    if (numbers.next()) {
        sent_count_ = numbers.number(0);
        last_sequence_ = numbers.number(1);
        greatest_sequence_ = numbers.number(2);
    }
    keep_sums();
}

Company* Desk::allowed(std::string_view id, const Digest& key)
{
    auto found = companies_.find(id);
    return found != companies_.end() && found->second.key == key ? &found->second : nullptr;
}

// After another day or holiday list: what settled too early to count is forgotten, and a company of which earlier days
// than it keeps count now is read again when it is asked for.
void Desk::keep_sums()
{
    if (!day_) {
        return;
    }
    open_since_ = first_open_settlement(*day_, calendar_);
    for (auto& [id, company] : companies_) {
        if (company.sums && !company.sums->keep_since(open_since_)) {
            company.sums.reset();
        }
    }
}

OpenSums& Desk::sums_of(Company& company)
{
    if (company.sums) {
        return *company.sums;
    }
    OpenSums sums(open_since_);
    for (Rows rows = sql_.open_sums.query(std::string_view(company.id), open_since_); rows.next();) {
        sums.add_sent(rows.text(0) == "debit", rows.number(1), rows.number(2));
    }
    for (Rows rows = sql_.returned_sums.query(std::string_view(company.id), open_since_); rows.next();) {
        sums.remove_returned(rows.number(0), rows.number(1));
    }
    for (Rows rows = sql_.held_sums.query(std::string_view(company.id)); rows.next();) {
        sums.add_held(rows.text(1) == "debit", rows.number(4));
    }
    return company.sums.emplace(std::move(sums));
}

int64_t Desk::orders_of(Company& company)
{
    if (!company.orders) {
        Rows rows = sql_.last_order.query(std::string_view(company.id));
        company.orders = rows.next() ? rows.number(0) : 0;
    }
    return *company.orders;
}

__int128 Desk::balance_on_day(std::string_view account)
{
    __int128 sum = 0;
    for (Rows rows = sql_.balances.query(account); rows.next();) {
        sum += rows.number(0) <= *day_ ? read_decimal(rows.text(1)) : 0;
    }
    return sum;
}
