// The desk: its file, what it remembers of it, and its calls.
#pragma once

#include "bodies.h"
#include "company.h"
#include "files.h"
#include "sql.h"

#include <map>
#include <string>
#include <string_view>
#include <utility>
#include <vector>

struct Answer {
    int status = 200;
    std::string body{};
    bool is_text = false; // the text of a file, and not JSON
};

Answer refused(const Refusal& refusal);
Answer fault(int status, std::string_view name);

// So many entries are written by one statement, which costs less than one for each.
constexpr size_t kEntriesAtOnce = 20;

// The statements of the desk, each prepared once.
struct Statements {
    explicit Statements(const Database& db);

    Statement begin, commit, rollback;
    Statement set_day, clear_holidays, add_holiday, add_company, set_limits;
    Statement add_submission, add_entry, add_entries, add_authorization;
    Statement last_order, submission, authorization, entries, states, state, retries, settled_of;
    Statement held, held_sums, held_loads, open_sums, returned_sums;
    Statement send, lapse, mark, add_number, latest_settled, add_file;
    Statement add_posting, balance, balances, put_balance, postings;
    Statement traced, sent_of, add_return, add_change, add_suspense, add_taken, taken;
    Statement returns, changes, ref_of, suspense, suspense_count, files_on, file;
    Statement settled_debits, returned_debits;
};

// The sums that a write adds to accounts, each of which is read and written once.
class Lines {
public:
    explicit Lines(Statements& sql) : sql_(sql) {}

    // A line of an account and its opposite of the ACH operator's.
    void post(std::string_view account, Day day, int64_t cents, std::string_view cause, std::string_view ref, int64_t index);
    void finish();

private:
    Statements& sql_;
    std::map<std::pair<std::string, Day>, __int128> sums_;

};

class Desk {
public:
    explicit Desk(const std::string& path);

    bool is_operator(const Digest& key) const { return key == operator_key_; }
    // The company with this identification and key, or null.
    Company* allowed(std::string_view id, const Digest& key);

    Answer submit(Company& company, const JsonValue& object);
    Answer retry(Company& company, const JsonValue& object);
    Answer look_up(Company& company, std::string_view ref);
    Answer returns(Company& company);
    Answer changes(Company& company);
    Answer statement(Company& company);
    Answer rates(Company& company);
    Answer exposure(Company& company);

    Answer set_day(const JsonValue& object);
    Answer set_holidays(std::string_view text);
    Answer put_company(const JsonValue& object);
    Answer companies();
    Answer put_limits(const JsonValue& object);
    Answer cut();
    Answer take_file(std::string_view bytes);
    Answer file(std::string_view day, std::string_view modifier);
    Answer settlement();
    Answer suspense();
    Answer status();

private:
    struct Head;
    struct Due;
    struct Sent;
    struct Lapsed;
    struct Cutting;
    struct Waiting;
    struct Attempt;
    struct Named;
    struct Intake;

    void read_memory();
    Transaction begin() { return Transaction(sql_.begin, sql_.commit, sql_.rollback); }

    OpenSums& sums_of(Company& company);
    void keep_sums();
    void put_rates(JsonText& body, Company& company, bool has_day);
    int64_t orders_of(Company& company);
    Refusal within_limits(Company& company, const Submission& asked);
    void add_entries(std::string_view company, int64_t order, const std::vector<Entry>& entries);
    Answer add(Company& company, const Submission& asked, const Retry* retry);
    bool find(Company& company, std::string_view ref, Head& head);
    bool is_same(Company& company, const Head& head, const Submission& asked);
    bool is_same(Company& company, const Head& head, const Retry& asked);
    Refusal may_retry(Company& company, const Head& original, const Retry& asked);
    std::vector<Attempt> attempts(Company& company, const Head& original, const Retry& asked);
    __int128 balance_on_day(std::string_view account);
    void put_rows(JsonText& body, Company& company, Statement& query, bool is_returns);

    std::optional<Due> due_of(Company& company, const Rows& row);
    Refusal plan(Cutting& cutting);
    Batch batch_of(Company& company, const Due& due);
    Refusal plan_batch(Cutting& cutting, Company& company, const Due& due, const Rows& row);
    bool is_spent(const Cutting& cutting, int64_t first, int64_t last);
    void put_in_file(Cutting& cutting, const Rows& row, const Batch& batch, Sent& sent);
    void write(Cutting& cutting);
    void remember(const Cutting& cutting);
    void put_status(JsonText& body, Company& company, Waiting& waiting);

    bool find_named(const Item& item, Intake& intake, Named& named);
    const char* post(const Item& item, Intake& intake);
    const char* post_return(const Item& item, const Named& named, Intake& intake);
    void put_in_suspense(const Item& item, int64_t number, const char* why, Intake& intake);
    void write(const Incoming& incoming, Intake& intake);
    Answer take_new(const Incoming& incoming);

    Database db_;
    Statements sql_;

    // What is remembered of the file.
    Identity identity_;
    Digest operator_key_{};
    std::optional<Day> day_;
    Calendar calendar_;
    Day open_since_ = 0; // settlements from this day on may count in exposures
    Companies companies_;
    int64_t sent_count_ = 0, last_sequence_ = 0, greatest_sequence_ = 0;
};
