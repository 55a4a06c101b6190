// A thin layer over SQLite's C API: a database, and statements that are prepared once.
#pragma once

#include <cstdint>
#include <optional>
#include <sqlite3.h>
#include <string>
#include <string_view>

// The store could not act. What a transaction had changed is rolled back.
struct Unavailable {};

struct Blob {
    std::string_view bytes;
};

class Database {
public:
    Database(const std::string& path, const char* settings);
    ~Database() { sqlite3_close_v2(db_); }
    Database(const Database&) = delete;
    Database& operator=(const Database&) = delete;

    void run(const char* text);
    int changes() const { return sqlite3_changes(db_); }
    sqlite3* handle() const { return db_; }

private:
    sqlite3* db_ = nullptr;
};

// The rows of a running query. Texts and bytes are good until the next row.
class Rows {
public:
    explicit Rows(sqlite3_stmt* statement) : statement_(statement) {}
    ~Rows() { sqlite3_reset(statement_); }
    Rows(const Rows&) = delete;
    Rows& operator=(const Rows&) = delete;

    bool next();
    int64_t number(int column) const { return sqlite3_column_int64(statement_, column); }
    bool is_null(int column) const { return sqlite3_column_type(statement_, column) == SQLITE_NULL; }
    std::string_view text(int column) const;
    std::string_view bytes(int column) const;
    std::optional<int> day(int column) const { return is_null(column) ? std::nullopt : std::optional<int>(number(column)); }

private:
    sqlite3_stmt* statement_;
};

class Statement {
public:
    Statement(const Database& db, const std::string& text);
    ~Statement() { sqlite3_finalize(statement_); }
    Statement(const Statement&) = delete;
    Statement& operator=(const Statement&) = delete;

    // Runs it to its end.
    template <typename... Values> void run(const Values&... values)
    {
        bind_from(1, values...);
        run_bound();
    }

    // Binds some values, from a place on, of a statement that has more of them, and tells the next place.
    template <typename... Values> int bind_from(int at, const Values&... values)
    {
        (bind(at++, values), ...);
        return at;
    }

    // Runs it with what is bound.
    void run_bound()
    {
        Rows rows(statement_);
        while (rows.next()) {
        }
    }

    // What is bound has to live as long as the rows are read.
    template <typename... Values> Rows query(const Values&... values)
    {
        bind_from(1, values...);
        return Rows(statement_);
    }

private:
    void bind(int at, int64_t value) { sqlite3_bind_int64(statement_, at, value); }
    void bind(int at, std::string_view value) { sqlite3_bind_text(statement_, at, value.empty() ? "" : value.data(), value.size(), SQLITE_STATIC); }
    void bind(int at, const Blob& value) { sqlite3_bind_blob(statement_, at, value.bytes.data(), value.bytes.size(), SQLITE_STATIC); }
    void bind(int at, std::nullptr_t) { sqlite3_bind_null(statement_, at); }
    template <typename Value> void bind(int at, const std::optional<Value>& value)
    {
        if (value.has_value()) {
            bind(at, *value);
        } else {
            bind(at, nullptr);
        }
    }

    sqlite3_stmt* statement_ = nullptr;
};

// A write. What is not committed is rolled back.
class Transaction {
public:
    Transaction(Statement& begin, Statement& commit, Statement& rollback) : commit_(commit), rollback_(rollback) { begin.run(); }
    ~Transaction();
    void commit();

private:
    Statement& commit_;
    Statement& rollback_;
    bool is_open_ = true;
};
