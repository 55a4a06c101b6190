#include "sql.h"

#include <exception>

Database::Database(const std::string& path, const char* settings)
{
    if (sqlite3_open_v2(path.c_str(), &db_, SQLITE_OPEN_READWRITE | SQLITE_OPEN_NOMUTEX, nullptr) != SQLITE_OK) {
        sqlite3_close_v2(db_);
        throw Unavailable();
    }
    run(settings);
}

void Database::run(const char* text)
{
    if (sqlite3_exec(db_, text, nullptr, nullptr, nullptr) != SQLITE_OK) {
        throw Unavailable();
    }
}

bool Rows::next()
{
    int status = sqlite3_step(statement_);
    if (status != SQLITE_ROW && status != SQLITE_DONE) {
        throw Unavailable();
    }
    return status == SQLITE_ROW;
}

std::string_view Rows::text(int column) const
{
    auto text = reinterpret_cast<const char*>(sqlite3_column_text(statement_, column));
    return {text, static_cast<size_t>(sqlite3_column_bytes(statement_, column))};
}

std::string_view Rows::bytes(int column) const
{
    auto bytes = static_cast<const char*>(sqlite3_column_blob(statement_, column));
    return {bytes, static_cast<size_t>(sqlite3_column_bytes(statement_, column))};
}

Statement::Statement(const Database& db, const std::string& text)
{
    if (sqlite3_prepare_v3(db.handle(), text.c_str(), -1, SQLITE_PREPARE_PERSISTENT, &statement_, nullptr) != SQLITE_OK) {
        throw Unavailable();
    }
}

void Transaction::commit()
{
    commit_.run();
    is_open_ = false;
}

Transaction::~Transaction()
{
    if (is_open_) {
        try {
            rollback_.run();
        } catch (const Unavailable&) {
            std::terminate(); // the memory of the desk would no longer be that of its file
        }
    }
}
