// Nacha files: reading one of returns and changes, and printing one of entries.
#pragma once

#include "days.h"
#include "sha256.h"

#include <cstdint>
#include <string>
#include <string_view>
#include <vector>

constexpr size_t kRecord = 94;

// An entry record with its addenda. Texts are slices of the file.
struct Item {
    bool is_return = false;
    std::string_view sec, code, trace, dfi, text;
    int transaction = 0;
    uint64_t cents = 0;
};

struct Incoming {
    std::string_view key;
    Digest digest{};
    std::vector<Item> items;
    const char* fault = nullptr; // the first fault, in this record
    uint64_t record = 0;
};

Incoming read_file(std::string_view bytes);

struct Identity {
    std::string odfi, odfi_name, destination, destination_name;
};

// What an entry record has.
struct PrintedEntry {
    int transaction;
    std::string_view routing, account, ident, name;
    const std::string_view* info; // null without an addenda
    uint64_t cents;
};

// What a batch takes of a file.
struct Load {
    uint64_t debits, credits;
    size_t records;
};

// What the batches of a file come to.
struct Filling {
    uint64_t debits = 0, credits = 0;
    size_t batches = 0, records = 0;

    bool has_room(const Load& load) const;
    void add(const Load& load);
};

// One batch. Its entries are printed first, without their sequences.
class Batch {
public:
    Batch(std::string_view dfi, bool debit) : dfi_(dfi), is_debit_(debit) {}

    void add(const PrintedEntry& entry);
    void number(int64_t first_sequence);

    size_t entries() const { return entries_; }
    size_t records() const { return records_.size() / (kRecord + 1); }
    uint64_t cents() const { return cents_; }
    uint64_t debits() const { return is_debit_ ? cents_ : 0; }
    uint64_t credits() const { return is_debit_ ? 0 : cents_; }
    Load load() const { return {debits(), credits(), records()}; }
    uint64_t hash() const { return hash_; }
    bool is_debit() const { return is_debit_; }
    const std::string& text() const { return records_; }

private:
    std::string_view dfi_;
    bool is_debit_;
    std::string records_;
    size_t entries_ = 0;
    uint64_t cents_ = 0, hash_ = 0;
};

struct BatchHead {
    std::string_view company_name, company, sec, description;
    Day settled;
};

// A file that grows by batches.
class Outgoing {
public:
    Outgoing(const Identity& identity, Day day, char modifier);

    bool has_room(const Batch& batch) const { return filling_.has_room(batch.load()); }
    int add(const BatchHead& head, const Batch& batch); // gives its number
    std::string finish();
    char modifier() const { return modifier_; }

private:
    const Identity& identity_;
    char modifier_;
    std::string text_;
    Filling filling_;
    uint64_t hash_ = 0;
};
