#include "files.h"

#include <algorithm>
#include <cstring>

namespace {

constexpr uint64_t kHashRange = 10'000'000'000;
constexpr uint64_t kMostOfFile = 999'999'999'999;
constexpr size_t kMostBatches = 1000;
constexpr size_t kMostRecords = 100'000;

// The text at positions of a record, from 1, both included.
std::string_view at(std::string_view record, size_t first, size_t last) { return record.substr(first - 1, last - first + 1); }

uint64_t number_at(std::string_view record, size_t first, size_t last)
{
    uint64_t value = 0;
    for (char c : at(record, first, last)) {
        value = value * 10 + (c - '0');
    }
    return value;
}

enum class Kind { kNone, kFileHeader, kBatchHeader, kEntry, kPayment, kChange, kReturn, kOtherAddenda, kBatchControl, kFileControl, kFiller };

Kind kind_of_addenda(std::string_view type)
{
    return type == "05" ? Kind::kPayment : type == "98" ? Kind::kChange : type == "99" ? Kind::kReturn : Kind::kOtherAddenda;
}

bool is_filler(std::string_view record) { return record.find_first_not_of('9') == record.npos; }

Kind kind_of(std::string_view record)
{
    switch (record[0]) {
    case '1':
        return Kind::kFileHeader;
    case '5':
        return Kind::kBatchHeader;
    case '6':
        return Kind::kEntry;
    case '7':
        return kind_of_addenda(at(record, 2, 3));
    case '8':
        return Kind::kBatchControl;
    case '9':
        return is_filler(record) ? Kind::kFiller : Kind::kFileControl;
    default:
        return Kind::kNone;
    }
}

bool is_addenda(Kind kind) { return kind >= Kind::kPayment && kind <= Kind::kOtherAddenda; }

bool may_follow(Kind last, Kind kind)
{
    switch (last) {
    case Kind::kNone:
        return kind == Kind::kFileHeader;
    case Kind::kFileControl:
    case Kind::kFiller:
        return kind == Kind::kFiller;
    case Kind::kFileHeader:
    case Kind::kBatchControl:
        return kind == Kind::kBatchHeader || kind == Kind::kFileControl;
    case Kind::kEntry:
        return kind == Kind::kChange || kind == Kind::kReturn;
    default:
        return kind == Kind::kEntry || kind == Kind::kBatchControl;
    }
}

bool are_digits(std::string_view record, std::initializer_list<std::pair<int, int>> fields)
{
    for (auto [first, last] : fields) {
        for (char c : at(record, first, last)) {
            if (c < '0' || c > '9') {
                return false;
            }
        }
    }
    return true;
}

bool has_good_numbers(Kind kind, std::string_view record)
{
    switch (kind) {
    case Kind::kEntry:
        return are_digits(record, {{2, 3}, {4, 11}, {30, 39}});
    case Kind::kPayment:
        return are_digits(record, {{84, 87}, {88, 94}});
    case Kind::kBatchControl:
        return are_digits(record, {{5, 10}, {11, 20}, {21, 32}, {33, 44}});
    case Kind::kFileControl:
        return are_digits(record, {{2, 7}, {8, 13}, {14, 21}, {22, 31}, {32, 43}, {44, 55}});
    default:
        return true;
    }
}

struct Sums {
    uint64_t count = 0, hash = 0, debits = 0, credits = 0;
};

class Reader {
public:
    // Takes the next record, or tells its fault.
    const char* take(std::string_view record);
    bool is_whole() const { return last_ == Kind::kFileControl || last_ == Kind::kFiller; }
    void give(Incoming& file);

private:
    const char* fault_of(Kind kind, std::string_view record) const;
    const char* fault_of_batch(std::string_view control) const;
    const char* fault_of_file(std::string_view control) const;
    bool is_bad_addenda(Kind kind) const;
    void add(Kind kind, std::string_view record);
    void add_entry(std::string_view record);
    void add_addenda(bool is_return, std::string_view record);

    Kind last_ = Kind::kNone;
    uint64_t records_ = 0, batches_ = 0;
    Sums batch_, file_;
    std::string_view key_, sec_;
    Sha256 hash_;
    std::vector<Item> items_;
};

bool Reader::is_bad_addenda(Kind kind) const
{
    if (last_ == Kind::kEntry && (kind == Kind::kEntry || kind == Kind::kBatchControl)) {
        return true;
    }
    if (kind == Kind::kPayment || kind == Kind::kOtherAddenda || (is_addenda(kind) && is_addenda(last_))) {
        return true;
    }
    return kind == Kind::kChange && last_ == Kind::kEntry && items_.back().cents != 0;
}

const char* Reader::fault_of_batch(std::string_view control) const
{
    if (number_at(control, 5, 10) != batch_.count) {
        return "BadCount";
    }
    if (number_at(control, 11, 20) != batch_.hash) {
        return "BadHash";
    }
    bool is_right = number_at(control, 21, 32) == batch_.debits && number_at(control, 33, 44) == batch_.credits;
    return is_right ? nullptr : "BadTotal";
}

const char* Reader::fault_of_file(std::string_view control) const
{
    if (number_at(control, 2, 7) != batches_ || number_at(control, 14, 21) != file_.count) {
        return "BadCount";
    }
    if (number_at(control, 22, 31) != file_.hash) {
        return "BadHash";
    }
    if (number_at(control, 32, 43) != file_.debits || number_at(control, 44, 55) != file_.credits) {
        return "BadTotal";
    }
    return number_at(control, 8, 13) == (records_ + 1 + 9) / 10 ? nullptr : "BadBlock";
}

const char* Reader::fault_of(Kind kind, std::string_view record) const
{
    bool bad_addenda = is_bad_addenda(kind);
    if (!bad_addenda && !may_follow(last_, kind)) {
        return "BadOrder";
    }
    if (!has_good_numbers(kind, record)) {
        return "BadNumber";
    }
    if (kind == Kind::kEntry && record[2] != '1' && record[2] != '6') {
        return "ForwardEntry";
    }
    if (bad_addenda) {
        return "BadAddenda";
    }
    return kind == Kind::kBatchControl ? fault_of_batch(record) : kind == Kind::kFileControl ? fault_of_file(record) : nullptr;
}

void Reader::add_entry(std::string_view record)
{
    Item item;
    item.transaction = number_at(record, 2, 3);
    item.cents = number_at(record, 30, 39);
    item.sec = sec_;
    batch_.count++;
    batch_.hash = (batch_.hash + number_at(record, 4, 11)) % kHashRange;
    (record[2] == '6' ? batch_.debits : batch_.credits) += item.cents;
    items_.push_back(item);
}

void Reader::add_addenda(bool is_return, std::string_view record)
{
    Item& item = items_.back();
    item.is_return = is_return;
    item.code = at(record, 4, 6);
    item.trace = at(record, 7, 21);
    item.dfi = at(record, 28, 35);
    item.text = is_return ? at(record, 36, 79) : at(record, 36, 64);
    batch_.count++;
}

void Reader::add(Kind kind, std::string_view record)
{
    switch (kind) {
    case Kind::kFileHeader:
        key_ = at(record, 14, 34);
        break;
    case Kind::kBatchHeader:
        sec_ = at(record, 51, 53);
        batch_ = Sums();
        break;
    case Kind::kEntry:
        add_entry(record);
        break;
    case Kind::kChange:
    case Kind::kReturn:
        add_addenda(kind == Kind::kReturn, record);
        break;
    case Kind::kBatchControl:
        batches_++;
        file_.count += batch_.count;
        file_.hash = (file_.hash + batch_.hash) % kHashRange;
        file_.debits += batch_.debits;
        file_.credits += batch_.credits;
        break;
    default:
        break;
    }
    if (kind != Kind::kFiller) {
        hash_.feed(record);
    }
    records_++;
    last_ = kind;
}

const char* Reader::take(std::string_view record)
{
    Kind kind = kind_of(record);
    const char* fault = fault_of(kind, record);
    if (fault == nullptr) {
        add(kind, record);
    }
    return fault;
}

void Reader::give(Incoming& file)
{
    file.key = key_;
    file.digest = hash_.finish();
    file.items = std::move(items_);
}

// The fault that the bytes of a record alone tell.
const char* fault_of_bytes(std::string_view record)
{
    for (char c : record) {
        if (c == '\n' || c == '\r') {
            return "BadLength";
        }
        if (c < 0x20 || c > 0x7E) {
            return "BadByte";
        }
    }
    return record.size() < kRecord ? "BadLength" : nullptr;
}

// How many bytes end a line here: one LF or one CR LF.
size_t line_end(std::string_view bytes)
{
    return bytes.substr(0, 1) == "\n" ? 1 : bytes.substr(0, 2) == "\r\n" ? 2 : 0;
}

bool ends_line(char c) { return c == '\r' || c == '\n'; }

// Printing.

void put_padded(char* out, size_t width, std::string_view text)
{
    std::memset(out, ' ', width);
    std::memcpy(out, text.data(), std::min(width, text.size()));
}

void put_digits(char* out, size_t width, uint64_t value)
{
    while (width-- > 0) {
        out[width] = '0' + value % 10;
        value /= 10;
    }
}

// A record of blanks at the end of a text, and its line feed. Positions count from 1.
class Record {
public:
    Record(std::string& text, char type) : text_(text), start_(text.size())
    {
        text.append(kRecord, ' ');
        text += '\n';
        text[start_] = type;
    }

    Record& put(size_t first, size_t last, std::string_view value)
    {
        put_padded(&text_[start_ + first - 1], last - first + 1, value);
        return *this;
    }

    Record& number(size_t first, size_t last, uint64_t value)
    {
        put_digits(&text_[start_ + first - 1], last - first + 1, value);
        return *this;
    }

private:
    std::string& text_;
    size_t start_;
};

uint64_t six_digits(Day day)
{
    Date date = date_of(day);
    return date.year % 100 * 10'000 + date.month * 100 + date.day;
}

} // namespace

Incoming read_file(std::string_view bytes)
{
    Incoming file;
    Reader reader;
    size_t place = 0;
    while (place < bytes.size()) {
        file.record++;
        std::string_view record = bytes.substr(place, kRecord);
        file.fault = fault_of_bytes(record);
        if (file.fault == nullptr) {
            file.fault = reader.take(record);
        }
        if (file.fault != nullptr) {
            return file;
        }
        place += kRecord;
        place += line_end(bytes.substr(place, 2));
        if (place < bytes.size() && ends_line(bytes[place])) { // the tail, in the record before it
            file.fault = std::all_of(bytes.begin() + place, bytes.end(), ends_line) ? nullptr : "BadLength";
            break;
        }
    }
    if (file.fault == nullptr && !reader.is_whole()) {
        file.fault = "BadOrder";
        file.record++;
    }
    reader.give(file);
    return file;
}

void Batch::add(const PrintedEntry& entry)
{
    Record(records_, '6')
        .number(2, 3, entry.transaction)
        .put(4, 12, entry.routing)
        .put(13, 29, entry.account)
        .number(30, 39, entry.cents)
        .put(40, 54, entry.ident)
        .put(55, 76, entry.name)
        .put(79, 79, entry.info ? "1" : "0")
        .put(80, 87, dfi_);
    if (entry.info) {
        Record(records_, '7').put(2, 3, "05").put(4, 83, *entry.info).number(84, 87, 1);
    }
    entries_++;
    cents_ += entry.cents;
    hash_ = (hash_ + number_at(entry.routing, 1, 8)) % kHashRange;
}

// An entry's sequence is at the end of its record and of its addenda.
void Batch::number(int64_t first_sequence)
{
    int64_t sequence = first_sequence - 1;
    for (size_t start = 0; start < records_.size(); start += kRecord + 1) {
        sequence += records_[start] == '6';
        put_digits(&records_[start + kRecord - 7], 7, sequence);
    }
}

Outgoing::Outgoing(const Identity& identity, Day day, char modifier) : identity_(identity), modifier_(modifier)
{
    Record(text_, '1')
        .put(2, 3, "01")
        .put(5, 13, identity.destination)
        .put(15, 23, identity.odfi)
        .number(24, 29, six_digits(day))
        .put(34, 34, std::string_view(&modifier, 1))
        .put(35, 37, "094")
        .put(38, 39, "10")
        .put(40, 40, "1")
        .put(41, 63, identity.destination_name)
        .put(64, 86, identity.odfi_name);
}

bool Filling::has_room(const Load& load) const
{
    return debits + load.debits <= kMostOfFile && credits + load.credits <= kMostOfFile && batches < kMostBatches &&
           records + load.records <= kMostRecords;
}

void Filling::add(const Load& load)
{
    debits += load.debits;
    credits += load.credits;
    batches++;
    records += load.records;
}

int Outgoing::add(const BatchHead& head, const Batch& batch)
{
    std::string_view dfi = std::string_view(identity_.odfi).substr(0, 8);
    std::string_view service = batch.is_debit() ? "225" : "220";
    filling_.add(batch.load());
    Record(text_, '5')
        .put(2, 4, service)
        .put(5, 20, head.company_name)
        .put(41, 50, head.company)
        .put(51, 53, head.sec)
        .put(54, 63, head.description)
        .number(70, 75, six_digits(head.settled))
        .put(79, 79, "1")
        .put(80, 87, dfi)
        .number(88, 94, filling_.batches);
    text_ += batch.text();
    Record(text_, '8')
        .put(2, 4, service)
        .number(5, 10, batch.records())
        .number(11, 20, batch.hash())
        .number(21, 32, batch.debits())
        .number(33, 44, batch.credits())
        .put(45, 54, head.company)
        .put(80, 87, dfi)
        .number(88, 94, filling_.batches);
    hash_ = (hash_ + batch.hash()) % kHashRange;
    return filling_.batches;
}

std::string Outgoing::finish()
{
    size_t lines = text_.size() / (kRecord + 1) + 1; // with the file control
    Record(text_, '9')
        .number(2, 7, filling_.batches)
        .number(8, 13, (lines + 9) / 10)
        .number(14, 21, filling_.records)
        .number(22, 31, hash_)
        .number(32, 43, filling_.debits)
        .number(44, 55, filling_.credits);
    for (; lines % 10 != 0; lines++) {
        text_.append(kRecord, '9');
        text_ += '\n';
    }
    return std::move(text_);
}
