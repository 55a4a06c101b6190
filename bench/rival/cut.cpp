// The cut, and what a cut would do.

#include "desk.h"

#include <algorithm>

namespace {

constexpr int64_t kGreatestSequence = 9'999'999;
constexpr int kDaysOfSequence = 366;
constexpr int kRetryDays = 180;
constexpr std::string_view kModifiers = "ABCDEFGHIJKLMNOPQRSTUVWXYZ0123456789";

struct Tally {
    uint64_t cents = 0, submissions = 0;

    void put(JsonText& body, std::string_view name) const
    {
        body.key(name).open('{').key("cents").decimal(cents).key("submissions").number(submissions).close('}');
    }
};

struct Tallies {
    Tally credits, debits;

    void add(bool debit, uint64_t cents)
    {
        Tally& tally = debit ? debits : credits;
        tally.cents += cents;
        tally.submissions++;
    }
};

int transaction_code(bool savings, bool debit, bool prenote) { return (savings ? 32 : 22) + (debit ? 5 : 0) + (prenote ? 1 : 0); }

} // namespace

// A submission that is due.
struct Desk::Due {
    int64_t order;
    bool is_debit, lapses;
    Day settled;
};

// What a cut writes of a submission.
struct Desk::Sent {
    Company* company;
    Due due;
    std::string ref;
    int64_t first_place, first_sequence, entries;
    uint64_t cents;
    char modifier;
    int batch;
};

struct Desk::Lapsed {
    Company* company;
    int64_t order;
    uint64_t cents;
};

struct Desk::Cutting {
    std::vector<Sent> sent;
    std::vector<Lapsed> lapsed;
    std::vector<Outgoing> files;
    int64_t files_before = 0, entries = 0, last_sequence = 0, first_sequence = 0;
    bool is_around = false; // a batch began at 1
};

// What all companies have waiting.
struct Desk::Waiting {
    std::vector<Load> due;
    uint64_t due_records = 0, held_records = 0;

    // How many files a cut would make.
    size_t files() const
    {
        size_t count = 0;
        Filling filling;
        for (const Load& load : due) {
            if (count == 0 || !filling.has_room(load)) {
                filling = Filling();
                count++;
            }
            filling.add(load);
        }
        return count;
    }
};

// What a cut does with a held submission: a row with its order, direction, asked day, and the reference that it retries.
std::optional<Desk::Due> Desk::due_of(Company& company, const Rows& row)
{
    bool is_debit = row.text(1) == "debit";
    Day rolled = calendar_.roll(row.number(2));
    Day next = calendar_.next(*day_);
    if (rolled > (is_debit ? next : calendar_.nth_after(*day_, 2))) {
        return std::nullopt;
    }
    Due due = {row.number(0), is_debit, false, std::max(rolled, next)};
    if (!row.is_null(3)) {
        Rows original = sql_.settled_of.query(std::string_view(company.id), row.text(3));
        due.lapses = original.next() && due.settled > original.number(0) + kRetryDays;
    }
    return due;
}

// May a batch not use these sequences? None was used yet unless they have gone around.
bool Desk::is_spent(const Cutting& cutting, int64_t first, int64_t last)
{
    if (cutting.is_around && last >= cutting.first_sequence) {
        return true;
    }
    if (first > greatest_sequence_) {
        return false;
    }
    Rows latest = sql_.latest_settled.query(first, last);
    latest.next();
    return !latest.is_null(0) && latest.number(0) > *day_ - kDaysOfSequence;
}

void Desk::put_in_file(Cutting& cutting, const Rows& row, const Batch& batch, Sent& sent)
{
    size_t made = cutting.files_before + cutting.files.size();
    if (cutting.files.empty() || !cutting.files.back().has_room(batch)) {
        // Too many files are refused at the end, since sequences come first.
        cutting.files.emplace_back(identity_, *day_, made < kModifiers.size() ? kModifiers[made] : ' ');
    }
    Outgoing& file = cutting.files.back();
    sent.batch = file.add({sent.company->name, sent.company->id, row.text(5), row.text(6), sent.due.settled}, batch);
    sent.modifier = file.modifier();
}

Batch Desk::batch_of(Company& company, const Due& due)
{
    Batch batch(std::string_view(identity_.odfi).substr(0, 8), due.is_debit);
    for (Rows row = sql_.entries.query(std::string_view(company.id), due.order); row.next();) {
        std::string_view info = row.is_null(8) ? std::string_view() : row.text(8);
        batch.add({transaction_code(row.number(3), due.is_debit, row.number(4)), row.text(1), row.text(2), row.text(6), row.text(7),
                   row.is_null(8) ? nullptr : &info, uint64_t(row.number(5))});
    }
    return batch;
}

// Numbers the batch of a due submission, whose row `held` gives, and puts it into a file.
Refusal Desk::plan_batch(Cutting& cutting, Company& company, const Due& due, const Rows& row)
{
    Batch batch = batch_of(company, due);
    int64_t count = batch.entries();
    int64_t first = cutting.last_sequence + 1;
    if (first + count - 1 > kGreatestSequence) {
        first = 1;
        cutting.is_around = !cutting.sent.empty();
    }
    int64_t last = first + count - 1;
    if (is_spent(cutting, first, last)) {
        return {kTracesSpent};
    }
    batch.number(first);
    Sent sent = {&company, due, std::string(row.text(4)), sent_count_ + cutting.entries + 1, first, count, batch.cents(), ' ', 0};
    put_in_file(cutting, row, batch, sent);
    cutting.first_sequence = cutting.sent.empty() ? first : cutting.first_sequence;
    cutting.last_sequence = last;
    cutting.entries += count;
    cutting.sent.push_back(std::move(sent));
    return {};
}

Refusal Desk::plan(Cutting& cutting)
{
    Rows made = sql_.files_on.query(*day_);
    made.next();
    cutting.files_before = made.number(0);
    cutting.last_sequence = last_sequence_;
    for (auto& [id, company] : companies_) {
        for (Rows row = sql_.held.query(std::string_view(id)); row.next();) {
            std::optional<Due> due = due_of(company, row);
            if (due && due->lapses) {
                cutting.lapsed.push_back({&company, due->order, batch_of(company, *due).cents()});
            } else if (due) {
                if (Refusal why = plan_batch(cutting, company, *due, row)) {
                    return why;
                }
            }
        }
    }
    return cutting.files_before + cutting.files.size() > kModifiers.size() ? Refusal{kModifiersSpent} : Refusal();
}

void Desk::write(Cutting& cutting)
{
    Lines lines(sql_);
    for (const Lapsed& lapsed : cutting.lapsed) {
        sql_.lapse.run(std::string_view(lapsed.company->id), lapsed.order);
    }
    for (const Sent& sent : cutting.sent) {
        std::string_view id = sent.company->id;
        sql_.send.run(id, sent.due.order, sent.due.settled, *day_, std::string_view(&sent.modifier, 1), sent.batch);
        sql_.mark.run(id, sent.due.order, sent.first_place - 1);
        for (int64_t at = 0; at < sent.entries; at++) {
            sql_.add_number.run(sent.first_sequence + at, sent.first_place + at);
        }
        int64_t cents = sent.cents;
        lines.post("C:" + sent.company->id, sent.due.settled, sent.due.is_debit ? cents : -cents, "cut", sent.ref, 0);
    }
    lines.finish();
    for (Outgoing& file : cutting.files) {
        char modifier = file.modifier();
        std::string text = file.finish();
        sql_.add_file.run(*day_, std::string_view(&modifier, 1), Blob{text});
    }
}

void Desk::remember(const Cutting& cutting)
{
    for (const Sent& sent : cutting.sent) {
        if (sent.company->sums) {
            sent.company->sums->remove_held(sent.due.is_debit, sent.cents);
            sent.company->sums->add_sent(sent.due.is_debit, sent.due.settled, sent.cents);
        }
        greatest_sequence_ = std::max(greatest_sequence_, sent.first_sequence + sent.entries - 1);
    }
    for (const Lapsed& lapsed : cutting.lapsed) {
        if (lapsed.company->sums) {
            lapsed.company->sums->remove_held(true, lapsed.cents); // only debits are retried
        }
    }
    sent_count_ += cutting.entries;
    last_sequence_ = cutting.last_sequence;
}

Answer Desk::cut()
{
    if (!day_) {
        return refused({kNoDay});
    }
    Cutting cutting;
    if (Refusal why = plan(cutting)) {
        return refused(why);
    }
    JsonText body;
    body.open('{').key("day").day(*day_).key("entries").number(cutting.entries).key("files").open('[');
    for (const Outgoing& file : cutting.files) {
        char modifier = file.modifier();
        body.item().text(std::string_view(&modifier, 1));
    }
    body.close(']').key("lapsed").number(cutting.lapsed.size()).close('}');
    if (!cutting.sent.empty() || !cutting.lapsed.empty()) {
        Transaction transaction = begin();
        write(cutting);
        transaction.commit();
        remember(cutting);
    }
    return {200, body.take()};
}

void Desk::put_status(JsonText& body, Company& company, Waiting& waiting)
{
    Tallies held;
    std::map<Day, Tallies> due;
    uint64_t lapsing = 0;
    for (Rows row = sql_.held_loads.query(std::string_view(company.id)); row.next();) {
        uint64_t cents = row.number(4), records = row.number(5);
        waiting.held_records += records;
        held.add(row.text(1) == "debit", cents);
        std::optional<Due> found = day_ ? due_of(company, row) : std::nullopt;
        if (found && found->lapses) {
            lapsing++;
        } else if (found) {
            due[found->settled].add(found->is_debit, cents);
            waiting.due.push_back({found->is_debit ? cents : 0, found->is_debit ? 0 : cents, records});
            waiting.due_records += records;
        }
    }
    body.item().open('{').key("due").open('[');
    for (const auto& [day, sums] : due) {
        body.item().open('{');
        sums.credits.put(body, "credits");
        body.key("day").day(day);
        sums.debits.put(body, "debits");
        body.close('}');
    }
    body.close(']').key("held").open('{');
    held.credits.put(body, "credits");
    held.debits.put(body, "debits");
    body.close('}').key("id").text(company.id).key("lapsing").number(lapsing).key("name").text(company.name).close('}');
}

Answer Desk::status()
{
    int64_t files = 0;
    if (day_) {
        Rows made = sql_.files_on.query(*day_);
        made.next();
        files = made.number(0);
    }
    Rows suspense = sql_.suspense_count.query();
    suspense.next();
    Waiting waiting;
    JsonText body(4096);
    body.open('{').key("companies").open('[');
    for (auto& [id, company] : companies_) {
        put_status(body, company, waiting);
    }
    body.close(']').key("day");
    day_ ? body.day(*day_) : body.null();
    body.key("due_files").number(waiting.files()).key("due_records").number(waiting.due_records).key("files").open('[');
    for (int64_t at = 0; at < files; at++) {
        body.item().text(kModifiers.substr(at, 1));
    }
    body.close(']').key("held_records").number(waiting.held_records).key("holidays").number(calendar_.holidays().size()).key("sent").number(sent_count_);
    return {200, body.key("suspense").number(suspense.number(0)).close('}').take()};
}
