// rival DB: answers the messages on standard input over a desk's file, as `achdesk stdio DB` does. The file is one that
// `achdesk init` made, of version 2. One session of at most 1,000 messages; the status is 0, 1 if the input ends inside
// a message, 2 for wrong words, and 3 if the file or a stream fails.
//
// What it leaves out shows in no answer over a good file:
// - It does not check rows, indexes or pages when it opens a file, and the pages that it writes have no checksums. The desk
//   does not open a file after it.
// - If memory runs out, it ends. Interrupted reads and writes are not tried again.
// - It does not look for days after 2100-01-31, and does not compare keys in constant time.
// - Of CSV it reads rows of one field, and of a head it does not check that the target is UTF-8.

#include "desk.h"
#include "http.h"

#include <cstdio>

namespace {

constexpr int kMostMessages = 1000;

// Carries out a call of a company or of the operator.
using CompanyCall = Answer (*)(Desk&, Company&, const JsonValue&, std::string_view piece);
using OperatorCall = Answer (*)(Desk&, const JsonValue&, const std::vector<std::string_view>& pieces, std::string_view body);

struct CompanyRoute {
    std::string_view name;
    size_t pieces;
    bool is_post;
    CompanyCall call;
};

struct OperatorRoute {
    std::string_view name;
    size_t pieces;
    bool is_post, reads_json;
    OperatorCall call;
};

// By the piece after the company, and how many pieces the path has.
constexpr CompanyRoute kCompanyRoutes[] = {
    {"submissions", 3, true, [](Desk& desk, Company& company, const JsonValue& object, std::string_view) { return desk.submit(company, object); }},
    {"retries", 3, true, [](Desk& desk, Company& company, const JsonValue& object, std::string_view) { return desk.retry(company, object); }},
    {"submissions", 4, false, [](Desk& desk, Company& company, const JsonValue&, std::string_view ref) { return desk.look_up(company, ref); }},
    {"returns", 3, false, [](Desk& desk, Company& company, const JsonValue&, std::string_view) { return desk.returns(company); }},
    {"changes", 3, false, [](Desk& desk, Company& company, const JsonValue&, std::string_view) { return desk.changes(company); }},
    {"statement", 3, false, [](Desk& desk, Company& company, const JsonValue&, std::string_view) { return desk.statement(company); }},
    {"rates", 3, false, [](Desk& desk, Company& company, const JsonValue&, std::string_view) { return desk.rates(company); }},
    {"exposure", 3, false, [](Desk& desk, Company& company, const JsonValue&, std::string_view) { return desk.exposure(company); }},
};

using Pieces = std::vector<std::string_view>;

constexpr OperatorRoute kOperatorRoutes[] = {
    {"day", 2, true, true, [](Desk& desk, const JsonValue& object, const Pieces&, std::string_view) { return desk.set_day(object); }},
    {"companies", 2, true, true, [](Desk& desk, const JsonValue& object, const Pieces&, std::string_view) { return desk.put_company(object); }},
    {"companies", 2, false, false, [](Desk& desk, const JsonValue&, const Pieces&, std::string_view) { return desk.companies(); }},
    {"limits", 2, true, true, [](Desk& desk, const JsonValue& object, const Pieces&, std::string_view) { return desk.put_limits(object); }},
    {"holidays", 2, true, false, [](Desk& desk, const JsonValue&, const Pieces&, std::string_view body) { return desk.set_holidays(body); }},
    {"cut", 2, true, false, [](Desk& desk, const JsonValue&, const Pieces&, std::string_view) { return desk.cut(); }},
    {"returns", 2, true, false, [](Desk& desk, const JsonValue&, const Pieces&, std::string_view body) { return desk.take_file(body); }},
    {"files", 4, false, false, [](Desk& desk, const JsonValue&, const Pieces& pieces, std::string_view) { return desk.file(pieces[2], pieces[3]); }},
    {"settlement", 2, false, false, [](Desk& desk, const JsonValue&, const Pieces&, std::string_view) { return desk.settlement(); }},
    {"suspense", 2, false, false, [](Desk& desk, const JsonValue&, const Pieces&, std::string_view) { return desk.suspense(); }},
    {"status", 2, false, false, [](Desk& desk, const JsonValue&, const Pieces&, std::string_view) { return desk.status(); }},
};

// The pieces between the slashes of a path; none if it does not begin with one or a piece is empty.
Pieces pieces_of(std::string_view path)
{
    Pieces pieces;
    while (!path.empty()) {
        size_t end = std::min(path.find('/', 1), path.size());
        if (path[0] != '/' || end == 1) {
            return {};
        }
        pieces.push_back(path.substr(1, end - 1));
        path.remove_prefix(end);
    }
    return pieces;
}

template <typename Route> std::string_view method_of(const Route& route) { return route.is_post ? "POST" : "GET"; }

// The route of a path by this method; else one by the other method, if the path has it.
template <typename Route, size_t N>
const Route* find_route(const Route (&routes)[N], std::string_view name, size_t pieces, std::string_view method)
{
    const Route* found = nullptr;
    for (const Route& route : routes) {
        if (route.name == name && route.pieces == pieces && (found == nullptr || method_of(route) == method)) {
            found = &route;
        }
    }
    return found;
}

Digest key_of(const Request& request)
{
    return sha256(request.value("X-Desk-Key").value_or("")); // no key has the digest of none
}

Answer answer_company(Desk& desk, const CompanyRoute& route, const Pieces& pieces, Request& request)
{
    Company* company = desk.allowed(pieces[1], key_of(request));
    if (company == nullptr) {
        return fault(403, "Denied");
    }
    rapidjson::Document object;
    if (route.is_post && !read_object(request.body, object)) {
        return fault(400, "BadJson");
    }
    return route.call(desk, *company, object, pieces.back());
}

Answer answer_operator(Desk& desk, const OperatorRoute& route, const Pieces& pieces, Request& request)
{
    if (!desk.is_operator(key_of(request))) {
        return fault(403, "Denied");
    }
    rapidjson::Document object;
    if (route.reads_json && !read_object(request.body, object)) {
        return fault(400, "BadJson");
    }
    return route.call(desk, object, pieces, request.body);
}

template <typename Route, typename Call> Answer answer_route(const Route* route, const Request& request, Call call)
{
    if (route == nullptr) {
        return fault(404, "NotFound");
    }
    return request.method == method_of(*route) ? call(*route) : fault(405, "BadMethod");
}

Answer answer(Desk& desk, Request& request)
{
    if (request.framing != Request::kWhole) {
        bool is_bad = request.framing == Request::kBadHead;
        bool is_large = request.framing == Request::kTooLarge;
        return is_bad ? fault(400, "BadHead") : is_large ? fault(413, "TooLarge") : fault(411, "LengthRequired");
    }
    Pieces pieces = pieces_of(request.path);
    if (pieces.size() >= 3 && pieces[0] == "c") {
        const CompanyRoute* route = find_route(kCompanyRoutes, pieces[2], pieces.size(), request.method);
        return answer_route(route, request, [&](const CompanyRoute& it) { return answer_company(desk, it, pieces, request); });
    }
    bool is_operator = pieces.size() >= 2 && pieces[0] == "ops";
    const OperatorRoute* route = is_operator ? find_route(kOperatorRoutes, pieces[1], pieces.size(), request.method) : nullptr;
    return answer_route(route, request, [&](const OperatorRoute& it) { return answer_operator(desk, it, pieces, request); });
}

// What a session leaves as the status of the program.
int session(Desk& desk, int input, int output)
{
    Unread unread(input);
    Request request;
    for (int number = 1; number <= kMostMessages; number++) {
        Arrival arrival = unread.next(request);
        if (arrival != Arrival::kRequest) {
            return arrival == Arrival::kEnd ? 0 : 1;
        }
        bool closes = request.closes || number == kMostMessages;
        Answer done;
        try {
            done = answer(desk, request);
        } catch (const Unavailable&) {
            done = fault(503, "Unavailable");
            closes = true;
        }
        write_all(output, response(done.status, done.is_text, closes, done.body));
        if (closes) {
            return 0;
        }
    }
    return 0;
}

} // namespace

int main(int count, char** words)
{
    if (count != 2) {
        std::puts("usage: rival DB");
        return 2;
    }
    try {
        Desk desk(words[1]);
        return session(desk, 0, 1);
    } catch (const Unavailable&) {
        std::puts("unavailable");
        return 3;
    } catch (const BrokenStream&) {
        return 3;
    }
}
