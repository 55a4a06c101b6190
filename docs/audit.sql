-- Views over a copy of a desk's file, for stock SQLite 3.37 or later. docs/audit/tables.md describes the tables.
--
--     sqlite3 -readonly -box -init docs/audit.sql copy/bank.db 'SELECT * FROM audit_checks'
--
-- Open copies with -readonly: without it SQLite moves the log into the file when it closes, and changes the copy. The
-- views are temporary and disappear with the connection. Days are dates. Amounts appear twice: in whole cents, to
-- calculate with, and with two decimals, to read. Each name begins with audit_, since the tables have the short names.

-- ---- the bank, its calendar and its accounts

-- The bank, the ACH operator to which its files go, and the desk day, which is NULL until one is set.
CREATE TEMP VIEW audit_desk AS
SELECT odfi AS routing, odfi_name AS bank, destination AS operator_routing, destination_name AS operator,
       version, date(day * 86400, 'unixepoch') AS day
FROM desk;

-- The present holiday list.
CREATE TEMP VIEW audit_holidays AS
SELECT date(day * 86400, 'unixepoch') AS day,
       substr('MonTueWedThuFriSatSun', (day + 3) % 7 * 3 + 1, 3) AS weekday
FROM holidays ORDER BY holidays.day;

-- Each company with its limits.
CREATE TEMP VIEW audit_companies AS
SELECT id AS company, name,
       printf('%d.%02d', entry_limit / 100, entry_limit % 100) AS entry_limit,
       printf('%d.%02d', credit_limit / 100, credit_limit % 100) AS credit_limit,
       printf('%d.%02d', debit_limit / 100, debit_limit % 100) AS debit_limit
FROM companies ORDER BY id;

-- Each account, with the text that names it in the tables.
CREATE TEMP VIEW audit_accounts AS
SELECT 'O' AS account, 'operator' AS kind, NULL AS company, destination_name AS name FROM desk
UNION ALL SELECT 'S', 'suspense', NULL, 'SUSPENSE'
UNION ALL SELECT 'C:' || id, 'company', id, name FROM companies;

-- ---- submissions and entries

-- Each submission and retry. It is held until a cut sends it, or lets a retry lapse. `returned` counts its returned
-- entries. A retry names the entry that it tries again.
CREATE TEMP VIEW audit_submissions AS
SELECT s.company, c.name, s.ord AS number, s.ref,
       CASE WHEN s.of_ref IS NULL THEN 'submission' ELSE 'retry' END AS kind,
       s.sec, s.direction, s.description, date(s.asked * 86400, 'unixepoch') AS asked,
       e.entries, e.cents, printf('%d.%02d', e.cents / 100, e.cents % 100) AS amount,
       CASE WHEN s.lapsed = 1 THEN 'lapsed' WHEN s.settled IS NULL THEN 'held' ELSE 'sent' END AS state,
       date(s.settled * 86400, 'unixepoch') AS settled, date(s.file_day * 86400, 'unixepoch') AS cut_on,
       s.modifier AS file, s.batch,
       (SELECT count(*) FROM returns r WHERE r.company = s.company AND r.ord = s.ord) AS returned,
       s.of_ref, s.of_index, date(a.day * 86400, 'unixepoch') AS authorized
FROM submissions s
JOIN companies c ON c.id = s.company
JOIN (SELECT company, ord, count(*) AS entries, sum(cents) AS cents FROM entries GROUP BY company, ord) e
  ON e.company = s.company AND e.ord = s.ord
LEFT JOIN authorizations a ON a.company = s.company AND a.ord = s.ord
ORDER BY s.company, s.ord;

-- Each entry with its state and its trace number. The trace of a sent entry is NULL if a younger entry has it by now; then
-- only the text of the file has it.
CREATE TEMP VIEW audit_entries AS
SELECT e.company, e.ord AS number, s.ref, e.idx AS entry, s.direction, e.routing, e.account,
       CASE e.savings WHEN 1 THEN 'savings' ELSE 'checking' END AS kind,
       CASE e.prenote WHEN 1 THEN 'prenote' ELSE 'live' END AS use,
       e.cents, printf('%d.%02d', e.cents / 100, e.cents % 100) AS amount, e.ident AS id, e.name, e.info,
       CASE WHEN s.lapsed = 1 THEN 'lapsed' WHEN s.settled IS NULL THEN 'held'
            WHEN r.no IS NULL THEN 'sent' ELSE 'returned' END AS state,
       date(s.settled * 86400, 'unixepoch') AS settled,
       date(s.file_day * 86400, 'unixepoch') AS cut_on, s.modifier AS file,
       e.seq AS place, substr(d.odfi, 1, 8) || substr('000000' || n.sequence, -7) AS trace,
       r.code, date(r.day * 86400, 'unixepoch') AS returned, CASE r.late WHEN 1 THEN 'late' WHEN 0 THEN 'in time' END AS late
FROM desk d
JOIN entries e
JOIN submissions s ON s.company = e.company AND s.ord = e.ord
LEFT JOIN numbers n ON n.nth = e.seq
LEFT JOIN returns r ON r.company = e.company AND r.ord = e.ord AND r.idx = e.idx
ORDER BY e.company, e.ord, e.idx;

-- ---- returns, changes and suspense

-- Each day on which entries settled, with the deadlines of their returns by the present holiday list: the second banking
-- day after it, and the first banking day after the sixtieth day from it.
CREATE TEMP VIEW audit_deadlines AS
WITH RECURSIVE
settled(day) AS (SELECT DISTINCT s.settled FROM submissions s WHERE s.settled IS NOT NULL),
ahead(settled, day, banking) AS (
  SELECT day, day, 0 FROM settled
  UNION ALL
  SELECT settled, day + 1, banking + ((day + 4) % 7 < 5 AND day + 1 NOT IN (SELECT h.day FROM holidays h))
  FROM ahead WHERE banking < 2),
extended(settled, day, banking) AS (
  SELECT day, day + 60, 0 FROM settled
  UNION ALL
  SELECT settled, day + 1, (day + 4) % 7 < 5 AND day + 1 NOT IN (SELECT h.day FROM holidays h)
  FROM extended WHERE banking = 0)
SELECT a.settled AS settled_day, date(a.settled * 86400, 'unixepoch') AS settled,
       date(max(a.day) * 86400, 'unixepoch') AS two_banking_days,
       (SELECT date(max(x.day) * 86400, 'unixepoch') FROM extended x WHERE x.settled = a.settled) AS sixty_days
FROM ahead a GROUP BY a.settled ORDER BY a.settled;

-- Each return that matches an entry, in the order in which they were taken. `deadline` is by the present holiday list, and
-- NULL for a code without one; `late` was decided when the return was taken.
CREATE TEMP VIEW audit_returns AS
SELECT r.no, r.company, s.ref, r.idx AS entry, s.direction, e.cents,
       printf('%d.%02d', e.cents / 100, e.cents % 100) AS amount, r.code,
       date(s.settled * 86400, 'unixepoch') AS settled,
       CASE WHEN r.code IN ('R05', 'R07', 'R10', 'R11') THEN d.sixty_days
            WHEN r.code IN ('R06', 'R13', 'R18', 'R19', 'R23', 'R25', 'R26', 'R27', 'R28') THEN NULL
            ELSE d.two_banking_days END AS deadline,
       date(r.day * 86400, 'unixepoch') AS taken,
       CASE r.late WHEN 1 THEN 'late' ELSE 'in time' END AS late, rtrim(r.info) AS info
FROM returns r
JOIN submissions s ON s.company = r.company AND s.ord = r.ord
JOIN entries e ON e.company = r.company AND e.ord = r.ord AND e.idx = r.idx
LEFT JOIN audit_deadlines d ON d.settled_day = s.settled
ORDER BY r.no;

-- Each notification of change that matches an entry, with what the entry has: the receiver's bank, account and name as
-- they were sent, next to the corrected data.
CREATE TEMP VIEW audit_changes AS
SELECT c.no, c.company, s.ref, c.idx AS entry, c.code, date(c.day * 86400, 'unixepoch') AS taken, c.text,
       e.routing AS old_routing, e.account AS old_account,
       CASE e.savings WHEN 1 THEN 'savings' ELSE 'checking' END AS old_kind, e.ident AS old_id, e.name AS old_name
FROM changes c
JOIN submissions s ON s.company = c.company AND s.ord = c.ord
JOIN entries e ON e.company = c.company AND e.ord = c.ord AND e.idx = c.idx
ORDER BY c.no;

-- Each item that matches no entry. Its money is in suspense. `direction` says whether a credit or a debit was returned:
-- the n-th line of suspense belongs to the n-th item with money, and a returned debit lowers suspense. It is NULL for an
-- item without money.
CREATE TEMP VIEW audit_unmatched AS
WITH items AS (SELECT no, row_number() OVER (ORDER BY no) AS nth FROM suspense WHERE cents > 0),
     lines AS (SELECT cents, row_number() OVER (ORDER BY no) AS nth FROM postings WHERE account = 'S')
SELECT s.no, date(s.day * 86400, 'unixepoch') AS taken, s.file_key AS file, s.item, s.code, s.trace,
       CASE WHEN l.cents < 0 THEN 'debit' WHEN l.cents > 0 THEN 'credit' END AS direction, s.cents,
       printf('%d.%02d', s.cents / 100, s.cents % 100) AS amount, s.why,
       CASE s.why WHEN 'NoTrace' THEN 'no sent entry has the trace'
                  WHEN 'Differs' THEN 'the entry with the trace differs from the item'
                  WHEN 'CodeOutside' THEN 'the desk does not process the code'
                  WHEN 'AlreadyReturned' THEN 'the entry was returned earlier' END AS reason
FROM suspense s LEFT JOIN items i ON i.no = s.no LEFT JOIN lines l ON l.nth = i.nth
ORDER BY s.no;

-- ---- exposures

-- Each day on which debits settled, with the first and the second banking day after it. They count until the second.
-- `closed` lists the holidays in between.
CREATE TEMP VIEW audit_debit_days AS
WITH RECURSIVE ahead(settled, day, banking) AS (
  SELECT DISTINCT settled, settled, 0 FROM submissions WHERE direction = 'debit' AND settled IS NOT NULL
  UNION ALL
  SELECT settled, day + 1, banking + ((day + 4) % 7 < 5 AND day + 1 NOT IN (SELECT h.day FROM holidays h))
  FROM ahead WHERE banking < 2)
SELECT a.settled AS settled_day, max(a.day) AS until_day, date(a.settled * 86400, 'unixepoch') AS settled,
       date(min(a.day) FILTER (WHERE a.banking = 1) * 86400, 'unixepoch') AS first,
       date(max(a.day) * 86400, 'unixepoch') AS until,
       (SELECT group_concat(date(h.day * 86400, 'unixepoch'), ' ') FROM holidays h
        WHERE h.day > a.settled AND h.day < max(a.day) AND (h.day + 3) % 7 < 5) AS closed
FROM ahead a GROUP BY a.settled ORDER BY a.settled;

-- Each entry that counts in an exposure on the desk day. A credit counts while it is held and until it settles, even if it
-- is returned. A debit counts while it is held and until the second banking day after it settles, unless it is returned.
-- A held entry has no last day yet.
CREATE TEMP VIEW audit_open_entries AS
SELECT e.company, e.number, e.ref, e.entry, e.direction, e.cents, e.amount, e.state, e.settled,
       CASE e.direction WHEN 'credit' THEN e.settled ELSE d.until END AS counts_until, d.closed
FROM audit_entries e
LEFT JOIN audit_debit_days d ON e.direction = 'debit' AND d.settled = e.settled
WHERE e.state = 'held'
   OR e.direction = 'credit' AND e.state <> 'lapsed' AND e.settled >= (SELECT day FROM audit_desk)
   OR e.direction = 'debit' AND e.state = 'sent' AND d.until >= (SELECT day FROM audit_desk);

-- Each company's exposures on the desk day, next to its limits.
CREATE TEMP VIEW audit_exposures AS
SELECT c.id AS company, c.name,
       o.credit AS credit_cents, printf('%d.%02d', o.credit / 100, o.credit % 100) AS credit,
       printf('%d.%02d', c.credit_limit / 100, c.credit_limit % 100) AS credit_limit,
       o.debit AS debit_cents, printf('%d.%02d', o.debit / 100, o.debit % 100) AS debit,
       printf('%d.%02d', c.debit_limit / 100, c.debit_limit % 100) AS debit_limit
FROM companies c
JOIN (SELECT k.id, coalesce(sum(e.cents) FILTER (WHERE e.direction = 'credit'), 0) AS credit,
             coalesce(sum(e.cents) FILTER (WHERE e.direction = 'debit'), 0) AS debit
      FROM companies k LEFT JOIN audit_open_entries e ON e.company = k.id GROUP BY k.id) o ON o.id = c.id
ORDER BY c.id;

-- Each company's return rates on the desk day, as GET /c/{company}/rates has them: over the 60 days that end on it, its
-- debits with money that settled, and those whose return was taken. Nacha's levels are 0.5, 3 and 15 percent.
CREATE TEMP VIEW audit_rates AS
WITH desk_day AS (SELECT day FROM desk),
debits AS (SELECT e.company, s.settled, r.code, r.day AS returned
           FROM entries e
           JOIN submissions s ON s.company = e.company AND s.ord = e.ord
           LEFT JOIN returns r ON r.company = e.company AND r.ord = e.ord AND r.idx = e.idx
           WHERE s.direction = 'debit' AND e.prenote = 0 AND s.settled IS NOT NULL),
counts AS (SELECT company,
             count(*) FILTER (WHERE settled BETWEEN (SELECT day FROM desk_day) - 59 AND (SELECT day FROM desk_day)) AS debits,
             count(*) FILTER (WHERE returned BETWEEN (SELECT day FROM desk_day) - 59 AND (SELECT day FROM desk_day)
                                AND code IN ('R05', 'R07', 'R10', 'R11', 'R29')) AS unauthorized,
             count(*) FILTER (WHERE returned BETWEEN (SELECT day FROM desk_day) - 59 AND (SELECT day FROM desk_day)
                                AND code IN ('R02', 'R03', 'R04')) AS administrative,
             count(*) FILTER (WHERE returned BETWEEN (SELECT day FROM desk_day) - 59 AND (SELECT day FROM desk_day)) AS overall
           FROM debits GROUP BY company)
SELECT c.id AS company, c.name, coalesce(k.debits, 0) AS debits,
       coalesce(k.unauthorized, 0) AS unauthorized, coalesce(k.unauthorized * 1000 > k.debits * 5, 0) AS unauthorized_over,
       coalesce(k.administrative, 0) AS administrative, coalesce(k.administrative * 100 > k.debits * 3, 0) AS administrative_over,
       coalesce(k.overall, 0) AS overall, coalesce(k.overall * 100 > k.debits * 15, 0) AS overall_over
FROM companies c LEFT JOIN counts k ON k.company = c.id ORDER BY c.id;

-- Each company's limits, exposures and return rates on the desk day, as GET /ops/companies has them.
CREATE TEMP VIEW audit_risks AS
SELECT c.id AS company, c.name, c.entry_limit AS entry_limit_cents, k.entry_limit,
       e.credit_cents, e.credit, c.credit_limit AS credit_limit_cents, e.credit_limit,
       e.debit_cents, e.debit, c.debit_limit AS debit_limit_cents, e.debit_limit,
       r.debits, r.unauthorized, r.unauthorized_over, r.administrative, r.administrative_over, r.overall, r.overall_over
FROM companies c
JOIN audit_companies k ON k.company = c.id
JOIN audit_exposures e ON e.company = c.id
JOIN audit_rates r ON r.company = c.id
ORDER BY c.id;

-- ---- accounts

-- Each line of each account, in the order in which they were posted. It counts from its day on.
CREATE TEMP VIEW audit_lines AS
SELECT p.no, a.kind AS account, a.company, a.name, date(p.value_day * 86400, 'unixepoch') AS day, p.cause, p.ref,
       p.idx AS entry, p.cents,
       printf('%s%d.%02d', substr('-', 1, p.cents < 0), abs(p.cents) / 100, abs(p.cents) % 100) AS amount
FROM postings p LEFT JOIN audit_accounts a ON a.account = p.account
ORDER BY p.no;

-- Each account's sum for each day, and its balance at the end of that day.
CREATE TEMP VIEW audit_daily_sums AS
SELECT a.kind AS account, a.company, a.name, date(s.value_day * 86400, 'unixepoch') AS day, s.lines, s.cents,
       printf('%s%d.%02d', substr('-', 1, s.cents < 0), abs(s.cents) / 100, abs(s.cents) % 100) AS amount, s.balance_cents,
       printf('%s%d.%02d', substr('-', 1, s.balance_cents < 0), abs(s.balance_cents) / 100, abs(s.balance_cents) % 100) AS balance
FROM (SELECT account, value_day, count(*) AS lines, sum(cents) AS cents,
             sum(sum(cents)) OVER (PARTITION BY account ORDER BY value_day) AS balance_cents
      FROM postings GROUP BY account, value_day) s
LEFT JOIN audit_accounts a ON a.account = s.account
ORDER BY s.account, s.value_day;

-- Each account's balance on the desk day: the sum of the lines that count on it or before it.
CREATE TEMP VIEW audit_balances AS
SELECT a.kind AS account, a.company, a.name, b.cents,
       printf('%s%d.%02d', substr('-', 1, b.cents < 0), abs(b.cents) / 100, abs(b.cents) % 100) AS balance
FROM audit_accounts a
JOIN (SELECT k.account, coalesce(sum(p.cents), 0) AS cents FROM audit_accounts k
      LEFT JOIN postings p ON p.account = k.account AND p.value_day <= (SELECT day FROM desk) GROUP BY k.account) b
  ON b.account = a.account;

-- ---- files

-- Each file that a cut created, with its totals from the tables, and its text. `records` counts entries and addenda.
CREATE TEMP VIEW audit_files AS
SELECT date(f.day * 86400, 'unixepoch') AS day, f.modifier AS file, count(s.batch) AS batches,
       sum(e.entries) AS entries, sum(e.entries + e.addenda) AS records,
       coalesce(sum(e.cents) FILTER (WHERE s.direction = 'debit'), 0) AS debit_cents,
       coalesce(sum(e.cents) FILTER (WHERE s.direction = 'credit'), 0) AS credit_cents, CAST(f.text AS TEXT) AS text
FROM files f
JOIN submissions s ON s.file_day = f.day AND s.modifier = f.modifier
JOIN (SELECT company, ord, count(*) AS entries, count(info) AS addenda, sum(cents) AS cents
      FROM entries GROUP BY company, ord) e ON e.company = s.company AND e.ord = s.ord
GROUP BY f.day, f.modifier ORDER BY f.day, f.modifier;

-- Each file of returns and changes that was taken, with the numbers of its items by outcome.
CREATE TEMP VIEW audit_taken AS
SELECT date(day * 86400, 'unixepoch') AS taken, file_key AS file, returns, late, changes, suspense, lower(hex(digest)) AS sha256
FROM taken ORDER BY taken.day, file_key;

-- ---- checks

-- Properties of every desk's file, with the number of violations, which has to be 0 in each row.
CREATE TEMP VIEW audit_checks AS
SELECT 'on each day the lines of all accounts sum to zero' AS must_hold,
       (SELECT count(*) FROM (SELECT value_day FROM postings GROUP BY value_day HAVING sum(cents) <> 0)) AS wrong
UNION ALL SELECT 'the balances of all accounts on the desk day sum to zero', (SELECT sum(cents) <> 0 FROM audit_balances)
UNION ALL SELECT 'each line of a company or of suspense has the operator''s opposite next after it',
  (SELECT count(*) FROM postings p
   LEFT JOIN postings o ON o.no = p.no + 1 AND o.account = 'O' AND o.value_day = p.value_day AND o.cents = -p.cents
                       AND o.cause = p.cause AND o.ref IS p.ref AND o.idx = p.idx
   WHERE CASE p.no % 2 WHEN 1 THEN p.account = 'O' OR o.no IS NULL ELSE p.account <> 'O' END)
UNION ALL SELECT 'each stored sum of a day is the sum of its lines',
  (WITH summed AS (SELECT account, value_day, CAST(sum(cents) AS TEXT) FROM postings GROUP BY account, value_day),
        kept AS (SELECT account, value_day, cents FROM balances)
   SELECT (SELECT count(*) FROM (SELECT * FROM summed EXCEPT SELECT * FROM kept))
        + (SELECT count(*) FROM (SELECT * FROM kept EXCEPT SELECT * FROM summed)))
UNION ALL SELECT 'the cut lines of companies are the sent submissions with money',
  (WITH sent AS (SELECT company, ref, settled, CASE direction WHEN 'credit' THEN -cents ELSE cents END
                 FROM audit_submissions WHERE state = 'sent' AND cents > 0),
        lines AS (SELECT company, ref, day, cents FROM audit_lines WHERE account = 'company' AND cause = 'cut')
   SELECT (SELECT count(*) FROM (SELECT * FROM sent EXCEPT SELECT * FROM lines))
        + abs((SELECT count(*) FROM lines) - (SELECT count(*) FROM sent)))
UNION ALL SELECT 'the return lines of companies are the returns of entries with money',
  (WITH back AS (SELECT company, ref, entry, taken, CASE direction WHEN 'credit' THEN cents ELSE -cents END
                 FROM audit_returns WHERE cents > 0),
        lines AS (SELECT company, ref, entry, day, cents FROM audit_lines WHERE account = 'company' AND cause = 'return')
   SELECT (SELECT count(*) FROM (SELECT * FROM back EXCEPT SELECT * FROM lines))
        + abs((SELECT count(*) FROM lines) - (SELECT count(*) FROM back)))
UNION ALL SELECT 'the lines of suspense are its items with money, in their order',
  (WITH items AS (SELECT row_number() OVER (ORDER BY no), day, cents FROM suspense WHERE cents > 0),
        lines AS (SELECT row_number() OVER (ORDER BY no), value_day, abs(cents) FROM postings WHERE account = 'S')
   SELECT (SELECT count(*) FROM (SELECT * FROM items EXCEPT SELECT * FROM lines))
        + (SELECT count(*) FROM (SELECT * FROM lines EXCEPT SELECT * FROM items)))
UNION ALL SELECT 'the places of sent entries are 1, 2, 3 and so on',
  (SELECT count(*) <> coalesce(max(seq), 0) OR count(*) <> count(DISTINCT seq) FROM entries WHERE seq IS NOT NULL)
UNION ALL SELECT 'an entry has a place if and only if its submission was sent',
  (SELECT count(*) FROM entries e JOIN submissions s ON s.company = e.company AND s.ord = e.ord
   WHERE (e.seq IS NULL) <> (s.settled IS NULL))
UNION ALL SELECT 'each sequence belongs to a sent entry',
  (SELECT count(*) FROM numbers n LEFT JOIN entries e ON e.seq = n.nth WHERE e.seq IS NULL)
UNION ALL SELECT 'each returned entry was sent',
  (SELECT count(*) FROM returns r LEFT JOIN entries e ON e.company = r.company AND e.ord = r.ord AND e.idx = r.idx
   WHERE e.seq IS NULL)
UNION ALL SELECT 'the taken files count as many returns, changes and items in suspense as there are',
  (SELECT (coalesce(sum(returns), 0) <> (SELECT count(*) FROM returns)) + (coalesce(sum(changes), 0) <> (SELECT count(*) FROM changes))
        + (coalesce(sum(suspense), 0) <> (SELECT count(*) FROM suspense)) FROM taken)
UNION ALL SELECT 'the control record of each file agrees with the tables',
  (SELECT count(*) FROM audit_files
   WHERE substr(text, 95 * (1 + 2 * batches + records) + 1, 94) NOT LIKE
         printf('9%06d______%08d__________%012d%012d%%', batches, records, debit_cents, credit_cents));
