#!/usr/bin/env python3
"""Compares deploy/prometheus and deploy/grafana with docs/operate/monitoring.md and with what is measured.

There is one alert for each row of the page's alarms, in the same order. promtool loads the rules, and runs each alert on
a series on which it has to fire and on one on which it must not. mtail reads lines of the proxy's log. The dashboard is
JSON with whole panels that do not overlap, and promtool parses its queries. Every metric of a rule or of a query is one
that achdesk-day, achdesk.mtail or an exporter that the page names has.

It takes Debian's packages prometheus, for promtool, and mtail: if one is missing it says so and ends with status 2.
"""

import json
import re
import subprocess
import sys
import tempfile
from pathlib import Path

from helpers.running import TOP, Checks, found

RULES, MTAIL, BOARD = (TOP / "deploy" / it for it in ("prometheus/achdesk.rules.yml", "prometheus/achdesk.mtail", "grafana/achdesk.json"))
PAGE = (TOP / "docs/operate/monitoring.md").read_text()
EXPORTERS = {"node_textfile_mtime_seconds": "node exporter", "node_systemd_unit_state": "node exporter", "probe_ssl_earliest_cert_expiry": "blackbox exporter"}
MEASURED = re.compile(r"\b(?:achdesk|node|probe)_\w+")
END = "10h"  # when a series is looked at, with a value in each minute

LABELS = '{company="MILL01",direction="credits"}'
ANSWERS = 'achdesk_proxy_answers_total{status="%s"}'
# For each alert the series on which it fires, and those on which it does not, in promtool's notation.
TRIED = {
    "AchdeskDown": ({"achdesk_up": "1x590 0x20"}, {"achdesk_up": "1x610"}),
    "AchdeskMetricsOld": ({"achdesk_up": "1x610", 'node_textfile_mtime_seconds{file="/var/lib/prometheus/node-exporter/achdesk.prom"}': "0x610"},
                          {"achdesk_up": "1x610", 'node_textfile_mtime_seconds{file="/var/lib/prometheus/node-exporter/achdesk.prom"}': "0+60x610"}),
    "AchdeskDayNotOpened": ({"achdesk_day_age_days": "1x610", "achdesk_banking_day": "1x610"}, {"achdesk_day_age_days": "1x610", "achdesk_banking_day": "0x610"}),
    "AchdeskFileNotTransmitted": ({'achdesk_untransmitted_files{day="2025-01-14"}': "0x560 1x50"}, {'achdesk_untransmitted_files{day="2025-01-14"}': "0x580 1x30"}),
    "AchdeskOpenUpload": ({"achdesk_open_uploads": "1x610"}, {"achdesk_open_uploads": "0x610"}),
    "AchdeskDayLater": ({"achdesk_day_age_days": "-1x610"}, {"achdesk_day_age_days": "0x610"}),
    "AchdeskQuarantine": ({"achdesk_quarantined_files": "1x595 2x15"}, {"achdesk_quarantined_files": "2x610"}),
    "AchdeskHolidays": ({"achdesk_holidays": "11x610", "achdesk_holidays_end_timestamp_seconds": "6480000x610"},
                        {"achdesk_holidays": "11x610", "achdesk_holidays_end_timestamp_seconds": "6530000x610"}),
    "AchdeskManyFiles": ({"achdesk_due_files": "9x610"}, {"achdesk_due_files": "8x610"}),
    "AchdeskUnclearFile": ({"achdesk_unclear_files": "1x610"}, {"achdesk_unclear_files": "0x610"}),
    "AchdeskLostFile": ({"achdesk_lost_files": "1x610"}, {"achdesk_lost_files": "0x610"}),
    "AchdeskUnconfirmed": ({"achdesk_unconfirmed": "1x610"}, {"achdesk_unconfirmed": "0x610"}),
    "AchdeskNotAcknowledged": ({"achdesk_unacknowledged_files": "1x610"}, {"achdesk_unacknowledged_files": "0x610"}),
    "AchdeskInbox": ({"achdesk_inbox_oldest_seconds": "0+60x610"}, {"achdesk_inbox_oldest_seconds": "3600x610"}),
    "AchdeskFlood": ({f"achdesk_held_submissions{LABELS}": "10x590 20000x20"}, {f"achdesk_held_submissions{LABELS}": "0x590 1000x20"}),
    "AchdeskLateReturn": ({"achdesk_late_returns": "1x610"}, {"achdesk_late_returns": "0x610"}),
    "AchdeskSuspense": ({"achdesk_suspense_items": "0x595 1x15"}, {"achdesk_suspense_items": "1x610"}),
    "AchdeskReturnRate": ({'achdesk_return_rate_over_level{company="MILL01",rate="overall"}': "1x610"},
                          {'achdesk_return_rate_over_level{company="MILL01",rate="overall"}': "0x610"}),
    "AchdeskExposure": ({f"achdesk_exposure_cents{LABELS}": "91x610", f"achdesk_exposure_limit_cents{LABELS}": "100x610"},
                        {f"achdesk_exposure_cents{LABELS}": "90x610", f"achdesk_exposure_limit_cents{LABELS}": "100x610"}),
    "AchdeskTraces": ({"achdesk_entries_sent_total": "0+1000x610"}, {"achdesk_entries_sent_total": "0+100x610"}),
    "AchdeskDisk": ({"achdesk_free_bytes": "19x610", "achdesk_file_bytes": "10x610"}, {"achdesk_free_bytes": "20x610", "achdesk_file_bytes": "10x610"}),
    "AchdeskBackupOld": ({"achdesk_backup_age_seconds": "3601x610"}, {"achdesk_backup_age_seconds": "3600x610"}),
    "AchdeskUnavailable": ({ANSWERS % 503: "_x597 1x15"}, {ANSWERS % 503: "1x610"}),
    "AchdeskNotReached": ({ANSWERS % 502: "1x580 2+1x30"}, {ANSWERS % 502: "1x590 2+1x20"}),
    "AchdeskSlow": ({ANSWERS % 504: "1x597 2x15"}, {ANSWERS % 504: "1x610"}),
    "AchdeskGuesses": ({ANSWERS % 403: "0+40x610"}, {ANSWERS % 403: "0+20x610", ANSWERS % 429: "0+50x610"}),
    "AchdeskCertificate": ({'probe_ssl_earliest_cert_expiry{job="achdesk"}': "1200000x610"}, {'probe_ssl_earliest_cert_expiry{job="achdesk"}': "1300000x610"}),
    "AchdeskUnitFailed": ({'node_systemd_unit_state{name="achdesk-alarm.service",state="failed"}': "1 0 " * 305},
                          {'node_systemd_unit_state{name="achdesk-alarm.service",state="failed"}': "0x597 1x1 0x10"}),
}
LINES = """2026-11-29T17:25:00+00:00 10.0.0.7 holder=operator:alice "POST /ops/cut" 200 received=210 sent=180 seconds=0.012 desk=200 id=81126b28ed86c6a042913c384c2d2e6f
2026-11-29T17:25:01+00:00 10.0.0.8 holder=- "GET /\\"x 503 received=1" 403 received=9 sent=20 seconds=0.000 desk=- id=81126b28ed86c6a042913c384c2d2e70
2026-11-29T17:25:02+00:00 10.0.0.7 holder=operator:alice "GET /ops/status" 503 received=9 sent=20 seconds=0.000 desk=503 id=81126b28ed86c6a042913c384c2d2e71
"""


def said(*words):
    done = subprocess.run([str(it) for it in words], stdout=subprocess.PIPE, stderr=subprocess.STDOUT, text=True, timeout=300)
    return done.returncode, done.returncode and done.stdout


def names_of_the_day_program():
    """The metrics that achdesk-day has, by itself."""
    sys.path[:0] = [str(TOP / "deploy"), str(TOP / "clients" / "python")]
    from achdesk_day.metrics import METRICS
    return {f"achdesk_{name}" for name in METRICS}


def tests_of(fires):
    """Tests in promtool's form that all alerts fire, or that none does, each with the series of as many alerts as differ in
    their series."""
    groups = []
    for alert, cases in TRIED.items():
        series = cases[0 if fires else 1]
        group = next((it for it in groups if all(it[0].get(name, values) == values for name, values in series.items())), None)
        if group is None:
            groups.append(group := ({}, []))
        group[0].update(series)
        group[1].append({"expr": f'count by (alertname) (ALERTS{{alertname="{alert}", alertstate="firing"}})', "eval_time": END,
                         "exp_samples": [{"labels": f'{{alertname="{alert}"}}', "value": 1}] if fires else []})
    return [{"interval": "1m", "input_series": [{"series": name, "values": values} for name, values in series.items()], "promql_expr_test": looks}
            for series, looks in groups]


def rules(checks, folder, measured):
    text = RULES.read_text()
    alerts, expressions = re.findall(r"- alert: (\w+)\n", text), re.findall(r"\n +expr: (.*)\n", text)
    checks.that("promtool loads the rules", said("promtool", "check", "rules", RULES), (0, 0))
    rows = re.findall(r"(?m)^\| (.+?) \|", PAGE.partition("\n## Alarms\n")[2].partition("\n## ")[0])[1:]
    checks.that("one alert for each row of the page", (len(rows) > 20, len(alerts), len(expressions)), (True, len(rows), len(rows)))
    for row, alert, expression in zip(rows, alerts, expressions):
        wanted = set(re.findall(r"`(achdesk_\w+|node_\w+|probe_\w+)", row))
        missing = wanted - set(MEASURED.findall(expression))
        checks.that(f"{alert} is of its row: {row[:50]}", missing, set())
    strange = {it for line in expressions for it in MEASURED.findall(line)} - measured
    checks.that("every metric of a rule is measured", strange, set())
    named = {it for line in expressions for it in MEASURED.findall(line) if it in EXPORTERS}
    checks.that("the page names the exporters", {EXPORTERS[it] for it in named if EXPORTERS[it] not in PAGE} | {it for it in ("mtail",) if it not in PAGE}, set())
    checks.that("each alert is tried", sorted(alerts), sorted(TRIED))
    tests = [test for fires in (True, False) for test in tests_of(fires)]
    (folder / "tests.yml").write_text(json.dumps({"rule_files": [str(RULES)], "evaluation_interval": "1m", "tests": tests}))
    checks.that(f"{len(alerts)} alerts fire when they should, and only then", said("promtool", "test", "rules", folder / "tests.yml"), (0, 0))


def board(checks, folder, measured):
    told = json.loads(BOARD.read_text())
    panels = told["panels"]
    checks.that("the dashboard's panels have numbers of their own", len({it["id"] for it in panels}), len(panels))
    cells = [(x, y) for it in panels for box in [it["gridPos"]] for x in range(box["x"], box["x"] + box["w"]) for y in range(box["y"], box["y"] + box["h"])]
    checks.that("and places of their own, in 24 columns", (len(set(cells)), max(x for x, _ in cells) < 24), (len(cells), True))
    checks.that("each has a title, a type, a unit and queries", [it["id"] for it in panels if not (it["title"] and it["type"] in ("stat", "timeseries")
                and it["fieldConfig"]["defaults"]["unit"] and it["targets"])], [])
    variables = {it["name"] for it in told["templating"]["list"] if it["type"] == "datasource" and it["query"] == "prometheus"}
    sources = {it["datasource"]["uid"] for panel in panels for it in (panel, *panel["targets"])}
    checks.that("all ask the Prometheus that is chosen", sources, {f"${{{it}}}" for it in variables})
    queries = [it["expr"] for panel in panels for it in panel["targets"]]
    recorded = [{"record": f"query:{number}", "expr": query} for number, query in enumerate(queries)]
    (folder / "queries.yml").write_text(json.dumps({"groups": [{"name": "queries", "rules": recorded}]}))
    checks.that(f"promtool parses its {len(queries)} queries", said("promtool", "check", "rules", folder / "queries.yml"), (0, 0))
    checks.that("every metric of a query is measured", {it for query in queries for it in MEASURED.findall(query)} - measured, set())
    legends = {it for panel in panels for target in panel["targets"] for it in re.findall(r"\{\{(\w+)\}\}", target["legendFormat"])}
    checks.that("the legends are of labels that there are", legends - {"company", "direction", "rate", "status"}, set())


def counted(checks, folder):
    """What mtail counts of the proxy's log."""
    (folder / "programs").mkdir()
    (folder / "programs" / MTAIL.name).write_text(MTAIL.read_text())
    (folder / "proxy.log").write_text(LINES)
    words = ["mtail", "--one_shot", "--one_shot_format", "prometheus", "--progs", folder / "programs", "--logs", folder / "proxy.log"]
    done = subprocess.run([str(it) for it in words], stdout=subprocess.PIPE, stderr=subprocess.STDOUT, text=True, timeout=300)
    found = dict(re.findall(r'achdesk_proxy_answers_total\{.*status="(\d+)"\} (\d+)', done.stdout))
    checks.that("mtail counts the answers by status", found, {"200": "1", "403": "1", "503": "1"})


def main():
    if sys.argv[1:]:
        sys.exit(__doc__)
    missing = [package for package, program in (("prometheus", "promtool"), ("mtail", "mtail")) if not found(program)]
    if missing:
        print(f"not tried, since these packages are missing: {', '.join(missing)}")
        sys.exit(2)
    checks = Checks()
    measured = names_of_the_day_program() | set(re.findall(r"(?m)^counter (\w+)", MTAIL.read_text())) | set(EXPORTERS)
    with tempfile.TemporaryDirectory() as name:
        folder = Path(name)
        rules(checks, folder, measured)
        board(checks, folder, measured)
        counted(checks, folder)
    checks.end()


main()
