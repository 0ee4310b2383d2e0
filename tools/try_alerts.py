#!/usr/bin/env python3
"""Tries `examples/three/alerts.yml`: whether promtool takes the rules, whether each metric that they name is
told by a node or a replica, whether each alert comes for what it is meant for and none for a farm that is
well; and what promtool says of the metrics.

Wants promtool (package prometheus).
"""

import json
import pathlib
import re
import subprocess
import sys
import tempfile

from farmkit.command import need, program_parser
from farmkit.nodes import Nodes
from farmkit.processes import Replica
from farmkit.repository import EXAMPLES
from farmkit.trial import Trial
from farmkit.wanted import seconds_until

RULES = EXAMPLES / "three" / "alerts.yml"
DOCUMENT = EXAMPLES.parent / "docs" / "OPERATING.md"
ALERTS = re.findall(r"alert: (\w+)", RULES.read_text())
# what is told of two nodes and a replica that are well, and of another farm; and per alert what is told
# otherwise. Behind the name of a metric stands of whom
WELL = {
    "up a": 1, "up b": 1, "up r": 1, "up x": 0, "majority_connected a": 1, "majority_connected b": 1,
    "halted a": 0, "suspended a": 0, "history_differs a": 0, "tape_failed r": 0, "published_sequence a": 41,
    "published_sequence b": 41, "published_sequence r": 41, "published_sequence z": 77,
    "peers_connected a": 1, "nodes a": 2, "sources_connected r": 1, "rejected_peers_total a": 3,
    "sequences_left a": 4055, "sequences_left z": 4019,
}
CASES = {
    "WfarmCannotPublish": {"majority_connected a": 0, "majority_connected b": 0},
    "WfarmNoMajority": {"majority_connected b": 0}, "WfarmDown": {"up b": 0}, "WfarmHalted": {"halted a": 1},
    "WfarmTapeFailed": {"tape_failed r": 1}, "WfarmSuspended": {"suspended a": 1},
    "WfarmHistoryDiffers": {"history_differs a": 1}, "WfarmBehind": {"published_sequence b": 40},
    "WfarmPeerMissing": {"peers_connected a": 0}, "WfarmNoSource": {"sources_connected r": 0},
    "WfarmPeerRejected": {"rejected_peers_total a": "3+1"}, "WfarmSequencesRunOut": {"sequences_left a": 95},
}
JOBS = {"x": "other", "z": "wfarm-roads"}
# an alert that comes along with another
ALONG = {"WfarmCannotPublish": {"WfarmNoMajority"}}
PATIENCE = 30


def promtool(*words, told=""):
    ended = subprocess.run(["promtool", *map(str, words)], input=told, capture_output=True, text=True)
    return ended.returncode, ended.stdout + ended.stderr


def series_of(short):
    name, instance = short.split()
    more = ',peer="1"' if name == "rejected_peers_total" else ""
    return (f"{'' if name == 'up' else 'wfarm_'}{name}"
            f'{{job="{JOBS.get(instance, "wfarm-county")}",instance="{instance}"{more}}}')


def has_only(alerts, series, file):
    """Whether after ten minutes of these samples no alert is there but these, by a test of promtool's in this
    file; and what it says."""
    case = {"interval": "15s",
            "input_series": [{"series": series_of(name), "values": f"{value}x60"}
                             for name, value in series.items()],
            "alert_rule_test": [{"eval_time": "10m", "alertname": name, "exp_alerts": []}
                                for name in ALERTS if name not in alerts]}
    file.write_text(json.dumps({"rule_files": [str(RULES)], "evaluation_interval": "15s", "tests": [case]}))
    code, told = promtool("test", "rules", file)
    return code == 0, told


def try_rules(trial, _, folder):
    code, told = promtool("check", "rules", RULES)
    trial.see("promtool takes the rules", code == 0, told)
    trial.see("each alert has a case", set(ALERTS) == set(CASES), set(ALERTS) ^ set(CASES))
    file = folder / "cases.yml"
    trial.see("no alert where all is well", *has_only(set(), WELL, file))
    for name, otherwise in CASES.items():
        series, alerts = {**WELL, **otherwise}, {name} | ALONG.get(name, set())
        holds, told = has_only(alerts, series, file)
        are_there = not any(has_only(alerts - {each}, series, file)[0] for each in alerts)
        trial.see(f"{name}, and no other", holds and are_there, told)


def metrics_of(process):
    status, body = process.ask_operator("/metrics", 5)
    return body.decode() if status == 200 else ""


def try_metrics(trial, program, folder):
    with Nodes(program, folder / "farm", 1, has_readers=True) as nodes:
        with Replica(program, folder / "replica", nodes.called, *nodes.readers) as replica:
            replica.start()
            seconds_until(lambda: metrics_of(replica), PATIENCE, 0.1)
            texts = {"a node": metrics_of(nodes[0]), "a replica": metrics_of(replica)}
    told = set(re.findall(r"(?m)^# TYPE (wfarm_\w+)", "".join(texts.values())))
    lacks = set(re.findall(r"\bwfarm_\w+", RULES.read_text())) - told
    trial.see("each metric that the rules name is told", not lacks, lacks)
    _, section = DOCUMENT.read_text().split("## Metrics", 1)
    listed = set(re.findall(r"`(wfarm_[a-z_]+)", section.split("\n## ", 1)[0]))
    trial.see("docs/OPERATING.md lists each metric, and no other", told == listed, told ^ listed)
    for name, text in texts.items():
        code, complaint = promtool("check", "metrics", told=text)
        trial.see(f"promtool has no complaint of the metrics of {name}", code == 0, "\n" + complaint)


def try_rejection(trial, program, folder):
    nodes = Nodes(program, folder / "pair", 2)
    nodes.init(0)
    nodes[1].init("roads")
    counted = re.compile(r'(?m)^wfarm_rejected_peers_total\{peer="1"\} [1-9]')
    try:
        nodes.start(0, 1)
        trial.wait("a peer of another farm is counted as rejected",
                   lambda: counted.search(metrics_of(nodes[0])), PATIENCE)
    finally:
        nodes.end()


def main():
    options, trial = program_parser(__doc__).parse_args(), Trial()
    need("promtool")
    with tempfile.TemporaryDirectory(prefix="wfarm-alerts-") as folder:
        for attempt in (try_rules, try_metrics, try_rejection):
            attempt(trial, options.program, pathlib.Path(folder))
    return trial.conclude()


if __name__ == "__main__":
    sys.exit(main())
