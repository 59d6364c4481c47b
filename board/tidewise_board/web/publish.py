"""Issues of a plan: numbered, frozen, what changed since the last one; a sheet of paper, a table, a calendar, a text, and one file."""
from __future__ import annotations

import sqlite3
from dataclasses import dataclass
from typing import Any

from flask import Blueprint, Response, abort, render_template

from .app import board
from .berths import named as berths_of
from .berths import said as stay_words
from .day import day_of
from .names import who
from .underway import plan_of
from ..core import plans
from ..core.bundle import calendar
from ..core.changes import Change, changes
from ..core.deeds import deeds_of
from ..core.facts import Port, port_of
from ..core.issue import Head, Sailing, sailings, sheet_csv, text_for_pilots
from ..core.lanes import lanes
from ..core.runs import inputs_of
from ..core.shown import build_words, shown, table_of

pages = Blueprint("publish", __name__)


@dataclass(frozen=True)
class Issue:
    """A plan as it is issued, or would be: its number among the day's issues, and the one before it."""
    plan: sqlite3.Row
    number: int
    last: sqlite3.Row | None
    changes: list[Change]

    @property
    def said(self) -> list[str]:
        return [change.said() for change in self.changes]


def issues_of(day: int) -> list[sqlite3.Row]:
    """The plans of a day that were issued, in the order in which they were."""
    return board().store.rows("SELECT * FROM plan WHERE day = ? AND frozen IS NOT NULL ORDER BY frozen, id", day)


def issue_of(plan: sqlite3.Row) -> Issue:
    here, before = board(), issues_of(plan["day"])
    if plan["frozen"]:
        before = before[:[one["id"] for one in before].index(plan["id"])]
    last = before[-1] if before else None
    run, found = here.runs.get(plan["run"]), list[Change]()
    if last is not None:
        old = here.runs.get(last["run"])
        found = changes(port_of(here.program, run["instance"]), table_of(here.runs, old), table_of(here.runs, run),
                        port_of(here.program, old["instance"]))
    return Issue(plan, len(before) + 1, last, found)


def port_and_rows(run: sqlite3.Row) -> tuple[Port, list[Sailing]]:
    here = board()
    port = port_of(here.program, run["instance"])
    return port, sailings(port, here.store.get(run["instance"]), table_of(here.runs, run))


def head_of(issue: Issue, run: dict[str, Any]) -> Head:
    plan, here = issue.plan, board()
    row = here.runs.get(plan["run"])
    title = f"{day_of(plan['day'])['name']}, issue {issue.number} (plan {plan['number']})"
    port = port_of(here.program, row["instance"])
    issued = (f"Issued {plan['frozen']} UTC." if plan["frozen"] else "NOT ISSUED.") + (
        f" The day is {port.start[:10]}, and 1d the day after it." if port.start and port.dated else "")
    sums = (f"verify: {run['verdict']}; instance {row['instance'][:16]}, tides {row['tides'][:16]}, certificate {(row['cert'] or '')[:16]};"
            f" {build_words(here.program)}, {here.program.digest[:16]}")
    return Head(title, run["headline"], run["meaning"], issued, sums)


@pages.get("/day/<int:number>/publish")
def publish(number: int) -> str:
    here = board()
    rows = [{"plan": plan, "run": shown(here.runs, plan["run"]), "issue": issue_of(plan),
              "dated": port_of(here.program, here.runs.get(plan["run"])["instance"]).dated} for plan in reversed(plans.plans_of(here.store, number))]
    return render_template("publish.html", day=day_of(number), plans=rows, page="publish", deeds=deeds_of(here.store, number, 20))


@pages.post("/api/plan/<int:number>/freeze")
def freeze(number: int) -> Any:
    """Verifies the very bytes once more, and packs them."""
    return {"bundle": plans.publish(board().runs, plan_of(number), who())["bundle"]}


def file(name: str, data: bytes | str, kind: str, plan: sqlite3.Row) -> Response:
    stem, _, end = name.partition(".")
    return Response(data, mimetype=kind, headers={
        "Content-Disposition": f'attachment; filename="{stem}-{plan["day"]}-{plan["number"]}.{end}"'})


@pages.get("/plan/<int:number>/bundle.zip")
def bundle(number: int) -> Response:
    plan = plan_of(number)
    if not plan["bundle"]:
        abort(404)
    return file("tidewise.zip", board().store.get(plan["bundle"]), "application/zip", plan)


@pages.get("/plan/<int:number>/sailings.csv")
def table(number: int) -> Response:
    plan = plan_of(number)
    return file("sailings.csv", sheet_csv(*port_and_rows(board().runs.get(plan["run"]))), "text/csv", plan)


@pages.get("/plan/<int:number>/sailings.ics")
def dates(number: int) -> Response:
    here, plan = board(), plan_of(number)
    run = here.runs.get(plan["run"])
    ics = calendar(port_of(here.program, run["instance"]), table_of(here.runs, run), here.runs.line_of(run, run["cert"]), run["cert"])
    if ics is None:
        abort(404)
    return file("sailings.ics", ics, "text/calendar", plan)


@pages.get("/plan/<int:number>/sailings.txt")
def text(number: int) -> Response:
    """For pilots, tugs and berths."""
    here, plan = board(), plan_of(number)
    run = here.runs.get(plan["run"])
    port, rows = port_and_rows(run)
    issue = issue_of(plan)
    found = lanes(here.program, inputs_of(run), table_of(here.runs, run), berths_of(here, run["input"]))
    berths = [f"{lane.name}: " + "; ".join(stay_words(port, stay) for stay in lane.stays) for lane in found]
    head = head_of(issue, shown(here.runs, plan["run"]))
    changed = issue.said if issue.last else ["this is the first issue"]
    return Response(text_for_pilots(head, rows, berths, changed), mimetype="text/plain")


@pages.get("/plan/<int:number>/sheet")
def sheet(number: int) -> str:
    here, plan = board(), plan_of(number)
    run, issue = shown(here.runs, plan["run"]), issue_of(plan)
    port, rows = port_and_rows(here.runs.get(plan["run"]))
    return render_template("sheet.html", day=day_of(plan["day"]), plan=plan, run=run, issue=issue, head=head_of(issue, run), rows=rows,
                           port=port, page="publish")
