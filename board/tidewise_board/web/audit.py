"""The auditor: a bundle is opened and checked, and the yes is explained."""
from __future__ import annotations

from dataclasses import asdict
from typing import Any

from flask import Blueprint, render_template, request

from .app import board
from ..core.audited import Audited, audited
from ..core.bundle import NoBundle
from ..core.shown import audit_words, build_words

pages = Blueprint("audit", __name__)


@pages.get("/audit")
def audit() -> str:
    return render_template("audit.html", page="audit")


@pages.post("/api/audit")
def check() -> Any:
    here, file = board(), request.files.get("bundle")
    if file is None:
        raise ValueError("no bundle")
    try:
        found = audited(here.program, file.read())
    except NoBundle as cause:
        raise ValueError(f"this is no bundle: {cause}") from None
    seal, title, means = audit_words(found, here.program.trusted)
    bundle = found.bundle
    return {"sums": [{"name": name, "good": good} for name, good in bundle.sums], "sound": bundle.sound, "claimed": bundle.said(),
            "line": found.line, "agrees": found.agrees, "headline": title, "meaning": means, "seal": seal, "named": here.program.trusted,
            "second": found.second, "picture": found.picture, "parts": [asdict(part) for part in found.parts],
            "known": known(found), "program": here.program.digest, "build": build_words(here.program)}


def known(found: Audited) -> list[str]:
    """The plans of this board that have these very files."""
    names = found.names
    rows = board().store.rows("SELECT plan.number, day.name FROM plan JOIN run ON run.id = plan.run JOIN day ON day.id = plan.day"
                              " WHERE run.instance = ? AND run.tides = ? AND run.cert = ? AND run.plan IS ?", names["day.json"],
                              names["tides.csv"], names["certificate"], names.get("plan.txt"))
    return [f"plan {row['number']} of {row['name']}" for row in rows]
