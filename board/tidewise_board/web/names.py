"""Who is at the board: a name that is asked once, and stands beside what that person does."""
from __future__ import annotations

from typing import Any
from urllib.parse import quote, unquote

from flask import Blueprint, jsonify, request

from ..core.deeds import did, name_of
from .app import board, said

pages = Blueprint("names", __name__)
NOBODY = "somebody"
YEAR = 366 * 86400


def cookie() -> str:
    """Cookies don't tell ports apart, so the name has the port."""
    return f"board-name-{request.host.rpartition(':')[2]}"


def told() -> str:
    """The name that was told in this browser; nothing where nobody did."""
    try:
        return name_of(unquote(request.cookies.get(cookie(), "")))
    except ValueError:
        return ""


def who() -> str:
    return told() or NOBODY


def noted(day: int, what: str) -> None:
    """Puts down that the person at this browser did something."""
    did(board().store, day, who(), what)


@pages.post("/api/name")
def name() -> Any:
    given = name_of(str(said().get("name", "")))
    answer = jsonify({"name": given})
    answer.set_cookie(cookie(), quote(given), httponly=True, samesite="Strict", max_age=YEAR)
    return answer
