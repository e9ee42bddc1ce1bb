"""The routes of the screen, and what each request has to bring: its host, its origin, its token, its login."""

import asyncio
import base64
import hashlib
import hmac
import json
import re
import secrets
import time
from collections.abc import Awaitable, Callable, Coroutine
from contextlib import suppress
from dataclasses import dataclass, field
from functools import partial
from inspect import isawaitable
from pathlib import Path
from typing import Any, cast
from urllib.parse import urlsplit

from aiohttp import web

from . import forecasts, moments, outage, search, shift, views, year
from .apart import Kept
from .commands import FIELDS, fields_of
from .desk import Away
from .guard import BODY_BYTES
from .names import NAME, folded, name_in
from .office import Office
from .reader import BookError
from .state import NotNow, Refused
from .to_now import to_now_view
from .views import Json

STATIC = Path(__file__).resolve().parent.parent / "static"
PAGES = {"/": "now", "/sheet": "sheet", "/enter": "enter", "/network": "network", "/year": "year", "/shift": "handover"}
COMMAND_BYTES = 16_384
REMARK_LETTERS = 400
MOST_PAGES = 500
MOST_OF_A_LOGIN = 50
HEARTBEAT_SECONDS = 10.0
SLOW_SECONDS = 20.0
COOKIE = "screen_name"
POLICY = (
    "default-src 'none'; script-src 'self'; style-src 'self'; img-src 'self'; connect-src 'self'; form-action 'self'; "
    "base-uri 'none'; frame-ancestors 'none'"
)
Handler = Callable[[web.Request], Awaitable[web.StreamResponse]]
Query = dict[str, str]


@dataclass
class Settings:
    """How the screen was started."""

    program: str
    hosts: set[str]
    proxy: str | None = None
    read_only: bool = False
    senders: str = ""  # logins that begin with this may send commands
    name: str = ""  # the book's, as pages show it
    training: bool = False
    own_hosts: set[str] = field(default_factory=set)  # of this machine: asked without TLS
    secret: bytes = field(default_factory=lambda: secrets.token_bytes(32))


OFFICE = "office"
SETTINGS = "settings"


def office_of(request: web.Request) -> Office:
    return cast(Office, request.app[OFFICE])


def settings_of(request: web.Request) -> Settings:
    return cast(Settings, request.app[SETTINGS])


def answer(status: int, shown: Any) -> web.Response:
    return web.Response(status=status, text=json.dumps(shown), content_type="application/json")


def complaint(status: int, error: str, words: str, allow: str | None = None) -> web.Response:
    reply = answer(status, {"error": error, "words": words})
    reply.headers.update({"Allow": allow} if allow else {})
    return reply


# Who asks.


def login_of(request: web.Request) -> str | None:
    """The login of a request: the proxy's where there is one; else the name that was given, "" where none was. None: the
    proxy named nobody."""
    settings = settings_of(request)
    if settings.proxy is not None:
        if request.remote != settings.proxy:
            return None
        return request.headers.get("X-Remote-User") or None
    name = request.cookies.get(COOKIE, "")
    return name if NAME.fullmatch(name) else ""


def may_send(request: web.Request, login: str) -> bool:
    settings, office = settings_of(request), office_of(request)
    return not settings.read_only and office.has_desk and bool(login) and login.startswith(settings.senders)


def name_of(request: web.Request, login: str) -> str:
    """The name of a login in the book. A login that only looks has none of its own: it takes none from those that send."""
    return office_of(request).journal.names.of(login) if is_named(request, login) else folded(login)


def is_named(request: web.Request, login: str) -> bool:
    """Whether the login is a proxy's, and may send: then its name has to be its own."""
    return settings_of(request).proxy is not None and may_send(request, login)


def token_of(settings: Settings, login: str) -> str:
    return hmac.new(settings.secret, login.encode(errors="replace"), "sha256").hexdigest()


# What each request has to bring.


@web.middleware
async def check(request: web.Request, handler: Handler) -> web.StreamResponse:
    try:
        refusal = refusal_of(request)
        return await handler(request) if refusal is None else refusal
    except web.HTTPException as error:
        return complaint(error.status, "http", error.reason, error.headers.get("Allow"))
    except Refused as refused:
        return complaint(503 if isinstance(refused, NotNow) else 422, "refused here", str(refused))
    except Away as away:
        return answer(503, {"error": "away", "words": "The book's server gives no answer.", "why": str(away)})
    except BookError as error:
        return complaint(500, "book", str(error))
    except OSError as error:
        return complaint(500, "files", f"the screen can't write or read its files: {error.strerror}")


def refusal_of(request: web.Request) -> web.Response | None:
    """Why a request isn't looked at, if so."""
    hosts = settings_of(request).hosts
    if request.headers.get("Host", "") not in hosts:
        return complaint(403, "host", "this name isn't the screen's: --host tells it another")
    site, is_visit = request.headers.get("Sec-Fetch-Site", "none"), request.headers.get("Sec-Fetch-Mode") == "navigate"
    is_visit = is_visit and request.method == "GET" and request.path in PAGES  # by a link from elsewhere
    if site not in ("same-origin", "none") and not is_visit:
        return complaint(403, "origin", "asked by a page from elsewhere")
    if request.path == "/health":
        return None
    login = login_of(request)
    if login is None:
        return complaint(401, "login", "the proxy names nobody")
    return refusal_of_post(request, login) if request.method == "POST" else None


def refusal_of_post(request: web.Request, login: str) -> web.Response | None:
    if not is_own_origin(request):
        return complaint(403, "origin", "sent by a page from elsewhere")
    wanted = "text/csv" if request.path == "/api/import" else "application/json"
    if request.content_type != wanted:
        return complaint(415, "type", f"the body has to be {wanted}")
    if not hmac.compare_digest(request.headers.get("X-Screen-Token", ""), token_of(settings_of(request), login)):
        return complaint(403, "token", "the page's token is missing or an old one: load the page again")
    if request.path != "/api/name" and not may_send(request, login):
        return complaint(403, "look only", "this login may look, and not send")
    return None


def is_own_origin(request: web.Request) -> bool:
    """A page of the screen sent it, where that is told; on this machine it has no TLS."""
    origin, host = request.headers.get("Origin"), request.headers.get("Host", "")
    if origin is None:
        return True
    parts = urlsplit(origin)
    schemes = ("http",) if host in settings_of(request).own_hosts else ("http", "https")
    return parts.netloc == host and parts.scheme in schemes


async def secure(request: web.Request, response: web.StreamResponse) -> None:
    """Fields that every reply has, and its connection's end."""
    response.headers.setdefault("Content-Security-Policy", POLICY)
    response.headers["X-Content-Type-Options"] = "nosniff"
    response.headers["X-Frame-Options"] = "DENY"
    response.headers["Referrer-Policy"] = "same-origin"
    response.headers["Cross-Origin-Resource-Policy"] = "same-origin"
    response.headers["Cross-Origin-Opener-Policy"] = "same-origin"
    response.headers["Cache-Control"] = "no-store" if not request.path.startswith("/static/") else "no-cache"
    response.headers.pop("Server", None)
    response.headers["Connection"] = "close"
    response.force_close()


async def json_body(request: web.Request) -> dict[str, str]:
    """An object of texts."""
    data = await request.read()
    if len(data) > COMMAND_BYTES:
        raise web.HTTPRequestEntityTooLarge(COMMAND_BYTES, len(data))
    try:
        found = json.loads(data)
    except (ValueError, RecursionError):
        raise Refused("the body is no JSON") from None
    if not isinstance(found, dict) or not all(isinstance(value, str) for value in found.values()):
        raise Refused("the body is no object of texts")
    return found


# Pages and what they read.


TYPES = {".js": "text/javascript", ".css": "text/css", ".svg": "image/svg+xml"}


def file(name: str) -> web.StreamResponse:
    place = STATIC / name
    if not place.is_file():
        raise web.HTTPNotFound()
    return web.Response(body=place.read_bytes(), content_type=TYPES[place.suffix], charset="utf-8")


async def page(request: web.Request) -> web.StreamResponse:
    text = (STATIC / "page.html").read_text().replace("{page}", PAGES[request.path])
    return web.Response(text=text, content_type="text/html", charset="utf-8")


async def static(request: web.Request) -> web.StreamResponse:
    return file(request.match_info["name"])


async def icon(_: web.Request) -> web.StreamResponse:
    return file("icon.svg")


async def health(request: web.Request) -> web.StreamResponse:
    shown = office_of(request).desk_view()
    return answer(503 if shown["desk"] == "away" else 200, shown)


async def me(request: web.Request) -> web.StreamResponse:
    """Who the screen takes the reader for, and what that login may do."""
    login, settings, office = login_of(request) or "", settings_of(request), office_of(request)
    return answer(
        200,
        {
            "login": login,
            "name": name_of(request, login),
            "asks_name": settings.proxy is None,
            "may_send": may_send(request, login),
            "could_send": not settings.read_only and office.has_desk,
            "book": settings.name,
            "training": settings.training,
            "token": token_of(settings, login),
            **office.desk_view(),
        },
    )


async def give_name(request: web.Request) -> web.StreamResponse:
    if settings_of(request).proxy is not None:
        raise web.HTTPForbidden()
    name = folded((await json_body(request)).get("name", "").strip())
    if not NAME.fullmatch(name):
        raise Refused("a name has 1 to 16 of A-Z, 0-9, - and _")
    reply = answer(200, {"name": name})
    reply.set_cookie(COOKIE, name, httponly=True, samesite="Strict", max_age=90 * 86_400, path="/")
    return reply


def shows(view: Callable[[Office, Query], Any]) -> Handler:
    """A route that shows something by what is asked for."""

    async def show(request: web.Request) -> web.StreamResponse:
        found = view(office_of(request), {**request.query, **request.match_info})
        return answer(200, await found if isawaitable(found) else found)

    return show


def second_within(office: Office, query: Query) -> int:
    """The second that is asked for: now by the server's clock where none is, brought into the period."""
    typed, period = query.get("at", ""), office.state.period
    if not typed:
        return office.state.now()
    found = moments.read_moment(period.zone, typed)
    at = found[0]
    if not period.first <= at < period.end:
        raise Refused("the second lies outside the book's period")
    return at


def second(office: Office, query: Query) -> Json:
    """The second that is now, or the one of the period that is nearest to it; `goes` where it is now, with the part of it that is gone."""
    read_at, period = time.time(), office.state.period
    at = second_within(office, query)
    goes = period.first <= read_at < period.end
    return {**views.moment(office.state, at), "goes": goes, "gone": max(0.0, read_at - at) if goes else 0.0}


def moment(office: Office, query: Query) -> list[Json]:
    """What a typed moment may mean: two seconds where the clock shows it twice."""
    found = moments.read_moment(office.state.period.zone, query.get("text", ""))
    return [views.moment(office.state, each) for each in found]


async def now(office: Office, query: Query) -> Json:
    return views.now_view(office.state, await office.supply(second_within(office, query)))


async def sheet(office: Office, query: Query) -> Json:
    return search.sheet_view(office.state, query, await office.past() if search.wants_past(query) else {})


async def position(office: Office, query: Query) -> Json:
    """How a device stands at a second."""
    state, name = office.state, query.get("device", "")
    if name not in state.device_numbers:
        raise web.HTTPNotFound()
    supply = await office.supply(second_within(office, query))
    holds = state.last_entry(state.devices[state.device_numbers[name]], supply.second)
    return {"closed": supply.closed[name], "alive": supply.alive[name], "cause": holds.cause if holds else 0}


async def forecast(office: Office, query: Query) -> Json:
    """What a command would do, or the steps of an outage."""
    if steps := query.get("steps"):
        return await outage.forecast(office, outage.steps_in(steps))
    return await forecasts.forecast(office, query.get("kind", ""), fields_of(query))


def entry_number(office: Office, query: Query) -> int:
    if not 1 <= int(query["no"]) <= len(office.state.entries):
        raise web.HTTPNotFound()
    return int(query["no"])


def outage_of(office: Office, query: Query) -> Json:
    """The entries of the outage that an entry belongs to."""
    return outage.outage_view(office.state, entry_number(office, query))


async def entry(office: Office, query: Query) -> Json:
    """An entry with its commands and the moves of each, in the desk's own words."""
    number = entry_number(office, query)
    shown = views.entry_view(office.state, office.state.entries[number - 1])
    shown["history"] = []
    is_away = False
    for command in office.state.histories[number]:
        text = None
        try:
            text = None if is_away else await office.words_of(f"/commands/{command.number}")
        except Away:
            is_away = True  # the entry is shown all the same, and the desk isn't waited for again
        remark = office.journal.remark_of(command.ref)
        shown["history"].append({**views.history_view(office.state, command), "text": text, "remark": remark})
    return shown


async def command(request: web.Request) -> web.StreamResponse:
    """Sends a command under the page's reference, which has to be the login's own."""
    login, body = login_of(request) or "", await json_body(request)
    name, told = name_of(request, login), {}
    if remark := body.pop("remark", "").strip():
        told["remark"] = remark[:REMARK_LETTERS]
    names = {"kind", "ref", *(f"f{place}" for place in range(1, 7))}
    if not {"kind", "ref"} <= body.keys() <= names or body["kind"] not in FIELDS:
        raise Refused("a change has kind, ref and f1 to f6")
    if name_in(body["ref"]) != name:
        raise Refused(f"the reference has to be SCR-{name}- and some of A-Z, 0-9 and _, 40 letters at most")
    if body["kind"] in ("mark", "unmark") and body.get("f2") != name:
        raise Refused("a day is marked by the login's own name")
    seen = int(number) if (number := request.query.get("seen", "")).isdecimal() and len(number) < 12 else None
    if is_named(request, login):
        told["name"] = name
    return answer(*await asyncio.shield(office_of(request).send(login, body, seen, **told)))


async def rows(request: web.Request) -> web.StreamResponse:
    login, data = login_of(request) or "", await request.read()
    return answer(*await asyncio.shield(office_of(request).import_rows(login, data)))


# The year.


async def whole(office: Office, name: str, make: Callable[[], Coroutine[Any, Any, Any]]) -> Any:
    """Something that is made of the whole book: one at a time, and kept until the book has another command."""
    return await office.kept.setdefault(name, Kept(lambda: office.state.number, make)).get()


async def table_text(office: Office) -> str:
    return await whole(office, "table", partial(office.words_of, "/table")) or ""


async def table(office: Office, _: Query) -> Json:
    return {**year.table_view(await table_text(office)), **await to_now_view(office)}


async def download(request: web.Request) -> web.StreamResponse:
    office, program, name = office_of(request), settings_of(request).program, request.match_info["name"]
    if name == "table.txt":
        data = (await table_text(office)).encode()
    else:
        data = await office.tables.run(year.TEXTS[name], program, office.book)
    kind = "text/csv" if name.endswith(".csv") else "text/plain"
    headers = {"Content-Disposition": f"attachment; filename={name}"}
    return web.Response(body=data, content_type=kind, charset="utf-8", headers=headers)


async def report(request: web.Request) -> web.StreamResponse:
    """The printed report. Its style stands in the page, so the policy names just that by its hash."""
    office, program = office_of(request), settings_of(request).program
    data = await whole(office, "report", partial(office.reports.run, year.report_page, program, office.book))
    styles = re.findall(rb"<style>(.*?)</style>", data, re.S)
    hashes = " ".join(f"'sha256-{base64.b64encode(hashlib.sha256(style).digest()).decode()}'" for style in styles)
    headers = {"Content-Security-Policy": f"default-src 'none'; style-src {hashes}; frame-ancestors 'none'"}
    return web.Response(body=data, content_type="text/html", charset="utf-8", headers=headers)


# Events.


async def events(request: web.Request) -> web.StreamResponse:
    """Tells a page of each accepted command, and where the desk goes or comes."""
    office, login = office_of(request), login_of(request) or ""
    if len(office.hub.pages) >= MOST_PAGES:
        raise web.HTTPServiceUnavailable()
    most = MOST_OF_A_LOGIN if login else MOST_PAGES - MOST_OF_A_LOGIN  # those without a login leave some for the others
    if office.hub.count(login) >= most:
        return complaint(429, "pages", f"this login has {most} pages open: close some of them")
    stream = web.StreamResponse(headers={"Content-Type": "text/event-stream", "X-Accel-Buffering": "no"})
    with suppress(ConnectionError, asyncio.TimeoutError), office.hub.page(login) as queue:
        await stream.prepare(request)
        await write_event(stream, {"what": "hello", **office.desk_view()})
        while True:
            try:
                event = await asyncio.wait_for(queue.get(), HEARTBEAT_SECONDS)
            except asyncio.TimeoutError:
                event = {"what": "beat", **office.desk_view()}
            await write_event(stream, event)
    return stream


async def write_event(stream: web.StreamResponse, event: dict[str, Any]) -> None:
    await asyncio.wait_for(stream.write(f"data: {json.dumps(event)}\n\n".encode()), SLOW_SECONDS)


GETS: dict[str, Handler] = {
    "/health": health,
    "/favicon.ico": icon,
    r"/static/{name:[a-z]+\.(js|css|svg)}": static,
    "/events": events,
    "/report": report,
    r"/download/{name:table\.txt|commands\.csv|moves\.csv}": download,
    "/api/me": me,
    "/api/book": shows(lambda office, _: views.book_view(office.state)),
    "/api/second": shows(second),
    "/api/now": shows(now),
    "/api/news": shows(lambda office, _: list(office.news)),  # the outages that began last, as this server has seen it
    "/api/sheet": shows(sheet),
    r"/api/entries/{no:\d{1,6}}": shows(entry),
    r"/api/outages/{no:\d{1,6}}": shows(outage_of),
    "/api/moment": shows(moment),
    "/api/position": shows(position),
    "/api/forecast": shows(forecast),
    "/api/customers": shows(lambda office, query: views.customers_view(office.state, query)),
    "/api/log": shows(shift.log_view),
    "/api/changes": shows(shift.shift_view),
    "/api/marks": shows(lambda office, _: shift.marks_view(office)),
    "/api/year": shows(table),
}
POSTS: dict[str, Handler] = {"/api/name": give_name, "/api/command": command, "/api/import": rows}


def application(office: Office, settings: Settings) -> web.Application:
    app = web.Application(middlewares=[check], client_max_size=BODY_BYTES)
    app[OFFICE], app[SETTINGS] = office, settings
    app.on_response_prepare.append(secure)
    for route in PAGES:
        app.router.add_get(route, page)
    for route, handler in GETS.items():
        app.router.add_get(route, handler)
    for route, handler in POSTS.items():
        app.router.add_post(route, handler)
    return app
