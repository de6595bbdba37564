"""Who may ask the desk: the browser that opened the printed address, and nobody else.

Other sites that the same browser shows can send requests to 127.0.0.1. They are told apart by the
`Host` (a name that is made to lead here, DNS rebinding), by the `Origin` and `Sec-Fetch-Site` (a
form or script of another site), and by a cookie that they cannot have. Behind a proxy that
authenticates, its header takes the place of the token.
"""

import asyncio
import secrets
from dataclasses import dataclass, field
from hmac import compare_digest
from time import monotonic
from urllib.parse import urlsplit

from starlette.datastructures import Headers
from starlette.requests import Request
from starlette.responses import JSONResponse, RedirectResponse, Response
from starlette.types import ASGIApp, Message, Receive, Scope, Send

from pert_companion.desk.errors import (
    DeskError,
    ForeignError,
    LargeError,
    NoAccessError,
    SlowError,
)
from pert_companion.page.html import html_file

MOST_BODY = 1 << 20
"""The bytes of a request that is no upload."""
MOST_UPLOAD = 512 << 20
"""The bytes of an upload, as of a planner's file that is read."""
PATIENCE = 20.0
"""Seconds without a byte after which a body is given up."""
LEAST_RATE = 16 << 10
"""The bytes that a body brings in a second, after the first PATIENCE seconds."""
POLICY = "; ".join(
    (
        "default-src 'none'",
        "script-src 'self'",
        "style-src 'self'",
        "img-src 'self' data:",
        "connect-src 'self'",
        "frame-src 'self'",
        "frame-ancestors 'self'",
        "base-uri 'none'",
        "form-action 'none'",
    )
)
"""The content security policy of the desk's pages."""
HEADERS = {
    "Content-Security-Policy": POLICY,
    "X-Content-Type-Options": "nosniff",
    "Referrer-Policy": "no-referrer",
    "Cross-Origin-Opener-Policy": "same-origin",
    "Cross-Origin-Resource-Policy": "same-origin",
    "Cache-Control": "no-store",
}
SAFE_METHODS = ("GET", "HEAD")


@dataclass
class Access:
    """How the browser is known."""

    port: int
    proxy_header: str = ""
    """The header in which a proxy names the user that it has authenticated; empty without one."""
    address: str = ""
    """The address by which people reach the proxy, `https://desk.example`; empty without one."""
    token: str = field(default_factory=lambda: secrets.token_urlsafe(32))
    """What the printed address has; empty once it was used."""
    session: str = field(default_factory=lambda: secrets.token_urlsafe(32))
    """What the cookie has."""

    @property
    def cookie(self) -> str:
        """Returns the name of the cookie; ports of one host share cookies."""
        return f"pert-desk-{self.port}"

    @property
    def hosts(self) -> tuple[str, ...]:
        """Returns the values of `Host` that are right."""
        if self.proxy_header:
            return (urlsplit(self.address).netloc,)
        return tuple(f"{name}:{self.port}" for name in ("127.0.0.1", "localhost"))

    @property
    def origins(self) -> tuple[str, ...]:
        """Returns the values of `Origin` that are right."""
        if self.proxy_header:
            return (self.address,)
        return tuple(f"http://{host}" for host in self.hosts)

    def use_token(self, given: str) -> bool:
        """Says whether a token is the one that was printed and not used yet; it is used then."""
        is_right = bool(self.token) and compare_digest(given.encode(), self.token.encode())
        if is_right:
            self.token = ""
        return is_right

    def knows(self, headers: Headers, cookie: str) -> bool:
        """Says whether a request comes from the browser, or from the proxy."""
        if self.proxy_header:
            return bool(headers.get(self.proxy_header))
        return compare_digest(cookie.encode(), self.session.encode())


class Guard:
    """Lets requests through to the desk that come from its own pages, with bodies of their size."""

    def __init__(self, app: ASGIApp, access: Access) -> None:
        """Takes the desk."""
        self.app = app
        self.access = access

    async def __call__(self, scope: Scope, receive: Receive, send: Send) -> None:
        """Answers a request, or lets it through."""
        if scope["type"] != "http":
            await self.app(scope, receive, send)
            return
        request = Request(scope)
        with_headers = _Answer(send)
        try:
            self._check_host(request)
            answer = self._entry(request)
            if answer is None:
                self._check_access(request)
                body = Body(receive, request.headers)
                await self.app(scope, body.receive, with_headers.send)
                return
        except DeskError as error:
            if with_headers.has_begun:
                raise
            answer = error_response(request, error)
        await answer(scope, receive, with_headers.send)

    def _check_host(self, request: Request) -> None:
        """Raises `ForeignError` for a name that is not the desk's own."""
        if request.headers.get("host", "") not in self.access.hosts:
            raise ForeignError("this address is not that of the desk")

    def _entry(self, request: Request) -> Response | None:
        """Returns the answer to the printed address: the cookie, and the way to the first page."""
        if request.url.path != "/" or "token" not in request.query_params:
            return None
        if not self.access.use_token(request.query_params["token"]):
            if self.access.knows(request.headers, request.cookies.get(self.access.cookie, "")):
                return RedirectResponse("/", 303)
            raise NoAccessError(
                "this address was opened before; start pert-desk again for a new one"
            )
        response = RedirectResponse("/", 303)
        response.set_cookie(
            self.access.cookie, self.access.session, httponly=True, samesite="strict", path="/"
        )
        return response

    def _check_access(self, request: Request) -> None:
        """Raises `DeskError` for a request that does not come from a page of the desk."""
        origin = request.headers.get("origin")
        is_safe = request.method in SAFE_METHODS
        if origin is not None and origin not in self.access.origins:
            raise ForeignError("this request comes from another site")
        if origin is None and not is_safe:
            raise ForeignError("this request does not say which page it comes from")
        site = request.headers.get("sec-fetch-site", "same-origin")
        is_opened = is_safe and request.headers.get("sec-fetch-mode") == "navigate"
        if site not in ("same-origin", "none") and not is_opened:
            raise ForeignError("this request comes from another site")
        if not self.access.knows(request.headers, request.cookies.get(self.access.cookie, "")):
            raise NoAccessError("open the desk by the address that it has printed in its window")


def error_response(request: Request, error: DeskError) -> Response:
    """Returns an error as JSON, or as a page if a person has opened an address."""
    wants_page = "text/html" in request.headers.get("accept", "")
    if wants_page and not request.url.path.startswith("/api/"):
        page = html_file("fault.html", ["report.css"], [], text=str(error), title="pert-desk")
        return Response(page, error.status, media_type="text/html")
    return JSONResponse(error.json(), error.status)


class _Answer:
    """Adds the headers of safety to an answer."""

    def __init__(self, send: Send) -> None:
        self._send = send
        self.has_begun = False

    async def send(self, message: Message) -> None:
        """Sends a part of the answer."""
        if message["type"] == "http.response.start":
            self.has_begun = True
            held = {name.lower() for name, _ in message["headers"]}
            for name, value in HEADERS.items():
                if name.lower().encode() not in held:
                    message["headers"].append((name.lower().encode(), value.encode()))
        await self._send(message)


class Body:
    """The body of a request, as long and as slow as it may be."""

    def __init__(self, receive: Receive, headers: Headers) -> None:
        self._receive = receive
        is_upload = headers.get("content-type", "").startswith("multipart/form-data")
        self._most = MOST_UPLOAD if is_upload else MOST_BODY
        self._bytes = 0
        self._begun = monotonic()
        self._is_complete = False
        length = headers.get("content-length", "0")
        if not length.isdigit() or int(length) > self._most:
            raise LargeError(self._too_long())

    async def receive(self) -> Message:
        """Returns the next part. After the last one it waits until the browser goes away."""
        if self._is_complete:
            return await self._receive()
        try:
            message = await asyncio.wait_for(self._receive(), PATIENCE)
        except asyncio.TimeoutError:
            raise SlowError("the browser sends nothing any more") from None
        self._bytes += len(message.get("body", b""))
        if self._bytes > self._most:
            raise LargeError(self._too_long())
        passed = monotonic() - self._begun
        if passed > PATIENCE and self._bytes < (passed - PATIENCE) * LEAST_RATE:
            raise SlowError("the browser sends too slowly")
        self._is_complete = not message.get("more_body", False)
        return message

    def _too_long(self) -> str:
        return f"more than {self._most >> 20} megabytes"
