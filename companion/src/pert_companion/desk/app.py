"""The desk as a web application: its addresses, and what each of them answers."""

import asyncio
import json
import logging
from collections.abc import AsyncIterator, Awaitable, Callable
from importlib import resources
from mimetypes import guess_type
from urllib.parse import quote

from jinja2 import FunctionLoader
from starlette.applications import Starlette
from starlette.concurrency import run_in_threadpool
from starlette.exceptions import HTTPException
from starlette.requests import ClientDisconnect, Request
from starlette.responses import FileResponse, JSONResponse, Response, StreamingResponse
from starlette.routing import Route

from pert_companion import VERSION
from pert_companion.desk import work
from pert_companion.desk.desk import Desk
from pert_companion.desk.errors import DeskError, FailedError, MissingError, desk_error
from pert_companion.desk.requests import Body, Dropped, dropped_file, json_body
from pert_companion.desk.safety import Access, Guard, error_response
from pert_companion.desk.uploads import Upload
from pert_companion.desk.views import Json
from pert_companion.page.html import ENVIRONMENT

LOG = logging.getLogger("pert-desk")
PAGE_FILES = ("report.css", "portfolio.css", "portfolio.js")
"""The files of other pages that those of the desk use too."""
PAUSE = 0.05
"""Seconds between two looks at what there is to tell."""

Handler = Callable[[Request], Awaitable[Response]]
JsonWork = Callable[[Desk, Request, Body], Json]
FileWork = Callable[[Desk, Request, Dropped], Json]


def application(desk: Desk, access: Access) -> Guard:
    """Returns the application of a desk, which lets only its own pages ask."""
    return Guard(Starlette(routes=list(_routes(desk)), exception_handlers=_HANDLERS), access)


def _routes(desk: Desk) -> list[Route]:
    """Returns what answers each address."""
    routes = [
        Route("/", _page(desk, work.folder_page)),
        Route("/projects/{project}", _page(desk, work.project_page)),
        Route("/static/{name}", _static),
        Route("/api/uploads/{upload}/events", _events(desk)),
        Route("/api/exports/{export}", _download(desk)),
        Route("/api/projects/{project}/report", _report(desk)),
    ]
    for method, path, answer in work.JSON_WORK:
        routes.append(Route(f"/api/{path}", _json(desk, answer), methods=[method]))
    for path, take in work.FILE_WORK:
        routes.append(Route(f"/api/{path}", _file(desk, take), methods=["POST"]))
    return routes


def _told(handler: Handler) -> Handler:
    """Returns a handler whose errors are told in the one form of the desk."""

    async def told(request: Request) -> Response:
        try:
            return await handler(request)
        except ClientDisconnect:
            return Response(status_code=400)
        except HTTPException as error:
            return error_response(request, DeskError(str(error.detail)))
        except Exception as error:  # pylint: disable=broad-except
            found = desk_error(error)
            if isinstance(found, FailedError) and not isinstance(error, (OSError, DeskError)):
                LOG.error("%s failed", request.url.path, exc_info=error)
            return error_response(request, found)

    return told


def _json(desk: Desk, answer: JsonWork) -> Handler:
    """Returns what answers a request with JSON by JSON."""

    async def handle(request: Request) -> Response:
        body = await json_body(request)
        found = await run_in_threadpool(answer, desk, request, body)
        return await run_in_threadpool(JSONResponse, found)

    return _told(handle)


def _file(desk: Desk, take: FileWork) -> Handler:
    """Returns what answers a request with a file by JSON."""

    async def handle(request: Request) -> Response:
        dropped = await dropped_file(request)
        return JSONResponse(await run_in_threadpool(take, desk, request, dropped))

    return _told(handle)


def _page(desk: Desk, values: Callable[[Desk, Request], Json]) -> Handler:
    """Returns what answers a request by a page."""

    async def handle(request: Request) -> Response:
        found = await run_in_threadpool(values, desk, request)
        template = str(found["template"])
        text = TEMPLATES.get_template(template).render(version=VERSION, **found)
        return Response(text.encode("utf-8", "replace"), media_type="text/html")

    return _told(handle)


def _report(desk: Desk) -> Handler:
    """Returns what answers a request by the report page of a project, which has its own policy."""

    async def handle(request: Request) -> Response:
        page = await run_in_threadpool(work.report_page, desk, request)
        policy = "sandbox allow-scripts allow-downloads; frame-ancestors 'self'"
        return Response(page, headers={"Content-Security-Policy": policy}, media_type="text/html")

    return _told(handle)


def _download(desk: Desk) -> Handler:
    async def handle(request: Request) -> Response:
        path = desk.exports.get(request.path_params["export"])
        if path is None or not path.is_file():
            raise MissingError("this file is not known any more; export it again")
        name = quote(path.name)
        return FileResponse(
            path,
            media_type="application/octet-stream",
            headers={"Content-Disposition": f"attachment; filename*=UTF-8''{name}"},
        )

    return _told(handle)


def _events(desk: Desk) -> Handler:
    """Returns what answers a request by the events of an upload, as they come."""

    async def handle(request: Request) -> Response:
        upload = desk.uploads.get(request.path_params["upload"])
        return StreamingResponse(_told_events(upload), media_type="text/event-stream")

    return _told(handle)


async def _told_events(upload: Upload) -> AsyncIterator[str]:
    """Yields events as the browser reads them, to the last one."""
    events, told = upload.events, 0
    while True:
        while told < len(events):
            name, data = events[told]
            told += 1
            yield f"event: {name}\ndata: {json.dumps(data)}\n\n"
            if name != "progress":
                return
        await asyncio.sleep(PAUSE)


async def _static(request: Request) -> Response:
    """Returns a script or a style of the pages."""
    name = request.path_params["name"]
    folder = resources.files("pert_companion.desk").joinpath("static")
    known = {each.name: each for each in folder.iterdir()}
    for other in PAGE_FILES:
        known[other] = resources.files("pert_companion.page").joinpath(other)
    if name not in known:
        return error_response(request, MissingError("there is no such file"))
    kind = guess_type(name)[0] or "application/octet-stream"
    return Response(known[name].read_bytes(), media_type=kind)


async def _no_such(request: Request, _error: Exception) -> Response:
    return error_response(request, MissingError("there is no such address"))


async def _no_method(request: Request, _error: Exception) -> Response:
    return error_response(request, DeskError("this address is not asked in this way"))


_HANDLERS = {404: _no_such, 405: _no_method}


def _template(name: str) -> str:
    path = resources.files("pert_companion.desk").joinpath("templates", name)
    return path.read_text("utf-8")


TEMPLATES = ENVIRONMENT.overlay(loader=FunctionLoader(_template))
"""The environment of all pages, with the templates of the desk."""
