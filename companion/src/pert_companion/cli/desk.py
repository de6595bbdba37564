"""`pert-desk`: a folder of projects in the browser of the same machine."""

import argparse
import fcntl
import os
import signal
import socket
import webbrowser
from collections.abc import Iterator
from contextlib import contextmanager
from pathlib import Path
from threading import Thread
from urllib.parse import urlsplit

import uvicorn

from pert_companion.cli.choosing import add_bin_option, programs_of
from pert_companion.cli.common import CommandParser, say
from pert_companion.desk.app import application
from pert_companion.desk.desk import Desk
from pert_companion.desk.listing import HIDDEN
from pert_companion.desk.safety import Access
from pert_companion.model.errors import UsageError
from pert_companion.programs.children import end_children

NAME = "pert-desk"
EXAMPLES = """\
  pert-desk                          the projects of this folder, in the browser
  pert-desk projects --no-browser    prints the address to open
  pert-desk projects --port 8080     at a port of your choice
  pert-desk projects --port 8080 --behind-proxy X-Remote-User --address https://desk.example
                                     behind a proxy that says who is asking

It prints one address, which sets a cookie when it is opened for the first time. Ctrl-C ends it.
"""
LOOPBACK = "127.0.0.1"


def parser() -> CommandParser:
    """Returns the parser of the command's words."""
    command = CommandParser(
        NAME, "Opens a folder of projects in the browser of this machine.", EXAMPLES
    )
    command.add_argument(
        "folder", type=Path, nargs="?", default=Path(), help="the folder (default: this one)"
    )
    command.add_argument(
        "--port",
        metavar="N",
        type=port_word,
        default=0,
        help="the port (default: one that is free)",
    )
    command.add_argument("--no-browser", action="store_true", help="print the address alone")
    command.add_argument(
        "--behind-proxy",
        metavar="HEADER",
        help="requests come from a proxy that authenticates and names the user in this header",
    )
    command.add_argument(
        "--address",
        metavar="URL",
        help="with --behind-proxy: the address by which people reach the proxy",
    )
    command.add_argument(
        "--listen",
        metavar="IP",
        default=LOOPBACK,
        help="the address to listen on (127.0.0.1); others go with --behind-proxy alone",
    )
    add_bin_option(command)
    return command


def port_word(word: str) -> int:
    """Returns a port."""
    if not (word.isascii() and word.isdigit() and 0 < int(word[:6]) < 65536):
        raise argparse.ArgumentTypeError(f"{word!r} is no port from 1 to 65535")
    return int(word)


def run(options: argparse.Namespace) -> int:
    """Runs the desk until it is ended, and returns the status."""
    _check(options)
    programs = programs_of(options)
    for name in ("pert", "pert_check", "pert_whatif"):
        programs.find(name)
    with _alone(options.folder), _listening(options) as place:
        port = place.getsockname()[1]
        access = Access(port, options.behind_proxy or "", options.address or "")
        desk = Desk(options.folder, programs)
        for name in desk.finished:
            say(NAME, f"{name}: a save that was interrupted is finished")
        try:
            _serve(desk, access, place, options)
        finally:
            desk.close()
            end_children()
    return 0


def _check(options: argparse.Namespace) -> None:
    """Raises `UsageError` for a folder that is none, or options that do not go together."""
    if not options.folder.is_dir():
        raise UsageError(f"{options.folder}: there is no such folder")
    if options.behind_proxy is None:
        if options.listen != LOOPBACK:
            raise UsageError(
                f"--listen {options.listen}: without --behind-proxy the desk listens on"
                f" {LOOPBACK} alone, since everybody who reaches it could change the projects"
            )
        if options.address is not None:
            raise UsageError("--address goes with --behind-proxy")
        return
    found = urlsplit(options.address or "")
    if found.scheme not in ("http", "https") or not found.netloc or found.path.strip("/"):
        raise UsageError("--behind-proxy needs --address, as https://desk.example")
    options.address = f"{found.scheme}://{found.netloc}"


@contextmanager
def _alone(folder: Path) -> Iterator[None]:
    """Keeps other desks away from a folder. Raises `UsageError` if one is there."""
    hidden = folder / HIDDEN
    hidden.mkdir(exist_ok=True)
    with (hidden / "lock").open("w", encoding="utf-8") as file:
        try:
            fcntl.flock(file, fcntl.LOCK_EX | fcntl.LOCK_NB)
        except BlockingIOError:
            raise UsageError(f"{folder}: another pert-desk has this folder open") from None
        yield


@contextmanager
def _listening(options: argparse.Namespace) -> Iterator[socket.socket]:
    """Gives the socket of the desk."""
    family = socket.AF_INET6 if ":" in options.listen else socket.AF_INET
    with socket.socket(family, socket.SOCK_STREAM) as place:
        place.setsockopt(socket.SOL_SOCKET, socket.SO_REUSEADDR, 1)
        try:
            place.bind((options.listen, options.port))
        except OSError as error:
            raise UsageError(f"{options.listen}:{options.port}: {error.strerror}") from error
        yield place


def _serve(desk: Desk, access: Access, place: socket.socket, options: argparse.Namespace) -> None:
    """Answers requests until somebody ends the desk."""
    config = uvicorn.Config(
        application(desk, access),
        log_level="error",
        lifespan="off",
        server_header=False,
        limit_concurrency=200,
        timeout_keep_alive=30,
    )
    server = uvicorn.Server(config)

    def end(_number: int, _frame: object) -> None:
        """Ends the server at once, and what runs for its requests."""
        server.should_exit = server.force_exit = True
        desk.workers.close()
        end_children()

    server.handle_exit = end
    signal.signal(signal.SIGHUP, end)
    address = options.address or f"http://{LOOPBACK}:{access.port}"
    if options.behind_proxy is None:
        address = f"{address}/?token={access.token}"
    print(f"{NAME}: {address}", flush=True)
    if options.behind_proxy is None and not options.no_browser:
        Thread(target=_open_browser, args=(address,), daemon=True).start()
    place.listen(128)
    server.run(sockets=[place])


def _open_browser(address: str) -> None:
    """Opens the browser; without one the address is there to be copied."""
    if os.environ.get("DISPLAY") or os.environ.get("WAYLAND_DISPLAY"):
        webbrowser.open(address)
