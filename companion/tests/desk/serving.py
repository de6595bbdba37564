"""A desk that is asked by real requests: a process as users run it, or a thread of the tests."""

from __future__ import annotations

import json
import os
import resource
import signal
import socket
import subprocess
import sys
from pathlib import Path
from threading import Thread
from typing import Any, Self

import httpx
import uvicorn

from pert_companion.desk.app import application
from pert_companion.desk.desk import Desk
from pert_companion.desk.safety import Access
from pert_companion.programs.client import Programs

SOURCES = Path(__file__).resolve().parents[2] / "src"
PATIENCE = 120.0
"""Seconds after which a desk hangs; a busy machine is slow."""
Json = dict[str, Any]


class Asked:
    """A desk that listens, and a client with its cookie."""

    origin: str
    address: str
    """What is printed, with the token."""
    client: httpx.Client

    def listens(self, address: str) -> None:
        """Takes the address of the desk."""
        self.address = address
        self.origin = address.partition("/?")[0]
        self.client = httpx.Client(base_url=self.origin, timeout=PATIENCE)

    def enter(self) -> Self:
        """Opens the printed address, so that the client has the cookie."""
        answer = self.client.get(self.address)
        assert answer.status_code == 303, answer.text
        return self

    def get(self, path: str, status: int = 200) -> Json:
        """Returns the JSON of an address below /api/."""
        answer = self.client.get(f"/api/{path}")
        assert answer.status_code == status, answer.text
        found: Json = answer.json()
        return found

    def post(self, path: str, body: Json, status: int = 200) -> Json:
        """Returns the JSON that answers JSON."""
        answer = self.client.post(f"/api/{path}", json=body, headers={"Origin": self.origin})
        assert answer.status_code == status, answer.text
        found: Json = answer.json()
        return found

    def drop(self, path: str, file: Path, options: Json | None = None, status: int = 200) -> Json:
        """Returns the JSON that answers a file that is dropped."""
        answer = self.client.post(
            f"/api/{path}",
            files={"file": (file.name, file.read_bytes())},
            data={"options": json.dumps(options or {})},
            headers={"Origin": self.origin, "X-Pert-Desk": "1"},
        )
        assert answer.status_code == status, answer.text
        found: Json = answer.json()
        return found

    def events(self, upload: str) -> list[tuple[str, Json]]:
        """Returns the events of an upload, to the last one."""
        with self.client.stream("GET", f"/api/uploads/{upload}/events") as answer:
            text = "".join(answer.iter_text())
        found = []
        for block in filter(None, text.split("\n\n")):
            name, data = block.split("\n")
            found.append((name.removeprefix("event: "), json.loads(data.removeprefix("data: "))))
        return found

    def imported(self, file: Path, options: Json | None = None) -> str:
        """Imports a planner's file with all losses accepted, and returns the project."""
        upload = self.drop("uploads", file, options)["upload"]
        name, outcome = self.events(upload)[-1]
        assert name == "outcome", outcome
        kinds = [each["kind"] for each in outcome["losses"]]
        self.post(f"uploads/{upload}/accept", {"kinds": kinds})
        name, outcome = self.events(upload)[-1]
        assert name == "outcome" and outcome["project"] is not None, outcome
        project: str = outcome["project"]
        return project

    def project(self, file: str) -> str:
        """Returns the desk's name for the project of a file."""
        rows = self.get("folder")["projects"]
        found: str = next(row["id"] for row in rows if row["file"] == file)
        return found

    def version(self, project: str) -> int:
        """Returns the version of a project."""
        return int(self.get(f"projects/{project}/version")["version"])

    def edit(self, project: str, version: int, *edits: Json, status: int = 200) -> Json:
        """Returns the answer to edits."""
        return self.post(
            f"projects/{project}/edits", {"version": version, "edits": list(edits)}, status
        )


class DeskProcess(Asked):
    """A desk of a folder as users run it. Use it in a `with` statement."""

    def __init__(self, folder: Path, *words: str) -> None:
        """Starts `pert-desk` of this checkout, and waits for its address."""
        self.process = subprocess.Popen(
            [
                *(sys.executable, "-m", "pert_companion", "pert-desk", str(folder)),
                *("--no-browser", "--bin", str(program_folder()), *words),
            ],
            stdout=subprocess.PIPE,
            stderr=subprocess.PIPE,
            env={**os.environ, "PYTHONPATH": f"{SOURCES}:{os.environ.get('PYTHONPATH', '')}"},
            preexec_fn=_with_interrupts,
        )
        assert self.process.stdout is not None and self.process.stderr is not None
        line = self.process.stdout.readline().decode()
        if not line:
            raise AssertionError(self.process.stderr.read().decode())
        self.listens(line.removeprefix("pert-desk: ").strip())

    def __enter__(self) -> DeskProcess:
        return self

    def __exit__(self, *error: object) -> None:
        self.client.close()
        self.end()

    def fill_disk(self, most: int) -> None:
        """Lets the desk write no file of more than so many bytes from now on."""
        resource.prlimit(self.process.pid, resource.RLIMIT_FSIZE, (most, most))

    def end(self, number: int = signal.SIGTERM) -> int:
        """Ends the desk by a signal, and returns its status."""
        if self.process.poll() is None:
            self.process.send_signal(number)
        status = self.process.wait(PATIENCE)
        for pipe in (self.process.stdout, self.process.stderr):
            if pipe is not None:
                pipe.close()
        return status


def _with_interrupts() -> None:
    """Lets Ctrl-C end a process, also where the tests ignore it."""
    signal.signal(signal.SIGINT, signal.default_int_handler)


class DeskThread(Asked):
    """A desk of a folder in this process, which starts at once. Use it in a `with` statement."""

    def __init__(self, folder: Path) -> None:
        """Starts the server of a desk."""
        self.desk = Desk(folder, Programs(program_folder()))
        self._place = socket.create_server(("127.0.0.1", 0))
        access = Access(self._place.getsockname()[1])
        app = application(self.desk, access)
        self._server = uvicorn.Server(uvicorn.Config(app, log_level="error", lifespan="off"))
        self._thread = Thread(target=self._server.run, kwargs={"sockets": [self._place]})
        self._thread.start()
        self.listens(f"http://127.0.0.1:{access.port}/?token={access.token}")

    def __enter__(self) -> DeskThread:
        return self.enter()

    def __exit__(self, *error: object) -> None:
        self.client.close()
        self._server.should_exit = self._server.force_exit = True
        self._thread.join()
        self._place.close()
        self.desk.close()


def program_folder() -> Path:
    """Returns the folder of the programs."""
    return Path(Programs().find("pert")).parent


def task_edit(task: str, field: str, value: str) -> Json:
    """Returns the edit of a field of a task."""
    return {"kind": "task", "task": task, "field": field, "value": value}
