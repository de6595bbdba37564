"""Who can ask a desk: each case of an attack, by real requests."""

import asyncio
import json
import socket
from collections.abc import Iterator
from pathlib import Path
from shutil import copy

import httpx
import pytest
from starlette.datastructures import Headers
from starlette.types import Message

from desk.serving import PATIENCE, DeskProcess
from pert_companion.cli import desk as command
from pert_companion.cli.common import run_command
from pert_companion.desk import safety
from pert_companion.desk.errors import LargeError, SlowError
from running import EXAMPLES

SECRET = "this file is not of the desk"


@pytest.fixture(scope="module")
def desk(tmp_path_factory: pytest.TempPathFactory) -> Iterator[DeskProcess]:
    """Gives a desk of a folder with one project, next to a file that is none of its business."""
    outside = tmp_path_factory.mktemp("outside")
    (outside / "secret.csv").write_text(SECRET)
    folder = outside / "projects"
    folder.mkdir()
    copy(EXAMPLES / "tasks.csv", folder)
    with DeskProcess(folder) as running:
        yield running.enter()


def asked(desk: DeskProcess, path: str, **headers: str) -> httpx.Response:
    """Returns the answer to a request with the cookie and other headers."""
    return desk.client.get(path, headers=headers)


def changed(desk: DeskProcess, **headers: str) -> httpx.Response:
    """Returns the answer to a request that would change a project, with other headers."""
    project = desk.project("tasks.csv")
    body = {"version": 1, "edits": [{"kind": "task", "task": "DIG", "field": "normal"}]}
    content = {"Content-Type": "application/json", **headers}
    return desk.client.post(
        f"/api/projects/{project}/edits", content=json.dumps(body), headers=content
    )


def test_the_token_opens_the_desk_once(desk: DeskProcess) -> None:
    """Somebody who finds the address later, as in the history of a shell, gets nothing."""
    with httpx.Client(base_url=desk.origin, timeout=PATIENCE) as other:
        answer = other.get(desk.address)
        assert answer.status_code == 401
        assert not other.cookies
        assert other.get("/api/folder").status_code == 401
        assert other.get("/?token=").status_code == 401
        assert other.get("/?token=%00%ff").status_code == 401


def test_the_cookie_is_not_for_scripts_and_not_for_other_sites(tmp_path: Path) -> None:
    """The cookie is HttpOnly and SameSite=Strict; the address of the page has no token."""
    with DeskProcess(tmp_path) as running:
        answer = running.client.get(running.address)
        cookie = answer.headers["set-cookie"].lower()
        assert "httponly" in cookie and "samesite=strict" in cookie
        assert answer.headers["location"] == "/"


@pytest.mark.parametrize("path", ["/", "/static/desk.css", "/api/folder", "/api/exports/1", "/x"])
def test_nothing_is_answered_without_the_cookie(desk: DeskProcess, path: str) -> None:
    """There is no page, script or file for somebody without the cookie, nor a wrong one."""
    guessed = {f"pert-desk-{desk.origin.rpartition(':')[2]}": "guessed"}
    for cookies in (dict[str, str](), guessed):
        with httpx.Client(base_url=desk.origin, cookies=cookies, timeout=PATIENCE) as other:
            assert other.get(path).status_code == 401


@pytest.mark.parametrize("host", ["evil.example", "127.0.0.1", "127.0.0.1:1", "localhost.evil:80"])
def test_a_name_that_was_made_to_lead_here_is_refused(desk: DeskProcess, host: str) -> None:
    """DNS rebinding: the browser sends the attacker's name as Host."""
    answer = asked(desk, "/api/folder", Host=host)
    assert answer.status_code == 403
    assert "projects" not in answer.text


@pytest.mark.parametrize("origin", ["https://evil.example", "null", "http://127.0.0.1:1", ""])
def test_a_form_of_another_site_changes_nothing(desk: DeskProcess, origin: str) -> None:
    """A cross-site request is refused by its Origin, even if it had the cookie."""
    assert changed(desk, Origin=origin).status_code == 403
    assert asked(desk, "/api/folder", Origin=origin).status_code == 403
    assert desk.get(f"projects/{desk.project('tasks.csv')}/version")["version"] == 1


def test_a_request_that_names_no_origin_changes_nothing(desk: DeskProcess) -> None:
    """Browsers name the Origin of each request that is not GET."""
    assert changed(desk).status_code == 403


@pytest.mark.parametrize("site", ["cross-site", "same-site"])
def test_a_request_that_the_browser_calls_foreign_is_refused(desk: DeskProcess, site: str) -> None:
    """Sec-Fetch-Site is set by browsers alone: another port of this machine is `same-site`."""
    headers = {"Sec-Fetch-Site": site, "Sec-Fetch-Mode": "no-cors"}
    assert asked(desk, "/api/folder", **headers).status_code == 403
    headers["Origin"] = desk.origin
    assert changed(desk, **headers).status_code == 403


def test_a_form_cannot_pass_for_json(desk: DeskProcess) -> None:
    """Forms of other sites can send text/plain without asking; it is no JSON here."""
    answer = changed(desk, **{"Origin": desk.origin, "Content-Type": "text/plain"})
    assert answer.status_code == 415


def test_an_upload_needs_a_header_that_forms_cannot_send(desk: DeskProcess) -> None:
    """A form with a file can be sent across sites; this header cannot."""
    answer = desk.client.post(
        "/api/uploads", files={"file": ("a.xml", b"<a/>")}, headers={"Origin": desk.origin}
    )
    assert answer.status_code == 400


@pytest.mark.parametrize(
    "path",
    [
        "/api/projects/..%2f..%2fsecret.csv",
        "/api/projects/../secret.csv",
        "/api/projects/%2e%2e%2fsecret.csv/version",
        "/api/projects/secret.csv",
        "/api/exports/..%2f..%2fsecret.csv",
        "/static/..%2f..%2fsecret.csv",
        "/static/%2e%2e%2fapp.py",
        "/static/app.py",
        "/projects/..%2fsecret.csv",
    ],
)
def test_no_path_of_the_browser_leads_to_a_file(desk: DeskProcess, path: str) -> None:
    """The desk looks its own names up in the folder's list; a path is none of them."""
    answer = asked(desk, path)
    assert answer.status_code == 404
    assert SECRET not in answer.text and "import" not in answer.text


def test_the_name_of_a_dropped_file_is_no_path(desk: DeskProcess) -> None:
    """Whatever name the browser says, the file is in the folder under a plain name."""
    garden = EXAMPLES / "garden.xml"
    answer = desk.client.post(
        "/api/uploads",
        files={"file": ("..\\../../../tmp/evil;.xml", garden.read_bytes())},
        headers={"Origin": desk.origin, "X-Pert-Desk": "1"},
    )
    name, outcome = desk.events(answer.json()["upload"])[-1]
    assert name == "outcome"
    assert outcome["file"] == "evil-.xml"
    assert not Path("/tmp/evil-.xml").exists()


def test_a_body_that_is_too_long_is_not_read(desk: DeskProcess) -> None:
    """A length above the limit is refused at once, and a body in chunks when it is reached."""
    headers = {"Origin": desk.origin, "Content-Type": "application/json"}
    project = desk.project("tasks.csv")
    long = b"[" * (safety.MOST_BODY + 1)
    assert (
        desk.client.post(
            f"/api/projects/{project}/edits", content=long, headers=headers
        ).status_code
        == 413
    )

    def chunks() -> Iterator[bytes]:
        for _ in range(40):
            yield b"[" * (safety.MOST_BODY // 16)

    answer = desk.client.post(f"/api/projects/{project}/edits", content=chunks(), headers=headers)
    assert answer.status_code == 413
    assert raw_status(desk, f"Content-Length: {safety.MOST_UPLOAD + 1}") == 413
    assert raw_status(desk, "Content-Length: -1") in (400, 413)


def raw_status(desk: DeskProcess, header: str) -> int:
    """Returns the status of an upload of which only the headers are sent."""
    host, port = desk.origin.removeprefix("http://").split(":")
    name, value = next(iter(desk.client.cookies.items()))
    lines = [
        "POST /api/uploads HTTP/1.1",
        f"Host: {host}:{port}",
        f"Origin: {desk.origin}",
        f"Cookie: {name}={value}",
        "X-Pert-Desk: 1",
        "Content-Type: multipart/form-data; boundary=b",
        header,
    ]
    with socket.create_connection((host, int(port)), PATIENCE) as place:
        place.sendall("\r\n".join([*lines, "", ""]).encode())
        return int(place.recv(100).split()[1])


def body_of(messages: list[tuple[float, Message]], most: float) -> bytes:
    """Returns a body whose parts come after pauses, through the guard's limits."""
    waiting = iter(messages)

    async def receive() -> Message:
        pause, message = next(waiting)
        await asyncio.sleep(pause)
        return message

    async def read() -> bytes:
        body = safety.Body(receive, Headers({"content-type": "application/json"}))
        found = b""
        while True:
            message = await body.receive()
            found += message["body"]
            if not message.get("more_body", False):
                return found

    return asyncio.run(asyncio.wait_for(read(), most))


def part(data: bytes, more: bool) -> Message:
    """Returns a part of a body."""
    return {"type": "http.request", "body": data, "more_body": more}


def test_a_body_that_comes_too_slowly_is_given_up(monkeypatch: pytest.MonkeyPatch) -> None:
    """Neither a browser that sends nothing nor one that sends byte by byte holds the desk."""
    monkeypatch.setattr(safety, "PATIENCE", 0.2)
    assert body_of([(0, part(b"{", True)), (0.1, part(b"}", False))], 5) == b"{}"
    with pytest.raises(SlowError):
        body_of([(0, part(b"{", True)), (60, part(b"}", False))], 5)
    with pytest.raises(SlowError):
        body_of([(0.1, part(b"x", True))] * 100, 20)
    with pytest.raises(LargeError):
        body_of([(0, part(b"x" * safety.MOST_BODY, True)), (0, part(b"x", False))], 5)


def test_a_connection_without_a_request_does_not_stop_others(desk: DeskProcess) -> None:
    """Many connections that say nothing leave the desk usable."""
    host, port = desk.origin.removeprefix("http://").split(":")
    held = [socket.create_connection((host, int(port))) for _ in range(50)]
    try:
        for each in held:
            each.sendall(b"POST /api/uploads HTTP/1.1\r\nHost: ")
        assert desk.get("folder")["name"] == "projects"
    finally:
        for each in held:
            each.close()


def test_every_answer_has_the_headers_of_safety(desk: DeskProcess) -> None:
    """Pages run no script but the desk's own, are in no foreign frame, and are not kept."""
    for path in ("/", "/api/folder", "/no-such", "/static/desk.css"):
        headers = asked(desk, path).headers
        assert "default-src 'none'" in headers["content-security-policy"]
        assert "script-src 'self'" in headers["content-security-policy"]
        assert "frame-ancestors 'self'" in headers["content-security-policy"]
        assert headers["x-content-type-options"] == "nosniff"
        assert headers["cache-control"] == "no-store"


def test_the_report_runs_apart_from_the_desk(desk: DeskProcess) -> None:
    """A report in a frame has no access to the desk: it is in a sandbox."""
    answer = asked(desk, f"/api/projects/{desk.project('tasks.csv')}/report")
    assert answer.status_code == 200
    assert "sandbox allow-scripts" in answer.headers["content-security-policy"]
    assert "allow-same-origin" not in answer.headers["content-security-policy"]


def refused(capsys: pytest.CaptureFixture[str], *words: str) -> str:
    """Returns the line of a command that does not start."""
    assert run_command("pert-desk", command.parser(), command.run, words) == 2
    return capsys.readouterr().err


def test_other_addresses_need_a_proxy(tmp_path: Path, capsys: pytest.CaptureFixture[str]) -> None:
    """Without a proxy that authenticates, the desk listens on 127.0.0.1 alone."""
    folder = str(tmp_path)
    assert "127.0.0.1 alone" in refused(capsys, folder, "--listen", "0.0.0.0")
    assert "needs --address" in refused(capsys, folder, "--behind-proxy", "X-User")
    assert "needs --address" in refused(
        capsys, folder, "--behind-proxy", "X-User", "--address", "desk.example"
    )
    assert "goes with" in refused(capsys, folder, "--address", "https://desk.example")
    assert "no such folder" in refused(capsys, str(tmp_path / "none"))
    assert "no port" in refused(capsys, folder, "--port", "99999")


def test_behind_a_proxy_its_header_is_the_key(tmp_path: Path) -> None:
    """The proxy's user is let in by the proxy's own name; others and other names are not."""
    words = ("--behind-proxy", "X-User", "--address", "https://desk.example")
    with DeskProcess(tmp_path, *words) as running:
        port = listening_port(running)
        with httpx.Client(base_url=f"http://127.0.0.1:{port}", timeout=PATIENCE) as proxy:
            right = {"Host": "desk.example", "X-User": "anna"}
            assert proxy.get("/api/folder", headers=right).status_code == 200
            assert proxy.get("/api/folder", headers={"Host": "desk.example"}).status_code == 401
            assert proxy.get("/api/folder", headers={**right, "X-User": ""}).status_code == 401
            wrong_host = {**right, "Host": f"127.0.0.1:{port}"}
            assert proxy.get("/api/folder", headers=wrong_host).status_code == 403
            wrong_origin = {**right, "Origin": "https://evil.example"}
            assert proxy.get("/api/folder", headers=wrong_origin).status_code == 403


def listening_port(running: DeskProcess) -> int:
    """Returns the port on which a desk listens, as the system has it."""
    inodes = set()
    for link in Path(f"/proc/{running.process.pid}/fd").iterdir():
        target = str(link.readlink())
        if target.startswith("socket:["):
            inodes.add(target[8:-1])
    for line in Path("/proc/net/tcp").read_text().splitlines()[1:]:
        words = line.split()
        if words[3] == "0A" and words[9] in inodes:
            return int(words[1].partition(":")[2], 16)
    raise AssertionError("it does not listen")


def test_two_desks_do_not_share_a_folder(tmp_path: Path) -> None:
    """The second one ends with a line; the lock goes with the first, also if it is killed."""
    with DeskProcess(tmp_path) as first:
        with pytest.raises(AssertionError, match="another pert-desk has this folder open"):
            DeskProcess(tmp_path)
        first.process.kill()
        first.process.wait()
        with DeskProcess(tmp_path) as second:
            assert second.enter().get("folder")["projects"] == []
