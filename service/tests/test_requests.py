"""Requests as they come: paths, methods, formats, bodies, heads."""

import asyncio
import contextlib
import datetime
import errno
import io
import json
import re
import tempfile

import pytest
from sctd_service.gateway import http, limits
from sctd_service.gateway.app import App
from sctd_service.gateway.fhir.versions import Edition
from sctd_service.gateway.pool import Pool

from .asked import Asked
from .fixtures import EDITION, FHIR_JSON, POST, SCT, issue, told

LOOKUP = "/fhir/CodeSystem/$lookup"
GET = b"GET /health HTTP/1.1\r\nHost: x\r\n"
GET_PAGE = http.Request("GET", "/", {}, b"", lambda: False)
CHUNKED = GET + b"Transfer-Encoding: chunked\r\n\r\n"
CODING = b'{"name":"coding","valueCoding":{"system":"http://snomed.info/sct","code":"138875005"%s}'
PARAMETERS = json.dumps({"resourceType": "Parameters",
                         "parameter": [{"name": "code", "valueCode": "138875005"},
                                       {"name": "system", "valueUri": SCT}]}).encode()

# How long an answer may have been on its way.
LATE_SECONDS = 30

# Heads that are wrong in themselves.
HEADS = (
    (b"nonsense\r\n\r\n", 400),
    (b"GET  /health HTTP/1.1\r\nHost: x\r\n\r\n", 400),
    (b"GET /health HTTP/1.1\r\n\r\n", 400),
    (b"GET /health HTTP/2.0\r\nHost: x\r\n\r\n", 505),
    (b"\r\nGET /health HTTP/1.1\r\nHost: x\r\n\r\n", 400),
    (b"GET /health\r\n\r\n", 400),
    (b"GET /health HTTP/1.1 \r\nHost: x\r\n\r\n", 400),
    (b"PRI * HTTP/2.0\r\n\r\nSM\r\n\r\n", 505),
    (GET + b"Host: y\r\n\r\n", 400),
    (GET + b"Host: x\r\n\r\n", 400),
    (GET + b" folded: x\r\n\r\n", 400),
    (GET + b"A: b\r\n\tc\r\n\r\n", 400),
    (GET + b"A: b\nC: d\r\n\r\n", 400),
    (GET + b"A: b\rC: d\r\n\r\n", 400),
    (GET + b"A: \x00\r\n\r\n", 400),
    (GET + b"A: \x0b\r\n\r\n", 400),
    (GET + b"A: \x7f\r\n\r\n", 400),
    (GET + b"A: \xc3\xa4\r\n\r\n", 400),
    (GET + b"A\xc3: b\r\n\r\n", 400),
    (GET + b"A : b\r\n\r\n", 400),
    (GET + b": b\r\n\r\n", 400),
    (GET + b"A\r\n\r\n", 400))
# Heads that don't say in one way where the request ends, or what it is for.
ENDS = (
    (GET + b"Content-Length : 3\r\n\r\nabc", 400),
    (GET + b"Content-Length: +3\r\n\r\n", 400),
    (GET + b"Content-Length: -1\r\n\r\n", 400),
    (GET + b"Content-Length: 0x3\r\n\r\nabc", 400),
    (GET + b"Content-Length: \r\n\r\n", 400),
    (GET + b"Content-Length: 3, 3\r\n\r\nabc", 400),
    (GET + b"Content-Length: 3\r\nContent-Length: 4\r\n\r\nabc", 400),
    (GET + b"Content-Length: 3\r\ncontent-length: 3\r\n\r\nabc", 400),
    (GET + b"Content-Length: 99999999999999999999\r\n\r\n", 400),
    (GET + b"Content-Length: 65537\r\n\r\n", 413),
    (GET + b"Transfer-Encoding: gzip, chunked\r\n\r\n0\r\n\r\n", 501),
    (GET + b"Transfer-Encoding: identity\r\n\r\n", 501),
    (GET + b"Transfer-Encoding: chunked\r\nTransfer-Encoding: chunked\r\n\r\n0\r\n\r\n", 400),
    (GET + b"Transfer-Encoding: chunked\r\nContent-Length: 5\r\n\r\n0\r\n\r\n", 400),
    (GET + b"Content-Length: 5\r\nTransfer-Encoding: chunked\r\n\r\n0\r\n\r\n", 400),
    (b"GET /health HTTP/1.0\r\nTransfer-Encoding: chunked\r\n\r\n0\r\n\r\n", 400),
    (GET + b"A: " + b"b" * 20_000 + b"\r\n\r\n", 431),
    (GET + b"A: b\r\n" * 4_000 + b"\r\n", 431),
    (b"GET ftp://x/health HTTP/1.1\r\nHost: x\r\n\r\n", 400),
    (b"GET http:///health HTTP/1.1\r\nHost: x\r\n\r\n", 400),
    (b"GET http://x HTTP/1.1\r\nHost: x\r\n\r\n", 400),
    (b"GET //x@y:z HTTP/1.0 HTTP/1.1\r\nHost: x\r\n\r\n", 400),
    (b"GET * HTTP/1.1\r\nHost: x\r\n\r\n", 400),
    (b"GET /a\tb HTTP/1.1\r\nHost: x\r\n\r\n", 400),
    (b"GET /\xc3\xa4 HTTP/1.1\r\nHost: x\r\n\r\n", 400),
    (b"CONNECT x:80 HTTP/1.1\r\nHost: x\r\n\r\n", 400),
    (b"POST /fhir/CodeSystem/$lookup HTTP/1.1\r\nHost: x\r\n\r\n", 411),
    (b"\x16\x03\x01\x02\x00\x01\x00\x01\xfc\x03\x03\r\n\r\n", 400))


class NoRoom(io.StringIO):
    """A standard error on a full disk."""

    def write(self, text: str) -> int:
        raise OSError(errno.ENOSPC, "No space left on device")


class Faulty(App):
    """A gateway with a fault."""

    async def routed(self, request: http.Request) -> http.Response:
        raise ValueError("a fault")


class TestTurns:
    def test_a_client_between_many_requests_of_another(self) -> None:
        asyncio.run(self.beside_many())

    async def beside_many(self) -> None:
        count, answered = 1000, []

        async def answer(request: http.Request) -> http.Response:
            answered.append(request.target)
            return http.Response(200, "text/plain", b"")

        server = http.Server(answer, lambda status, text: http.Response(status, "text/plain", b""))
        with tempfile.TemporaryDirectory() as folder:
            path = folder + "/http"
            async with await asyncio.start_unix_server(server.connected, path):
                many, other = [await asyncio.open_unix_connection(path) for _ in range(2)]
                many[1].write(b"GET /many HTTP/1.1\r\nHost: x\r\n\r\n" * count)
                await many[0].readuntil(b"\r\n\r\n")
                other[1].write(b"GET /other HTTP/1.1\r\nHost: x\r\n\r\n")
                await other[0].readuntil(b"\r\n\r\n")
                assert answered.index("/other") < count // 2
                await server.stop()
                for _, writer in (many, other):
                    writer.close()

    def test_a_client_that_leaves_while_it_waits(self) -> None:
        asyncio.run(self.left())

    async def left(self) -> None:
        app = App(Pool("/nowhere"), Edition(EDITION))
        # Where nothing has to be waited for, who sends no more is answered.
        ended = GET_PAGE._replace(has_left=lambda: True)
        assert (await app.answer(ended)).status == 503
        for _ in range(limits.WALKS):
            await app.walks.acquire()
        left, stays = (asyncio.create_task(app.answer(GET_PAGE._replace(has_left=has_left)))
                       for has_left in (lambda: True, lambda: False))
        await asyncio.sleep(0.1)
        app.walks.release()
        with pytest.raises(http.ClientLeftError):
            await left
        assert (await stays).status == 503

    def test_a_log_that_is_full(self) -> None:
        """What can't be logged is answered nevertheless."""
        asyncio.run(self.answered_without_a_log())

    async def answered_without_a_log(self) -> None:
        app = Faulty(Pool("/nowhere"), Edition(EDITION))
        with contextlib.redirect_stderr(NoRoom()):
            answer = await app.answer(GET_PAGE)
            http.log(GET_PAGE, answer, 0.0)
        assert answer.status == 500
        with contextlib.redirect_stderr(io.StringIO()) as told:
            await app.answer(GET_PAGE)
        assert "ValueError: a fault" in told.getvalue()


class TestRequests(Asked):
    @pytest.mark.parametrize("one", ("verison", "system-version", "<b>", "x" * 3000, "Code"))
    def test_unknown_parameters(self, one: str) -> None:
        status, said = self.gateway.fhir(
            "CodeSystem/$lookup", system=SCT, code="138875005", **{one: "1"})
        assert (status, issue(said)) == (400, "not-supported"), one

    def test_parameters_that_change_no_answer(self) -> None:
        """They are passed over and told, or refused where the client wants that."""
        target = LOOKUP + "?system=%s&code=138875005&_summary=true" % SCT
        answer = self.gateway.send("GET", target)
        warnings = told(answer.json(), "warning")
        assert (answer.status, len(warnings)) == (200, 1)
        assert "_summary is passed over" in warnings[0]
        for wish, status in (("handling=strict", 400), ('return=minimal; handling = "strict"', 400),
                             ("handling=lenient", 200), ("handling=stricter", 200)):
            answer = self.gateway.send("GET", target, headers={"Prefer": wish})
            assert answer.status == status, wish
            assert status == 200 or issue(answer.json()) == "not-supported"

    def test_twice(self) -> None:
        status, _ = self.gateway.fhir(
            "CodeSystem/$lookup", system=SCT, code=["138875005", "138875005"])
        assert status == 400

    def test_too_many_parameters(self) -> None:
        answer = self.gateway.send(
            "GET", LOOKUP + "?" + "&".join("property=a%d" % n for n in range(61)))
        assert answer.status == 400
        part = {"name": "property", "valueString": "a"}
        assert self.gateway.posted("CodeSystem/$lookup", *[part] * 61)[0] == 400

    def test_query_that_is_not_utf_8(self) -> None:
        for text in ("%ff", "%c0%80", "%ed%a0%80", "%f4%90%80%80"):
            assert self.gateway.send("GET", LOOKUP + "?code=" + text).status == 400, text

    def test_paths(self) -> None:
        for path in ("Patient/1", "CodeSystem/$nothing", "..%2f..%2fetc/passwd", "",
                     "CodeSystem/$lookup/", "CodeSystem/other", "CodeSystem/sct.",
                     "CodeSystem/sct.20190132", "CodeSystem/sct.20190130", "CodeSystem/sct/lookup",
                     "CodeSystem/sct/$nothing", "CodeSystem/sct/$lookup/x", "CodeSystem//$lookup",
                     "ValueSet/isa-1105008", "ValueSet/isa-", "ValueSet/isa-1105007.2019",
                     "ConceptMap/map-900000000000207008", "metadata/x"):
            assert self.gateway.fhir(path)[0] == 404, path
        for target in ("/nothing", "//", "/page.py", "/pin/x/", "/pin/1", "/pin/99999999999/",
                       "/pin/%C2%B2/", "/page.css/../../app.py", "/fhir%0a", "/pin%2f1/health",
                       "/pin/1%2Fhealth", "/%70in/1/health", "/fhir%2Fmetadata"):
            assert self.gateway.send("GET", target).status == 404, target

    @pytest.mark.parametrize("address", (
        b"http://x/pin/1/health", b"HTTPS://user@x:80/pin/1/health"))
    def test_addresses_with_a_host(self, address: bytes) -> None:
        """What stands before the path is passed over, as HTTP has it."""
        end = b" HTTP/1.1\r\nHost: x\r\nConnection: close\r\n\r\n"
        got = self.gateway.raw(b"GET " + address + end)
        assert got.startswith(b"HTTP/1.1 200 "), got[:40]
        assert b'"pin":1,' in got

    def test_methods(self) -> None:
        for method in ("PUT", "DELETE", "PATCH", "OPTIONS", "TRACE", "BREW"):
            answer = self.gateway.send(method, "/fhir/metadata", headers={"Content-Length": "0"})
            assert (answer.status, answer.headers["allow"]) == (405, "GET, HEAD, POST"), method
        for target in ("/fhir/metadata", "/", "/health", "/page.css"):
            answer = self.gateway.send("POST", target, b"{}")
            assert (answer.status, answer.headers["allow"]) == (405, "GET, HEAD"), target

    def test_formats(self) -> None:
        for kind, status in (("application/fhir+xml", 406), ("text/html", 406), ("*/*", 200),
                             ("text/json", 200), ("text/html, application/fhir+json;q=0.9", 200),
                             ("application/fhir+json; q=0", 406), ("text/html, */*;q=0.000", 406),
                             ("application/fhir+json;q=0.001", 200)):
            answer = self.gateway.send("GET", "/fhir/metadata", headers={"Accept": kind})
            assert answer.status == status, kind
        for kind, status in (
                ("xml", 406), ("application/fhir+xml", 406), ("application/fhir+json", 200),
                ("application/fhir json", 200), ("json", 200)):
            assert self.gateway.fhir("metadata", _format=kind)[0] == status, kind
        answer = self.gateway.send("GET", "/fhir/metadata?_format=xml")
        assert issue(answer.json()) == "not-supported"
        assert self.gateway.fhir("metadata", _format=["json", "xml"])[0] == 400

    def test_bodies(self) -> None:
        head = b'{"resourceType":"Parameters","parameter":['
        for body, status in (
                (b"", 400),
                (b"{", 400),
                (b"[]", 400),
                (b"null", 400),
                (b"[" * 60_000, 400),
                (b"\xff", 400),
                (b"1" * 60_000, 400),
                (PARAMETERS.decode().encode("utf-16"), 400),
                (b'"Parameters"', 400),
                (b"\xef\xbb\xbf" + PARAMETERS, 400),
                (head + b"1]}", 400),
                (b'{"resourceType":"Patient"}', 400),
                (b'{"resourceType":"Parameters","parameter":7}', 400),
                (head + b'{"valueCode":"1"}]}', 400),
                (head + b'{"name":"code","valueCode":{"a":1}}]}', 400),
                (head + b'{"name":"code","valueCode":"1","valueString":"2"}]}', 400),
                (head + b'{"name":"code","name":"system","valueCode":"1"}]}', 400),
                (head + b'{"name":"coding","valueCoding":7}]}', 400),
                (head + CODING % b"" + b"}]}", 200),
                (head + CODING % b"" + b'},{"name":"date","valueDate":null}]}', 400),
                (head + CODING % b"" + b'},{"name":"version","valueString":null}]}', 400),
                (head + CODING % b',"version":""' + b"}]}", 400),
                (head + CODING % b',"display":""' + b"}]}", 400),
                (head + CODING % b',"display":null' + b"}]}", 400),
                (head + b'{"name":"_format","valueCode":"json"}]}', 400),
                (head + CODING % b"" + b'}],"x":NaN}', 400),
                (head + CODING % b"" + b'}],"x":-Infinity}', 400),
                (head + CODING % b"" + b'}],"x":1}', 200),
                (head + b'{"name":"code","valueCode":"\\ud800"},{"name":"system","valueUri":"'
                 + SCT.encode() + b'"}]}',
                 400),
                (PARAMETERS, 200)):
            answer = self.gateway.send("POST", LOOKUP, body, {"Content-Type": FHIR_JSON})
            assert answer.status == status, body[:80]

    def test_kinds_of_bodies(self) -> None:
        for kind, status in (
                ("text/xml", 415), ("application/x-www-form-urlencoded", 415), ("", 415),
                ("application/json; charset=utf-8", 200), ("Application/FHIR+JSON", 200)):
            answer = self.gateway.send("POST", LOOKUP, PARAMETERS, {"Content-Type": kind})
            assert answer.status == status, kind
        packed = {"Content-Type": FHIR_JSON, "Content-Encoding": "gzip"}
        assert self.gateway.send("POST", LOOKUP, PARAMETERS, packed).status == 415

    def test_body_of_a_megabyte(self) -> None:
        answer = self.gateway.send(
            "POST", LOOKUP, b" " * (1 << 20), {"Content-Type": "application/json"})
        assert (answer.status, issue(answer.json())) == (413, "too-long")
        assert self.gateway.send("GET", "/health").status == 200

    @pytest.mark.parametrize("data, status", HEADS + ENDS)
    def test_heads(self, data: bytes, status: int) -> None:
        self.refused(data, status)

    def refused(self, data: bytes, status: int) -> None:
        """The request is refused once, and the connection ends."""
        got = self.gateway.raw(data)
        assert got.split(b" ")[1:2] == [b"%d" % status]
        assert b"Connection: close" in got
        assert got.count(b"\r\nContent-Type: ") == 1

    @pytest.mark.parametrize("body, status", (
        (b"-1\r\n\r\n", 400),
        (b"\r\n\r\n", 400),
        (b"g\r\n\r\n", 400),
        (b"0x1\r\na\r\n0\r\n\r\n", 400),
        (b"2\r\nabc\r\n0\r\n\r\n", 400),
        (b"2\nab\n0\n\n\r\n\r\n", 400),
        (b"2\r\nabxx0\r\n\r\n", 400),
        (b"0\r\nTrailer: x\r\n\r\n", 400),
        (b"fffffffffffffffffffffff\r\n\r\n", 400),
        (b"1\r\na\r\n" * 1001 + b"0\r\n\r\n", 413),
        (b"10001\r\n" + b"a" * 0x10001 + b"\r\n0\r\n\r\n", 413)))
    def test_chunks_that_are_refused(self, body: bytes, status: int) -> None:
        self.refused(CHUNKED + body, status)

    def test_chunks(self) -> None:
        parts = b"".join(
            b"%x\r\n%s\r\n" % (len(PARAMETERS[at : at + 50]), PARAMETERS[at : at + 50])
            for at in range(0, len(PARAMETERS), 50))
        got = self.gateway.raw(POST + b"Transfer-Encoding: chunked\r\n\r\n" + parts + b"0\r\n\r\n"
                               + GET + b"Connection: close\r\n\r\n")
        assert got.count(b"HTTP/1.1 200") == 2

    def test_two_requests_at_once_on_one_connection(self) -> None:
        got = self.gateway.raw(GET + b"\r\n" + GET + b"Connection: close\r\n\r\n")
        assert got.count(b"HTTP/1.1 200") == 2

    def test_body_and_the_next_request_in_one_piece(self) -> None:
        post = (POST + b"Content-Length: %d\r\n\r\n" % len(PARAMETERS)) + PARAMETERS
        got = self.gateway.raw(post + post + GET + b"Connection: close\r\n\r\n")
        assert got.count(b"HTTP/1.1 200") == 3

    def test_a_request_letter_by_letter(self) -> None:
        data = GET + b"Connection: close\r\nContent-Length: 3\r\n\r\nabc"
        with self.gateway.connect() as connection:
            for at in range(len(data)):
                connection.sendall(data[at : at + 1])
            got = b""
            while part := connection.recv(1 << 16):
                got += part
        assert got.startswith(b"HTTP/1.1 200 OK\r\n"), got

    def test_another_protocol_is_passed_over(self) -> None:
        upgrade = (
            GET + b"Connection: Upgrade, HTTP2-Settings\r\nUpgrade: h2c\r\nHTTP2-Settings: \r\n\r\n"
        )
        got = self.gateway.raw(upgrade + GET + b"Connection: close\r\n\r\n")
        assert got.count(b"HTTP/1.1 200") == 2

    def test_http_1_0(self) -> None:
        got = self.gateway.raw(b"GET /health HTTP/1.0\r\n\r\n")
        assert got.startswith(b"HTTP/1.1 200 OK\r\n") and b"Connection: close" in got, got

    def test_head(self) -> None:
        got = self.gateway.raw(b"HEAD /health HTTP/1.1\r\nHost: x\r\nConnection: close\r\n\r\n")
        assert got.startswith(b"HTTP/1.1 200") and got.endswith(b"\r\n\r\n"), got
        assert b"Content-Length: 0" not in got
        # A refusal of the request itself has no body either.
        got = self.gateway.raw(b"HEAD /health HTTP/1.1\r\nHost: x\r\nContent-Length: 99999\r\n\r\n")
        assert got.startswith(b"HTTP/1.1 413 ") and got.endswith(b"\r\n\r\n"), got

    def test_expect_100(self) -> None:
        end = b"Expect: 100-continue\r\nConnection: close\r\nContent-Length: %d\r\n\r\n"
        head = POST + end % len(PARAMETERS)
        with self.gateway.connect() as connection:
            connection.sendall(head)
            assert connection.recv(1 << 16) == b"HTTP/1.1 100 Continue\r\n\r\n"
            connection.sendall(PARAMETERS)
            assert connection.recv(1 << 16).startswith(b"HTTP/1.1 200 OK\r\n")

    @pytest.mark.parametrize("target", (
        "/", "/fhir/metadata", "/page.js", "/page.css", "/nothing", "/health", "/fhir/x"))
    def test_safe_headers(self, target: str) -> None:
        headers = self.gateway.send("GET", target).headers
        assert "default-src 'none'" in headers["content-security-policy"]
        assert "unsafe" not in headers["content-security-policy"]
        assert headers["x-content-type-options"] == "nosniff"
        lasting = "no-cache" if target == "/fhir/metadata" else "no-store"
        assert headers["cache-control"] == "private, " + lasting

    @pytest.mark.parametrize("sent, status", (
        (GET + b"Connection: close\r\n\r\n", 200),
        (b"GET /nothing HTTP/1.0\r\n\r\n", 404),
        (b"POST /health HTTP/1.0\r\nContent-Length: 0\r\n\r\n", 405),
        (b"nonsense\r\n\r\n", 400),
        (GET + b"A: " + b"b" * 20_000 + b"\r\n\r\n", 431)))
    def test_each_answer_has_its_date(self, sent: bytes, status: int) -> None:
        head = self.gateway.raw(sent).partition(b"\r\n\r\n")[0].decode()
        dates = re.findall(r"^Date: (.*)\r$", head, re.M)
        assert (head.split(" ")[1], len(dates)) == (str(status), 1), head
        # As RFC 9110 has it: `Sun, 06 Nov 1994 08:49:37 GMT`.
        made = datetime.datetime.strptime(dates[0], "%a, %d %b %Y %H:%M:%S GMT")
        now = datetime.datetime.now(datetime.timezone.utc).replace(tzinfo=None)
        assert abs((now - made).total_seconds()) < LATE_SECONDS

    def test_head_is_answered_like_get(self) -> None:
        get, head = (self.gateway.send(method, "/fhir/metadata") for method in ("GET", "HEAD"))
        assert (head.status, head.headers["content-length"], head.body) == (
            200, str(len(get.body)), b"")
        assert told(
            self.gateway.posted("CodeSystem/$lookup", *json.loads(PARAMETERS)["parameter"])[1],
            "name") == ["SNOMED CT"]
