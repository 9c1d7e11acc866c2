#!/usr/bin/env python3
"""Stands in front of `navd serve`: knows users by their tokens, and writes each `hello` itself.

    python3 examples/front.py --users FILE --navd PORT (--unix PATH | --port PORT)

PORT of --navd is that of a `navd serve` on this machine. FILE has a line for each user, TOKEN and then USER, with a
blank between; a token has 16 bytes or more and no blank, and nobody but the file's owner may read it. It is read anew
for each client, so a line that is taken out lets nobody in from then on. A line that is empty or begins with # is passed
over.

A client's first line is {"token":"..."}. Its reply is that of the `hello` which the front writes in the user's name.
Each further line is read as JSON, and where it is a request that is passed on, what goes to navd is printed anew from
the value that was read, never the line itself: of a member that stands twice the last counts, and "\\u0064o" is "do", so
a filter of texts could be led past a `hello`. The front replies by itself:

    {"error":"unknown_token"}   to a first line that isn't a known token; the connection ends
    {"error":"busy"}            where as many users as --clients says are served; the connection ends
    {"error":"bad_json"}        to a line that isn't JSON in UTF-8
    {"error":"not_passed_on"}   to `hello`, and to what is no request that is passed on
    {"error":"long_line"}       to a line with more than --longest bytes; the connection ends
    {"error":"gone"}            where navd doesn't answer; the connection ends

It needs Python's standard library alone, and is no part of the server.
"""

import argparse
import hmac
import json
import os
import signal
import socket
import stat
import sys
import threading
import time
from typing import Callable, List, NamedTuple, Optional, Tuple

# The requests that are passed on. `hello` isn't one, nor is any request that navd may know one day and this doesn't.
PASSED_ON = {"pin", "commit", "grant", "revoke", "deny", "undeny", "define", "references", "callers", "quit"}
# How many seconds a client has for its token, and how many clients may be about to tell one.
TOKEN_SECONDS = 10
NEWCOMERS = 64
# The bytes of the longest first line, and the fewest of a token.
TOKEN_LINE = 1_024
SHORTEST_TOKEN = 16
# The bytes of the longest reply of navd that are taken at once from it.
CHUNK = 65_536


class Refused(Exception):
    """Why a line isn't passed on, by the word of the reply."""

    def __init__(self, error: str):
        super().__init__(error)
        self.error = error


class Ended(Exception):
    """Why a connection ends, by the word of its last reply."""

    def __init__(self, error: str):
        super().__init__(error)
        self.error = error


class WrongUsers(Exception):
    """Why the file of users can't be taken, in a line."""


class Settings(NamedTuple):
    """What is the same for all clients."""

    users: str
    navd: int
    longest: int
    idle: int


def users_of(path: str) -> List[Tuple[bytes, str]]:
    """The tokens of the file, each with its user."""
    try:
        with open(path, "rb") as file:
            if stat.S_IMODE(os.fstat(file.fileno()).st_mode) & 0o077:
                raise WrongUsers(f"{path} may be read by others than its owner; chmod 600 mends it")
            lines = file.read().split(b"\n")
    except OSError as error:
        raise WrongUsers(f"{path} can't be read: {error.strerror}") from error
    users = []
    for number, line in enumerate(lines, 1):
        line = line.strip()
        if not line or line.startswith(b"#"):
            continue
        token, _, user = line.partition(b" ")
        users.append((token, user_of(user.strip(), f"{path}, line {number}")))
        if len(token) < SHORTEST_TOKEN:
            raise WrongUsers(f"{path}, line {number}: the token has fewer than {SHORTEST_TOKEN} bytes")
    if len({token for token, _ in users}) < len(users):
        raise WrongUsers(f"{path} has a token twice")
    return users


def user_of(data: bytes, where: str) -> str:
    """The user's name, which navd takes with 1 to 256 bytes."""
    try:
        user = data.decode()
    except UnicodeDecodeError as error:
        raise WrongUsers(f"{where}: the user isn't UTF-8") from error
    if not 1 <= len(data) <= 256:
        raise WrongUsers(f"{where}: a user has 1 to 256 bytes")
    return user


class Lines:
    """The lines of a socket, each read within a time and up to a length."""

    def __init__(self, one: socket.socket):
        self.socket, self.held = one, b""

    def next(self, longest: Optional[int], seconds: float) -> bytes:
        """The next line with its newline, the last one as it is, or nothing at the end."""
        until, pieces, size = time.monotonic() + seconds, [self.held], len(self.held)
        while b"\n" not in pieces[-1]:
            if longest is not None and size > longest:
                raise Ended("long_line")
            self.socket.settimeout(max(0.01, until - time.monotonic()))
            piece = self.socket.recv(CHUNK) if time.monotonic() < until else None
            if piece is None:
                raise TimeoutError
            if not piece:
                break
            pieces.append(piece)
            size += len(piece)
        line, newline, self.held = b"".join(pieces).partition(b"\n")
        if longest is not None and len(line) > longest:
            raise Ended("long_line")
        return line + newline


def value_of(line: bytes) -> object:
    """The value that a line is, as Python reads it."""

    def no_number(word: str) -> None:
        raise ValueError(f"{word} is no JSON")

    try:
        return json.loads(line.decode(), parse_constant=no_number)
    except (ValueError, RecursionError) as error:
        raise Refused("bad_json") from error


def printed(value: object) -> bytes:
    """The value as one line. It has no newline within: JSON's texts escape them."""
    try:
        return json.dumps(value, ensure_ascii=False, allow_nan=False, separators=(",", ":")).encode() + b"\n"
    except (ValueError, RecursionError) as error:
        raise Refused("bad_json") from error


def passed_on(line: bytes) -> Tuple[bytes, bool]:
    """What goes to navd for a client's line, and whether it ends the session."""
    value = value_of(line)
    word = value.get("do") if isinstance(value, dict) else None
    if not isinstance(word, str) or word not in PASSED_ON:
        raise Refused("not_passed_on")
    return printed(value), word == "quit"


def known_user(line: bytes, path: str) -> str:
    """The user whose token the client's first line tells."""
    try:
        value = value_of(line)
        token = value["token"].encode() if isinstance(value, dict) and value.keys() == {"token"} else b""
        users = users_of(path)
    except (Refused, AttributeError, UnicodeEncodeError):
        raise Ended("unknown_token") from None
    except WrongUsers as why:
        say(str(why))
        raise Ended("unknown_token") from why
    found = [user for known, user in users if hmac.compare_digest(known, token)]
    if not found:
        raise Ended("unknown_token")
    return found[0]


class Backend:
    """A connection to navd for one user."""

    def __init__(self, settings: Settings, user: str):
        self.idle = settings.idle
        try:
            self.socket = socket.create_connection(("127.0.0.1", settings.navd), timeout=settings.idle)
        except OSError as error:
            raise Ended("gone") from error
        self.lines = Lines(self.socket)
        self.hello = self.ask(printed({"do": "hello", "user": user}))

    def ask(self, line: bytes) -> bytes:
        """The reply to one line."""
        try:
            self.socket.sendall(line)
            reply = self.lines.next(None, self.idle)
        except OSError as error:
            raise Ended("gone") from error
        if not reply.endswith(b"\n"):
            raise Ended("gone")
        return reply


def serve(client: socket.socket, user: str, lines: Lines, settings: Settings) -> None:
    """Passes on what the user may say, and tells the replies, up to `quit` or the end."""
    backend = Backend(settings, user)
    with backend.socket:
        reply, ended = backend.hello, False
        while True:
            client.settimeout(settings.idle)
            client.sendall(reply)
            line = b"" if ended else lines.next(settings.longest, settings.idle)
            if not line:
                return
            try:
                request, ended = passed_on(line)
                reply = backend.ask(request)
            except Refused as why:
                reply = printed({"error": why.error})


class Front:
    """Clients, each served on a thread of its own, and how many there may be."""

    def __init__(self, settings: Settings, clients: int):
        self.settings = settings
        self.newcomers, self.places = threading.Semaphore(NEWCOMERS), threading.Semaphore(clients)

    def take(self, client: socket.socket) -> None:
        """Serves the client on a thread, or ends it where too many are about to tell a token."""
        if not self.newcomers.acquire(blocking=False):
            client.close()
            return
        try:
            threading.Thread(target=self.meet, args=(client,), daemon=True).start()
        except RuntimeError:
            self.newcomers.release()
            client.close()

    def meet(self, client: socket.socket) -> None:
        """Serves one client from its token to its end."""
        with client:
            try:
                self.admit(client)
            except Ended as why:
                farewell(client, why.error)
            except OSError:
                # The client is gone, or was silent for too long.
                pass

    def admit(self, client: socket.socket) -> None:
        """Serves the client where it tells a token and there is a place."""
        lines = Lines(client)
        try:
            user = known_user(lines.next(TOKEN_LINE, TOKEN_SECONDS), self.settings.users)
        finally:
            self.newcomers.release()
        if not self.places.acquire(blocking=False):
            raise Ended("busy")
        try:
            say(f"{user!r} comes")
            serve(client, user, lines, self.settings)
        finally:
            self.places.release()
            say(f"{user!r} leaves")


def farewell(client: socket.socket, error: str) -> None:
    """The last reply of a connection. What the client still sends is passed over for a second, so that it is read."""
    until = time.monotonic() + 1
    try:
        client.settimeout(1)
        client.sendall(printed({"error": error}))
        client.shutdown(socket.SHUT_WR)
        while time.monotonic() < until and client.recv(CHUNK):
            pass
    except OSError:
        # The client is gone, and nobody reads it.
        pass


def say(what: str) -> None:
    """A line on standard error."""
    print(f"front.py: {what}", file=sys.stderr, flush=True)


def remove_left(path: str) -> None:
    """Removes a Unix socket that a front left behind which ended otherwise than by a signal that it knows."""
    if not (os.path.exists(path) and stat.S_ISSOCK(os.stat(path).st_mode)):
        return
    with socket.socket(socket.AF_UNIX) as other:
        try:
            other.connect(path)
        except ConnectionRefusedError:
            os.unlink(path)


def listener_at(path: Optional[str], port: Optional[int], mode: int) -> socket.socket:
    """What listens at the path of a Unix socket, or at a port of 127.0.0.1."""
    if path is None:
        return socket.create_server(("127.0.0.1", port), backlog=NEWCOMERS)
    remove_left(path)
    listener = socket.socket(socket.AF_UNIX)
    before = os.umask(0o777)
    try:
        listener.bind(path)
    finally:
        os.umask(before)
    os.chmod(path, mode)
    listener.listen(NEWCOMERS)
    return listener


def number_in(least: int, most: int, base: int = 10) -> Callable[[str], int]:
    """What reads a number in a range."""

    def read(text: str) -> int:
        try:
            number = int(text, base)
        except ValueError:
            number = least - 1
        if not least <= number <= most:
            raise argparse.ArgumentTypeError(f"{text} isn't one of {least} to {most}")
        return number

    return read


def words() -> argparse.Namespace:
    parser = argparse.ArgumentParser(description=__doc__, formatter_class=argparse.RawDescriptionHelpFormatter)
    parser.add_argument("--users", required=True, help="the file of tokens and users")
    parser.add_argument("--navd", required=True, type=number_in(1, 65_535), help="the port of `navd serve`")
    where = parser.add_mutually_exclusive_group(required=True)
    where.add_argument("--unix", metavar="PATH", help="where to listen, as a Unix socket")
    where.add_argument("--port", type=number_in(1, 65_535), help="where to listen, as a port of 127.0.0.1")
    parser.add_argument("--mode", type=number_in(0, 0o777, 8), default=0o660, help="the Unix socket's, in octal: 660")
    parser.add_argument("--clients", type=number_in(1, 32), default=8, help="users at once, at most navd's doors: 8")
    parser.add_argument("--longest", type=number_in(1, 8_388_608), default=2_000_000, help="bytes of a line: 2000000")
    parser.add_argument("--idle", type=number_in(1, 86_400), default=600, help="seconds to wait for a line: 600")
    return parser.parse_args()


def take_next(front: Front, listener: socket.socket) -> None:
    """Takes the next client; where the system refuses one for a moment, it is told and tried anew."""
    try:
        front.take(listener.accept()[0])
    except OSError as error:
        say(f"a client can't be taken: {error.strerror}")
        time.sleep(0.1)


def main() -> int:
    given = words()
    try:
        users_of(given.users)
        listener = listener_at(given.unix, given.port, given.mode)
    except (WrongUsers, OSError) as error:
        say(f"{given.unix or given.port}: {error.strerror}" if isinstance(error, OSError) else str(error))
        return 1
    front = Front(Settings(given.users, given.navd, given.longest, given.idle), given.clients)
    signal.signal(signal.SIGTERM, lambda *_: sys.exit(0))
    say(f"listens at {given.unix or given.port}")
    try:
        while True:
            take_next(front, listener)
    except KeyboardInterrupt:
        return 0
    finally:
        if given.unix is not None:
            os.unlink(given.unix)


if __name__ == "__main__":
    sys.exit(main())
