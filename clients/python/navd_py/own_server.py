"""A `navd serve` that is started by who needs it, and waited for by what it says."""

from __future__ import annotations

import contextlib
import os
import subprocess
import sys
import threading
from typing import IO, Callable, Optional

from .session import NoConnection, NoProgram, Session, find_program

Say = Callable[[str], None]

# So many seconds a started server may take up to where it listens; these words on its standard error say that it does.
SECONDS_TO_LISTEN = 60.0
LISTENING = b"navd: listening at "


class _Said:
    """What a server says on its standard error, which is written to that of this program."""

    def __init__(self, errors: IO[bytes]) -> None:
        self.is_told = threading.Event()  # whether it listens: it says so, or has ended
        self.that_it_listens = False
        threading.Thread(target=self._pass_on, args=(errors,), daemon=True).start()

    def _pass_on(self, errors: IO[bytes]) -> None:
        with errors:
            for line in errors:
                with contextlib.suppress(OSError, ValueError):
                    sys.stderr.write(line.decode("utf-8", "replace"))
                    sys.stderr.flush()
                if line.startswith(LISTENING):
                    self.that_it_listens = True
                    self.is_told.set()
        self.is_told.set()


class OwnServer:
    """A `navd serve` that is started here, and ends with this program."""

    def __init__(self, program: Optional[str], port: int, doors: int, connections: int, say: Say) -> None:
        self._words = [find_program(program), "serve", str(port), str(doors), str(connections)]
        self._port = port
        self._say = say
        self._process: Optional["subprocess.Popen[bytes]"] = None

    def ensure(self) -> None:
        """Starts the server where it doesn't run, and waits until it listens. Raises NoProgram."""
        if self._process is not None and self._process.poll() is None:
            return
        if self._is_listened():
            raise NoProgram(f"port {self._port} is in use; without --start the server there is kept at the folder")
        try:
            alone = os.name == "posix"  # an interrupt at the terminal is for this program alone
            self._process = subprocess.Popen(
                self._words, stdin=subprocess.DEVNULL, stderr=subprocess.PIPE, start_new_session=alone
            )
        except OSError as error:
            raise NoProgram(f"{self._words[0]} can't be started: {error}") from None
        assert self._process.stderr
        said = _Said(self._process.stderr)
        if not said.is_told.wait(SECONDS_TO_LISTEN):
            self.end()
            raise NoProgram(f"{' '.join(self._words)} doesn't listen after {SECONDS_TO_LISTEN:.0f} seconds")
        if not said.that_it_listens:
            raise NoProgram(f"{' '.join(self._words)} ended with status {self._process.wait()}")
        self._say(f"started {' '.join(self._words)}")

    def _is_listened(self) -> bool:
        try:
            Session.connect(self._port).close()
            return True
        except NoConnection:
            return False

    def end(self) -> None:
        """Ends the server."""
        if self._process is not None and self._process.poll() is None:
            self._process.terminate()
            try:
                self._process.wait(5)
            except subprocess.TimeoutExpired:
                self._process.kill()
                self._process.wait()
