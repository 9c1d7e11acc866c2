"""A stand-in for `navd run` in the tests of sessions: it answers lines as its words say.

usage: fake_navd.py run            each line is answered with what it is, {"echo":..}
       NAVD_FAKE=end:N             after N lines it says why on standard error, and ends with status 5
       NAVD_FAKE=noise:N           after N lines it answers what is no reply
       NAVD_FAKE=wide:N            each answer has N bytes more
"""

import json
import os
import sys


def main() -> int:
    what, _, number = os.environ.get("NAVD_FAKE", "").partition(":")
    count = int(number or 0)
    for done, line in enumerate(sys.stdin.buffer):
        if what == "end" and done == count:
            sys.stderr.write("navd: memory was refused\n")
            return 5
        request = json.loads(line)
        if what == "noise" and done == count:
            sys.stdout.write("noise\n")
            sys.stdout.flush()
            continue
        if request.get("do") == "quit":
            return 0
        reply = {"echo": request}
        if what == "wide":
            reply["wide"] = "x" * count
        sys.stdout.write(json.dumps(reply) + "\n")
        sys.stdout.flush()
    return 0


if __name__ == "__main__":
    sys.exit(main())
