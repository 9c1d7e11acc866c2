#!/usr/bin/env bash
# Builds navmany and navd, and runs clients of both: ones that behave badly, and ones that are timed; no part of the gate.
set -eu
cd "$(dirname "$0")/.."
make --silent build many >/dev/null
python3 bench/resets.py
python3 bench/clients.py crates/navmany/out/navmany
exec python3 bench/many.py
