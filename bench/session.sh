#!/usr/bin/env bash
# Builds navd and times a session of `navd run`; no part of the gate.
set -eu
cd "$(dirname "$0")/.."
make --silent build >/dev/null
exec python3 bench/session.py
