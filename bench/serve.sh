#!/usr/bin/env bash
# Builds navd and times clients of `navd serve` over TCP; no part of the gate.
set -eu
cd "$(dirname "$0")/.."
make --silent build >/dev/null
exec python3 bench/serve.py
