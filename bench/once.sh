#!/usr/bin/env bash
# Builds navd and times `navd once`; no part of the gate.
set -eu
cd "$(dirname "$0")/.."
make --silent build >/dev/null
exec python3 bench/once.py
