#!/usr/bin/env bash
# Builds navd and times a session of `navd lsp`; no part of the gate.
set -eu
cd "$(dirname "$0")/.."
make --silent build >/dev/null
exec python3 bench/lsp.py
