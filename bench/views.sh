#!/usr/bin/env bash
# Builds the program of bench/timing and times the queries over what a user sees; no part of the gate.
set -eu
cd "$(dirname "$0")/.."
bench/timing.sh
exec python3 bench/views.py
