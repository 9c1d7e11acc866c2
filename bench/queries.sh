#!/usr/bin/env bash
# Builds the program of bench/timing and times how references are answered; no part of the gate.
set -eu
cd "$(dirname "$0")/.."
bench/timing.sh
exec python3 bench/queries.py
