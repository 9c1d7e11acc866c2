#!/usr/bin/env bash
# Builds the program of bench/timing and times commits and look-ups of indexes of paths from the root; no part of the gate.
set -eu
cd "$(dirname "$0")/.."
bench/timing.sh
exec python3 bench/roots.py
