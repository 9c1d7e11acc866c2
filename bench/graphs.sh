#!/usr/bin/env bash
# Builds the program of bench/timing and times the finding of paths and the indexing of documents; no part of the gate.
set -eu
cd "$(dirname "$0")/.."
bench/timing.sh
exec python3 bench/graphs.py
