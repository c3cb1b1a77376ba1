#!/bin/sh
# Builds the sketch and runs the tests. Words go to run-tests: --update, --shard 1/4.
set -e
cd "$(dirname "$0")"
mkdir -p build
mudflatjar/tools/wokwi/sketch.py sketch build/sketch.hex
mudflatjar/tools/run-tests --junit build/tests.xml --keep build/failed "$@" tests
