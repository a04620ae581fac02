#!/usr/bin/env bash
# parallel.sh FILE: by GNU parallel, which cuts the file at newlines into blocks, and keeps their order.
set -eu
exec parallel --pipepart --block "${BLOCK:-10M}" -k --halt now,fail=1 --arg-file "$1" "${REGROUP_LINES:-regroup-lines}" en de
