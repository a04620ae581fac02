#!/usr/bin/env python3
"""Replays the tables of cases, as tests/README.md says, by the functions of PostgreSQL's extension, in a server that has its
files.

    packages/postgresql/tests/replay.py HOST    # as psql takes it
"""
import sys
from pathlib import Path

# Nothing is written beside the files that are imported.
sys.dont_write_bytecode = True
PACKAGES = Path(__file__).resolve().parents[2]
sys.path[:0] = [str(PACKAGES / "sqlite" / "tests"), str(PACKAGES / "postgresql")]

import replay
from replay import Numeric, replay_all
from server import Server

# Returns the value of an expression, or the message and the detail of its error, as hexadecimal digits.
OUTCOME = """
CREATE EXTENSION num_format;
CREATE FUNCTION outcome(expression text) RETURNS text LANGUAGE plpgsql AS $$
DECLARE
    value text;
    detail text;
BEGIN
    EXECUTE 'SELECT (' || expression || ')::text' INTO value;
    RETURN 'value ' || coalesce(encode(convert_to(value, 'UTF8'), 'hex'), 'null');
EXCEPTION WHEN OTHERS THEN
    GET STACKED DIAGNOSTICS detail = PG_EXCEPTION_DETAIL;
    RETURN 'error ' || encode(convert_to(concat_ws(' ', SQLERRM, detail), 'UTF8'), 'hex');
END $$;
"""


def literal(value):
    """The value as SQL writes it. A bigint is no constant, which would be cast to numeric before the call is planned."""
    if isinstance(value, int):
        return f"(SELECT ({value})::bigint)"
    if isinstance(value, Numeric):
        return f"({value})::numeric"
    return f"convert_from('\\x{value.encode().hex()}', 'UTF8')"


def outcome_of(line):
    """The value and the message of a line that is printed."""
    kind, _, digits = line.partition(" ")
    text = None if digits == "null" else bytes.fromhex(digits).decode()
    return (text, None) if kind == "value" else (None, text)


def main():
    server = Server(sys.argv[1])
    server.psql("DROP DATABASE IF EXISTS replayed;\nCREATE DATABASE replayed ENCODING 'UTF8' TEMPLATE template0;")
    server.psql(OUTCOME, "replayed")

    def run(made):
        calls = (call.format(*map(literal, values)) for call, values in made)
        lines = server.psql("".join(f"SELECT outcome($_${call}$_$);\n" for call in calls), "replayed")
        return [outcome_of(line) for line in lines]

    calls = [replay.printing, replay.strict, replay.typed, replay.decimals_printed, replay.decimals_parsed]
    replay_all([*calls, replay.typed_decimals, replay.tags], run, zero_bytes=False)


if __name__ == "__main__":
    main()
