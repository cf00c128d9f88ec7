#!/usr/bin/python3
"""held.py SCHEMA: holds each line of standard input to the schema (python3-jsonschema). Says how many lines there were; ends with 1 at the first that is not as described."""
import json
import sys

import jsonschema

with open(sys.argv[1]) as file:
    schema = json.load(file)
jsonschema.Draft7Validator.check_schema(schema)
validator = jsonschema.Draft7Validator(schema)
lines = 0
for lines, line in enumerate(sys.stdin, 1):
    value = json.loads(line)
    error = jsonschema.exceptions.best_match(validator.iter_errors(value))
    if error is not None:
        sys.exit(f"line {lines}: {'/'.join(map(str, error.absolute_path))}: {error.message}\n{line}")
    if lines <= 100:
        # the schema is no sieve with holes: one name less or one more is noticed
        for name in value:
            assert not validator.is_valid({k: v for k, v in value.items() if k != name}), name
        assert not validator.is_valid({**value, "other": 1})
if lines == 0:
    sys.exit("no line")
print(lines)
