#!/bin/sh
# For the clients' tests: a program that answers in a format that the clients don't read.
echo '{"ibcplan": 5, "program": "ibcplan 9.0.0", "scripts": [5]}'
exec cat >/dev/null
