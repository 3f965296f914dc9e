#!/usr/bin/env python3
"""Refuses each request for memory of some runs of the program in turn.

    python3 refuse.py PROGRAM [RUN ..]

PROGRAM is the compiled comparer. Each run is first made with ample memory; then the first request for memory is
refused, then the second alone, and so on, until a run makes fewer requests. A run passes that ends as with ample
memory, or with status 7 and nothing written. The number of refusals of each run is printed, and each that fails.
RUN names some of the runs below; with none all are made. The library is built with cc.
"""
import json
import os
import subprocess
import sys
import tempfile
from concurrent.futures import ThreadPoolExecutor

HERE = os.path.dirname(os.path.abspath(__file__))


def statement(action, resource, **more):
    return {"Effect": "Allow", "Action": action, "Resource": resource, **more}


def policy(*statements, version="2012-10-17"):
    return {"Version": version, "Statement": list(statements)}


def deny(action, resource, **more):
    return {**statement(action, resource, **more), "Effect": "Deny"}


ANN = "arn:aws:iam::111122223333:user/ann"
BOB = "arn:aws:iam::111122223333:user/bob"
OBJECTS = "arn:aws:s3:::app-data/*"
ONE = policy(statement("s3:GetObject", "arn:aws:s3:::b/k"))
BLOCK = policy(statement("*", "*", Condition={"IpAddress": {"aws:SourceIp": "10.0.0.0/8"}}))
HALVES = policy(statement("*", "*", Condition={"IpAddress": {"aws:SourceIp": ["10.0.0.0/9", "10.128.0.0/9"]}}))


def bucket(condition):
    return policy(
        statement("s3:GetObject", OBJECTS, Principal={"AWS": "arn:aws:iam::111122223333:root"},
                  Condition={"StringEquals": condition}),
        deny("s3:*", ["arn:aws:s3:::app-data", OBJECTS], Principal="*",
             Condition={"Bool": {"aws:SecureTransport": "false"}}),
        version="2008-10-17")


BUCKET = bucket({"aws:SourceVpce": "vpce-1a2b3c4d"})
ORGANISATION = bucket({"aws:PrincipalOrgID": "o-a1b2c3d4e5"})
READERS = policy(
    statement("s3:GetObject", OBJECTS, Principal={"AWS": [ANN, BOB]}),
    statement("s3:GetObject", OBJECTS, Principal={"AWS": "444455556666"}))
REQUEST = {"Principal": {"AWS": ANN}, "Action": "s3:getobject", "Resource": "arn:aws:s3:::app-data/x",
           "Context": {"aws:SourceVpce": "vpce-1a2b3c4d"}}



def interval(low, high):
    return statement("*", "*", Condition={"NumericGreaterThanEquals": {"s3:max-keys": low},
                                          "NumericLessThan": {"s3:max-keys": high}})


# Intervals against those half-way between them need more splits than are spent before clauses are learned.
INTERVALS = policy(*[interval(10 * i, 10 * i + 10) for i in range(14)])
HALF_WAY = policy(*[interval(10 * i - 5, 10 * i + 5) for i in range(15)])

# name: files, arguments; the certificate of `check` is printed by `compare --proof` first
RUNS = {
    "compare": ({"a": ONE, "b": ONE}, "compare a b"),
    "compare-learned": ({"a": INTERVALS, "b": HALF_WAY}, "compare a b"),
    "compare-conditions": ({"a": ORGANISATION, "b": BUCKET}, "compare a b"),
    "summary-conditions": ({"a": BUCKET}, "summary a principal aws:SourceVpce"),
    "check": ({"a": BLOCK, "b": HALVES}, "check a b proof"),
    "summary": ({"a": READERS}, "summary a principal"),
    "eval": ({"a": BUCKET, "r": REQUEST}, "eval a r"),
    "load": ({}, "load 3"),
}


def run(program, folder, words, **environment):
    done = subprocess.run([program, *words.split()], cwd=folder, capture_output=True,
                          env={**os.environ, **environment}, timeout=120)
    return done.returncode, done.stdout


def refuse(program, library, folder, words, number, ample):
    log = os.path.join(folder, f"log{number}")
    ended = run(program, folder, words, LD_PRELOAD=library, REFUSE_AT=str(number), REFUSE_LOG=log)
    refused = os.path.exists(log)
    if refused:
        os.remove(log)
    if ended != ample and ended != (7, b""):
        print(f"  refused {number}: status {ended[0]}, written {ended[1][:60]!r}")
        return refused, True
    return refused, False


def main():
    program = os.path.abspath(sys.argv[1])
    with tempfile.TemporaryDirectory() as folder:
        library = os.path.join(folder, "refuse.so")
        subprocess.run(["cc", "-O2", "-shared", "-fPIC", "-o", library, os.path.join(HERE, "refuse.c")], check=True)
        failed = 0
        for name in sys.argv[2:] or RUNS:
            files, words = RUNS[name]
            for file, value in files.items():
                with open(os.path.join(folder, file), "w", encoding="utf-8") as out:
                    json.dump(value, out)
            if name == "check":
                with open(os.path.join(folder, "proof"), "wb") as out:
                    out.write(run(program, folder, "compare a b --proof")[1])
            ample = run(program, folder, words)
            refusals, number, bad = 0, 1, 0
            with ThreadPoolExecutor(os.cpu_count()) as pool:
                while refusals == number - 1:
                    numbers = range(number, number + 256)
                    ends = list(pool.map(
                        lambda n: refuse(program, library, folder, words, n, ample), numbers))
                    refusals += sum(refused for refused, _ in ends)
                    bad += sum(failed for _, failed in ends)
                    number += 256
            print(f"{name}: {words}: status {ample[0]}, {refusals} requests refused in turn, {bad} ended otherwise")
            failed += bad
    sys.exit(1 if failed else 0)


if __name__ == "__main__":
    main()
