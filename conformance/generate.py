#!/usr/bin/env python3
"""Writes the schedule of NUMBER transactions and WORKERS workers, or its SHA-256.

Written from nothing but the description of the text, apart from the program.

usage: conformance/generate.py NUMBER WORKERS [--digest]
"""
import hashlib
import sys


def transaction(k):
    head = f"tx t{k} u{1 if k % 4 == 1 else 0} 0 g{k}@1 2000"
    tails = [
        "n:5 a:u1 split(gas,i0) transfer(r0,i1)",
        f"o:t{k - 1}.0@2 a:u0 transfer(i0,i1)",
        "n:1 s:c0@1 counter_add(i1,i0)",
        "n:0 r:c0@1 counter_require(i1,i0)",
    ]
    return f"{head} {tails[k % 4]}"


def lines(number, workers):
    yield from ["member 1 honest"] * 4
    for k in range(number):
        yield f"coin g{k} u{1 if k % 4 == 1 else 0} 1000000"
    yield "counter c0 0"
    for k in range(number):
        yield transaction(k)
        for member in range(3):
            yield f"vote {member} t{k}"
        yield f"cert t{k} 0 1 2"
        if k % 4 == 0:
            for member in range(3):
                yield f"send {member} t{k}"
                yield f"run {member} 1"
    for k in range(number):
        yield f"order t{k}"
        if (k + 1) % 64 == 0:
            yield "order commit"
    yield "see 3 65535"
    yield f"run 3 {workers}"
    for member in range(3):
        yield f"see {member} 65535"
        yield f"run {member} 1"
    for member in range(3):
        yield from [f"close {member}", f"end {member}", f"order end {member}"]
    for member in range(4):
        yield from [f"see {member} 3", f"turn {member}"]
    yield "show 0"


def main(words):
    if len(words) < 2 or not all(it.isdigit() for it in words[:2]) or words[2:] not in ([], ["--digest"]):
        print(__doc__, end="", file=sys.stderr)
        return 2
    text = "".join(line + "\n" for line in lines(int(words[0]), int(words[1])))
    if "--digest" in words:
        print(hashlib.sha256(text.encode()).hexdigest())
    else:
        sys.stdout.write(text)
    return 0


if __name__ == "__main__":
    sys.exit(main(sys.argv[1:]))
