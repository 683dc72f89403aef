#!/usr/bin/env python3
"""A scheduler of one's own: ./mx blocks SOURCE --as json | examples/schedule.py > FILE

Each block keeps the order of its source, but up to two instructions on which no other one depends go into the slots of its
transfer, and a no-op parts a load from a reader of its register. Nothing here has to be right: a plan that is not valid is
rejected, and its block is padded."""
import json, sys

def schedule(block):
    """The words of the line of a block: numbers, - for a no-op, / for the transfer or halt at its end."""
    code, ends = block["instructions"], block["end"] != "falls"
    last, loads = len(code) - ends, [it["text"].startswith("ld ") for it in code]
    needed = {it["from"] for it in block["dependences"]}
    apart = {(it["from"], it["to"]) for it in block["dependences"] if it["weight"] == 2}
    slots, line = [], []
    if block["end"] not in ("falls", "halt"):
        for k in reversed(range(last)):
            if len(slots) < 2 and k not in needed and not (loads[k] and any(loads[j] for j in slots)):
                slots.append(k)
        slots = sorted(slots, key=lambda k: not loads[k]) + ["-"] * (2 - len(slots))
    front = [k for k in range(last) if k not in slots]
    for k, after in zip(front, front[1:] + [last]):
        line += [k, "-"] if loads[k] and (after == len(code) or (k, after) in apart) else [k]
    return line + ["/"] * ends + slots

for block in json.load(sys.stdin)["blocks"]:
    print(*schedule(block))
