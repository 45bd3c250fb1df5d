#!/usr/bin/env python3
"""Runs the model on each worked case of `tracerun replay` and `tracerun why` and compares what it says with what the case wants.

usage: test_model.py
The last line is 'N passed, M failed'; the status is 0 where nothing failed.
"""
import os
import sys

import fault_cases
import large_cases
import model
import model_why
from run_cases import HERE, file_cases, shown


def modelled(case):
    """What the model says of the case, or nothing where it has no model."""
    if case.words == ["replay"]:
        return model.run(case.script)
    if case.words[:1] == ["why"]:
        return model_why.why(case.script, *case.words[2:])
    return None


def difference(case, said):
    """Says what differs between what the model said and the case, or nothing."""
    output, error, status = said
    if status != case.status:
        return f"status {status}, wanted {case.status}"
    if output != case.output:
        return f"standard output\n{shown(output)}wanted\n{shown(case.output)}"
    if case.error is not None and error != case.error:
        return f"standard error\n{shown(error)}wanted\n{shown(case.error)}"
    return None


def main():
    cases = [*file_cases(os.path.join(HERE, "cases")), *large_cases.cuts(), *fault_cases.cases()]
    passed = failed = 0
    for case in cases:
        said = modelled(case)
        if said is None:
            continue
        found = difference(case, said)
        if found is None:
            passed += 1
        else:
            failed += 1
            print(f"FAILED {case.name}: {found}")
    print(f"{passed} passed, {failed} failed")
    return 1 if failed else 0


if __name__ == "__main__":
    sys.exit(main())
