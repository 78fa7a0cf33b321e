"""The end of a test: its faults, and a last line that says how many looks passed and how many failed."""


def end(passed, faults):
    """Prints them, and answers the status. A test that has looked at nothing fails."""
    for fault in faults:
        print(fault)
    print(f"{passed} passed, {len(faults)} failed")
    return 1 if faults or not passed else 0
