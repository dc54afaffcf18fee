"""What `bridge` and `run` say of their tests: a line for each, and a count in the last."""


def counted(tests, ended):
    """Says of each test how it ended, given what is wrong with it in lines. The status of the
    script."""
    failed = 0
    for test, told in zip(tests, ended):
        failed += bool(told)
        print(f"{test.__name__}: {'wrong' if told else 'as it should be'}", flush=True)
        for line in told:
            print(f"  {line}")
    print(f"{len(tests) - failed} passed, {failed} failed")
    return 1 if failed else 0
