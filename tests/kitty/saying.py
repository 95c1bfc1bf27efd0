"""What a run of the test says, and how it stops where something is missing."""

import sys


def missing(why):
    print(why)
    sys.exit(2)


def tell(name, complaints, well):
    """One line for a case. Answers whether it was well."""
    print(f"NOT   {name}: {'; '.join(complaints)}" if complaints else f"well  {name}: {well}", flush=True)
    return not complaints
