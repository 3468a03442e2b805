"""What counts and prints which parts of a comparison passed."""
# As much is printed of what a command says: its last lines.
MOST = 1500


class Judge:
    def __init__(self) -> None:
        self.passed, self.failed = 0, 0

    def count(self, name: str, is_good: bool, told: str = "") -> None:
        if len(told) > MOST:
            told = told[-MOST:].split("\n", 1)[-1]
        print(f"{name}: {'ok' if is_good else 'failed'}" + (f": {told}" if told else ""), flush=True)
        self.passed += is_good
        self.failed += not is_good

    @staticmethod
    def skip(name: str, why: str) -> None:
        print(f"skipped {name}: {why}", flush=True)
