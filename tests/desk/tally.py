"""Runs tests side by side, counts what they found, and tells what failed."""
import concurrent.futures
import os
import traceback

from .drive import Finding


class Tally:
    def __init__(self):
        self.passed = self.failed = 0

    def note(self, finding):
        if finding.fault:
            self.failed += 1
            print(f'FAILED: {finding.label}\n{finding.fault}', end='', flush=True)
        else:
            self.passed += 1

    def run(self, tests):
        """Each test is a call that gives its findings. They run at once, as many as there are cores, and are told in order."""
        with concurrent.futures.ThreadPoolExecutor(2 * (os.cpu_count() or 1)) as pool:
            for findings in pool.map(findings_of, tests):
                for finding in findings:
                    self.note(finding)

    def tell(self):
        print(f'{self.passed} passed, {self.failed} failed')
        return 0 if self.failed == 0 else 1


def findings_of(test):
    """A test's findings; one that breaks, or finds nothing, counts as failed."""
    try:
        return list(test()) or [Finding(str(test), '  it tried nothing\n')]
    except Exception:  # pylint: disable=broad-except # whatever breaks a test is a failed test
        return [Finding(str(test), traceback.format_exc())]
