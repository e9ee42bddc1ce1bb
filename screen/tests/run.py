"""All tests of the screen, by one command.

    python3 screen/tests/run.py [--short]

OUTAGEBOOK names the program where it isn't crates/outagebook/out/outagebook. `--short` takes less than three minutes where
the machine isn't busy; the whole suite kills the desk a hundred times, enters two hundred commands by two browsers at
once, and makes a book of a year (some minutes; SCREEN_YEAR=FILE names one that was made before). Where a package is
missing the last line says which, and that the tests weren't run.
"""

import argparse
import importlib.util
import os
import shutil
import subprocess
import sys
import unittest
import warnings
from pathlib import Path

HERE = Path(__file__).resolve().parent
DEBIAN_PYTHON = Path("/usr/bin/python3")  # sees Debian's packages
SHORT = {"SCREEN_KILLS": "5"}
WHOLE = {
    "SCREEN_KILLS": "100",
    "SCREEN_COMMANDS": "200",
    "SCREEN_SECONDS": "60",
    "SCREEN_LONG": "yes",
    "SCREEN_AWAY": "60",
    "SCREEN_STORM": "600",
}
IN_SHORT = (
    "test_forecasts",
    "test_figures",
    "test_server",
    "test_shift",
    "test_outage.References",
    "test_outage.Outages.test_three_restorations_by_seventy_keys_and_one_send",
    "test_outage.Outages.test_killed_between_steps_and_resumed",
    "test_outage.Outages.test_a_form_that_is_left_comes_back",
    "test_proxy.BehindNginx.test_logins_and_who_may_send",
    "test_proxy.BehindNginx.test_one_connection_for_all_pages",
    "test_browser.Live.test_ten_tabs_or_windows_of_one_browser",
    "test_browser.Live.test_after_any_answer_a_page_hears_again",
    "test_browser.Live.test_commands_without_an_answer_stay_in_the_head_of_every_page",
    "test_browser.Live.test_the_time_is_now_until_one_is_typed",
    "test_browser.Live.test_the_enter_key_sends",
    "test_browser.Live.test_what_was_shown_and_what_it_did",
    "test_browser.Storm.test_a_row_is_an_outage_and_the_largest_comes_first",
    "test_browser.Storm.test_rows_stay_while_somebody_reads_them",
    "test_storm.Pages.test_a_new_outage_is_said",
    "test_storm.Pages.test_the_diagram_by_the_keyboard",
    "test_browser.Operators.test_two_operators_and_a_double_click",
    "test_browser.Operators.test_the_keyboard_alone",
    "test_browser.Breaks.test_a_reply_that_was_lost",
    "test_browser.Breaks.test_the_screen_is_killed_while_a_command_is_in_work",
)


def missing() -> list[str]:
    """What the tests want and isn't there."""
    wanted = {"chromium": "/usr/bin/chromium", "chromium-driver": "/usr/bin/chromedriver"}
    wanted["poppler-utils"] = "/usr/bin/pdftotext"
    found = [name for name, path in wanted.items() if not Path(path).exists()]
    found += [f"python3-{name}" for name in ("aiohttp", "selenium") if importlib.util.find_spec(name) is None]
    found += [] if shutil.which("curl") else ["curl"]
    return found + ([] if shutil.which("nginx") or Path("/usr/sbin/nginx").exists() else ["nginx-light"])


def main() -> int:
    words = argparse.ArgumentParser(description="Runs the tests of the screen.")
    words.add_argument("--short", action="store_true", help="the part that takes less than three minutes")
    short = words.parse_args().short
    lacking = missing()
    if lacking and Path(sys.executable).resolve() != DEBIAN_PYTHON.resolve() and DEBIAN_PYTHON.exists():
        return subprocess.run([str(DEBIAN_PYTHON), __file__, *sys.argv[1:]], check=False).returncode
    if lacking:
        print(f"screen: NOT tested, for want of {', '.join(lacking)} (sh screen/install-packages.sh)")
        return 0
    for name, value in (SHORT if short else WHOLE).items():
        os.environ.setdefault(name, value)
    sys.path.insert(0, str(HERE))
    loader = unittest.defaultTestLoader
    whole = loader.discover(str(HERE))
    suite = loader.loadTestsFromNames(IN_SHORT) if short else whole
    warnings.simplefilter("ignore", ResourceWarning)  # the tests kill what they start
    result = unittest.TextTestRunner(verbosity=1).run(suite)
    words_of = f"{result.testsRun} of {whole.countTestCases()} tests, {len(result.failures) + len(result.errors)} failed, {len(result.skipped)} skipped"
    print(f"screen: tested ({'the short part' if short else 'whole'}): {words_of}")
    return 0 if result.wasSuccessful() else 1


if __name__ == "__main__":
    sys.exit(main())
