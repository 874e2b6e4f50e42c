"""The tool's own tests and its layout."""
import re
import subprocess

import common


def cases():
    done = common.cargo("test", stdout=subprocess.PIPE, stderr=subprocess.STDOUT, text=True)
    for passed, failed in re.findall(r"test result: \w+\. (\d+) passed; (\d+) failed", done.stdout):
        yield "unit tests pass", (int(passed) > 0, int(failed)), (True, 0)
    yield "cargo test: %s" % (done.stdout if done.returncode else "ends well"), done.returncode, 0
    yield "cargo fmt leaves nothing to change", subprocess.run(["cargo", "fmt", "--check"], cwd=common.CRATE).returncode, 0
