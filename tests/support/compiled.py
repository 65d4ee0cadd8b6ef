"""What the tests share that need a C compiler: they fail where there is none, and say what to install."""
import os
import shutil
import subprocess
import sys

HERE = os.path.dirname(os.path.abspath(__file__))


def need_cc():
    """Ends the script with status 1 where there is no C compiler: what it would try was not tried."""
    if not shutil.which("cc"):
        name = os.path.basename(sys.argv[0])
        sys.exit("%s: NOTHING WAS TRIED: there is no C compiler (cc). Install it: apt-get install gcc libc6-dev" % name)


def shared(name, room):
    """Builds tests/support/NAME.c for LD_PRELOAD in the folder `room`, and returns its path."""
    need_cc()
    built = os.path.join(room, name + ".so")
    made = subprocess.run(["cc", "-O1", "-shared", "-fPIC", "-o", built, os.path.join(HERE, name + ".c")])
    if made.returncode:
        sys.exit(
            "%s: cc failed on tests/support/%s.c. Its headers: apt-get install libc6-dev" % (
                os.path.basename(sys.argv[0]), name
            )
        )
    return built
