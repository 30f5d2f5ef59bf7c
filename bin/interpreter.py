"""What goes for all that Python starts here, so it is imported first: an older Python is refused,
which has to be able to read this file, and Ctrl-C ends without a traceback."""
# `signal` itself imports much, and Ctrl-C may come meanwhile.
import _signal
import sys

LEAST = (3, 9)

if sys.version_info < LEAST:
    sys.exit("{}: this is Python {}.{}.{} ({}), and {}.{} or later is wanted".format(
        sys.argv[0], *sys.version_info[:3], sys.executable, *LEAST))
# What has to clean up takes the signal again.
if _signal.getsignal(_signal.SIGINT) is _signal.default_int_handler:
    _signal.signal(_signal.SIGINT, _signal.SIG_DFL)
