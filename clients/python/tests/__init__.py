"""Tests of the client, over the real program if there is one: TSVD_PROGRAM, or the one built in this repository."""

import faulthandler

# A test that hangs is not waited for.
faulthandler.dump_traceback_later(900, exit=True)
