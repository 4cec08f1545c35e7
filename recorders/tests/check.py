"""How the tests of the recorders count: among the cases of the test that runs."""
from cases import count, leave_out, same


class Tests:
    wants, leave_out = staticmethod(same), staticmethod(leave_out)

    def refuses(self, what, kind, act):
        """Wants that an act raises this kind of exception; answers its words."""
        try:
            act()
        except kind as fault:
            count(True, what)
            return str(fault)
        count(False, f"{what}: {kind.__name__} was not raised")
        return ""
