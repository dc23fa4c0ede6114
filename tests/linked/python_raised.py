"""What calls of the Python package raise."""
from programs import expect


def raised(kind, ask, given, **named):
    """What a call raises, which is of that kind."""
    try:
        found = ask(*given, **named)
    except Exception as error:
        expect(type(error) is kind, f"{ask.__name__}{given!r:.90} raises {error!r:.200}")
        return error
    return expect(False, f"{ask.__name__}{given!r:.90} is {found!r:.90}")
