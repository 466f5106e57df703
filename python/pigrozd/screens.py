"""The viewer on a terminal, by curses of the standard library: keys read, lines drawn, the terminal left as it was."""
import contextlib
import signal
import sys
import time
from typing import Any, Dict, Iterator, Optional

from .messages import InputError
from .viewing import View, cut

LETTERS = {"\n": "enter", "\r": "enter", "\x1b": "escape", "\x7f": "backspace", "\b": "backspace", "\x0c": "redraw"}
KEYS = {  # of curses, without the KEY_ before their names
    "NPAGE": "page down",
    "PPAGE": "page up",
    "DOWN": "down",
    "UP": "up",
    "RIGHT": "right",
    "LEFT": "left",
    "HOME": "home",
    "END": "end",
    "ENTER": "enter",
    "BACKSPACE": "backspace",
    "RESIZE": "redraw",
}
ESCAPE_WAIT = 50  # thousandths of a second in which what follows an escape makes a key of it
WAIT = 200  # thousandths of a second that a key is waited for; then curses looks at the size of the window
MOST_SILENT = 100  # times in a row that waiting ends at once without a key, before the terminal counts as gone


def is_there() -> bool:
    """Whether standard input and output are a terminal that can be drawn on."""
    if not all(stream is not None and stream.isatty() for stream in (sys.stdin, sys.stdout)):
        return False
    curses = curses_module()
    try:
        if curses:
            curses.setupterm()
    except curses.error:
        return False
    return bool(curses and curses.tigetstr("cup") and curses.tigetstr("clear"))  # it can place a cursor, and clear


def curses_module() -> Any:
    """The module curses, or None where Python has none."""
    try:
        import curses
    except ImportError:
        return None
    return curses


def run(view: View) -> None:
    """Shows a viewer until it ends. However that comes about, the terminal is as it was before."""
    curses = curses_module()
    try:
        with ended_by_signal(), window_on_terminal(curses) as window:
            Screen(window, view).show()
    except curses.error as error:
        raise InputError("the terminal cannot be drawn on: %s" % error) from None


@contextlib.contextmanager
def window_on_terminal(curses: Any) -> Iterator[Any]:
    """A window of curses, in the terminal's own colours. At its end the terminal is put right."""
    window = curses.initscr()
    try:
        curses.noecho()
        curses.cbreak()
        window.keypad(True)
        yield window
    finally:
        curses.endwin()


@contextlib.contextmanager
def ended_by_signal() -> Iterator[None]:
    """Has SIGTERM end the program in order, so that the terminal is put right."""

    def end(number: int, _: Any) -> None:
        """Ends with the status that shells give a program that a signal has ended."""
        raise SystemExit(128 + number)

    before = signal.signal(signal.SIGTERM, end)
    try:
        yield
    finally:
        signal.signal(signal.SIGTERM, before)


class Screen:
    """A window of curses with a viewer in it."""

    def __init__(self, window: Any, view: View) -> None:
        self.curses, self.window, self.view, self.silent = curses_module(), window, view, 0
        self.keys: Dict[int, str] = {getattr(self.curses, "KEY_" + name): key for name, key in KEYS.items()}
        if hasattr(self.curses, "set_escdelay"):
            self.curses.set_escdelay(ESCAPE_WAIT)

    def show(self) -> None:
        """Draws and reads keys until the viewer ends. Nothing is drawn while keys are there."""
        drawn = False
        while not self.view.ended:
            key = self.key(0)
            if key is None and not drawn:
                self.draw()
                drawn = True
            elif key is None:
                key = self.waited_for()
            if key == "redraw":
                self.window.clear()
            elif key:
                self.view.fit(self.window.getmaxyx()[0])
                self.view.press(key)
            drawn = drawn and key is None

    def waited_for(self) -> Optional[str]:
        """The next key, or None if none comes for a while. An error if none can come any more."""
        start = time.monotonic()
        key = self.key(WAIT)
        at_once = time.monotonic() - start < WAIT / 2000
        self.silent = self.silent + 1 if key is None and at_once else 0
        if self.silent == MOST_SILENT:
            raise InputError("the terminal gives no keys any more")
        return key

    def key(self, wait: int) -> Optional[str]:
        """The next key that comes within so many thousandths of a second: a letter, or a name; else None."""
        self.window.timeout(wait)
        try:
            key = self.window.get_wch()
        except self.curses.error:
            return None
        return LETTERS.get(key, key) if isinstance(key, str) else self.keys.get(key, "other key")

    def draw(self) -> None:
        """Draws the viewer."""
        height, width = self.window.getmaxyx()
        picture = self.view.picture(height, width - 1)
        self.cursor(picture.asking)
        self.window.erase()
        if picture.header is not None:
            self.put(0, picture.header, self.curses.A_BOLD)
        for at, line in enumerate(picture.results, 0 if picture.header is None else 1):
            self.put(at, line)
        for at, line in enumerate(picture.told, height - len(picture.told)):
            self.put(at, line, 0 if picture.asking else self.curses.A_REVERSE)
        self.window.refresh()

    def put(self, at: int, line: str, kind: int = 0) -> None:
        """Puts a line on the screen; what is not on it any more is left out."""
        encoding = self.window.encoding
        text = line.encode(encoding, "replace").decode(encoding)
        with contextlib.suppress(self.curses.error):
            self.window.addstr(at, 0, cut(text, max(self.window.getmaxyx()[1] - 1, 0)), kind)

    def cursor(self, seen: bool) -> None:
        """Shows the cursor or hides it, if the terminal can do that."""
        with contextlib.suppress(self.curses.error):
            self.curses.curs_set(1 if seen else 0)
