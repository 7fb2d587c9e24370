"""The part of a page that a command prints: it stands between the lines `<!-- COMMAND -->` and `<!-- end -->`."""
import re
import sys


def replaced(page, command, printed):
    """The page's text, and the text with this part printed anew."""
    text = page.read_text()
    new, parts = re.subn(rf"(?s)(<!-- {command} -->\n).*?(<!-- end -->)", lambda m: m.group(1) + printed + m.group(2), text)
    assert parts == 1, f"{page.name} has {parts} parts of {command}"
    return text, new


def settle(page, command, printed):
    """Prints it; with --write puts it into the page; with --check compares, and ends with a line `N passed, M failed`."""
    text, new = replaced(page, command, printed)
    match sys.argv[1:]:
        case ["--write"]:
            page.write_text(new)
        case ["--check"]:
            print("1 passed, 0 failed" if new == text else f"docs/{page.name} has another table: {command} --write\n0 passed, 1 failed")
            sys.exit(new != text)
        case _:
            print(printed, end="")
