"""A thousand watches, and one more."""
import json
from collections.abc import Iterator

from stored_cases import Made

RELATIONS = ("changed", "completed", "lost", "raised")
FACTS = 250


def cases() -> Iterator[Made]:
    """Of each of 250 facts the four watches, one behind the other, so that a thousand stand."""
    facts = [{"path": f"/f{n}", "writable": "Int"} for n in range(1, FACTS + 2)]
    dictionary = json.dumps({"version": "1", "facts": facts}).encode()
    script: list[str] = []
    replies: list[str] = []

    def say(command: str, *lines: str) -> None:
        script.append(command)
        replies.extend(lines)

    for n in range(1, FACTS + 1):
        for relation in RELATIONS:
            say(f"watch {relation} /f{n}", "ok")
    say(f"watch changed /f{FACTS + 1}", "refused 18 WatchesFull")
    say("watch changed /f1", "refused 17 WatchThere")
    say(f"set /f{FACTS} 1", "ok", f"watch changed /f{FACTS}", f"watch completed /f{FACTS}")
    say(f"set /f{FACTS + 1} 1", "ok")
    say("unwatch lost /f1", "ok")
    say(f"watch raised /f{FACTS + 1}", "ok")
    say("watch lost /f1", "refused 18 WatchesFull")
    say(f"set /f{FACTS + 1} 2", "ok", f"watch raised /f{FACTS + 1}")
    say("undo", "ok")
    say("undo", "ok")
    say("undo", "ok", f"watch changed /f{FACTS}", f"watch lost /f{FACTS}")
    yield (
        "a thousand watches, and one more",
        "run d",
        dictionary,
        "".join(line + "\n" for line in script).encode(),
        "".join(line + "\n" for line in replies).encode(),
        0,
    )
