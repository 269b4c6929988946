"""JavaScript without its comments, as a page ships it.

A comment takes whole lines, or stands before a value to name its type; one behind code, or within a text, stays.
"""

from __future__ import annotations

import re

COMMENT = re.compile(r"^ *(?://.*|/\*\*(?:(?!\*/)[\s\S])*\*/)\n|/\*\* @\w+ (?:(?!\*/).)*\*/ ?", re.MULTILINE)


def uncommented(script: str) -> str:
    """A script without its comments.

    >>> print(uncommented('''
    ... /**
    ...  * The number of a member's path.
    ...  * @param {string} path
    ...  */
    ... const memberOf = (path) => Number(/** @type {string} */ (path.split("/*#")[1])); // from 1
    ... '''.strip()))
    const memberOf = (path) => Number((path.split("/*#")[1])); // from 1
    """
    return COMMENT.sub("", script)
