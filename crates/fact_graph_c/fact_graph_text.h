/* What the numbers of fact_graph.h mean, in words. dev/write_faults.py makes this file of python/fact_graph/faults/texts.toml.
 *
 * It is C99 and C++17, and needs nothing else: fact_graph_text is compiled into the program that calls it. */
#ifndef FACT_GRAPH_TEXT_H
#define FACT_GRAPH_TEXT_H

#include <stdint.h>

/* What a number is of: FACT_GRAPH_FAULT_.., why no session was opened, or FACT_GRAPH_REFUSED_.., why a command changed nothing. */
#define FACT_GRAPH_TEXT_FAULT 0u
#define FACT_GRAPH_TEXT_REFUSED 1u

/* What the fault or the refusal of this number says, in English and ASCII; names, and what is typed, stand between backticks. Where it
 * is said of two cases, each stands behind its line. A number or a kind that this header doesn't know has a text that says so. The text
 * stands for good, and is never null. */
static inline const char *fact_graph_text(uint32_t kind, uint32_t number) {
  if (kind == FACT_GRAPH_TEXT_FAULT) {
    switch (number) {
      case 1u:
        return "The file has more than 8,388,608 bytes.";
      case 2u:
        return "The bytes are no JSON, or no UTF-8, or brackets stand in each other more than 127 deep.";
      case 3u:
        return "`3 Shape fact 0`: Something outside the list of facts isn't of the form: a key that isn't known or is "
               "missing, a version other than `1`, `2` and `law-1`, an enum without options or with two that are "
               "equal, or with an option that is no name, two enums of one name; `tables` in a version before `law-1`, "
               "two tables of one name, more than 100 tables, or in a table a key that is no value of its type or "
               "isn't above the one before it, a value or an `else` that is none of its type, more than 1,000 rows. `3 "
               "Shape fact F`: The fact isn't of the form: a key or a node that isn't known, a wrong number of "
               "operands, a number, `true` or `null` where a text or a list belongs, a type that isn't known, a "
               "`conditional` in version 1, in a version before `law-1` a node that it alone has, or a Lookup in a "
               "table that isn't there.";
      case 4u:
        return "There is more than the limit of: 1 facts (2,000); 2 nodes (40,000); 3 writable collections (32); 4 "
               "enums (200); 5 options of an enum (100); 6 limits of a fact (8).";
      case 5u:
        return "Nodes stand in each other more than 48 deep.";
      case 6u:
        return "A path isn't of a form that there is. A fact's own path is `/N` or `/N/*/M`, the path in "
               "`Collection(..)` or `Item(..)` is `/N`, and a name begins with a letter and has at most 64 letters, "
               "digits, `_` and `-`.";
      case 7u:
        return "An earlier fact has the same path.";
      case 8u:
        return "A collection or an item is asked for where there is none: the fact is `/c/*/a` and `/c` isn't a "
               "writable collection; its type names such a `/c`; a Filter, Find, CollectionSize, CollectionSum or "
               "Count begins at a fact that is no collection; `/i/a` or `../i/a` begins at one that is no item.";
      case 9u:
        return "A path in an expression names a fact that isn't there.";
      case 10u:
        return "A form of path stands where it means nothing: `../N` outside a collection's member, `N` outside the "
               "condition of a Filter or Find, `/c/*/a` outside CollectionSum and Count. Or a Filter, Find, "
               "CollectionSum or Count stands under a condition, or a member's fact is a collection.";
      case 11u:
        return "A `Check` names none of `digits`, `nine-digits`, `printable-ascii` and `trimmed`.";
      case 12u:
        return "`12 IllTyped fact F node 0`: The fact's type is an enum that isn't declared. `12 IllTyped fact F node "
               "M`: The node's operands don't go together, or its text is no value of its type, or a main expression, "
               "a `conditional` or a placeholder is of another type than it has to be.";
      case 13u:
        return "A limit doesn't fit: Min or Max of a type that isn't Int, Dollar, Rational or Day, or with a text that "
               "is no value of it; MaxLength or Check of another type than Text; a MaxLength that isn't from 0 to "
               "1000; Min, Max or MaxLength twice.";
      case 14u:
        return "The fact rests on itself, by one use or by several in a row. Placeholders and conditionals count.";
      case 15u:
        return "There was no memory for a session.";
      case 16u:
        return "The dictionary is accepted, and the saved text is refused at the line that the fault names.";
      case 17u:
        return "The words name no dictionary that comes with the library.";
      default:
        break;
    }
  }
  if (kind == FACT_GRAPH_TEXT_REFUSED) {
    switch (number) {
      case 1u:
        return "The line has no form of a command, or isn't UTF-8.";
      case 2u:
        return "It has over 4,096 bytes.";
      case 3u:
        return "The dictionary has no such fact.";
      case 4u:
        return "The collection has no such member: none with this number was added, or it was removed.";
      case 5u:
        return "The command isn't for such a fact.";
      case 6u:
        return "The text is no value of the fact's type.";
      case 7u:
        return "The value breaks the limit at place K of the fact's list, from 1: the first that it breaks.";
      case 8u:
        return "The check at place K says no to the text.";
      case 9u:
        return "The collection has 100 members, or all numbers of members, 1 to 1,000,000, are given out.";
      case 10u:
        return "The collection is open.";
      case 11u:
        return "There is no answer to clear.";
      case 12u:
        return "There is no override to release.";
      case 13u:
        return "No change stands before.";
      case 14u:
        return "Nothing was undone, or all of it was made again, or a change was made since.";
      case 15u:
        return "The plain engine, that of `run-plain`, numbers no changes.";
      case 16u:
        return "No watch has this name.";
      case 17u:
        return "The slot is watched by this name already.";
      case 18u:
        return "1,000 watches stand, those among them whose slot is gone with its member.";
      case 19u:
        return "The slot isn't watched by this name.";
      case 20u:
        return "Under `desk` alone: another party's change touched the slot since this party last looked at it, at "
               "last change N. It comes before 5 to 14.";
      case 21u:
        return "Under `desk` alone: the change that `undo` or `redo` is for is party P's. It comes before 5 to 14.";
      default:
        break;
    }
  }
  return "There is no text for this number.";
}

#endif
