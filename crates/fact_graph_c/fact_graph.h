/* The Fact Graph as a C library: sessions and desks over dictionaries, which are fed lines and hand out replies.
 *
 * A session is opened over a dictionary's bytes, with no answers, or with those of a saved text. It is then given lines, as
 * those of a script of `interview run`, and says of each what that program would write. What a call says is the session's text:
 * its size comes from the call, and its bytes by `fact_graph_read`, in one piece or in several.
 *
 * A desk is a session that several parties share, and is given lines as those of a script of `interview desk`: each is a party's. What is
 * said here of sessions and of their calls holds of desks and of theirs, whose names begin with `fact_graph_desk_`.
 *
 * For all functions:
 * - A `fact_graph` is a session that `fact_graph_open`, `fact_graph_open_built_in`, `fact_graph_further`, `fact_graph_load`,
 *   `fact_graph_carry` or `fact_graph_resume` opened and that `fact_graph_close` didn't end. A call takes it, and gives it back through
 *   `back`, which may be where it came from:
 *   `fact_graph_answer(graph, line, size, &text_size, &graph)`. A copy of it is the same session.
 * - A session has one call at a time, and may go to another thread between calls only as far as the program orders the calls.
 *   Calls of different sessions may run side by side.
 * - A pointer is never null, also where its size is 0. It points to as many bytes as the size behind it says, at most PTRDIFF_MAX,
 *   or to one value of its type, which is initialized. What a call writes to overlaps nothing else that it is given.
 * - No call is made from a signal handler, or in a forked child of a process with threads.
 * - Memory comes from malloc, realloc and free, which are those of one allocator and align as C asks. After want of memory
 *   nothing is lost: the call says so, and can be made again.
 */
#ifndef FACT_GRAPH_H
#define FACT_GRAPH_H

#include <stddef.h>
#include <stdint.h>

#ifdef __cplusplus
extern "C" {
#endif

/* The version, by semantic versioning: a host runs with each library of its major number and no lower minor one. */
#define FACT_GRAPH_VERSION_MAJOR 1
#define FACT_GRAPH_VERSION_MINOR 2
#define FACT_GRAPH_VERSION_PATCH 0

/* The same as one number, for `#if FACT_GRAPH_VERSION_NUMBER >= 10200`, and as a text, "1.2.0". */
#define FACT_GRAPH_VERSION_NUMBER (FACT_GRAPH_VERSION_MAJOR * 10000 + FACT_GRAPH_VERSION_MINOR * 100 + FACT_GRAPH_VERSION_PATCH)
#define FACT_GRAPH_VERSION \
  FACT_GRAPH_DOTTED(FACT_GRAPH_VERSION_MAJOR, FACT_GRAPH_VERSION_MINOR, FACT_GRAPH_VERSION_PATCH)
#define FACT_GRAPH_DOTTED(major, minor, patch) FACT_GRAPH_DOTTED_TEXT(major, minor, patch)
#define FACT_GRAPH_DOTTED_TEXT(major, minor, patch) #major "." #minor "." #patch

/* A session. Its field is for the library alone. */
typedef struct fact_graph {
  void *at;
} fact_graph;

/* A desk. Its field is for the library alone. */
typedef struct fact_graph_desk {
  void *at;
} fact_graph_desk;

/* What a field of a fault is where the fault has no such number. */
#define FACT_GRAPH_ABSENT UINT32_MAX

/* Why no session was opened: as the program's line `dictionary refused 12 IllTyped fact 3 node 2` says it, in numbers. */
typedef struct fact_graph_fault {
  /* 0 where there is no fault; 1 to 14, a fault of the dictionary; 15 to 17, another reason, named below. */
  uint32_t number;
  uint32_t fact;
  uint32_t node;
  uint32_t what;
  /* Of a saved text: the line at which it is refused, from 1; 0 where the text is too long. */
  uint32_t line;
} fact_graph_fault;

/* The faults of a dictionary: docs/FAULTS.md says of each what is wrong and how to mend it. */
#define FACT_GRAPH_FAULT_TOO_LONG 1u
#define FACT_GRAPH_FAULT_NOT_JSON 2u
#define FACT_GRAPH_FAULT_SHAPE 3u
#define FACT_GRAPH_FAULT_TOO_MANY 4u
#define FACT_GRAPH_FAULT_TOO_DEEP 5u
#define FACT_GRAPH_FAULT_BAD_PATH 6u
#define FACT_GRAPH_FAULT_DUPLICATE_PATH 7u
#define FACT_GRAPH_FAULT_NO_COLLECTION 8u
#define FACT_GRAPH_FAULT_UNKNOWN_PATH 9u
#define FACT_GRAPH_FAULT_WRONG_PLACE 10u
#define FACT_GRAPH_FAULT_UNKNOWN_CHECK 11u
#define FACT_GRAPH_FAULT_ILL_TYPED 12u
#define FACT_GRAPH_FAULT_BAD_LIMIT 13u
#define FACT_GRAPH_FAULT_CYCLE 14u
/* There was no memory. */
#define FACT_GRAPH_FAULT_MEMORY 15u
/* The dictionary is accepted, and the saved text is refused. */
#define FACT_GRAPH_FAULT_SAVED 16u
/* The words name no dictionary that comes with the library. */
#define FACT_GRAPH_FAULT_UNKNOWN 17u

/* Why a command changed nothing: the number in a reply such as `refused 5 WrongKind`. */
#define FACT_GRAPH_REFUSED_BAD_LINE 1u
#define FACT_GRAPH_REFUSED_LONG_LINE 2u
#define FACT_GRAPH_REFUSED_UNKNOWN_FACT 3u
#define FACT_GRAPH_REFUSED_NO_MEMBER 4u
#define FACT_GRAPH_REFUSED_WRONG_KIND 5u
#define FACT_GRAPH_REFUSED_BAD_VALUE 6u
#define FACT_GRAPH_REFUSED_LIMIT 7u
#define FACT_GRAPH_REFUSED_CHECK 8u
#define FACT_GRAPH_REFUSED_FULL 9u
#define FACT_GRAPH_REFUSED_ALREADY_OPEN 10u
#define FACT_GRAPH_REFUSED_NOT_ANSWERED 11u
#define FACT_GRAPH_REFUSED_NO_OVERRIDE 12u
#define FACT_GRAPH_REFUSED_NOTHING_TO_UNDO 13u
#define FACT_GRAPH_REFUSED_NOTHING_TO_REDO 14u
#define FACT_GRAPH_REFUSED_UNKNOWN_WATCH 16u
#define FACT_GRAPH_REFUSED_WATCH_THERE 17u
#define FACT_GRAPH_REFUSED_WATCHES_FULL 18u
#define FACT_GRAPH_REFUSED_NOT_WATCHED 19u
/* At a desk alone: another party's change touched the slot since this party looked at it, or `undo` and `redo` are for another's. */
#define FACT_GRAPH_REFUSED_STALE 20u
#define FACT_GRAPH_REFUSED_NOT_YOURS 21u

/* How a call on a session ended. */
/* What it has to say is the session's text. */
#define FACT_GRAPH_SAID 0u
/* The line was `quit`, or one before it was: there is no text, and no further line has an effect. */
#define FACT_GRAPH_OVER 1u
/* There was no memory: the session is as before, and its text is empty. */
#define FACT_GRAPH_NO_MEMORY 2u

/* The most bytes of a line, of a dictionary and of a saved text. One that has more is refused. */
#define FACT_GRAPH_LINE_LIMIT 4096u
#define FACT_GRAPH_DICTIONARY_LIMIT 8388608u
#define FACT_GRAPH_SAVED_LIMIT 67108864u

/* The address of a text for a call: `bytes`, or where that is null, as the data of an empty std::string_view or of an empty span is, the
 * address of a byte of its own. It is compiled into the program that calls it. */
static inline const uint8_t *fact_graph_bytes(const void *bytes) {
  static const uint8_t none = 0;
  return bytes != NULL ? (const uint8_t *)bytes : &none;
}

/* Opens a session over the dictionary, with no answers and no text. Returns 0, and the session through `graph`; or the number of
 * the first fault, with all of it in `fault`, and `graph` as it was. */
uint32_t fact_graph_open(const uint8_t *dictionary, size_t dictionary_size, fact_graph *graph, fact_graph_fault *fault);

/* Opens a session over a dictionary that comes with the library, with no answers and no text. `words` are `year` and a tax year
 * that has tables, as `year 2023` (filing status, dependents and standard deduction), or `income` and one, as `income 2023` (the
 * same, and the rate schedule and the child tax credit behind it); else the fault is FACT_GRAPH_FAULT_UNKNOWN. Otherwise as
 * `fact_graph_open`. */
uint32_t fact_graph_open_built_in(const uint8_t *words, size_t words_size, fact_graph *graph, fact_graph_fault *fault);

/* Opens a further session over the dictionary of `graph`, with no answers and no text. Both share the dictionary and what was made of
 * it, so this takes the same time over any dictionary, but for the first such call, which evaluates the results at no answers; the
 * first change of the new session copies these. Each may be closed before the other, and may have its calls in another thread. Returns 0, and the session through `further`; or FACT_GRAPH_FAULT_MEMORY, also in
 * `fault`, and `further` as it was. `graph` comes back as it was. Since version 1.2. */
uint32_t fact_graph_further(fact_graph graph, fact_graph *further, fact_graph_fault *fault, fact_graph *back);

/* Opens a session over the dictionary with the answers of its own saved text, as `interview load` does. Otherwise as
 * `fact_graph_open`. */
uint32_t fact_graph_load(const uint8_t *dictionary, size_t dictionary_size, const uint8_t *saved, size_t saved_size,
                         fact_graph *graph, fact_graph_fault *fault);

/* Opens a session over the dictionary with what may stand of a saved text of another, as `interview carry` does. Its text has a
 * line for each line that is dropped, and `text_size` is its size; it is 0 after a fault. Otherwise as `fact_graph_open`. */
uint32_t fact_graph_carry(const uint8_t *dictionary, size_t dictionary_size, const uint8_t *saved, size_t saved_size,
                          fact_graph *graph, size_t *text_size, fact_graph_fault *fault);

/* Opens a session over the dictionary with what may be taken of a saved text that came from outside, as from a person's upload: no
 * override, and the values that `set` would take. Its text has a line for each line that isn't kept, by their order in the saved
 * text: `dropped list /N` where the dictionary has no writable collection of the name, `dropped override SLOT`, and `dropped value
 * SLOT`, with what `set` replies behind it, as `dropped value /n refused 7 Limit 1`. Otherwise as `fact_graph_carry`. */
uint32_t fact_graph_resume(const uint8_t *dictionary, size_t dictionary_size, const uint8_t *saved, size_t saved_size,
                           fact_graph *graph, size_t *text_size, fact_graph_fault *fault);

/* Answers a line, which is given without its newline. Its reply, with the newlines of all its lines, becomes the session's text,
 * and `text_size` is its size. A line without a reply, as an empty one, has an empty text. A line of more than 4,096 bytes is
 * refused as LongLine. Returns FACT_GRAPH_SAID, FACT_GRAPH_OVER or FACT_GRAPH_NO_MEMORY. */
uint32_t fact_graph_answer(fact_graph graph, const uint8_t *line, size_t line_size, size_t *text_size, fact_graph *back);

/* Makes the saved text of the answers that stand the session's text; `text_size` is its size. The answers, and what is watched,
 * are as before. Returns FACT_GRAPH_SAID or FACT_GRAPH_NO_MEMORY. */
uint32_t fact_graph_save(fact_graph graph, size_t *text_size, fact_graph *back);

/* Says which slots the evaluation of a slot reads, by the results of now: why its result is what it is. `slot` is its path, as
 * behind `get`. The paths of those that stand become the session's text, each in a line, each once, in the order in which they are
 * first read, the members' behind a `*` among them. A slot with an answer of its own, or with an override, reads none. Where
 * `slot` names no slot, the text is why, as `get` says it: `refused 3 UnknownFact`, say. The session is as before. Returns
 * FACT_GRAPH_SAID or FACT_GRAPH_NO_MEMORY. */
uint32_t fact_graph_reads(fact_graph graph, const uint8_t *slot, size_t slot_size, size_t *text_size, fact_graph *back);

/* Says the session's dictionary as JSON, laid out over lines, in version 2, or in version law-1 where it has tables or an operator of
 * that: `fact_graph_open` of this text opens a session over the same dictionary, where the text has at most
 * FACT_GRAPH_DICTIONARY_LIMIT bytes. Of descriptions it keeps those of facts alone. The session is as before. Returns FACT_GRAPH_SAID
 * or FACT_GRAPH_NO_MEMORY. */
uint32_t fact_graph_dictionary(fact_graph graph, size_t *text_size, fact_graph *back);

/* Says the facts of the session's dictionary, each in a line, in their order: `PATH writable TYPE` or `PATH derived TYPE`, as the
 * dictionary writes them. The session is as before. Returns FACT_GRAPH_SAID or FACT_GRAPH_NO_MEMORY. */
uint32_t fact_graph_facts(fact_graph graph, size_t *text_size, fact_graph *back);

/* Says the description of a fact, in UTF-8 and with no newline but its own. `fact` is the fact's number, from 1, by the order of
 * `fact_graph_facts`, as a fault has it. The text is empty where the fact has no description, and where no fact has the number. The
 * session is as before. Returns FACT_GRAPH_SAID or FACT_GRAPH_NO_MEMORY. Since version 1.1. */
uint32_t fact_graph_description(fact_graph graph, uint32_t fact, size_t *text_size, fact_graph *back);

/* Forgets all changes that can be undone but the newest `most`. What can be redone, the answers, the results, the stamps and the
 * text are as before. A host that calls it behind each line bounds what a session keeps for undo. */
void fact_graph_keep_changes(fact_graph graph, size_t most, fact_graph *back);

/* Gives back the memory of the session's text, which is empty then. All else is as before. */
void fact_graph_trim(fact_graph graph, fact_graph *back);

/* Copies the session's text from the byte `from` on, counted from 0, as far as `out` has room. Returns how many bytes were
 * copied: 0 behind the end. The text stays until the next call that says one, or `fact_graph_trim`, so it can be copied in
 * pieces, each from where the last one ended. It takes no memory. */
size_t fact_graph_read(fact_graph graph, size_t from, uint8_t *out, size_t out_size, fact_graph *back);

/* The version of the library that runs, in the form of FACT_GRAPH_VERSION_NUMBER: a host that was built with another header can
 * tell. */
uint32_t fact_graph_version(void);

/* Ends a session, and frees its memory. No copy of it may be used again. */
void fact_graph_close(fact_graph graph);

/* ---- Desks */

/* Opens a desk over the dictionary, with no answers and no text, at which nobody has done anything. Otherwise as `fact_graph_open`.
 * Since version 1.2. */
uint32_t fact_graph_desk_open(const uint8_t *dictionary, size_t dictionary_size, fact_graph_desk *desk, fact_graph_fault *fault);

/* Opens such a desk over a dictionary that comes with the library. Otherwise as `fact_graph_open_built_in`. Since version 1.2. */
uint32_t fact_graph_desk_open_built_in(const uint8_t *words, size_t words_size, fact_graph_desk *desk, fact_graph_fault *fault);

/* Opens such a desk over the dictionary with the answers of its own saved text, that of a session or of a desk: who gave them isn't
 * saved. Otherwise as `fact_graph_load`. Since version 1.2. */
uint32_t fact_graph_desk_load(const uint8_t *dictionary, size_t dictionary_size, const uint8_t *saved, size_t saved_size,
                              fact_graph_desk *desk, fact_graph_fault *fault);

/* Answers a line of a party, from 1 to 16, as `@2 set /a 5`: each line of its reply begins with the party's mark, `@2 `. A line that
 * begins with no party's is refused as BadLine, without a mark, and so is one of more than 4,096 bytes, as LongLine. `quit` of any party
 * ends the desk's script. Otherwise as `fact_graph_answer`. Since version 1.2. */
uint32_t fact_graph_desk_answer(fact_graph_desk desk, const uint8_t *line, size_t line_size, size_t *text_size, fact_graph_desk *back);

/* Makes the saved text of the answers that stand the desk's text. Otherwise as `fact_graph_save`. Since version 1.2. */
uint32_t fact_graph_desk_save(fact_graph_desk desk, size_t *text_size, fact_graph_desk *back);

/* Gives back the memory of the desk's text, as `fact_graph_trim`. Since version 1.2. */
void fact_graph_desk_trim(fact_graph_desk desk, fact_graph_desk *back);

/* Copies the desk's text from a byte on, as `fact_graph_read`. Since version 1.2. */
size_t fact_graph_desk_read(fact_graph_desk desk, size_t from, uint8_t *out, size_t out_size, fact_graph_desk *back);

/* Ends a desk, and frees its memory. No copy of it may be used again. Since version 1.2. */
void fact_graph_desk_close(fact_graph_desk desk);

#ifdef __cplusplus
}
#endif

#endif
