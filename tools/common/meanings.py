"""What the words of faults and verdicts mean."""

TEXT_FAULTS = {
    "bad-byte": "a byte outside comments that is neither white space nor printed ASCII",
    "unclosed": "the list isn't closed, or there is none",
    "extra": "something stands before or behind the one list of the text",
    "too-deep": "a 65th list within another",
    "shape": "a word or list that can't stand there, or a list that ends too early; a problem without :domain or :goal",
    "unsupported": "a part of PDDL that is left out; to_profile.py may rewrite it, and says what to write in its place",
    "number": "not digits alone, or over 1,000,000",
    "unknown": "a name that isn't declared, or a problem of another domain",
    "arity": "another number of arguments than declared",
    "duplicate": "a second item, key, name or variable of this name, or two values of one term",
    "type-cycle": "a type above itself",
    "derived-cycle": "a derived predicate that rests on itself",
    "effect-on-static": "an effect or initial atom of a derived predicate, or a stream's atom of a predicate that is "
                        "derived or that actions change",
    "too-many": "more than 8 variables of a predicate, function or stream side, 16 in scope, or 64 derived predicates",
    "stream-cycle": "this stream feeds itself, by however many others: give each round its predicate, type and stream",
}
MAP_FAULTS = ("json", "shape", "workers", "unknown", "doubled", "unserved")
GRID_FAULTS = {
    "form": "a byte that may not stand, a wrong word or name, or a wrong number of fields; `grid W H` comes first and "
            "once",
    "number": "not one to four digits, a grid that isn't 1 to 1,000 cells wide and high, or a size of 0",
    "outside": "the rectangle doesn't lie in the grid",
    "duplicate": "a second block, or a second region, of this name",
    "too-many": "more than 100 blocks or regions, or more than 1,000 obstacles",
}
ANSWER_FAULTS = {
    "word": "its first word isn't the one that is due, or the line is empty: `yield` or `end` of a stream, `value` or "
            "`end` "
            "of a cost stream. Something that the program or a library prints, perhaps",
    "count": "it has too few values or too many, or something behind `end`",
    "value": "a value has a byte that may not stand, or more than 64 bytes; or a number is none, or over 1,000,000",
    "too-long": "1,025 bytes came without a line feed",
}
BREACHES = {
    1: "text: the line is missing, or has no form that may stand there",
    2: "head: a limit out of its range, a wrong pool, or a stream without a pool",
    3: "ask: a wrong number, an instance that isn't to be asked, or a wrong K",
    4: "answer: no request of that number is open, or the values aren't such as its stream gives",
    5: "order: another line is due here",
    6: "dream: an entry that isn't of the list, a step that can't be taken, a goal that isn't reached, or a needless "
       "entry",
    7: "plan: a step that can't be taken, or at the `cost` line a goal that isn't reached",
    8: "cost: another cost is right; of `replay --optimal`, or another plan costs less",
    9: "from: an origin that isn't the due one, is needless, or is missing",
    10: "outcome: the claim is false",
}
OUTCOMES = {
    "no plan": "No plan exists: each stream instance that can be reached has finished, and over what is known no plan "
               "reaches the goal. lint.py tells likely mistakes, such as arguments that are swapped.",
    "limit calls": "The limit of calls is reached: {calls} requests were made, and more is due. Give more by --calls "
                   "(at most "
                   "100,000), or look which stream is asked most: report.py --summary.",
    "limit states": "The limit of states is reached: a search went through {states} states. Give more by --states (at "
                    "most "
                    "200,000), or fewer objects and actions.",
    "limit instances": "More than 1,000,000 stream instances are due at once: give the streams stronger :domain facts.",
}
STATUSES = {"plan": 0, "no plan": 1, "limit calls": 2, "limit states": 2, "limit instances": 2}
