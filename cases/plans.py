#!/usr/bin/env python3
"""Books and works with plans, and their reports, which are worked out by hand
from docs/RULES.md and docs/FORMAT.md. The comment at each case is the reasoning.
Writes what the program `vectors` reads and has to print:

    python3 cases/plans.py

Sizes, for the offsets: a ring field has 9 + 4t bytes, a table plan field
9 + 2nk + 4t + 4f, resolve 9, rewrite, enter and stay 5.
Literals: 0 is "atom 0", 1 "not atom 0", 2 "atom 1", 3 "not atom 1", ...
"""
import pathlib

CASES = []


def num(x):
    return [x >> 8, x & 255]


def nums(xs):
    return [b for x in xs for b in num(x)]


def field(tag, value):
    return [tag] + num(len(value)) + value


def book(k, *rules):
    out = field(1, [k])
    for kind, index, left, right in rules:
        out += field(2, [kind, index, len(left)] + nums(left)
                     + [len(right)] + nums(right))
    return out


def start(*right):
    return 1, 0, [], list(right)


def glob(*right):
    return 2, 0, [], list(right)


def step(left, right):
    return 3, 0, left, right


def istep(i, left, right):
    return 4, i, left, right


def some(left, goal):
    return 5, 0, left, [goal]


def isome(i, left, goal):
    return 6, i, left, [goal]


def resolve(a, b, l):
    return field(3, nums([a, b, l]))


def rewrite(a):
    return field(4, num(a))


def enter(a):
    return field(5, num(a))


def stay(a):
    return field(6, num(a))


def pairs(ps):
    return [b for p in ps for b in nums(p)]


def table_value(n, targets, truths=(), free=(), t=None, f=None):
    return (num(n) + nums(targets)
            + num(len(truths) if t is None else t) + pairs(truths)
            + num(len(free) if f is None else f) + pairs(free))


def ring_value(n, back, truths=(), t=None):
    return nums([n, back, len(truths) if t is None else t]) + pairs(truths)


def table(*a, **b):
    return field(13, table_value(*a, **b))


def ring(*a, **b):
    return field(14, ring_value(*a, **b))


def case(name, book, work, *report):
    fields = work if isinstance(work, str) else [b for w in work for b in w]
    key = "work_make" if isinstance(work, str) else "work"
    CASES.append({"name": name, "book": book, key: fields,
                  "report": list(report)})


# ------------------------------------------------- the six kinds, kept/broken

# Only state 0 counts: kept though state 1 lacks the atom; then the reverse.
case("start rule: kept with the atom at state 0 alone, broken with it at state 1 alone",
     book(1, start(0)),
     [ring(2, 0, [(0, 0)]), ring(2, 0, [(1, 0)])],
     "book 1 1", "0 kept", "1 broken 0 0", "undecided")

# Right {atom 0, atom 1}: one or the other at each state. Then states 1 and 3
# have neither; 1 is the lower.
case("global rule: kept by one literal here and the other there; broken at 1 and 3, 1 is named",
     book(1, glob(0, 2)),
     [ring(2, 0, [(0, 0), (1, 1)]), ring(4, 0, [(0, 0), (2, 1)])],
     "book 1 1", "0 kept", "1 broken 0 1", "undecided")

# Atom 0 here asks for atom 1 next. First: only state 0 has atom 0, 0 -> 1, and 1
# has atom 1. Second: all have atom 0; 0 -> 1 is right; 1 -> 2 and 2 -> 2 are
# wrong. The state left is named, not the one led to.
case("all-step rule: kept; broken at 1 and 2, the lower state that is left is named",
     book(1, step([0], [2])),
     [table(3, [1, 2, 2], [(0, 0), (1, 1)]),
      table(3, [1, 2, 2], [(0, 0), (1, 0), (1, 1), (2, 0)])],
     "book 1 1", "0 kept", "1 broken 0 1", "undecided")

# Index 1. First: 0 -1-> 1, which has atom 1 (index 0 would stay at 0). Second:
# atom 0 at 1 and 2; index 1 leads both to 0, without atom 1 (index 0 to 1, with it).
case("index-step rule of index 1: kept where index 0 would break it, broken where index 0 would keep it",
     book(2, istep(1, [0], [2])),
     [table(2, [0, 1, 0, 0], [(0, 0), (1, 1)]),
      table(3, [1, 0, 1, 0, 1, 0], [(1, 0), (1, 1), (2, 0)])],
     "book 2 1", "0 kept", "1 broken 0 1", "undecided")

# First: 0 -> 1 -> 2 with the goal. Second: 1 stays at 1 without it, 4 -> 1 too;
# 2 -> 3 has it; 0 avoids it as well, but the left fails there.
case("all-sometime rule: kept; broken at 1 and 4, 1 is named though state 0 avoids the goal too (left fails there)",
     book(1, some([0], 2)),
     [table(3, [1, 2, 0], [(0, 0), (2, 1)]),
      table(5, [1, 1, 3, 3, 1], [(1, 0), (2, 0), (3, 1), (4, 0)])],
     "book 1 1", "0 kept", "1 broken 0 1", "undecided")

# Index 1. First: 0 -> 1 -> 2 goal. Second: goal at 0 alone; by index 1, 1 -> 2 -> 1.
case("index-sometime rule of index 1: kept; broken at 1 and 2, 1 is named",
     book(2, isome(1, [], 0)),
     [table(3, [0, 1, 1, 2, 2, 2], [(2, 0)]),
      table(3, [0, 1, 0, 2, 0, 1], [(0, 0)])],
     "book 2 1", "0 kept", "1 broken 0 1", "undecided")

# ------------------------------------------------------------------ free moves

# Every index move leads to 0, which has the atom; 1 hasn't. A free move 1 -> 1
# breaks the rule at 1; the second free move of state 0 breaks it at 0.
case("all-step rule kept by the index moves and broken by a free move, at 1 and then at 0 by the second of two",
     book(1, step([], [0])),
     [table(2, [0, 0], [(0, 0)]),
      table(2, [0, 0], [(0, 0)], [(1, 1)]),
      table(2, [0, 0], [(0, 0)], [(0, 0), (0, 1)])],
     "book 1 1", "0 kept", "1 broken 0 1", "2 broken 0 0", "undecided")

# The same plan and an index-step: free moves don't count.
case("index-step rule: free moves to a bad state don't break it",
     book(1, istep(0, [], [0])),
     [table(2, [0, 0], [(0, 0)], [(0, 1), (1, 1)])],
     "book 1 1", "0 kept", "undecided")

# 0 -> 1 -> 2 goal. The free move 1 -> 0 closes the cycle 0, 1. Rule 0 (index)
# stays kept; rule 1 asks only where atom 1 holds, at state 1.
case("all-sometime rule broken through a free move alone; the index-sometime rule before it stays kept",
     book(1, isome(0, [], 0), some([2], 0)),
     [table(3, [1, 2, 2], [(1, 1), (2, 0)]),
      table(3, [1, 2, 2], [(1, 1), (2, 0)], [(1, 0)])],
     "book 1 2", "0 kept", "1 broken 1 1", "undecided")

# Free move 1 -> 1: 0, 1, 1, 1, ... avoids the goal. Free moves out of the goal
# state do no harm: the goal has been met by then.
case("all-sometime rule: a free move to itself on the way breaks it at 0; free moves from the goal state don't",
     book(1, some([], 0)),
     [table(3, [1, 2, 2], [(2, 0)], [(1, 1)]),
      table(3, [1, 2, 2], [(2, 0)], [(2, 0), (2, 1), (2, 2)])],
     "book 1 1", "0 broken 0 0", "1 kept", "undecided")

# State 0 may go to the goal by a free move, but may stay for ever too.
case("all-sometime rule: a free move to the goal doesn't help where the index move avoids it",
     book(1, some([], 0)),
     [table(2, [0, 1], [(1, 0)], [(0, 1)])],
     "book 1 1", "0 broken 0 0", "undecided")

# The index path of 0 stays at 0; the free move isn't on it.
case("index-sometime rule: a free move to the goal isn't on the index path",
     book(1, isome(0, [], 0)),
     [table(2, [0, 1], [(1, 0)], [(0, 1)])],
     "book 1 1", "0 broken 0 0", "undecided")

# ---------------------------------------------------------- paths by index

# Index 0 stays at 0, index 1 goes to the goal.
case("index-sometime rule kept on its own path while the path of another index avoids the goal",
     book(2, isome(1, [], 0)),
     [table(2, [0, 1, 1, 1], [(1, 0)])],
     "book 2 1", "0 kept", "undecided")

case("the same plan breaks the all-sometime rule with that goal",
     book(2, isome(1, [], 0), some([], 0)),
     [table(2, [0, 1, 1, 1], [(1, 0)])],
     "book 2 2", "0 broken 1 0", "undecided")

# Index 0: 0 -> 1 -> 2. Index 1: 0 -> 2, 1 -> 0 -> 2. Alternating: 0 -0-> 1 -1-> 0.
case("each index path meets the goal, a path that changes its index avoids it",
     book(2, isome(0, [], 0), isome(1, [], 0), some([], 0)),
     [table(3, [1, 2, 2, 0, 2, 2], [(2, 0)])],
     "book 2 3", "0 broken 2 0", "undecided")

# Index 0: 0 -> 1 -> 0. Index 1: 0 -> 0, 1 -> 2. Goal at 2, atom 1 at 1. Rule 0
# (index 1, from 1) holds; rule 1 (index 0, from 1) doesn't: 1 -> 0 -> 1.
case("an index path doesn't borrow a move of another index to reach the goal",
     book(2, isome(1, [2], 0), isome(0, [2], 0)),
     [table(3, [1, 0, 0, 2, 2, 2], [(1, 1), (2, 0)])],
     "book 2 2", "0 broken 1 1", "undecided")

# ------------------------------------------------------- which state, which rule

# State 0 stays at 0; state 1 is reached from nowhere but itself.
case("global rule broken only at a state that isn't reached from state 0",
     book(1, glob(0)),
     [table(3, [0, 1, 0], [(0, 0), (2, 0)])],
     "book 1 1", "0 broken 0 1", "undecided")

# 1 -> 2 -> 1 without the goal, out of reach of 0. Then 1 -> 2 -> 0: kept.
case("all-sometime rule broken only in a cycle that isn't reached from state 0",
     book(1, some([], 0)),
     [table(3, [0, 2, 1], [(0, 0)]), table(3, [0, 2, 0], [(0, 0)])],
     "book 1 1", "0 broken 0 1", "1 kept", "undecided")

# 1 -> 2, 2 lacks atom 0; 0 stays at 0.
case("all-step rule broken only at a state that isn't reached from state 0",
     book(1, step([0], [0])),
     [table(3, [0, 2, 2], [(0, 0), (1, 0)])],
     "book 1 1", "0 broken 0 1", "undecided")

# 0 -> 1 and 1 -> 2 lead to atom 0; 2 -> 0 doesn't.
case("rule broken only at the last state, in a ring and in a table plan",
     book(1, step([], [0])),
     [ring(3, 0, [(1, 0), (2, 0)]), table(3, [1, 2, 0], [(1, 0), (2, 0)])],
     "book 1 1", "0 broken 0 2", "1 broken 0 2", "undecided")

# Line 0 fails at 2 only, line 1 at 0 only: the lower line counts, not the state.
case("two rules broken: the lower line is named although its state is the higher one",
     book(1, glob(0), glob(2)),
     [ring(3, 0, [(0, 0), (1, 0), (1, 1), (2, 1)])],
     "book 1 2", "0 broken 0 2", "undecided")

# 0 -> 1 -> 0, atom 0 at state 0, atom 1 at state 1.
# 0 start a0 yes; 1 a0 or a1; 2 a0 => next a1; 3 a1 => next a0 <0>; 4 sometime a0;
# 5 sometime a1 <0>; 6 not a0 or not a1; 7 start not a1; 8 a1 => next not a1 (1 -> 0);
# 9 a0 everywhere: fails at 1.
case("nine rules of all kinds kept, the tenth broken",
     book(1, start(0), glob(0, 2), step([0], [2]), istep(0, [2], [0]),
          some([], 0), isome(0, [], 2), glob(1, 3), start(3), step([2], [3]),
          glob(0)),
     [table(2, [1, 0], [(0, 0), (1, 1)])],
     "book 1 10", "0 broken 9 1", "undecided")

# ------------------------------------------------------------------- sides

# Plan 0 has no truths: no left holds ({0,1} and {2,3} never do). Plan 1: atom 1
# at state 1, so line 2 asks there; the goal is nowhere.
case("rules whose left fails everywhere are kept, whatever their right; then one left holds at 1",
     book(1, step([0], []), istep(0, [0, 1], []), some([2], 0), isome(0, [2, 3], 0)),
     [ring(2, 0), ring(2, 0, [(1, 1)])],
     "book 1 4", "0 kept", "1 broken 2 1", "undecided")

case("global rule with an empty right: every plan breaks it at 0, and the verdict is impossible",
     book(1, glob()),
     [ring(1, 0), ring(2, 0, [(0, 0), (1, 0)])],
     "book 1 1", "0 broken 0 0", "1 broken 0 0", "impossible 0")

case("start rule with an empty right",
     book(1, glob(0, 1), start()),
     [ring(2, 1)],
     "book 1 2", "0 broken 1 0", "impossible 1")

# Broken wherever the left holds, since every state has a move: at 1. Plan 1: the
# left of line 1 (atom 1) holds at 2.
case("step rules with an empty right: broken where the left holds, verdict undecided",
     book(1, step([0], []), istep(0, [2], [])),
     [ring(3, 0, [(1, 0)]), ring(3, 0, [(2, 1)]), ring(3, 0, [(2, 2)])],
     "book 1 2", "0 broken 0 1", "1 broken 1 2", "2 kept", "undecided")

# Not a0 and a1 => next (not a1 or not a2).
# 0: state 0 asks, state 1 has a1 and a2: broken at 0.
# 1: state 0 has a0, asks not; 1 asks, 2 has no a1; 2 has no a1, asks not.
# 2: 0 asks, 1 has no a2; 1 asks, 2 has a1 and a2: broken at 1.
case("negated literals on both sides of an all-step rule",
     book(1, step([1, 2], [3, 5])),
     [ring(3, 0, [(0, 1), (1, 1), (1, 2)]),
      ring(3, 0, [(0, 0), (0, 1), (1, 1), (1, 2)]),
      ring(3, 0, [(0, 1), (1, 1), (2, 1), (2, 2)])],
     "book 1 1", "0 broken 0 0", "1 kept", "2 broken 0 1", "undecided")

# Left: not a0. Goal: not a1. 0: from 1, 1 -> 2 -> 1 has a1 always. 1: 1 -> 2 -> 0.
case("negated left and negated goal",
     book(1, some([1], 3), isome(0, [1], 3)),
     [ring(3, 1, [(0, 0), (1, 1), (2, 1)]), ring(3, 0, [(0, 0), (1, 1), (2, 1)])],
     "book 1 2", "0 broken 0 1", "1 kept", "undecided")

case("a right with a literal and its opposite always holds",
     book(1, start(0, 1), glob(0, 1), step([], [0, 1]), istep(0, [], [0, 1])),
     [table(2, [1, 0], [(1, 0)], [(0, 0), (1, 1)])],
     "book 1 4", "0 kept", "undecided")

# Left a0 .. a15, right a16 .. a31. 0: state 0 has the whole left and 1 has a31.
# 1: 1 has nothing. 2: a15 is missing at 0, so nothing is asked.
L16, R16 = list(range(0, 32, 2)), list(range(32, 64, 2))
ALL = [(0, a) for a in range(16)]
case("sides of 16 literals: all of the left must hold, the last of the right is enough",
     book(1, step(L16, R16)),
     [ring(2, 0, ALL + [(1, 31)]), ring(2, 0, ALL), ring(2, 0, ALL[:15])],
     "book 1 1", "0 kept", "1 broken 0 0", "2 kept", "undecided")

# ------------------------------------------------------------------- sometime

# 0: the goal at 0 itself and never again: 0 -> 1 -> 1. 1: atom 1 at 1, goal only
# before it.
case("the goal is met at the state itself; a goal that lies behind doesn't count",
     book(1, some([2], 0), isome(0, [2], 0)),
     [table(2, [1, 1], [(0, 0), (0, 1)]), table(2, [1, 1], [(0, 0), (1, 1)])],
     "book 1 2", "0 kept", "1 broken 0 1", "undecided")

# Index 0: 0 -> 1 -> 2 -> 0; index 1: always to 3, the goal. Line 1 asks at 2.
case("a cycle of three states without the goal, each with a move to the goal",
     book(2, isome(1, [], 0), some([2], 0)),
     [table(4, [1, 3, 2, 3, 0, 3, 3, 3], [(2, 1), (3, 0)])],
     "book 2 2", "0 broken 1 2", "undecided")

# 4 -> 0 -> 1 -> 2 -> 0; asked at 4 only. Then with the goal at 1.
case("a way into a cycle of three: broken at the state before the cycle; kept with the goal in the cycle",
     book(1, some([2], 0)),
     [table(5, [1, 2, 0, 3, 0], [(3, 0), (4, 1)]),
      table(5, [1, 2, 0, 3, 0], [(1, 0), (4, 1)])],
     "book 1 1", "0 broken 0 4", "1 kept", "undecided")

# 0 -> 3 -> 1 -> 4 -> 2 with the goal. Then 4 -> 0: the goal is left out.
case("the goal comes only after every other state; then the path turns back one state before it",
     book(1, some([], 0), isome(0, [], 0)),
     [table(5, [3, 4, 0, 1, 2], [(2, 0)]), table(5, [3, 4, 0, 1, 0], [(2, 0)])],
     "book 1 2", "0 kept", "1 broken 0 0", "undecided")

# Free moves s -> t for all s < t <= 90: 91 * 90 / 2 = 4,095. Index: 90 -> 0, else
# s -> s + 1. Every way leads upward to 90, the goal: kept. 2^89 ways from 0 to 90.
case("4,095 free moves that all lead upward to the goal: kept, though the ways are too many to list",
     book(1, some([], 0)),
     "(lambda p, v: [13] + p(len(v)) + v)(lambda x: [x >> 8, x & 255], "
     "[0, 91] + [b for s in range(91) for b in (0, (s + 1) % 91)] + [0, 1, 0, 90, 0, 0]"
     " + [15, 255] + [b for s in range(91) for t in range(s + 1, 91) for b in (0, s, 0, t)])",
     "book 1 1", "0 kept", "undecided")

# ---------------------------------------------------------------------- rings

# n = 4: return 0, goal 1 kept. Return 3 (itself): goal 3 kept; goal 2: 3 stays at
# 3, broken at 3 (0 and 1 and 2 meet it). Return 2: goal 2 kept; goal 1: 2 -> 3 -> 2,
# broken at 2. Return 1: goal 1 kept; goal 0: broken at 1.
case("ring of 4: return to 0, to the last state itself, to 2 and to 1",
     book(1, some([], 0)),
     [ring(4, 0, [(1, 0)]), ring(4, 3, [(3, 0)]), ring(4, 3, [(2, 0)]),
      ring(4, 2, [(2, 0)]), ring(4, 2, [(1, 0)]),
      ring(4, 1, [(1, 0)]), ring(4, 1, [(0, 0)])],
     "book 1 1", "0 kept", "1 kept", "2 broken 0 3", "3 kept", "4 broken 0 2",
     "5 kept", "6 broken 0 1", "undecided")

# Atom 0 at 1 and 2. Returns to 1 and 2 are right, to 0 wrong.
case("ring of 3 and an all-step rule: only the return to 0 breaks it",
     book(1, step([], [0])),
     [ring(3, 1, [(1, 0), (2, 0)]), ring(3, 2, [(1, 0), (2, 0)]),
      ring(3, 0, [(1, 0), (2, 0)])],
     "book 1 1", "0 kept", "1 kept", "2 broken 0 2", "undecided")

# 0 -> 0. 0: atom 1 asks for the goal, which isn't there. 1: nothing asked by line
# 0; 0 -> 0 has no atom 0. 2: kept.
case("ring of 1",
     book(1, some([2], 0), step([], [0])),
     [ring(1, 0, [(0, 1)]), ring(1, 0), ring(1, 0, [(0, 0)])],
     "book 1 2", "0 broken 0 0", "1 broken 1 0", "2 kept", "undecided")

# Every index does the same. 0: 0 -> 1 -> 0, kept. 1: 1 -> 1 has no atom 0: line 1.
# 2: no truths, so only line 2 asks; goal nowhere.
case("ring with two indices: rules of index 0 and of index 1",
     book(2, istep(0, [0], [2]), istep(1, [2], [0]), isome(1, [], 0)),
     [ring(2, 0, [(0, 0), (1, 1)]), ring(2, 1, [(0, 0), (1, 1)]), ring(2, 1)],
     "book 2 3", "0 kept", "1 broken 1 1", "2 broken 2 0", "undecided")

# Atom 0 at 255 alone must be followed by atom 0: return 255 yes, return 0 no.
case("ring of 256 states: a step rule kept, and broken at state 255",
     book(1, step([0], [0])),
     [ring(256, 255, [(255, 0)]), ring(256, 0, [(255, 0)])],
     "book 1 1", "0 kept", "1 broken 0 255", "undecided")

# Goal at 255, return 0: kept. Goal at 0, return 0: from 1 the goal comes after all
# others: kept. Goal 254, return 255: 255 stays: broken at 255. Goal 253, return 254:
# 254 -> 255 -> 254: broken at 254.
case("ring of 256 states: sometime rules kept after 255 other states, and broken at 255 and 254",
     book(1, some([], 0), isome(0, [], 0)),
     [ring(256, 0, [(255, 0)]), ring(256, 0, [(0, 0)]),
      ring(256, 255, [(254, 0)]), ring(256, 254, [(253, 0)])],
     "book 1 2", "0 kept", "1 kept", "2 broken 0 255", "3 broken 0 254",
     "undecided")

# Not atom 0 everywhere: kept by each plan that passes. 9 bytes each.
case("rings out of range are 19: 257 states, 0 states, 65,535 states, a return not below n",
     book(1, glob(1)),
     [ring(257, 0), ring(0, 0), ring(65535, 0), ring(3, 3), ring(3, 2),
      ring(1, 1), ring(256, 256), ring(256, 255), ring(3, 65535)],
     "book 1 1", "0 no 19 0", "1 no 19 9", "2 no 19 18", "3 no 19 27", "4 kept",
     "5 no 19 45", "6 no 19 54", "7 kept", "8 no 19 72", "undecided")

# ---------------------------------------------------------------- table plans

# Atom 0 at 1, atom 1 at 2; index 0 must lead to 1, index 1 to 2.
# 0: every state (1, 2): kept. (Read by index and then by state, index 0 would be
# 1, 2, 1.) 1: state 2 has (2, 1): line 0 is broken at 2. 2: state 2 has (1, 1):
# line 1 at 2.
case("two indices: targets go by state and then by index",
     book(2, istep(0, [], [0]), istep(1, [], [2])),
     [table(3, [1, 2, 1, 2, 1, 2], [(1, 0), (2, 1)]),
      table(3, [1, 2, 1, 2, 2, 1], [(1, 0), (2, 1)]),
      table(3, [1, 2, 1, 2, 1, 1], [(1, 0), (2, 1)])],
     "book 2 2", "0 kept", "1 broken 0 2", "2 broken 1 2", "undecided")

# Index 15 is the last of 16. 0: it leads to 0 from both. 1: at state 1 it leads to 1.
# 2: index 14 leads to 1 at both, which only the all-step rule would mind.
case("sixteen indices: a rule of index 15",
     book(16, istep(15, [], [0]), isome(15, [], 0)),
     [table(2, [1] * 15 + [0] + [1] * 15 + [0], [(0, 0)]),
      table(2, [0] * 31 + [1], [(0, 0)]),
      table(2, [0] * 14 + [1, 0] + [0] * 14 + [1, 0], [(0, 0)])],
     "book 16 2", "0 kept", "1 broken 0 1", "2 kept", "undecided")

# The move of index 15 at state 1 leads to 1 and counts as a move too.
case("sixteen indices: an all-step rule minds the last index of the last state",
     book(16, step([], [0])),
     [table(2, [0] * 32, [(0, 0)]), table(2, [0] * 31 + [1], [(0, 0)])],
     "book 16 1", "0 kept", "1 broken 0 1", "undecided")

# n = 0 has its layout. 9 bytes; 13 with a truth; 17 with a free move too.
case("table plan with n = 0 is 19, without and with truths and free moves",
     book(1, glob(1)),
     [table(0, []), table(0, [], [(0, 0)]), table(0, [], [(0, 0)], [(0, 0)])],
     "book 1 1", "0 no 19 0", "1 no 19 9", "2 no 19 22", "undecided")

# 256 states: 9 + 512 = 521 bytes. All lead to 0, no truths.
case("table plan with 256 states passes, with 257 it is 19",
     book(1, glob(1)),
     "[13, 2, 6, 1, 0] + [0] * 516 + [13, 2, 8, 1, 1] + [0] * 518",
     "book 1 1", "0 kept", "1 no 19 521", "undecided")

# 0: n = 0. 1: ring of 257. 2: return not below n. 3: an atom above 1,023. 4: target
# not below n and the free moves descend. 5: states of truths not below n.
# Sizes 17, 17, 17, 17, 19, 17.
case("pairs out of order are 9 even where n, return, atom, target or state is out of range",
     book(1),
     [table(0, [], [(1, 0), (0, 0)]), ring(257, 0, [(0, 1), (0, 0)]),
      ring(2, 5, [(1, 0), (0, 0)]), ring(2, 0, [(1, 2000), (0, 0)]),
      table(1, [5], [], [(0, 9), (0, 8)]), ring(2, 0, [(9, 0), (8, 0)])],
     "book 1 0", "0 no 9 0", "1 no 9 17", "2 no 9 34", "3 no 9 51", "4 no 9 68",
     "5 no 9 87", "undecided")

# Equal pairs; same state and lower atom; lower state and higher atom; the third of
# three; then a list that ascends by state although the atom falls. Sizes 17, 21, 17,
# 17, 21, 17.
case("truths twice the same, or out of order by state or by atom, are 9; a lower atom at a higher state passes",
     book(1, glob(0)),
     [ring(2, 0, [(1, 0), (1, 0)]), table(2, [0, 0], [(0, 3), (0, 3)]),
      ring(2, 0, [(0, 5), (0, 4)]), ring(2, 0, [(1, 0), (0, 5)]),
      ring(3, 0, [(0, 0), (1, 0), (0, 1)]), ring(2, 0, [(0, 5), (1, 0)])],
     "book 1 1", "0 no 9 0", "1 no 9 17", "2 no 9 38", "3 no 9 55", "4 no 9 72",
     "5 broken 0 0", "undecided")

# n = 3: 9 + 6 + 8 = 23 bytes each.
case("free moves out of order or twice the same are 9; (0,2) then (1,0) passes; one along an index move passes",
     book(1),
     [table(3, [0, 0, 0], [], [(1, 0), (0, 2)]),
      table(3, [0, 0, 0], [], [(0, 2), (0, 1)]),
      table(3, [0, 0, 0], [], [(0, 1), (0, 1)]),
      table(3, [0, 0, 0], [], [(0, 2), (1, 0)]),
      table(3, [0, 0, 0], [], [(0, 0), (2, 0)])],
     "book 1 0", "0 no 9 0", "1 no 9 23", "2 no 9 46", "3 kept", "4 kept",
     "undecided")

# Ring with one truth 13 bytes; table of 2 with one truth 17.
case("a truth at state n is 19, at state n - 1 it passes",
     book(1, start(1)),
     [ring(2, 0, [(2, 0)]), ring(2, 0, [(1, 0)]), table(2, [0, 0], [(2, 0)]),
      table(2, [0, 0], [(1, 0)]), ring(256, 0, [(256, 0)]), ring(256, 0, [(255, 0)])],
     "book 1 1", "0 no 19 0", "1 kept", "2 no 19 26", "3 kept", "4 no 19 60",
     "5 kept", "undecided")

# Line 0 asks for atom 1,023 (literal 2,046). Sizes 13, 13, 15, 17, 9, 13.
case("atom 1,023 passes and is the one that literal 2,046 asserts; atom 1,024 is 19",
     book(1, glob(2046)),
     [ring(1, 0, [(0, 1023)]), ring(1, 0, [(0, 1024)]),
      table(1, [0], [(0, 1024)]), ring(1, 0, [(0, 1023), (0, 1024)]),
      ring(1, 0), ring(1, 0, [(0, 65535)])],
     "book 1 1", "0 kept", "1 no 19 13", "2 no 19 26", "3 no 19 41",
     "4 broken 0 0", "5 no 19 67", "undecided")

# n = 2, 13 bytes each.
case("a target of n is 19, first or last; n - 1 passes",
     book(1),
     [table(2, [2, 0]), table(2, [0, 2]), table(2, [1, 1]), table(2, [0, 65535])],
     "book 1 0", "0 no 19 0", "1 no 19 13", "2 kept", "3 no 19 39", "undecided")

# n = 2 and one free move, 17 bytes each.
case("a free move from n or to n is 19",
     book(1),
     [table(2, [0, 0], [], [(2, 0)]), table(2, [0, 0], [], [(0, 2)]),
      table(2, [0, 0], [], [(1, 1)])],
     "book 1 0", "0 no 19 0", "1 no 19 17", "2 kept", "undecided")

# ------------------------------------------------------------- layout and ends

# Sizes 10, 12, 8, 10, 3, 3, 4, 9.
case("wrong lengths are 3: one byte too few, one too many, no bytes, one byte; the run goes on",
     book(1),
     [field(13, table_value(1, [0])[:-1]), field(13, table_value(1, [0]) + [0]),
      field(14, ring_value(1, 0)[:-1]), field(14, ring_value(1, 0) + [0]),
      field(13, []), field(14, []), field(13, [0]), ring(1, 0)],
     "book 1 0", "0 no 3 0", "1 no 3 10", "2 no 3 22", "3 no 3 30", "4 no 3 40",
     "5 no 3 43", "6 no 3 46", "7 kept", "undecided")

# 0: two truths said, one there. 1: none said, one there. 2: a free move said, none
# there. 3: n = 2 with the bytes of n = 1: 8 bytes are n, two targets and t, and f is
# missing. 4: n = 1 with the bytes of n = 2 (10 bytes): two are left over.
# Sizes 13, 13, 11, 11, 13.
case("counts that don't agree with the length are 3",
     book(1),
     [ring(1, 0, [(0, 0)], t=2), ring(1, 0, [(0, 0)], t=0), table(1, [0], f=1),
      table(2, [0]), table(1, [0, 0])],
     "book 1 0", "0 no 3 0", "1 no 3 13", "2 no 3 26", "3 no 3 37", "4 no 3 48",
     "undecided")

# 2 * 32768, 4 * 16384 are 65,536: nothing is there of what they say. Sizes 9, 9, 11,
# 11, 9.
case("counts whose lists would be 65,536 bytes, in a short value, are 3",
     book(1),
     [table(32768, []), ring(1, 0, t=16384), table(1, [0], t=16384),
      table(1, [0], f=16384), ring(1, 0)],
     "book 1 0", "0 no 3 0", "1 no 3 9", "2 no 3 18", "3 no 3 29", "4 kept",
     "undecided")

# With 16 indices 2nk is 65,536 for n = 2,048.
case("sixteen indices and n = 2,048 in a value of 6 bytes is 3",
     book(16),
     [table(2048, []), table(65535, []), table(0, [])],
     "book 16 0", "0 no 3 0", "1 no 3 9", "2 no 19 18", "undecided")

# Sizes 10, 18, 10, 10.
case("3 comes before 9 and 19",
     book(1),
     [field(14, ring_value(0, 0) + [0]),
      field(14, ring_value(2, 9, [(1, 0), (0, 0)]) + [0]),
      field(13, table_value(0, []) + [0]), field(14, ring_value(257, 0) + [0])],
     "book 1 0", "0 no 3 0", "1 no 3 10", "2 no 3 28", "3 no 3 38", "undecided")

# n = 1, then 6 bytes of 0. One index: a target, t, f: right. Two indices: two
# targets, t, and no f. With two bytes more it is right for two.
case("the layout of a table plan goes by the book's k, with one index",
     book(1), [table(1, [0]), table(1, [0, 0])],
     "book 1 0", "0 kept", "1 no 3 11", "undecided")
case("the layout of a table plan goes by the book's k, with two indices",
     book(2), [table(1, [0]), table(1, [0, 0])],
     "book 2 0", "0 no 3 0", "1 kept", "undecided")

# 10 bytes said and 9 there. Nothing more is looked at.
case("a ring whose value runs past the end is 1, after a plan that is kept",
     book(1),
     [ring(1, 0), [14, 0, 10, 0, 1, 0, 0, 0, 1, 0, 0, 0]],
     "book 1 0", "0 kept", "1 no 1 9", "undecided")
case("a table plan that runs past the end is 1 and not 3, 9 or 19",
     book(1, start()),
     [[13, 255, 255, 0, 0, 0, 2, 0, 1, 0, 0, 0, 0, 0, 0, 0, 0]],
     "book 1 1", "0 no 1 0", "impossible 0")
case("two bytes of a head after a plan are 1",
     book(1),
     [table(1, [0]), [13, 0]],
     "book 1 0", "0 kept", "1 no 1 11", "undecided")

# --------------------------------------------------------------------- limits

# 256 states with 32 atoms each. Line 0: atom 31 everywhere, which the last truth
# (255, 31) completes.
case("8,192 truths pass, and the last one is read",
     book(1, glob(62)),
     "(lambda v: [14, len(v) >> 8, len(v) & 255] + v)([1, 0, 0, 0, 32, 0]"
     " + [b for i in range(8192) for b in (0, i // 32, 0, i % 32)])",
     "book 1 1", "0 kept", "undecided")

# 33 atoms for each state, up to state 248: all in range but their number. Then the
# same with the last two pairs the same: 9. Two such fields have 2 * 32781 = 65,562
# bytes and don't fit one file, so they are two cases.
case("8,193 truths are 19",
     book(1, glob(62)),
     "(lambda v: [14, len(v) >> 8, len(v) & 255] + v)([1, 0, 0, 0, 32, 1]"
     " + [b for i in range(8193) for b in (0, i // 33, 0, i % 33)])",
     "book 1 1", "0 no 19 0", "undecided")
case("8,193 truths of which the last two are the same are 9",
     book(1, glob(62)),
     "(lambda v: [14, len(v) >> 8, len(v) & 255] + v)([1, 0, 0, 0, 32, 1]"
     " + [b for i in range(8193) for b in (0, min(i, 8191) // 33, 0, min(i, 8191) % 33)])",
     "book 1 1", "0 no 9 0", "undecided")

# The same count in a table plan: 256 targets of 0.
case("8,193 truths in a table plan are 19",
     book(1, glob(62)),
     "(lambda v: [13, len(v) >> 8, len(v) & 255] + v)([1, 0] + [0] * 512 + [32, 1]"
     " + [b for i in range(8193) for b in (0, i // 33, 0, i % 33)] + [0, 0])",
     "book 1 1", "0 no 19 0", "undecided")

# 64 states, every pair is a free move; all targets 0. Atom 0 at 63 alone, and it may
# not be followed by atom 0: only the last free move, 63 -> 63, breaks that. Without
# that last one (4,095): kept. First field: 9 + 128 + 4 + 16384 = 16525 bytes.
case("4,096 free moves pass, and only the last one breaks the rule; without it the plan is kept",
     book(1, step([0], [1])),
     "[b for m in (4096, 4095) for b in (lambda v: [13, len(v) >> 8, len(v) & 255] + v)("
     "[0, 64] + [0] * 128 + [0, 1, 0, 63, 0, 0] + [m >> 8, m & 255]"
     " + [b for i in range(m) for b in (0, i // 64, 0, i % 64)])]",
     "book 1 1", "0 broken 0 63", "1 kept", "undecided")

# 65 states, the first 4,097 of 4,225 pairs: all in range but their number. Field 0
# has 9 + 130 + 16388 = 16527 bytes. Field 1 has its last two pairs the same.
case("4,097 free moves are 19, and 9 when two of them are the same",
     book(1),
     "[b for m in (4096, 4095) for b in (lambda v: [13, len(v) >> 8, len(v) & 255] + v)("
     "[0, 65] + [0] * 130 + [0, 0, 16, 1]"
     " + [b for i in range(4097) for b in (0, min(i, m) // 65, 0, min(i, m) % 65)])]",
     "book 1 0", "0 no 19 0", "1 no 9 16527", "undecided")

# 256 states, 16 indices (all to 255), 32 atoms at each state, free moves from each
# state to 0 .. 15: 57,353 bytes. Atom 31 everywhere; every move leads to atom 0;
# index 15 leads to atom 31; atom 1 is met at once; "not atom 5", line 4, fails at 0.
case("every limit at once: 256 states, 16 indices, 8,192 truths, 4,096 free moves",
     book(16, glob(62), step([0], [0]), istep(15, [], [62]), some([], 2), glob(11)),
     "(lambda v: [13, len(v) >> 8, len(v) & 255] + v)([1, 0] + [0, 255] * 4096 + [32, 0]"
     " + [b for i in range(8192) for b in (0, i // 32, 0, i % 32)] + [16, 0]"
     " + [b for i in range(4096) for b in (0, i // 16, 0, i % 16)])",
     "book 16 5", "0 broken 4 0", "undecided")

# --------------------------------------------------- plans among other fields

# Plan 0: atom 0 at 0: start holds, "not a0" fails at 0. Resolving gives line 2, the
# empty start line. Plan 2: start fails. The next line is 3, as if no plan had come.
# Plan 4 is refused, at 13 + 9 + 9 + 9 = 40; the verdict names line 2.
case("plans change neither lines nor verdict; a plan after the impossible line is judged all the same",
     book(1, start(0), glob(1)),
     [ring(1, 0, [(0, 0)]), resolve(0, 1, 0), ring(1, 0), resolve(0, 1, 0),
      ring(1, 1), ring(1, 0, [(0, 0)])],
     "book 1 2", "0 broken 1 0", "1 line 2", "2 broken 0 0", "3 line 3",
     "4 no 19 40", "5 broken 1 0", "impossible 2")

# Line 2: global {2}. Plan 1 has atom 1 everywhere: kept. Plan 2: state 1 has
# nothing; rule 0 fails there.
case("resolve first, then a plan that keeps the rules, then one that breaks rule 0",
     book(1, glob(0, 2), glob(1, 2)),
     [resolve(0, 1, 0), ring(2, 0, [(0, 1), (1, 0), (1, 1)]), ring(2, 0, [(0, 1)])],
     "book 1 2", "0 line 2", "1 kept", "2 broken 0 1", "undecided")

# Line 1: global {0, 2048}. It fails at state 0, where neither the goal nor (in a
# plan) a wait holds; but it is a made line. Line 2: all-step {2048} => {0, 2048}.
# Line 3: line 1 again.
case("made lines are not judged: an enter line that the plan doesn't fulfil, for waits are never true in a plan",
     book(1, some([], 0)),
     [enter(0), stay(0), ring(2, 0, [(1, 0)]), enter(0)],
     "book 1 1", "0 line 1", "1 line 2", "2 kept", "3 line 3", "undecided")

# Lines: 0 a0 => next nothing; 1 sometime a0. Rewrite 0 gives line 2, global {1}.
# Plan 1: atom 0 nowhere: line 0 kept, line 1 broken at 0. Rewrite 1 is 13, enter 7
# is 12, resolve(2, 2, 1) is 14 (0 isn't in line 2). Enter 1 gives line 3: {0, 2048}.
# Resolve 3 and 2 on 0: line 4, {2048}. Plan: atom 0 at 1, 0 -> 1: line 0 at 1.
# Sizes 5, 9, 5, 5, 9, 5, 9, 13.
case("plans among the steps, taken and refused",
     book(1, step([0], []), some([], 0)),
     [rewrite(0), ring(1, 0), rewrite(1), enter(7), resolve(2, 2, 1), enter(1),
      resolve(3, 2, 0), ring(2, 0, [(1, 0)])],
     "book 1 2", "0 line 2", "1 broken 1 0", "2 no 13 14", "3 no 12 19",
     "4 no 14 24", "5 line 3", "6 line 4", "7 broken 0 1", "undecided")

# 511 enters fill the table of 512; one more is 18 (offset 511 * 5); plans still go.
case("a plan is judged when the line table is full",
     book(1, some([], 0)),
     "[5, 0, 2, 0, 0] * 512 + [14, 0, 10, 0, 2, 0, 0, 0, 1, 0, 1, 0, 0] + [14, 0, 6, 0, 1, 0, 0, 0, 0]",
     "book 1 1", *["%d line %d" % (i, i + 1) for i in range(511)],
     "511 no 18 2555", "512 kept", "513 broken 0 0", "undecided")

# Atom 0 may not be followed by atom 0. 0: the free move 0 -> 0 breaks it. 1: without
# it kept. 2: 0 -> 0 and atom 0: broken. 3: refused (return 2). 4: no truths: kept.
# 5: 256 states with atom 0 at 200: kept. 6: one state, no truths: kept. 7: atom 0 at
# both: broken at 0. 8: refused, 9. 9: kept again.
# Sizes 21, 17, 13, 17, 9, 13, 9, 17, 17, 13.
case("each plan stands by itself: nothing of an earlier plan, kept, broken or refused, is left",
     book(1, step([0], [1])),
     [table(2, [1, 0], [(0, 0)], [(0, 0)]), table(2, [1, 0], [(0, 0)]),
      ring(1, 0, [(0, 0)]), ring(2, 2, [(0, 0), (1, 0)]), ring(2, 0),
      ring(256, 0, [(200, 0)]), ring(1, 0), ring(2, 0, [(0, 0), (1, 0)]),
      ring(2, 0, [(1, 0), (0, 0)]), table(2, [1, 0])],
     "book 1 1", "0 broken 0 0", "1 kept", "2 broken 0 0", "3 no 19 51", "4 kept",
     "5 kept", "6 kept", "7 broken 0 0", "8 no 9 116", "9 kept", "undecided")

case("a book with no rules: every plan within its limits is kept",
     book(3),
     [table(2, [0, 1, 1, 1, 0, 0], [(0, 7)], [(0, 0)]), ring(5, 4), ring(1, 0, [(0, 0)])],
     "book 3 0", "0 kept", "1 kept", "2 kept", "undecided")

case("a work of no bytes: no findings, the verdict alone",
     book(1, glob(0)), [],
     "book 1 1", "undecided")

# A rule of index 1 with one index is 7, at offset 4: the work isn't looked at.
case("a refused book: no plan is judged",
     book(1, isome(1, [], 0)),
     [ring(1, 0)],
     "book no 7 4")

# The example of FORMAT.md without its field 3 (tag 9), byte by byte as printed there.
case("the plans of the worked example, as printed",
     list(bytes.fromhex("010001010200060500000100 00".replace(" ", ""))),
     [list(bytes.fromhex(x.replace(" ", ""))) for x in (
         "0E 00 0A 00 02 00 00 00 01 00 01 00 00",
         "0E 00 0A 00 02 00 01 00 01 00 00 00 00",
         "0E 00 06 01 01 00 00 00 00", "02 00 00", "03 00 06")],
     "book 1 1", "0 kept", "1 broken 0 1", "2 no 19 26", "3 no 2 35", "4 no 1 38",
     "undecided")


def part(data):
    return len(data).to_bytes(3, "big") + data


def main():
    names = [c["name"] for c in CASES]
    assert len(set(names)) == len(names)
    crate = pathlib.Path(__file__).resolve().parent.parent / "crates" / "vectors"
    packed, printed = b"", ""
    for c in CASES:
        work = c["work"] if "work" in c else eval(c["work_make"])
        packed += part(c["name"].encode()) + part(bytes(c["book"])) + part(bytes(work))
        printed += "".join(line + "\n" for line in [c["name"] + ":"] + c["report"])
    (crate / "data" / "cases.bin").write_bytes(packed)
    (crate / "stdout").write_text(printed)
    print(len(CASES), "cases written")


if __name__ == "__main__":
    main()
