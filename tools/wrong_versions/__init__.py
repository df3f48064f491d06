"""How much do the contracts rule out? Wrong versions of the crates, each judged by the prover.

THE FAST WAY. rt proves the crate and what it depends on (prover.py), and keeps what it proved. A copy of the crate is checked by `rattle check` with rt's own
words, over a copy (hard links) of that, the incremental folder, which has each checked module of the prover. A module is taken from there only where its text
and all that it rests on are what was checked: so the changed function is lowered and proved anew against its own contract; the functions that it calls, and
those that have nothing to do with it, are taken as they were. Its callers are only put together again: they see nothing of it but its contract. Where several
crates are asked for, one is proved after the other, and what is proved is tried meanwhile.

WRONG VERSIONS TOGETHER. Reading the crate takes most of a run, so many are judged in one: each stands behind the right function as one of its own, under
another name, with the same contract and a copy of the proof (copies.py), and is judged by the errors there. Nothing calls it, so the proof of none waits for
another's. What specs/X.antt states is proved in proofs/X.antt, so a wrong statement stands so too, as a file of its own beside a copy of that proof. First a copy
of each function and statement is tried as it is; where it isn't proved, its wrong versions are tried alone. A statement's isn't where another proof is of the
right one's own record, say. What came of the copies is kept in tests/wrong-versions/copies.txt, with a sum of what they were made of (record.py): while a crate
is as it was, they aren't tried again. Whatever has no error of its own in a run with others is tried again alone, in the right one's place, before it counts as
proved. A change of a definition that has no proof of that name, in two files or outside of a body, and a method of a trait, are always tried alone.

NAMES. A proof cites goals and steps by names that the prover makes of the code, as `if-x-gt10` of `if x > 10`. Where a wrong version has another condition,
and so another name, its proof files are read with the new name in the old one's place (names.py), and it is judged by what the prover then says.

MADE-UP ERRORS. The bodies of a crate's functions are also changed at random: an operator, a number, a name, two arguments, a condition, a statement left out
(made_up.py). Which ones a sample has is said by the seed and each one's own text: a change of one function leaves the sample's others as they are. One that
the compiler refuses doesn't count, and another of its crate is taken in its place. Whoever is proved must stand in tests/wrong-versions/equivalent.txt, with the
reason why it computes the same; an entry there for which no error is made up any more fails, and so does one that is refused.

VERDICTS, for each wrong version:
    numbers   refused by a fact: the prover prints numbers at which what is asked is false
    goal      refused by a fact: what is asked at a place isn't what the proof shows there, or the prover's search finds no proof of a goal that the proof's
              files have no answer for. A version that computes the same in another form can be refused so, too
    misfit    refused, but the proof's text no longer fits the code's shape (a step, a field or a goal that is gone or of another kind), and no numbers
              are printed: that says little about the contract
    survived  proved: either it computes the same, or the contract has a hole
    same      proved, and listed as one that computes the same
    invalid   the compiler refuses it (parser, types, borrows), or its text isn't where it is said to be
    unknown   no verdict: out of time or steps, or listed as one that computes the same and refused
"""
