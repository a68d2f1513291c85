% The complete labellings of a register, for gringo and clasp: each statement is in, out or neither.
% Facts: statement(X), unread(X), objects(Y, X). An unread statement has one more objector, which
% nothing else has to do with: it objects to itself only, and so is in no labelling in or out.

#defined unread/1.
#defined objects/2.
#defined statement/1.
argument(X) :- statement(X).
argument(more(X)) :- unread(X).
attacks(Y, X) :- objects(Y, X).
attacks(more(X), X) :- unread(X).
attacks(more(X), more(X)) :- unread(X).

% Any guess of what is in and what is out, not both,
{ in(X) } :- argument(X).
{ out(X) } :- argument(X).
:- in(X), out(X).

% is a complete labelling if: in exactly where every objector is out; out exactly where one is in.
some_not_out(X) :- attacks(Y, X), not out(Y).
some_in(X) :- attacks(Y, X), in(Y).
:- in(X), some_not_out(X).
:- argument(X), not in(X), not some_not_out(X).
:- out(X), not some_in(X).
:- argument(X), not out(X), some_in(X).

% What is in, or out, in all of them is what stands, or falls.
stands(X) :- in(X), statement(X).
falls(X) :- out(X), statement(X).
#show stands/1.
#show falls/1.
