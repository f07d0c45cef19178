% Views with given sets of exceptions and given steps, up to a given pair or beyond it. Used with views.lp; ENCODING.md
% explains it.
%
% Facts:  allowed(J).  member(J, K).  ranked(J, A, B).  place(J, P).  for the sets with their steps; P is the place of the
%         set in the order of pairs;
%         and, for a bound:  last(P).  value(I, V).  V is absent, plus or minus;  then  upto.  or  beyond.

#defined member/2. #defined ranked/3. #defined last/1. #defined value/2. #defined upto/0. #defined beyond/0.

% The exceptions taken are those of one allowed set, and the steps that rank are the ones given with it.
1 { chosen(J) : allowed(J) } 1.
:- chosen(J), member(J, K), not taken(K).
:- chosen(J), taken(K), not member(J, K).
:- chosen(J), ranked(J, A, B), not step(A, B).
:- chosen(J), step(A, B), not ranked(J, A, B).

% With the bound's own set, statements 1 to I are as in the bound ..
same(0) :- chosen(J), place(J, P), last(P).
same(I) :- same(I-1), value(I, absent), not held(I), not -held(I).
same(I) :- same(I-1), value(I, plus), held(I).
same(I) :- same(I-1), value(I, minus), -held(I).

% .. and the first that differs comes later: absent before held before denied.
later :- same(I-1), value(I, absent), held(I).
later :- same(I-1), value(I, absent), -held(I).
later :- same(I-1), value(I, plus), -held(I).
later :- chosen(J), place(J, P), last(L), P > L.

:- upto, later.
:- beyond, not later.
