% The views of a book, one answer set for each. ENCODING.md explains this file.
%
% The book is given by facts. A rule's name J is r(1), r(2), .. for R lines, o(1), o(2), .. for O lines, x(1), x(2), ..
% for X lines and q(1), q(2), .. for Q lines; a sign is plus or minus, and I is a statement:
%   rule(J).  head(J, Sign, I).  constraint(J).  needed(J, Sign, I).  barred(J, Sign, I).
%   exception(K).  before(A, B).  before(q(J), A, B).

#defined rule/1. #defined head/3. #defined constraint/1. #defined needed/3. #defined barred/3.
#defined exception/1. #defined before/2. #defined before/3.

% A body is satisfied if every needed entry is concluded and no barred entry is.
satisfied(J) :- rule(J);
    held(I) : needed(J, plus, I);  -held(I) : needed(J, minus, I);
    not held(I) : barred(J, plus, I);  not -held(I) : barred(J, minus, I).

% Exceptions are taken or not.
{ taken(K) } :- exception(K).

% Plain rules, and the exceptions that are taken, conclude their heads.
concludes(r(J)) :- satisfied(r(J)).
concludes(x(K)) :- satisfied(x(K)), taken(K).
held(I)  :- concludes(J), head(J, plus, I).
-held(I) :- concludes(J), head(J, minus, I).

% A rule with alternatives concludes one of its heads at least: clingo's own disjunction.
held(I) : head(o(J), plus, I);  -held(I) : head(o(J), minus, I) :- satisfied(o(J)).

% No constraint's body is satisfied.
:- satisfied(J), constraint(J).

% Every body of a taken exception is satisfied.
:- taken(K), not satisfied(x(K)).

% P lines give steps, and so do Q lines whose body is satisfied.
step(A, B) :- before(A, B).
step(A, B) :- before(J, A, B), satisfied(J).

% No taken exception, itself included, is outranked by a taken one.
outranks(A, B) :- step(A, B).
outranks(A, C) :- step(A, B), outranks(B, C).
:- taken(A), taken(B), outranks(A, B).
