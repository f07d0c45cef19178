% Resolutions of a book with Q lines by clingo, given by sift what they take and what ranks in them. Used with a program
% made by to_clingo.
%
% Facts:  allowed(J).  member(J, K).  ranked(J, A, B).

#defined allowed/1. #defined member/2. #defined ranked/3.

1 { chosen(J) : allowed(J) } 1.
:- chosen(J), member(J, K), not taken(K).
:- chosen(J), taken(K), not member(J, K).
:- chosen(J), ranked(J, A, B), not step(A, B).
:- chosen(J), step(A, B), not ranked(J, A, B).
