% Who is whose ancestor, over the people that are named: recursion without variables.
parent(anna,bert). parent(bert,cleo). parent(cleo,dora).

ancestor(anna,bert) :- parent(anna,bert).
ancestor(bert,cleo) :- parent(bert,cleo).
ancestor(cleo,dora) :- parent(cleo,dora).
ancestor(anna,cleo) :- ancestor(anna,bert), ancestor(bert,cleo).
ancestor(bert,dora) :- ancestor(bert,cleo), ancestor(cleo,dora).
ancestor(anna,dora) :- ancestor(anna,cleo), ancestor(cleo,dora).

% Nothing stands behind this one but itself, so it does not hold.
ancestor(dora,anna) :- ancestor(dora,anna).
