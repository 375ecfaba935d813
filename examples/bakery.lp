% What a bakery can bake this morning, from what is in the store.
in_store(flour). in_store(water). in_store(salt). in_store(yeast). in_store(butter).

% Each good needs all of its ingredients.
baked(bread)     :- in_store(flour), in_store(water), in_store(salt), in_store(yeast).
baked(croissant) :- in_store(flour), in_store(butter), in_store(milk), in_store(yeast).
baked(cracker)   :- in_store(flour), in_store(water), in_store(salt).

% A basket holds goods of two kinds.
basket(pair(bread, cracker))   :- baked(bread), baked(cracker).
basket(pair(bread, croissant)) :- baked(bread), baked(croissant).
