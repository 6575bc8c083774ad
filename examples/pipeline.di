# A pipeline of three stages, from one definition. A stage that is empty takes an item, and gives it on when it is full;
# an item passes from a stage to the next by a transition that both of them send.
let stage := pref*[empty?;take!;full?;give!].
main := stage[e1/empty,p0/take,f1/full,p1/give]
    || stage[e2/empty,p1/take,f2/full,p2/give]
    || stage[e3/empty,p2/take,f3/full,p3/give].
