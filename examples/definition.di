# One cell under three names: a wire each time.
let cell := pref*[a?;b!].
let pair := cell[c/a] || cell[d/a].
main := cell[x/a,y/b].
