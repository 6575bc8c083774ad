# A buffer of one place: an item is put in and taken note of, then it is asked for and given.
main := pref*[put?;held!;get?;given!].
