# b waits for a, and d for a and c: one process may not say so, two may.
main := pref*[a?;b!;a?;d!] || pref*[c?;d!].
