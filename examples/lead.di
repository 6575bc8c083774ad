main := pref[b!;*[a?;b!]].
