main := pref*[a?;b!].
