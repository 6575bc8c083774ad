main := pref*[a?;p!|b?;q!].
