main := pref*[a?;b?;c!].
