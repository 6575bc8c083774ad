main := pref*[a?;b!;c?;d!].
