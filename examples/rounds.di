main := pref*[a?;b!;a?;c!].
