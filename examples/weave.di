# What the two processes share, they do together.
main := pref*[a?;c!] || pref*[b?;c!].
