# Two processes that take the same input, and go on by themselves.
main := pref*[a?;b!] || pref*[a?;c!].
