# Speaks first, and then answers by c and b in turn.
main := pref*[b!;a?;c!;a?].
