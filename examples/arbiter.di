# Two clients share one resource: each asks, is granted, and gives it back.
main := pref*[a?;p!;c?;e!]
     || pref*[b?;q!;d?;f!]
     || pref*[p!;c?|q!;d?].
