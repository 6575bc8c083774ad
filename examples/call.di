# A call element: two clients, of which one at a time calls the same server.
main := pref*[r0?;r!;a?;a0!|r1?;r!;a?;a1!].
