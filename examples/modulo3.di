# A counter to three, which answers the third by a carry.
main := pref*[a?;b!;a?;b!;a?;c!].
