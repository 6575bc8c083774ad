# Counts to four: three transitions on a are answered by b, and the fourth, the carry, by c.
main := pref*[a?;b!;a?;b!;a?;b!;a?;c!].
